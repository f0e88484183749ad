#!/usr/bin/env bash
# docs/MODEL.md: its tables are those of the definitions, and its examples print what it says: by the second program, by the
# proved program `plan`, and, of its C program, by the desk's library. On x86-64 that is the proved library; on any other machine
# the same source compiled as Rust stands in, as in tests/driver.sh.
set -u
cd "$(dirname "$0")/.." || exit 1
python3 -B tests/model.py || exit 1
(cd reference && cargo build --release --offline --quiet) || exit 1
python3 -B tests/model.py reference/target/release/plan || exit 1
mkdir -p target
bin/prove plan > target/prove.log 2>&1 || { cat target/prove.log; exit 1; }
python3 -B tests/model.py bin/run target/bin/plan || exit 1

if [ "$(uname -m)" = x86_64 ]; then
  bin/prove desk_c > target/staticlib.log 2>&1 || { cat target/staticlib.log; exit 1; }
  python3 -B tests/model.py --desk target/staticlib
else
  python3 -B tests/native.py desk || exit 1
  python3 -B tests/model.py --desk target/native/desk/target/release
fi
