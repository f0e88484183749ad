#!/usr/bin/env bash
# The engine, by the C functions of desk/desk.h, against the second program on 200,000 models and 200,000 texts of a fixed seed;
# driver/README.md says how. On x86-64 it is the proved library as `bin/prove desk_c` has it from `rt lib`: what the desk links. On
# any other machine that can't be linked; then the same source, compiled as Rust by tests/native.py, stands in. That tests the rules
# of the engine and the whole of the second program, but not the compiled library, and the test says so.
set -u
cd "$(dirname "$0")/.." || exit 1

if [ "$(uname -m)" = x86_64 ]; then
  mkdir -p target
  bin/prove desk_c > target/staticlib.log 2>&1 || { cat target/staticlib.log; exit 1; }
  library=target/staticlib
  echo "the proved library, as compiled for x86-64"
else
  python3 -B tests/native.py desk || exit 1
  library=target/native/desk/target/release
  echo "no x86-64: the engine's source compiled as Rust stands in for the proved library"
fi

DESK_LIB=$PWD/$library cargo build --release --offline --quiet --manifest-path driver/Cargo.toml --target-dir target/driver ||
  exit 1
target/driver/release/driver 200000 1 && target/driver/release/driver texts 200000 1
