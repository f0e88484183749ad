#!/usr/bin/env bash
# The examples as text and the texts of docs/TEXT.md give what they must (tests/texts.py), by the second program's reader and by
# the desk.
set -u
cd "$(dirname "$0")/.." || exit 1
(cd reference && cargo build --release --offline --quiet) || exit 1
python3 -B tests/texts.py reference/target/release/records || exit 1
make --silent -C desk || exit 1
python3 -B tests/texts.py target/desk/desk records -
