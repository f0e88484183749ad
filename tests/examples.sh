#!/usr/bin/env bash
# The committed examples are those of the table tests/examples.py, and the second program prints their plans.
set -u
cd "$(dirname "$0")/.." || exit 1
python3 -B tests/examples.py --check || exit 1
(cd reference && cargo build --release --offline --quiet) || exit 1
python3 -B tests/examples.py reference/target/release/plan
