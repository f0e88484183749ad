#!/usr/bin/env bash
# The second program's own tests: documents 01 and 02 in plain Rust, written from their words (reference/README.md).
set -u
cd "$(dirname "$0")/../reference" || exit 1
cargo test --release --offline --quiet
