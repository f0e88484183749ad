#!/usr/bin/env bash
# crates.txt and docs/ARCHITECTURE.md say of the sources what is so: what each crate uses and is, and which literals stay.
exec python3 -B "$(dirname "$0")/house.py"
