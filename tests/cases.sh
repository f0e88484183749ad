#!/usr/bin/env bash
# The committed cases of the program `try_cases`, and what it must print, are those of the table tests/cases.py.
exec python3 -B "$(dirname "$0")/cases.py" --check
