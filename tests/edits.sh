#!/usr/bin/env bash
# Every public function has two must-fail edits or more, each refused for itself, and docs/EDITS.md lists them all.
exec python3 -B "$(dirname "$0")/edits.py"
