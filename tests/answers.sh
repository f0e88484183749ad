#!/usr/bin/env bash
# Every public function has its line in docs/ANSWERS.md: the law by which its contract admits one answer.
exec python3 -B "$(dirname "$0")/answers.py"
