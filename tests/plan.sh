#!/usr/bin/env bash
# The proved program `plan` prints the twelve plans and the examples, byte for byte. And bin/plan builds it the first time as it
# should: with an rt that is played (tests/first.py), and with the real one, all proved already.
set -u
cd "$(dirname "$0")/.." || exit 1
mkdir -p target
bin/prove plan > target/prove.log 2>&1 || { cat target/prove.log; exit 1; }
python3 -B tests/plans.py bin/run target/bin/plan || exit 1
python3 -B tests/examples.py bin/run target/bin/plan || exit 1
python3 -B tests/first.py || exit 1

rm -f target/plan.built
said=$(bin/plan 2>&1 >target/plan.out | tail -n 1)
# rt has a line for each library of ours that it read for the program, and one for the program.
crates=$(sed -n 's/^\(library\|crate\) \([a-z0-9_]*\): modules .*/\2/p' target/plan.log | sort -u | wc -l)
if ! cmp target/plan.out examples/grade.plan || [[ $said != "plan: built: $crates of $crates crates done, "* ]]; then
  echo "bin/plan says '$said', and rt has read $crates crates"
  exit 1
fi
