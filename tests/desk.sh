#!/usr/bin/env bash
# The C program desk, tried on good and bad files, and under valgrind. On x86-64 it is linked with the proved library, elsewhere
# with the engine's source compiled as Rust; desk/Makefile says which. Where there is a C compiler for x86-64 elsewhere, desk is
# tried once more, linked with the proved library and run by the emulator.
set -u
cd "$(dirname "$0")/.." || exit 1

if ! command -v valgrind >/dev/null; then
  echo "desk: valgrind is missing, and desk is tried under it: apt-get install valgrind"
  exit 1
fi
make --silent -C desk || exit 1
desk=target/desk/desk
python3 -B tests/desk.py "$desk" || exit 1

# Built, it is as new as all that it is made of; if a file of any kind were newer, the library would be made again.
make --silent --question -C desk ../target/desk/desk || { echo "desk: it is built again though nothing moved"; exit 1; }
for moved in crates.txt crates/{desk_c/src/lib.rt,semantics/specs/Step.antt,act_step/proofs{,/Acts.antt,/step/Answers.antt}}; do
  if make --silent --question -C desk --what-if="../$moved" ../target/desk/desk; then
    echo "desk: it isn't built again when $moved moved"
    exit 1
  fi
done

# What valgrind takes wrongly for an error is in the proved library alone.
valgrind=(valgrind --quiet --leak-check=full --errors-for-leak-kinds=all --error-exitcode=9)
[ "$(uname -m)" != x86_64 ] || valgrind+=(--suppressions=tests/desk.supp)

# The status that is expected, and the words for desk. Memory that is lost or touched out of place gives status 9.
under_valgrind() {
  local expected=$1 status
  shift
  "${valgrind[@]}" "$desk" "$@" >/dev/null
  status=$?
  [ "$status" -eq "$expected" ] && return
  echo "desk: $* has status $status under valgrind and not $expected"
  exit 1
}

folder=$(mktemp -d)
trap 'rm -rf "$folder"' EXIT
head -c 71 examples/two-jobs.model >"$folder/bad"
# A line at every second step: the journal is filled to its end, and made larger.
PYTHONPATH=tests python3 -B -c "import sys; from records import *
sys.stdout.buffer.write(CLASS(0) + ENTITY(0) + BLOCK() + WHILE(1) + BLOCK())" >"$folder/endless" || exit 1
for command in check bound run waits; do
  under_valgrind 0 "$command" examples/two-jobs.model
  under_valgrind 1 "$command" "$folder/bad"
done
under_valgrind 0 moves examples/two-jobs.model 3
under_valgrind 1 moves "$folder/bad" 3
under_valgrind 0 records examples/crowded-day.text
under_valgrind 1 records examples/crowded-day.model
under_valgrind 0 run "$folder/endless" 140000
# Six jobs wait then, each for one of two reasons.
under_valgrind 0 waits examples/crowded-day.model 60
under_valgrind 0 moves examples/crowded-day.model 50
echo "desk: fifteen runs under valgrind, as they should"

[ "$(uname -m)" != x86_64 ] || exit 0
if ! command -v x86_64-linux-gnu-gcc >/dev/null; then
  echo "desk: the proved library was not linked, as there is no C compiler for x86-64: apt-get install gcc-x86-64-linux-gnu"
  exit 0
fi
make --silent -C desk CC=x86_64-linux-gnu-gcc && python3 -B tests/desk.py bin/run target/desk/x86_64-linux-gnu/desk
