#!/usr/bin/env bash
# Fuzzes check, bound, run and the open run for so many seconds: fuzz/run.sh SECONDS [EDIT]. The corpus and what is found stay
# in target/fuzz. With JUDGE=texts in the environment it fuzzes the reader of texts instead.
# With EDIT, a must-fail edit of the source, CRATE/NAME, the engine's source has that edit, and a difference must come out.
# Needs clang and its libFuzzer (Debian 12: clang and libclang-rt-14-dev, both 14.0.6), rustc and Python 3. Where the machine is
# not x86-64, the proved library is left out.
set -eu
cd "$(dirname "$0")/.."
seconds=${1:?usage: fuzz/run.sh SECONDS [EDIT]}
edit=${2:-}

library=$(clang -print-file-name="libclang_rt.fuzzer-$(uname -m).a" 2>/dev/null || true)
if [ ! -e "$library" ]; then
  echo "fuzz: this needs clang and its libFuzzer: apt-get install clang libclang-rt-14-dev" >&2
  exit 2
fi
export JUDGE=${JUDGE:-judge}
place=target/fuzz/$JUDGE/$(basename "${edit:-unedited}")
seeds=target/fuzz/$JUDGE/seeds
mkdir -p "$place/corpus" "$place/found"
bash fuzz/build.sh "$place/fuzz" ${edit:+"$edit"}
python3 -B fuzz/seeds.py "$JUDGE" "$seeds"
exec "$place/fuzz" -max_total_time="$seconds" -max_len=70000 -timeout=60 -print_final_stats=1 -artifact_prefix="$place/found/" \
  -dict="$seeds.words" "$place/corpus" "$seeds"
