#!/usr/bin/env bash
# Builds the fuzzer: fuzz/build.sh PROGRAM [EDIT]. Coverage is counted in the second program and in the engine's source as Rust;
# the proved library carries no counters. With EDIT, CRATE/NAME, that source has the must-fail edit, and the library hasn't. With
# NEVER=1 in the environment it is the program of fuzz/never.py: compiled as the source stands, line by line, without libFuzzer.
# With JUDGE=texts in the environment texts are judged, and models without.
set -eu
cd "$(dirname "$0")/.."
program=$1
parts=$(dirname "$program")/parts
mkdir -p "$parts"

rust=(rustc --edition 2021 -C panic=abort -C codegen-units=1 -L "$parts")
counted=(-C passes=sancov-module -C llvm-args=-sanitizer-coverage-level=3 -C llvm-args=-sanitizer-coverage-pc-table)
if [ -z "${NEVER:-}" ]; then
  rust+=(-C opt-level=3 -C overflow-checks=on)
  counted+=(-C llvm-args=-sanitizer-coverage-inline-8bit-counters)
  traced=(-C llvm-args=-sanitizer-coverage-trace-compares)
  around=(-fsanitize=fuzzer)
else
  rust+=(-C opt-level=0 -C overflow-checks=off -C debug-assertions=off -C debuginfo=1 -C relocation-model=static)
  counted+=(-C llvm-args=-sanitizer-coverage-trace-pc-guard)
  traced=()
  around=(-no-pie fuzz/never.c)
fi

library=()
if [ "$(uname -m)" = x86_64 ]; then
  make --silent -C desk ../target/staticlib/libdesk_c.a
  library=(target/staticlib/libdesk_c.a)
else
  echo "no x86-64: the library can't be linked, and its source as Rust is judged alone"
fi
python3 -B fuzz/engine.py "$parts/engine.rs" ${2:+"$2"}
# What numbers are compared with is traced in the second program alone: the engine compares them with the same, and is slow so.
"${rust[@]}" "${counted[@]}" "${traced[@]}" --crate-type rlib --crate-name reference \
  -o "$parts/libreference.rlib" reference/src/lib.rs
"${rust[@]}" "${counted[@]}" "${traced[@]}" --crate-type rlib --crate-name handed --extern reference \
  -o "$parts/libhanded.rlib" fuzz/handed.rs
"${rust[@]}" "${counted[@]}" --crate-type rlib --crate-name engine -o "$parts/libengine.rlib" "$parts/engine.rs"
"${rust[@]}" --crate-type staticlib --crate-name judge --extern reference --extern handed --extern engine \
  -o "$parts/libjudge.a" "fuzz/${JUDGE:-judge}.rs"
clang "${around[@]}" -Wl,-u,LLVMFuzzerTestOneInput -o "$program" "$parts/libjudge.a" "${library[@]}" -ldl -lm
