#!/bin/sh
# Builds the benchmark over the crates of this repository (or of the crates folder given) and runs it.
set -e
here=$(cd "$(dirname "$0")" && pwd)
crates=$(cd "${1:-$here/../../crates}" && pwd)
build=${BUILD:-${TMPDIR:-/tmp}/register_bench}
mkdir -p "$build/crates"
for c in geometry registers; do
    rm -rf "$build/crates/$c"
    mkdir "$build/crates/$c"
    for part in src specs proofs; do cp -r "$crates/$c/$part" "$build/crates/$c/"; done
done
mkdir -p "$build/crates/register_bench/src"
cp "$here/register_bench.rt.txt" "$build/crates/register_bench/src/lib.rt"
printf 'geometry:\nregisters: geometry\nregister_bench staticlib: geometry registers\n' >"$build/crates.txt"
cd "$build/crates/register_bench"
rt lib >"$build/lib.log" 2>&1 || { tail -30 "$build/lib.log"; exit 1; }
cd "$build"
g++ -O2 -std=c++17 "$here/bench.cpp" crates/register_bench/out/libregister_bench.a -o bench
./bench
