#!/bin/sh
# reader.sh: builds the careful Rust reader where its source is newer, and reads standard input with it.
# -C target-cpu stays the compiler's default: what is measured is code that any x86-64 machine runs, as rs274 is.
set -eu
cd "$(dirname "$0")/.."
program=target/bench/reader
mkdir -p target/bench
if [ ! -x $program ] || [ bench/reader.rs -nt $program ]; then
    rustc -O --edition 2021 bench/reader.rs -o $program
fi
exec $program
