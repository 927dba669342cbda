#!/bin/sh
# second.sh [WORD..]: builds the second program where its source is newer, and runs it with these words; with
# none, its examples.
set -eu
cd "$(dirname "$0")/.."
program=target/second/second
mkdir -p target/second
if [ ! -x $program ] || [ -n "$(find tests/second -name '*.rs' -newer $program)" ]; then
    rustc -O --edition 2021 tests/second/main.rs -o $program
fi
[ $# -gt 0 ] || set -- examples
exec $program "$@"
