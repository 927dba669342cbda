#!/bin/sh
# embed-codes.sh: every G number in tenths and every M number from -1 to 101, and values near them, in many
# surroundings, by the library that a control links and by the second program.
set -eu
cd "$(dirname "$0")/.."
mkdir -p target/embed
sh tests/second.sh codes >target/embed/codes.cases
sh tests/compare.sh codes 100000
