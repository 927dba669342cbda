#!/bin/sh
# embed-examples.sh: the examples of document 01, and those of NGC's that it serves, by the library that a control
# links: each answer is that of the second program, whole, and what the example says of it holds of both.
set -eu
cd "$(dirname "$0")/.."
work=target/embed
mkdir -p $work
sh tests/second.sh examples --cases >$work/examples.cases
sh tests/compare.sh examples 900
for part in want got; do
    sh tests/second.sh examples --answers <$work/examples.$part >$work/examples.held || { cat $work/examples.held; exit 1; }
done
tail -n 1 $work/examples.held
