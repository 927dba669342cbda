#!/bin/sh
# index.sh: how long the index of N numbers takes (bench/index.c), with the library that a firmware links.
set -eu
cd "$(dirname "$0")/.."
mkdir -p target/bench
sh tests/link.sh lookup bench/index.c target/bench/index
exec target/bench/index
