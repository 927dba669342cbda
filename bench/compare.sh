#!/bin/sh
# compare.sh [COUNT [SEED]]: the careful Rust reader against the second program, on generated programs, 1,500 unless
# told otherwise, and on the mixes. A difference is an error of the benchmark: a reader that is wrong is no yardstick.
set -eu
cd "$(dirname "$0")/.."
count=${1:-1500} seed=${2:-9}
work=target/bench/compare
rm -rf "$work"
mkdir -p "$work"
sh bench/reader.sh </dev/null
sh tests/second.sh programs "$seed" "$count" "$work"
for mix in program cam axis expressions comments; do
    python3 -B bench/mixes.py $mix 10000 >"$work/$mix.ngc"
done
compared=0 different=0
for program in "$work"/*.ngc; do
    target/bench/reader <"$program" >"$work/reader"
    target/second/second frames <"$program" >"$work/second"
    cmp -s "$work/reader" "$work/second" || { echo "compare: $program differs"; different=$((different + 1)); }
    compared=$((compared + 1))
done
echo "compare: $compared programs, $different differ"
[ "$different" -eq 0 ] && [ "$compared" -eq $((count + 5)) ]
