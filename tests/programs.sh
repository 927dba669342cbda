#!/bin/sh
# programs.sh [COUNT [SEED]]: whole generated programs through rs274 and through the second program; every
# difference fails, and so does a run that compares fewer programs, or too few frames for that to say something.
set -eu
cd "$(dirname "$0")/.."
count=${1:-500} seed=${2:-7}
work=target/programs
rm -rf "$work"
mkdir -p "$work"
sh tools/build.sh rs274
sh tests/second.sh programs "$seed" "$count" "$work"
compared=0 different=0
for program in "$work"/*.ngc; do
    target/bin/rs274 <"$program" >"$program.proved"
    target/second/second frames <"$program" >"$program.second"
    compared=$((compared + 1))
    cmp -s "$program.proved" "$program.second" || { echo "programs: $program differs"; different=$((different + 1)); }
done
frames=$(cat "$work"/*.second | wc -l) refused=$(cat "$work"/*.second | grep -c '^FF') || refused=0
echo "programs: $compared of $count compared (seed $seed), $((frames)) frames, $refused end in a refusal, $different differ"
[ "$different" -eq 0 ] && [ "$compared" -eq "$count" ] && [ "$frames" -ge $((20 * count)) ] && [ "$refused" -ge $((count / 4)) ]
