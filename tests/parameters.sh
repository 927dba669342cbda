#!/bin/sh
# parameters.sh [COUNT [SEED]]: generated parameter files, 3,000 cases unless told otherwise, by the library that a
# control links and by the second reading of tests/parameters: every answer must be the same.
set -eu
cd "$(dirname "$0")/.."
count=${1:-3000} seed=${2:-274}
work=target/parameters
mkdir -p $work
sh tests/link.sh embed tests/parameters/parameters.c $work/parameters
# The example session: it begins with a file, and leaves it in shortest form with what the program has set.
sh tests/link.sh embed examples/session.c $work/session
printf '0001\t2.50\n5220 2\n5241 -.5\n' >$work/session.var
printf '#2=#1\nG0X1\n' | $work/session $work/session.var >$work/session.got
printf 'rapid to X50000 Y0 Z0\n' | cmp - $work/session.got
printf '1 2.5\n2 2.5\n5220 2\n5241 -0.5\n' | cmp - $work/session.var
# For people: a file anew in shortest form, or the line that is refused.
./rs274 parameters crates/rs274_parameters/stdin 2>/dev/null | cmp - crates/rs274_parameters/stdout
printf '1 2\n\n' >$work/refused.var
status=0
./rs274 parameters $work/refused.var >$work/refused.got 2>$work/refused.said || status=$?
[ $status -eq 1 ] && [ ! -s $work/refused.got ] || { echo 'parameters: a refused file was written'; exit 1; }
tail -n 1 $work/refused.said | grep -qx 'rs274: line 2 is refused with number 20: it is no parameter number, blanks and a value'
python3 -B tests/parameters/compare.py $work/parameters "$count" "$seed" || { echo "parameters: again by tests/parameters.sh $count $seed"; exit 1; }
