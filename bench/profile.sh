#!/bin/sh
# profile.sh [MIX [PROGRAM]]: where rs274 spends its instructions on 10,000 lines of a mix, cam unless told otherwise.
# The 25 functions with the most of their own, then who calls whom how often a line. Needs valgrind.
# rt makes one module of all crates: a function that was put into its caller is counted there. Where the machine's C
# library has no names, an entry says where in it the function stands; what rs274 takes of it is memcpy, memset, read and write.
set -eu
cd "$(dirname "$0")/.."
mix=${1:-cam} program=${2:-target/bin/rs274}
work=target/bench
mkdir -p $work
[ $# -ge 2 ] || sh tools/build.sh rs274
python3 -B bench/mixes.py "$mix" 10000 >$work/profile.ngc
valgrind --tool=callgrind --compress-strings=no --callgrind-out-file=$work/profile.out "$program" \
    <$work/profile.ngc 2>$work/profile.log >/dev/null
echo "instructions, all 10,000 lines"
callgrind_annotate --threshold=100 $work/profile.out | grep -E '^ *[0-9,]+ \(' |
    sed -E 's/ \[.*//; s/ [^ ]*:0x0*/ C library at /; s/\?\?\?://' | sed 26q
echo
echo "calls a line"
awk '/^fn=/ { caller = substr($0, 4) }
     /^cfn=/ { callee = substr($0, 5) }
     /^calls=/ { split($1, part, "="); calls[caller " -> " callee] += part[2] }
     END { for (pair in calls) if (calls[pair] >= 1000) printf "%6.1f %s\n", calls[pair] / 10000, pair }' \
    $work/profile.out | sed 's/0x0*/C library at /' | sort -rn
