#!/bin/sh
# embed.sh [COUNT [SEED]]: generated cases, 20,000 unless told otherwise, by the library that a control links and
# by the second program: every answer must be the same, and every number and every kind of command must be among
# them often enough for that to say something.
set -eu
cd "$(dirname "$0")/.."
count=${1:-20000} seed=${2:-274}
work=target/embed
mkdir -p $work
sh tests/second.sh blocks "$seed" "$count" >$work/embed.cases
sh tests/compare.sh embed "$count" || { echo "embed: again by tests/embed.sh $count $seed"; exit 1; }
often=yes
sh tests/second.sh tally <$work/embed.got >$work/tally || often=no
sed 's/^/embed: /' $work/tally
[ $often = yes ]
