#!/bin/sh
# orders.sh [COUNT [SEED]]: generated lines that are accepted, 5,000 unless told otherwise, each beside one with its
# words in another order, by the library that a control links: number, count, work, record, table and output must be
# the same; and NGC's line of five items in its 120 orders. Beside them lines of which another is made that may not
# be: each of those must differ, so that it is seen that a difference would show.
set -eu
cd "$(dirname "$0")/.."
count=${1:-5000} seed=${2:-274}
work=target/embed
mkdir -p $work
again() { echo "orders: $1; again by tests/orders.sh $count $seed"; exit 1; }
sh tests/second.sh orders "$seed" "$count" >$work/orders.cases || again 'too few lines with words to rearrange'
sh tests/compare.sh orders $((2 * count + 480)) || again 'the library and the second program differ'
same=yes
sh tests/second.sh alike <$work/orders.got >$work/alike || same=no
sed 's/^/orders: /' $work/alike
[ $same = yes ] || again 'a line is not as it was before its words were rearranged'
sh tests/second.sh orders --wrong >$work/orders-wrong.cases
sh tests/compare.sh orders-wrong 18
sh tests/second.sh alike <$work/orders-wrong.got >$work/alike || true
sed 's/^/orders-wrong: /' $work/alike
tail -n 1 $work/alike | grep -qx '0 pairs the same, 9 not'
