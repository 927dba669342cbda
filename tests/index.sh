#!/bin/sh
# index.sh [COUNT [SEED]]: generated texts, 2,000 unless told otherwise, indexed, a line replaced and numbers asked for, by
# the library that a firmware links and by the second program: every answer must be the same, and every refusal
# must be among them. Before that, how a place and an entry lie in memory.
set -eu
cd "$(dirname "$0")/.."
count=${1:-2000} seed=${2:-10}
# No contract speaks of how a struct lies in memory: C's layout, and the fields in this order, are what another crate may hand to C.
laid=$(sed -n '/^#\[repr(C)\]$/,/^}$/p' crates/index/src/lib.rt | grep -v derive | tr -s ' \n' ' ')
want='#[repr(C)] pub struct Place { pub line: u32, pub start: u32, } #[repr(C)] pub struct Entry { pub number: u32, pub place: Place, } '
[ "$laid" = "$want" ] || { echo "index: Place and Entry no longer lie as C was told: $laid"; exit 1; }
work=target/index
mkdir -p $work
sh tests/link.sh lookup tests/index/index.c $work/index
sh tests/second.sh texts "$seed" "$count" >$work/cases
sh tests/second.sh indexes <$work/cases >$work/want || { echo "index: the second program cannot read a case"; exit 1; }
$work/index <$work/cases >$work/got
[ "$(wc -l <$work/got)" -eq "$count" ] || { echo "index: not $count answers"; exit 1; }
if ! cmp -s $work/want $work/got; then
    first=$(cmp $work/want $work/got | sed 's/.*line //')
    echo "index: case $first differs; again by tests/index.sh $count $seed"
    for part in cases want got; do printf '%s: ' $part; sed -n "${first}p" $work/$part | cut -c 1-2000; done
    exit 1
fi
for number in 0 30 31; do
    [ "$(cut -d ' ' -f 1 <$work/got | grep -cx $number)" -gt 0 ] || { echo "index: no text carries $number"; exit 1; }
done
for number in 0 30 31 32 33; do
    [ "$(cut -d ' ' -f 5 <$work/got | grep -cx $number)" -gt 0 ] || { echo "index: no replacement carries $number"; exit 1; }
done
sh tests/link.sh lookup examples/restart.c $work/restart
said=$(printf 'N10 X1\r\nN0400 G1 X2\nN400 X3\n' | $work/restart 400)
[ "$said" = "$(printf 'N400 is line 2:\nN0400 G1 X2')" ] || { echo "index: the example says: $said"; exit 1; }
echo "index: $((count)) texts, the same answers; replacements by number:" $(cut -d ' ' -f 5 <$work/got | sort -n | uniq -c | sed 's/^ *\([0-9]*\) \(.*\)/\2:\1/')
