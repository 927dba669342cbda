#!/bin/sh
# compare.sh NAME LEAST: works the cases of target/embed/NAME.cases, of which there must be LEAST or more, by the
# library that a control links and by the second program, into NAME.got and NAME.want beside them. Every answer
# must be the same, and no case may be one that either of them cannot read; of the first that differs, the case
# is shown.
set -eu
cd "$(dirname "$0")/.."
name=$1 least=$2
work=target/embed
cases=$work/$name.cases want=$work/$name.want got=$work/$name.got
sh tests/link.sh embed tests/embed/embed.c $work/embed
unread() { echo "$name: the $1 cannot read case $(grep -n '^no case$' "$2" | sed -n '1s/:.*//p')"; exit 1; }
sh tests/second.sh answers <"$cases" >"$want" || unread 'second program' "$want"
$work/embed <"$cases" >"$got" || unread library "$got"
count=$(wc -l <"$cases")
[ "$count" -ge "$least" ] || { echo "$name: $count cases, and $least were wanted"; exit 1; }
for answers in "$want" "$got"; do
    [ "$(wc -l <"$answers")" -eq "$count" ] || { echo "$name: not $count answers in $answers"; exit 1; }
done
if cmp -s "$want" "$got"; then
    echo "$name: $((count)) cases, the same answers"
    exit 0
fi
first=$(cmp "$want" "$got" | sed 's/.*line //')
echo "$name: case $first differs"
for part in cases want got; do printf '%s: ' $part; sed -n "${first}p" "$work/$name.$part"; done
exit 1
