#!/bin/sh
# mend.sh [COUNT [SEED]]: generated old programs through rs274_mend, through the library that a firmware links, and
# through the second program: the mended text and its list must be the same. What comes out must stay as it is when it is mended again, and only its unmended lines be
# listed. All programs once more as one long one, in pieces; and lines about as long as rs274_mend can hold.
set -eu
cd "$(dirname "$0")/.."
count=${1:-300} seed=${2:-7}
work=target/mend
rm -rf "$work"
mkdir -p "$work"
proved() { target/bin/rs274_mend; }
second() { target/second/second mend; }
sh tools/build.sh rs274_mend
sh tests/link.sh mend tests/mend/mend.c $work/library
sh tests/second.sh old "$seed" "$count" "$work"

compared=0 different=0
differs() { echo "mend: $1 differs"; different=$((different + 1)); }
for old in "$work"/*.ngc; do
    proved <"$old" >"$old.new" 2>"$old.list"
    second <"$old" >"$old.want" 2>"$old.wanted"
    cmp -s "$old.new" "$old.want" && cmp -s "$old.list" "$old.wanted" || differs "$old"
    $work/library <"$old" >"$old.at-once" 2>"$old.listed" || differs "$old at once"
    cmp -s "$old.at-once" "$old.want" && cmp -s "$old.listed" "$old.wanted" || differs "$old by the library"
    proved <"$old.new" >"$old.again" 2>"$old.relist"
    grep ': unmended$' "$old.list" >"$old.left" || true
    cmp -s "$old.new" "$old.again" && cmp -s "$old.left" "$old.relist" || differs "$old, mended again,"
    compared=$((compared + 1))
done

cat "$work"/*.ngc >"$work/long"
second <"$work/long" >"$work/long.want" 2>"$work/long.wanted"
for size in 97 4096 65536 1000000; do
    dd if="$work/long" bs=$size 2>/dev/null | proved >"$work/long.new" 2>"$work/long.list"
    cmp -s "$work/long.new" "$work/long.want" && cmp -s "$work/long.list" "$work/long.wanted" || differs "the long one by $size"
done

blanks() { printf "%${1}s" ''; }
for end in 65534 65535; do
    { echo 'X1;a'; blanks $end; echo '%'; blanks $end; echo; echo '%'; } >"$work/wide"
    proved <"$work/wide" >"$work/wide.new" 2>"$work/wide.list" || true
    second <"$work/wide" >"$work/wide.want" 2>"$work/wide.wanted"
    if [ $end = 65534 ]; then
        cmp -s "$work/wide.new" "$work/wide.want" && cmp -s "$work/wide.list" "$work/wide.wanted" || differs 'a wide line'
    else
        printf 'X1(a)\n' | cmp -s - "$work/wide.new" && tail -n 1 "$work/wide.list" | grep -q 'too long to be mended$' || differs 'a line that is too wide'
    fi
done

total=$(cat "$work"/*.ngc | tr -cd '\n' | wc -c) lists=$(cat "$work"/*.ngc.list)
many() { printf '%s\n' "$lists" | grep -c "$1" || true; }
percent=$(many 'of one % emptied$') remark=$(many ': remark made a comment') nested=$(many 'nested comments made one$')
both=$(many 'comment, and nested') unmended=$(many ': unmended$')
echo "mend: $compared of $count compared (seed $seed), $((total)) lines: $percent of a %, $remark remarks, $nested nested, $both of them both, $unmended unmended; $different differ"
[ "$different" -eq 0 ] && [ "$compared" -eq "$count" ] && [ "$total" -ge $((20 * count)) ]
for seen in "$percent" "$remark" "$nested" "$both" "$unmended"; do [ "$seen" -ge "$count" ]; done
