#!/bin/sh
# embed-unread.sh: what is no case is told by the library's test program and by the second program alike, with an
# exit status that is not 0; otherwise a comparison could pass over lines that neither of them has worked.
set -eu
cd "$(dirname "$0")/.."
work=target/embed
mkdir -p $work
sh tests/link.sh embed tests/embed/embed.c $work/embed
right=$(sh tests/second.sh examples --cases | head -n 1)
long=$(printf '%01100000d' 0)
wrong=0
# try CASE WORD: both programs must end with the status that the word stands for.
try() {
    for program in $work/embed 'target/second/second answers'; do
        status=0
        printf '%s\n' "$1" | $program >$work/unread 2>&1 || status=$?
        said=no; [ "$status" -eq 0 ] && ! grep -q '^no case$' $work/unread && said=yes
        [ $said = "$2" ] || { echo "unread: $program: $(printf '%s' "$1" | head -c 60)"; wrong=$((wrong + 1)); }
    done
}
try "$right" yes
for case in '' '-' "x$right" "0$right" "4${right#-}" "$right " " $right" "$right 1" "${right%?}x" "${right% *}" \
    "$(echo "$right" | sed 's/ 0 / 2 /')" "$(echo "$right" | sed 's/,0 5000/ 5000/')" \
    "$(echo "$right" | sed 's/,0 5000/,0,0 5000/')" "$(echo "$right" | sed 's/ 5000 - / 5000 5000:1 /')" \
    "$(echo "$right" | sed 's/ 5000 - / 5000 1=1 /')" "$(echo "$right" | sed 's/ 5000 - / 1000001 - /')" \
    "$(echo "$right" | sed 's/ 5000 - / 5000 1:9223372036854775808 /')" "$long$right"; do
    try "$case" no
done
[ "$wrong" -eq 0 ] && echo "unread: as it should be"
