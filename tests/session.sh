#!/bin/sh
# session.sh: the example session of a control. On the lines of tests/session/lines what it writes is held to
# tests/session/want, what it says on standard error to tests/session/said, and its exit status to 1; then
# tests/session/cases.py.
set -eu
cd "$(dirname "$0")/.."
work=target/session
rm -rf $work
mkdir -p $work/programs
sh tests/link.sh embed examples/session.c $work/session
status=0
$work/session <tests/session/lines >$work/got 2>$work/said || status=$?
diff tests/session/want $work/got
diff tests/session/said $work/said
[ $status -eq 1 ] || { echo "session: exit status $status and not 1"; exit 1; }
python3 -B tests/session/cases.py $work/session $work/programs
