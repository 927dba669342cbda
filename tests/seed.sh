#!/bin/sh
# seed.sh: a seed that is another for every commit, so that each change is tried on lines that nobody has seen;
# nothing, and status 1, where this is no repository of git or has no commit yet.
cd "$(dirname "$0")/.." || exit 1
commit=$(git -c safe.directory='*' rev-parse --verify --quiet HEAD 2>/dev/null) || exit 1
printf '%d\n' "0x$(printf %.7s "$commit")"
