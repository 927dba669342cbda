#!/bin/sh
# build.sh NAME..: proves and builds each program NAME into target/bin/NAME, and each library for C into
# target/staticlib/libNAME.a, where it is missing or older than something in crates.txt or in the crates' src/, specs/ and
# proofs/. What `rt ci` has built is taken as it stands in the crate's out/. The library `mend` is that of crate mend_c.
# build.sh --needed NAME: builds nothing, and ends with 0 where NAME must be proved and built first.
set -eu
cd "$(dirname "$0")/.."
needed=no
[ "${1-}" != --needed ] || { needed=yes; shift; }

# Whether a file is there, and nothing that it is made from is newer.
fresh() {
    [ -f "$1" ] && [ -z "$(find crates.txt crates/*/src crates/*/specs crates/*/proofs -newer "$1" 2>/dev/null | head -n 1)" ]
}

for name in "$@"; do
    crate=$name
    [ "$name" != mend ] || crate=mend_c
    if [ -f "crates/$crate/src/main.rt" ]; then
        own=out/$crate made=target/bin/$name
    elif [ -f "crates/$crate/src/lib.rt" ]; then
        own=out/lib$crate.a made=target/staticlib/lib$name.a
    else
        echo "build: there is no crate $crate" >&2
        exit 1
    fi
    if fresh "$made"; then continue; fi
    if ! fresh "crates/$crate/$own"; then
        [ $needed = no ] || exit 0
        # What stands there may be of another source, so it goes first: what stands there afterwards is proved.
        rm -f "crates/$crate/$own"
        case $own in
        *.a) (cd "crates/$crate" && rt lib) || true ;;
        *) (cd "crates/$crate" && rt run </dev/null 2>&1 >/dev/null) || true ;; # whatever it says of no input
        esac
        [ -f "crates/$crate/$own" ] || { echo "build: $name is not proved, so it is not built" >&2; exit 1; }
    fi
    [ $needed = no ] || continue
    mkdir -p "$(dirname "$made")"
    cp -p "crates/$crate/$own" "$made.$$"
    mv "$made.$$" "$made"
done
[ $needed = no ]
