#!/bin/sh
# Every folder under crates/ has its line in crates.txt, and every line its folder: a crate that
# nobody lists would never be proved.
cd "$(dirname "$0")/.." || exit 2
status=0
for folder in crates/*/; do
    name=$(basename "$folder")
    grep -qE "^$name( staticlib)? *:" crates.txt || { echo "crates/$name is not listed in crates.txt"; status=1; }
done
for name in $(sed -nE 's/^([a-z0-9_]*)( staticlib)? *:.*/\1/p' crates.txt); do
    [ -d "crates/$name" ] || { echo "crates.txt lists $name, and there is no such folder"; status=1; }
done
exit $status
