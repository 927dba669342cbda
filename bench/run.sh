#!/bin/sh
# run.sh [--quick] [--instructions] [--large] [--with-linuxcnc] [--keep] [--program FILE]: rs274 beside the careful Rust
# reader, as the tables of docs/SPEED.md. A report, not a test; bench/run.py says what each word does.
exec python3 -B "$(dirname "$0")/run.py" "$@"
