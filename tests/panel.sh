#!/bin/sh
# panel.sh: a C program over the panel's library, which holds what it gets of it to document 01. Exits non-zero on
# any difference.
set -eu
cd "$(dirname "$0")/.."
sh tests/link.sh panel tests/panel/panel.c target/panel/panel
exec target/panel/panel
