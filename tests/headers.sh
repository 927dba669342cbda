#!/bin/sh
# headers.sh: the headers, each alone, in the standards of C and C++ that they serve; then the control's and the panel's and
# their libraries in one C++ program, which holds their names to what the libraries do; then what the libraries need: of
# the C library memcpy and memset alone, and of the stack.
set -eu
cd "$(dirname "$0")/.."
work=target/headers
mkdir -p $work
for header in include/*.h; do
    for standard in c99 c11 c17; do
        gcc -std=$standard -pedantic -Wall -Wextra -Wconversion -Werror -Iinclude -fsyntax-only -include "$header" -x c /dev/null
    done
    for standard in c++11 c++14 c++17 c++20; do
        g++ -std=$standard -pedantic -Wall -Wextra -Wconversion -Werror -Iinclude -fsyntax-only -include "$header" -x c++ /dev/null
    done
done
sh tests/link.sh "embed panel" tests/headers/names.cpp $work/names
$work/names
sh tests/link.sh lookup tests/index/index.c $work/index
sh tests/link.sh "embed panel mend lookup" tests/headers/stack.c $work/stack
needed=$(nm -u target/staticlib/libembed.a target/staticlib/libpanel.a target/staticlib/libmend.a target/staticlib/liblookup.a | sed -n 's/^ *U //p' | grep -vxE 'mem(cpy|set)' || true)
[ -z "$needed" ] || { echo "headers: the libraries also need" $needed; exit 1; }
$work/stack
