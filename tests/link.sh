#!/bin/sh
# link.sh LIBRARIES SOURCE PROGRAM: links a C program, or a C++ one (.cpp), with target/staticlib/libNAME.a for each
# NAME in LIBRARIES, which is proved and made anew where a crate has changed (tools/build.sh).
set -eu
cd "$(dirname "$0")/.."
source=$2 program=$3 libraries=
sh tools/build.sh $1
for name in $1; do libraries="$libraries target/staticlib/lib$name.a"; done
mkdir -p "$(dirname "$program")"
case $source in
*.cpp) compiler=g++ language=c++11 ;;
*) compiler=gcc language=c99 ;;
esac
exec $compiler -std=$language -O2 -Wall -Wextra -Werror -Iinclude "$source" $libraries -o "$program"
