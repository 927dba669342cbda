#!/bin/sh
# What the gate needs: the Rattle kit, Python 3, a Rust, a C and a C++ compiler, and the usual tools. Where it runs
# as root on a Debian, what is missing but the kit is installed first; otherwise one line says what is missing.
missing() {
    for tool in "$@"; do command -v "$tool" >/dev/null 2>&1 || printf ' %s' "$tool"; done
}
package() {
    case $1 in
    cc) echo gcc ;;
    cmp) echo diffutils ;;
    find) echo findutils ;;
    *) echo "$1" ;;
    esac
}
install() {
    DEBIAN_FRONTEND=noninteractive apt-get install -y -qq --no-install-recommends "$@" >/dev/null 2>&1
}
tools='python3 rustc gcc cc g++ cmp find'
lacking=$(missing $tools)
if [ -n "$lacking" ] && [ "$(id -u)" = 0 ] && command -v apt-get >/dev/null 2>&1; then
    packages=$(for tool in $lacking; do package "$tool"; done | sort -u)
    install $packages || { apt-get update -qq >/dev/null 2>&1 && install $packages; }
fi
lacking=$(missing rt $tools)
[ -z "$lacking" ] || { echo "toolchain: not found:$lacking" >&2; exit 1; }
# The second program uses whole square roots of the standard library.
rust=$(rustc --version | sed -n 's/^rustc 1\.\([0-9]*\)\..*/\1/p')
[ "${rust:-0}" -ge 84 ] || { echo "toolchain: $(rustc --version) is too old; 1.84 or later is needed" >&2; exit 1; }
