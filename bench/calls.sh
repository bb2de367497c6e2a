#!/usr/bin/env bash
# bench/calls.sh [--equal] NAME.c .. [-- WORDS]: compiles these C files with the static library of the proved calls, at each compiler and
# level, and runs each program, which is given WORDS, and --equal before them where it is given here: the program then times nothing and
# sees that the results are equal. The library is proved and built where it is missing or older than its sources.
set -euo pipefail
here=$(cd "$(dirname "$0")" && pwd)
root=$here/..
equal=()
if [ "${1:-}" = --equal ]; then
    equal=(--equal)
    shift
fi
library=$("$root/tools/built" cabinet)
sources=()
while [ $# -gt 0 ] && [ "$1" != -- ]; do
    sources+=("$here/$1")
    shift
done
[ $# -eq 0 ] || shift
work=$(mktemp -d)
trap 'rm -rf "$work"' EXIT
compilers=(gcc)
! command -v clang >/dev/null || compilers+=(clang)
[ "$(uname -m)" = x86_64 ] || compilers=("the toolchain's clang")
for cc in "${compilers[@]}"; do
    for o in -O2 -O3; do
        CC=$cc "$root/tools/x86-64-cc" $o -Wall -Wextra -I"$root/include" "${sources[@]}" "$library" -o "$work/calls"
        printf '%s %s: ' "$cc" $o
        [ ${#equal[@]} -gt 0 ] || echo
        "$root/tools/x86-64" "$work/calls" "${equal[@]}" "$@"
    done
done
