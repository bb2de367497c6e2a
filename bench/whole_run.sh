#!/usr/bin/env bash
# bench/whole_run.sh [ROUNDS | --equal]: what the program costs beside plain C that makes the same run (whole_run.c), as a ratio measured
# in one run. First both must print the same bytes, on the plans that are timed, those of examples/ and the stored ones; given --equal, as
# in the gate, that is all.
set -euo pipefail
here=$(cd "$(dirname "$0")" && pwd)
root=$here/..
rounds=${1:-15}
work=$(mktemp -d)
trap 'rm -rf "$work"' EXIT
# Proved and built where it is not, or has changed since: what is timed is the program of this source.
gateway=$("$root/tools/built" gateway)

mkdir "$work/timed" "$work/other"
"$here/whole_run.py" plans "$work/timed"
for text in "$root"/examples/*.txt; do
    "$root/tools/plan_text.py" to-bytes "$text" >"$work/other/$(basename "$text" .txt).plan"
done
cp "$root"/tests/stored/runs/*.plan "$work/other/"

programs=()
for cc in gcc clang; do
    command -v $cc >/dev/null || continue
    $cc -O2 -Wall -Wextra "$here/whole_run.c" -o "$work/$cc -O2"
    programs+=("$work/$cc -O2")
done
[ ${#programs[@]} -gt 0 ] || { echo "whole_run.sh: no C compiler" >&2; exit 2; }

count=0
for plan in "$work"/timed/*.plan "$work"/other/*.plan; do
    "$root/tools/x86-64" "$gateway" <"$plan" >"$work/lines"
    for program in "${programs[@]}"; do
        "$program" <"$plan" | cmp - "$work/lines" || { echo "whole_run.sh: $program differs on $plan" >&2; exit 1; }
    done
    count=$((count + 1))
done
echo "whole run: the same bytes on $count plans"
[ "$rounds" != --equal ] || exit 0
"$here/whole_run.py" times "$rounds" "$work/timed" "$gateway" "${programs[@]}"
