#!/usr/bin/env bash
# bench/plan_reader.sh [--equal]: what the plan reader costs beside a plain C loop that does the same, as a ratio measured in one run; or
# only whether both answer the same number to every stored plan, as the gate asks.
set -euo pipefail
here=$(cd "$(dirname "$0")" && pwd)
stored=$here/../tests/stored
plans=("$stored/plans/full")
shopt -s extglob
[ "${1:-}" != --equal ] || plans=("$stored"/plans/!(lines) "$stored"/runs/*.plan)
exec "$here/calls.sh" "$@" plan_reader.c -- "${plans[@]}"
