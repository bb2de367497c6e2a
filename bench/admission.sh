#!/usr/bin/env bash
# bench/admission.sh [--equal]: what an admission costs beside plain C that does the same, as a ratio measured in one run; or only whether
# both leave the same words after each stored admission, as the gate asks.
set -euo pipefail
here=$(cd "$(dirname "$0")" && pwd)
words=()
[ "${1:-}" != --equal ] || words=("$here/../tests/stored/calls/tables")
exec "$here/calls.sh" "$@" admission.c plain_box.c -- "${words[@]}"
