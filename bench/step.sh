#!/usr/bin/env bash
# bench/step.sh [--equal]: what a step and an offer cost beside plain C that does the same, as a ratio measured in one run; or only
# whether both leave the same words, as the gate asks.
set -euo pipefail
exec "$(dirname "$0")/calls.sh" "$@" step.c plain_box.c
