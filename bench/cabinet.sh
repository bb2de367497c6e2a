#!/usr/bin/env bash
# bench/cabinet.sh [--equal]: what a call of the static library costs beside the independent implementation in Rust (tests/reference) on
# its own structs, both built for release and measured turn by turn in one run, as a table of ratios; or only whether both give the same
# words and text, as the gate asks. The library is CABINET_LIB, or the one that tests/cabinet-library prints.
set -euo pipefail
root=$(cd "$(dirname "$0")/.." && pwd)
CABINET_LIB=${CABINET_LIB:-$("$root/tests/cabinet-library")}
export CABINET_LIB
cd "$root/tests/cabinet"
cargo build --release --offline --quiet
exec target/release/bench "$@"
