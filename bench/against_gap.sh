#!/usr/bin/env bash
# The built program beside GAP's PQuotient, on examples: times, and whether the texts are the same. Skipped where GAP is missing.
# On Debian: apt-get install gap-core gap-libs. Run `rt ci` first, or `rt run` in crates/pquotient. Words: the rounds, 3 if none.
set -eu
cd "$(dirname "$0")/.."
if ! command -v gap >/dev/null || ! command -v python3 >/dev/null; then
    echo "skipped: gap or python3 is missing"
    exit 0
fi
exec python3 bench/against_gap.py crates/pquotient/out/pquotient bench/against_gap.txt "${1:-3}"
