#!/usr/bin/env bash
# Each must-fail edit is refused at a promise or a fact, and not because a proof file no longer fits: it is tried by
# tests/edits_break_a_promise.py, which says what that is. It is fast where rt has kept what it proved, as after
# bin/build-host and bin/wharfgrain.
set -euo pipefail
unset CDPATH
cd "$(dirname "$0")/.."

fail() {
    echo "tests/edits_break_a_promise.sh: $*" >&2
    exit 1
}

. scripts/python.sh
need_python
command -v rt >/dev/null || fail "the toolchain's command rt is not on the PATH"
python3 tests/edits_break_a_promise.py
