#!/usr/bin/env bash
# What the programs of the crates blackboard, trials and vectors have to write is right by the rules of
# document 01, worked out anew by tests/worked_examples.py. That they write it, rt ci sees.
set -euo pipefail
unset CDPATH
cd "$(dirname "$0")/.."

fail() {
    echo "tests/worked_examples.sh: $*" >&2
    exit 1
}

. scripts/python.sh
need_python
python3 tests/worked_examples.py crates/vectors/stdin crates/vectors/stdout crates/blackboard/stdout crates/trials/stdout
