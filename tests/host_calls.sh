#!/usr/bin/env bash
# The entry points for C answer as document 01 says: tests/host/driver.c calls them, and tests/host/compare.py
# compares every answer with that of the reference in Python. Where dist/ is missing, or older than what it is
# made of, it is made first.
set -euo pipefail
unset CDPATH
cd "$(dirname "$0")/.."

say() {
    printf 'tests/host_calls.sh: %s\n' "$*" >&2
}

fail() {
    say "$@"
    exit 1
}

explain() {
    cat <<'TEXT'
usage: tests/host_calls.sh [--long] [--seed N]    calls the entry points for C, and compares their answers
       tests/host_calls.sh --help                 says this

  --long    compares many more calls, arrays of 2^20 numbers among them, in some minutes instead of seconds
  --seed N  draws the calls by another seed than 1

Standard output gets one line, how many calls of each entry point were compared and how many differ; standard
error the progress, and the first calls that differ. The exit status is 0 only if none differs.
TEXT
}

options=()
while [ $# -gt 0 ]; do
    case $1 in
    -h | --help)
        explain
        exit 0
        ;;
    --long) options+=(--long) ;;
    --seed)
        [[ ${2-} =~ ^[0-9]+$ ]] || fail "--seed needs a number"
        options+=(--seed "$2")
        shift
        ;;
    *)
        say "there is no option $1; tests/host_calls.sh --help tells how it is used"
        exit 2
        ;;
    esac
    shift
done

room=$(mktemp -d)
trap 'rm -rf "$room"' EXIT

# header and archive are there, and nothing that they are made of is newer
is_current() {
    [ -f dist/wharfgrain.h ] && [ -f dist/libwharfgrain.a ] &&
        [ -z "$(newer_than dist/libwharfgrain.a crates crates.txt include bin/build-host scripts)" ]
}
. scripts/newer.sh
is_current || bin/build-host >&2 || fail "bin/build-host has not made dist/"

. scripts/emulator.sh
. scripts/compiler.sh
. scripts/python.sh
need_compiler c
need_runner
"${compiler[@]}" -std=c99 -Wall -Wextra -pedantic -Werror -O2 -I dist tests/host/driver.c dist/libwharfgrain.a -o "$room/driver" ||
    fail "tests/host/driver.c could not be compiled and linked"

need_python
python3 tests/host/compare.py "${options[@]}" -- "${runner[@]}" "$room/driver"
