#!/usr/bin/env bash
# A program in C can use the library: bin/build-host makes dist/, the header is sound C99 and C++ without a
# warning and by itself, as is the function that README.md shows, and examples/host.c, built in both languages,
# as bin/build-host says and as the two README.md say, writes what examples/host.out has.
set -euo pipefail
unset CDPATH
cd "$(dirname "$0")/.."

room=$(mktemp -d)
trap 'rm -rf "$room"' EXIT

fail() {
    echo "tests/host_example.sh: $*" >&2
    exit 1
}

. scripts/emulator.sh
. scripts/compiler.sh

# right WHAT: its output, on standard input, is that of the example
right() {
    cmp - examples/host.out || fail "examples/host.c, $1, does not write what examples/host.out has"
}

# what bin/build-host says is kept back; that a compiler is installed is said here
need_compiler c
bin/build-host >"$room/lines" 2>"$room/log" || {
    cat "$room/log" >&2
    fail "bin/build-host failed"
}
sed -n 's/^    //p' "$room/lines" | bash | right 'built as bin/build-host says'
if [ "$(uname -m)" = x86_64 ]; then
    for page in README.md examples/README.md; do
        command=$(sed -n 's/^    \(cc .*\)/\1/p' "$page")
        [ -n "$command" ] || fail "$page does not say how the example is built"
        bash -c "$command" | right "built as $page says"
    done
fi

# the function in C that README shows
sed -n '/^    #include "wharfgrain.h"/,/^    }/s/^    //p' README.md >"$room/shown.c"
grep -q wharfgrain_round_bytes "$room/shown.c" || fail "README.md shows no function in C"

need_runner
for standard in c99 c++11; do
    language=${standard%[0-9][0-9]}
    need_compiler "$language"
    strict=("${compiler[@]}" -std="$standard" -Wall -Wextra -pedantic -Werror -x "$language")
    "${strict[@]}" -fsyntax-only dist/wharfgrain.h || fail "the header is not sound by itself as $standard"
    "${strict[@]}" -I dist -c "$room/shown.c" -o "$room/shown.o" || fail "what README.md shows is not sound as $standard"
    "${strict[@]}" -I dist examples/host.c -x none dist/libwharfgrain.a -o "$room/host" || fail "the example is not sound as $standard"
    "${runner[@]}" "$room/host" | right "built as $standard"
done

echo "the header is sound C99 and C++, and the example in C is answered as it says"
