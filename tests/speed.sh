#!/usr/bin/env bash
# The array loops are as fast as they were made to be, as far as that can be told without a clock. The loops that
# sweep an array are vectorized, in every mode, on words and on bytes: the compiler's own text of them says so.
# And on x86-64 the instructions that a number takes are counted: on ordinary numbers by the sweep, and on
# subnormal ones by the tables.
set -euo pipefail
unset CDPATH
cd "$(dirname "$0")/.."

fail() {
    echo "tests/speed.sh: $*" >&2
    exit 1
}

# nine modes, in formats of many digits and of few
loops=18

# three formats, nine modes
rows=27

# how many numbers the calls have in which instructions are counted
counted=512

# Instructions an element at most, of words and of bytes. Those by tables have the filling in them.
declare -A most=([normal]=16 [subnormal]=46)

room=$(mktemp -d)
trap 'rm -rf "$room"' EXIT

scripts/native-object.sh "$room/host.o" 2>"$room/log" || {
    cat "$room/log" >&2
    fail "scripts/native-object.sh has not compiled the library"
}

# vectorized CALL: how many of the loops that an exported call sweeps with are vectorized. One generic loop serves words
# and bytes, so that the loops are told apart by the call that reaches them.
vectorized() {
    awk -v call="@$1" '
        /^define / { inside = match($0, /@("[^"]*"|[A-Za-z0-9_.]+)\(/) ? substr($0, RSTART, RLENGTH - 1) : "" }
        inside && / call / && match($0, /@("[^"]*"|[A-Za-z0-9_.]+)\(/) { calls[inside] = calls[inside] "\n" substr($0, RSTART, RLENGTH - 1) }
        inside && /^vector\.body[0-9a-z.]*:/ { loops[inside]++ }
        END {
            # the functions that the call reaches, each once
            reached[call] = 1
            waiting[1] = call
            for (n = 1; n > 0; ) {
                name = waiting[n--]
                if (index(name, "@\"arrays::sweeping::") == 1)
                    count += loops[name]
                m = split(calls[name], called, "\n")
                for (i = 1; i <= m; i++)
                    if (called[i] != "" && !(called[i] in reached)) {
                        reached[called[i]] = 1
                        waiting[++n] = called[i]
                    }
            }
            print count + 0
        }
    ' "$room/host.ll"
}

for call in wharfgrain_round wharfgrain_round_bytes; do
    found=$(vectorized $call)
    [ "$found" -ge $loops ] || fail "of the $loops loops by which $call sweeps, $found are vectorized"
done

# too_many KIND: the rows of the table of instructions that are above what the kind may take
too_many() {
    awk -v kind="$1" -v most="${most[$1]}" '$3 == kind && ($5 > most || $6 > most)' "$room/$1"
}

if [ "$(uname -m)" = x86_64 ]; then
    . scripts/compiler.sh
    need_compiler c
    "${compiler[@]}" -std=c99 -O3 -I include bench/*.c "$room/host.o" -o "$room/bench" || fail "bench/ could not be compiled and linked"
    for kind in "${!most[@]}"; do
        "$room/bench" all all "$kind" 0 "$counted" >"$room/$kind" || fail "bench/ has not counted instructions"
        [ "$(grep -c " $kind " "$room/$kind")" -eq $rows ] || fail "bench/ has not counted $rows rows of $kind data"
        [ -z "$(too_many "$kind")" ] || {
            too_many "$kind" >&2
            fail "these rows take more than ${most[$kind]} instructions an element, words or bytes"
        }
    done
    echo "speed: $loops loops vectorized on words and on bytes; at most ${most[normal]} instructions an ordinary number, ${most[subnormal]} a subnormal one"
else
    echo "speed: $loops loops vectorized on words and on bytes"
fi
