#!/usr/bin/env bash
# docs/PROMISES.md has a row for every function that another crate can call, a public one or one of a public
# trait, with that function's uniqueness fact and at least two wrong answers that it rules out, each in a
# must-fail edit of that function's crate; the fact is about that function's promise, and about what it leaves
# in a lent array too if it is lent one to write; no such function asks anything of its caller. The page lists
# every wrong answer, and every statement that specs/ names as a whole has a law in it; a fact's row names the
# file that its laws are in; and the page names no function, fact, law, file or wrong answer that is not there.
# Whether any other fact is missing from the page it cannot tell. The crate host_c exports the functions of
# the crate host, each with the very promise that it has there.
set -euo pipefail
unset CDPATH
cd "$(dirname "$0")/.."

page=docs/PROMISES.md
named=$(grep -o '`[^` ]*`' "$page" | tr -d '`' | sort -u || true)
# the lines of the tables with a given first column, without their two head lines
table() {
    awk -v head="| $1 |" 'index($0, head) == 1 { inside = 2 } !/^\|/ { inside = 0 }
        inside == 2 && !/^\|-/ && index($0, head) != 1 { print } ' "$page"
}
rows=$(table 'function')
facts=$(table 'what holds')
if [ -z "$rows" ] || [ -z "$facts" ]; then
    echo "$page: it has no row of a function, or none of a fact" >&2
    exit 1
fi
wrong=0

complain() {
    echo "$page: $*" >&2
    wrong=$((wrong + 1))
}

# the names in back-ticks
quoted() {
    grep -o '`[^`]*`' <<<"$1" | tr -d '`' || true
}

# the wrong answers that a crate's must-fail edits hold
wrong_answers() {
    grep -hoE '^# [A-Za-z0-9_]+: .' "crates/$1/must-fail/"*.edit | sed 's/^# //; s/: .$//' || true
}

# the folders of source, without that of host_c
sources=()
for source in crates/*/src; do
    [ "$source" = crates/host_c/src ] || sources+=("$source")
done

# callable FOLDER...: the functions that other crates can call, public ones and those of public traits, a line each:
# the file, the name, and what stands between the name and the body, parameters and contract
callable() {
    local files
    mapfile -t files < <(find "$@" -name '*.rt')
    awk '
        FNR == 1 || /^}/ { trait = 0 }
        /^pub trait / { trait = 1 }
        /^ *pub (extern "C" )?fn / || (trait && /^ *fn /) {
            inside = 1
            text = ""
            name = $0
            sub(/^ *(pub )?(extern "C" )?fn /, "", name)
            sub(/[<(].*/, "", name)
            sub(/(pub )?(extern "C" )?fn/, "fn")
        }
        inside { text = text "\\n" $0 }
        inside && /[{;]$/ { print FILENAME "\t" name "\t" text; inside = 0 }' "${files[@]}"
}

all_callable=$(callable "${sources[@]}")

# contract_of FUNCTION: of what `callable` prints, the last of it, in lines again
contract_of() {
    awk -F '\t' -v name="$1" '$2 == name { gsub(/\\n/, "\n", $3); print $3 }'
}

# a row: function | refuses | answer | definition | unique | ruled out
while IFS='|' read -r _ function _ _ _ unique ruled_out _; do
    function=$(tr -d '` ' <<<"$function")
    fact=${function}_unique
    contract=$(contract_of "$function" <<<"$all_callable")
    outcome=OneAnswer
    grep -q '&mut ' <<<"$contract" && outcome=OneOutcome
    [ "$(tr -d '` ' <<<"$unique")" = "$fact" ] ||
        complain "the row of $function names another uniqueness fact"
    # a function of a trait has a promise at each type, and the fact is about one of them
    at=
    grep -rqE "^ *pub (extern \"C\" )?fn $function[<(]" "${sources[@]}" || at='-[a-z0-9]+'
    grep -rqE -- "^ *pub $fact : $outcome \(?$function$at\.Post" crates/*/proofs/Unique.antt ||
        complain "no fact $fact : $outcome $function.Post"
    grep -qE '^ *requires' <<<"$contract" &&
        complain "the function $function asks something of its caller"
    [ "$(quoted "$ruled_out" | sort -u | wc -l)" -ge 2 ] ||
        complain "the row of $function rules out fewer than two wrong answers"
    crate=$(awk -F '\t' -v name="$function" '$2 == name { print $1 }' <<<"$all_callable" | cut -d / -f 2)
    for answer in $(quoted "$ruled_out"); do
        wrong_answers "$crate" | grep -qxF -- "$answer" ||
            complain "the row of $function names $answer, which is in no edit of the crate ${crate:-?}"
    done
done <<<"$rows"

# a fact: what holds | for | law | file; a law is one that other files may cite, or a closed case
while IFS='|' read -r _ what _ laws files rest; do
    # shellcheck disable=SC2086
    if [ -z "$(quoted "$laws")" ] || [ -z "$(quoted "$files")" ] || [ -n "$rest" ] || ! ls -- $(quoted "$files") >/dev/null 2>&1; then
        complain "no law, or no file that is there, in the row:$what"
        continue
    fi
    for law in $(quoted "$laws"); do
        # shellcheck disable=SC2046
        grep -qE -- "^ *pub $law :" $(quoted "$files") /dev/null ||
            grep -qE -- "^$law :" $(quoted "$files" | grep '/Cases\.antt$') /dev/null ||
            complain "$law is not in$(quoted "$files" | sed 's/^/ /' | tr -d '\n')"
    done
done <<<"$facts"

# a whole statement in specs/, `Name : Type 0` with nothing to be put in, has a law of that type
while read -r statement; do
    law=$(grep -rhoE -- "^pub [a-z0-9_-]+ : $statement\$" crates/*/proofs | awk '{ print $2 }')
    { [ -n "$law" ] && grep -qF -- "\`$law\`" <<<"$facts"; } || complain "no row for the statement $statement"
done < <(grep -rhoE '^abbrev pub [A-Za-z0-9]+ : Type 0$' crates/*/specs | awk '{ print $3 }')

functions=0
while read -r name; do
    functions=$((functions + 1))
    grep -q "^| \`$name\` |" <<<"$rows" || complain "no row for the function $name"
done < <(cut -f 2 <<<"$all_callable" | sort -u)

# the same text however it is laid out
unspaced() {
    tr -d ' \n' | sed 's/,)/)/'
}

# every function of the crate host is exported to C, and promises there what it does here
while read -r name; do
    grep -rqE "^ *pub extern \"C\" fn $name[<(]" crates/host_c/src ||
        complain "the crate host_c does not export the function $name of the crate host"
    [ "$(callable crates/host_c/src | contract_of "$name" | unspaced)" = "$(callable crates/host/src | contract_of "$name" | unspaced)" ] ||
        complain "the crate host_c exports $name with another promise than the crate host has"
done < <(grep -rhoE '^ *pub fn [a-z0-9_]+' crates/host/src | awk '{ print $NF }')

answers=0
all_answers=
for crate in crates/*; do
    for answer in $(wrong_answers "$(basename "$crate")" 2>/dev/null); do
        answers=$((answers + 1))
        all_answers+="$answer"$'\n'
        grep -qxF -- "$answer" <<<"$named" || complain "no word of the wrong answer $answer of $crate"
    done
done

# what the page names is a file, a crate, a wrong answer, a function, or a name of specs/ or proofs/
while read -r name; do
    [ -e "$name" ] && continue
    [ -e "crates/$name" ] && continue
    grep -qxF -- "$name" <<<"$all_answers" && continue
    grep -rqE "^ *(pub )?(extern \"C\" )?fn $name[<(]" crates/*/src && continue
    grep -rqE -- "^ *((unfoldable|abbrev|pub|record|data) )*$name( [({].*)? :" crates/*/specs crates/*/proofs && continue
    complain "$name is named, and nothing of that name is there"
done <<<"$named"

echo "promises listed: $functions functions, $answers wrong answers, $(grep -c . <<<"$facts") facts, $wrong complaints"
[ "$functions" -gt 0 ] && [ "$answers" -gt 0 ] && [ "$wrong" -eq 0 ]
