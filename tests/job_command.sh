#!/usr/bin/env bash
# The command bin/wharfgrain does what its help says: it builds the program where it is missing or old, once
# for calls that come at once; it answers files in turn; and what is wrong gets one line on standard error
# and an exit status of its own. The toolchain and the program are stand-ins here, so that nothing is proved
# and built: how the program answers is seen by job_texts.sh.
set -euo pipefail
unset CDPATH
cd "$(dirname "$0")/.."

room=$(mktemp -d)
trap 'rm -rf "$room"' EXIT

fail() {
    echo "tests/job_command.sh: $*" >&2
    exit 1
}

# a copy of the command, in a folder whose name has a space, and the tools that it uses, with no rt among them
copy="$room/a copy"
mkdir -p "$copy/crates/wharfgrain" "$room/tools" "$room/kit"
cp -R bin scripts crates.txt "$copy"
for tool in bash cat chmod cp dirname find flock grep head id mkdir mktemp mv readlink rm sleep tee touch wc; do
    ln -s "$(command -v "$tool")" "$room/tools/$tool"
done
stand_in() {
    cat >"$1" && chmod +x "$1"
}
stand_in "$room/tools/uname" <<'TEXT'
#!/usr/bin/env bash
echo "${MACHINE-x86_64}"
TEXT
# the program counts the bytes of the text
stand_in "$room/program" <<'TEXT'
#!/usr/bin/env bash
echo "bytes=$(wc -c)"
TEXT
# the toolchain takes a second to build it, and notes how often it did
stand_in "$room/kit/rt" <<TEXT
#!/usr/bin/env bash
[ "\$* \${PWD##*/}" = 'run wharfgrain' ] || exit 2
cat
sleep 1
echo "rt: a crate is proved"
[ ! -e "$room/broken" ] || { echo "what is wrong with it"; exit 1; }
mkdir -p out && cp "$room/program" out/wharfgrain && echo built >>"$room/built"
out/wharfgrain
TEXT
command="$copy/bin/wharfgrain"
without_toolchain=(env PATH="$room/tools" "$command")
with_toolchain=(env PATH="$room/kit:$room/tools" "$command")
printf 'abc' >"$room/three bytes"
printf 'ab' >"$room/-two"

# refused STATUS WORDS COMMAND...: it ends with the status, has written nothing, and says the words in one
# line on standard error
refused() {
    local status=$1 words=$2 ended=0
    shift 2
    "$@" >"$room/out" 2>"$room/err" || ended=$?
    [ "$ended" -eq "$status" ] || fail "'$*' ended with status $ended, not $status: $(cat "$room/err")"
    [ ! -s "$room/out" ] || fail "'$*' wrote to standard output"
    [ "$(wc -l <"$room/err")" -eq 1 ] || fail "'$*' did not say one line: $(cat "$room/err")"
    grep -qF -- "$words" "$room/err" || fail "'$*' said: $(cat "$room/err")"
}

# answered DUE COMMAND...: it ends well, writes just that, and says nothing
answered() {
    local due=$1
    shift
    "$@" >"$room/out" 2>"$room/err" || fail "'$*' ended with status $?: $(cat "$room/err")"
    [ "$(cat "$room/out")" = "$due" ] || fail "'$*' wrote $(cat "$room/out") and not $due"
    [ ! -s "$room/err" ] || fail "'$*' said: $(cat "$room/err")"
}

# no program and no toolchain; one that fails
refused 1 'its command rt is not on the PATH' "${without_toolchain[@]}" </dev/null
touch "$room/broken"
ended=0
"${with_toolchain[@]}" "$room/three bytes" >"$room/out" 2>"$room/err" || ended=$?
[ "$ended" -eq 1 ] && [ ! -s "$room/out" ] || fail "a program that cannot be built ends with status $ended"
grep -qF 'what is wrong with it' "$room/err" || fail "what rt said is not shown: $(cat "$room/err")"
rm "$room/broken"

# two calls at once: one builds, the other waits and says so, and both read their own standard input
"${with_toolchain[@]}" <"$room/three bytes" >"$room/first" 2>"$room/first.err" &
first=$!
"${with_toolchain[@]}" <"$room/-two" >"$room/second" 2>"$room/second.err" || fail "the second call ended with status $?"
wait "$first" || fail "the first call ended with status $?"
[ "$(cat "$room/first" "$room/second")" = "$(printf 'bytes=3\nbytes=2')" ] || fail "two calls at once wrote $(cat "$room/first" "$room/second")"
[ "$(wc -l <"$room/built")" -eq 1 ] || fail "two calls at once built the program $(wc -l <"$room/built") times"
grep -q 'proving and building the program, once' "$room/first.err" "$room/second.err" || fail "nobody says that the program is built"
grep -q 'rt: a crate is proved' "$room/first.err" "$room/second.err" || fail "rt's lines are not shown"
grep -q 'waiting for another call' "$room/first.err" "$room/second.err" || fail "nobody says what is waited for"

# a program that is there is not built again, and one that is older than its sources, or than one that went,
# is
answered 'bytes=3' "${without_toolchain[@]}" "$room/three bytes"
touch -d '1 hour' "$copy/crates/wharfgrain" "$copy/crates/wharfgrain/out" "$copy/crates/wharfgrain/out/wharfgrain"
answered 'bytes=3' "${without_toolchain[@]}" "$room/three bytes"
touch -d '1 hour' "$copy/crates/new"
refused 1 'its command rt is not on the PATH' "${without_toolchain[@]}" "$room/three bytes"
rm "$copy/crates/new"
refused 1 'its command rt is not on the PATH' "${without_toolchain[@]}" "$room/three bytes"
touch "$copy/target/bin/wharfgrain"

# files in turn, from another folder, by a link, and with names that look like something else
ln -s "$command" "$room/link"
answered "$(printf 'bytes=3\nbytes=0\nbytes=3')" "${without_toolchain[@]}" "$room/three bytes" /dev/null "$room/three bytes"
(cd "$room" && answered 'bytes=2' env PATH="$room/tools" ./link -- -two)
answered 'bytes=65536' "${without_toolchain[@]}" /dev/zero

# what is wrong stops all before the first answer
refused 1 "there is no file $room/none" "${without_toolchain[@]}" "$room/three bytes" "$room/none"
refused 1 'is a folder and no file' "${without_toolchain[@]}" "$room/three bytes" "$room"
refused 2 'there is no option --modes' "${without_toolchain[@]}" --modes
refused 1 'standard input cannot be read' "${without_toolchain[@]}" <"$room"
refused 1 'standard input cannot be read' "${without_toolchain[@]}" <&-
if [ "$(id -u)" -ne 0 ]; then
    chmod a-r "$room/-two"
    refused 1 'cannot be read' "${without_toolchain[@]}" "$room/three bytes" "$room/-two"
fi
ended=0
"${without_toolchain[@]}" "$room/three bytes" >/dev/full 2>"$room/err" || ended=$?
[ "$ended" -eq 1 ] && grep -q 'cannot be written' "$room/err" || fail "an answer that is lost ends with status $ended"

# another machine needs the toolchain for its emulator
refused 1 'needs the toolchain'\''s emulator, and its command rt is not on the PATH' env MACHINE=aarch64 PATH="$room/tools" "$command" "$room/three bytes"

# a program that fails, or says nothing, gives no answer
printf '#!/usr/bin/env bash\nexit 3\n' >"$copy/target/bin/wharfgrain"
refused 1 'the program could not be run' "${without_toolchain[@]}" "$room/three bytes"
printf '#!/usr/bin/env bash\n' >"$copy/target/bin/wharfgrain"
refused 1 'the program has given no answer' "${without_toolchain[@]}" "$room/three bytes"

echo "the command answers, builds and refuses as its help says"
