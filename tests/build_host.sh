#!/usr/bin/env bash
# The command bin/build-host does what its help says: it makes dist/ or leaves it as it was, one call at a
# time; it installs a compiler only where there is none; and what is wrong gets a line on standard error and
# an exit status of its own. The toolchain, the compiler and apt-get are stand-ins here, so that nothing is
# proved, linked or installed: that the archive links and answers is seen by host_example.sh.
set -euo pipefail
unset CDPATH
cd "$(dirname "$0")/.."

room=$(mktemp -d)
trap 'rm -rf "$room"' EXIT

fail() {
    echo "tests/build_host.sh: $*" >&2
    exit 1
}

# a copy of the command, in a folder whose name has a space, and the tools that it uses, with no rt, no
# compiler and no apt-get among them
copy="$room/a copy"
mkdir -p "$copy" "$room/tools" "$room/kit" "$room/compilers" "$room/apt"
cp -R bin scripts include examples "$copy"
mkdir -p "$copy/crates/host_c"
for tool in bash cat chmod cp dirname flock grep mkdir mktemp mv readlink rm rmdir sed sleep tee; do
    ln -s "$(command -v "$tool")" "$room/tools/$tool"
done
stand_in() {
    cat >"$1" && chmod +x "$1"
}
stand_in "$room/tools/uname" <<'TEXT'
#!/usr/bin/env bash
echo "${MACHINE-x86_64}"
TEXT
stand_in "$room/tools/id" <<'TEXT'
#!/usr/bin/env bash
echo "${USER_ID-0}"
TEXT
# the toolchain takes a second to prove, notes how often it did, and fails or forgets the archive when told to
stand_in "$room/kit/rt" <<TEXT
#!/usr/bin/env bash
cat
case "\$* \${PWD##*/}" in
'lib host_c')
    sleep 1
    echo "crate laws: what rt does not say itself"
    echo "rt: host_c proved"
    echo proved >>"$room/proved"
    mkdir -p out
    [ -e "$room/forgetful" ] || cat "$room/proved" >out/libhost_c.a
    ;;
doc\ *) echo "$room/kit/guide" ;;
*) exit 2 ;;
esac
[ ! -e "$room/broken" ] || { echo "what is wrong with it"; exit 1; }
TEXT
# the compilers note how they were called and leave a program
stand_in "$room/compilers/cc" <<TEXT
#!/usr/bin/env bash
echo "\${0##*/} \$*" >>"$room/compiled"
[[ ! -e "$room/unlinkable" || \$* != *libwharfgrain.a* ]] || { echo "what does not link"; exit 1; }
while [ "\$1" != -o ]; do shift; done
echo program >"\$2"
TEXT
cp "$room/compilers/cc" "$room/compilers/x86_64-linux-gnu-gcc"
# apt-get notes how it was called, and installs both compilers unless it is told to fail
mkdir "$room/installed"
stand_in "$room/apt/apt-get" <<TEXT
#!/usr/bin/env bash
echo "\$*" >>"$room/asked"
[ ! -e "$room/offline" ] || exit 100
[[ \$* != install* ]] || cp "$room/compilers/"* "$room/installed"
TEXT

command="$copy/bin/build-host"
tools=$room/kit:$room/tools
with_compiler=(env PATH="$room/compilers:$tools" "$command")
dist=$copy/dist

# ended STATUS COMMAND...: it ends so; what it wrote and said is kept in out and err
ended() {
    local due=$1 status=0
    shift
    "$@" >"$room/out" 2>"$room/err" || status=$?
    [ "$status" -eq "$due" ] || fail "'$*' ended with status $status, not $due: $(cat "$room/err")"
}

said() {
    grep -qF -- "$1" "$room/err" || fail "it did not say '$1' but: $(cat "$room/err")"
}

# refused STATUS WORDS COMMAND...: it ends with the status, has written nothing, says the words in its last
# line on standard error, and leaves dist/ as it was
refused() {
    local status=$1 words=$2 before
    shift 2
    before=$(left)
    ended "$status" "$@"
    [ ! -s "$room/out" ] || fail "'$*' wrote to standard output"
    grep -qF -- "$words" <<<"$(sed -n '$p' "$room/err")" || fail "'$*' said: $(cat "$room/err")"
    [ "$(left)" = "$before" ] || fail "'$*' has changed dist/"
}

# refused_at_once: the same, and the line is the only one
refused_at_once() {
    refused "$@"
    [ "$(wc -l <"$room/err")" -eq 1 ] || fail "'${*:3}' did not say one line: $(cat "$room/err")"
}

# what is in dist/, hidden files too
left() {
    { ls -A "$dist" && cksum "$dist/"*; } 2>/dev/null || true
}

# dist/ has the header and the archive that rt has left, and nothing else
complete() {
    [ "$(ls -A "$dist")" = $'libwharfgrain.a\nwharfgrain.h' ] || fail "dist/ is not complete: $(left)"
    cmp "$dist/wharfgrain.h" "$copy/include/wharfgrain.h" || fail "dist/ has another header"
    cmp "$dist/libwharfgrain.a" "$copy/crates/host_c/out/libhost_c.a" || fail "dist/ has another archive"
}

# built COMMAND...: it ends well, and dist/ is complete
built() {
    ended 0 "$@"
    complete
}

# ---- what is missing or wrong, with no dist/ yet

refused_at_once 1 'its command rt is not on the PATH' env PATH="$room/compilers:$room/tools" "$command"
refused_at_once 2 'there is no option --examples' "${with_compiler[@]}" --examples
refused_at_once 2 'there is no option --unlinked dist' "${with_compiler[@]}" --unlinked dist
refused_at_once 2 'there is no option dist' "${with_compiler[@]}" dist
refused_at_once 2 'there is no option' "${with_compiler[@]}" ''
refused_at_once 1 'and no apt-get to install' env PATH="$tools" "$command"
refused_at_once 1 'as root: apt-get install gcc libc6-dev' env USER_ID=1000 PATH="$room/apt:$tools" "$command"
[ ! -e "$room/asked" ] || fail "apt-get was called by one who is not root"
touch "$room/broken"
refused 1 'could not be proved or built' "${with_compiler[@]}"
said 'what is wrong with it'
rm "$room/broken"
touch "$room/forgetful"
refused 1 'rt has left no archive' "${with_compiler[@]}"
rm "$room/forgetful"
[ ! -e "$dist" ] || fail "refused calls have left dist/"
touch "$dist"
refused_at_once 1 "$dist cannot be written" "${with_compiler[@]}"
rm "$dist"

# ---- what goes well

# two calls at once: one works, the other waits and says so
"${with_compiler[@]}" >"$room/first" 2>"$room/first.err" &
first=$!
ended 0 "${with_compiler[@]}"
wait "$first" || fail "the first call ended with status $?"
complete
cat "$room/first.err" >>"$room/err"
said 'rt: host_c proved'
said 'waiting for another call'
! grep -q 'what rt does not say itself' "$room/err" || fail "more than rt's own lines is told"
built "${with_compiler[@]}"

# from another folder, by a link; the lines that link and run are those of a shell
ln -s "$command" "$room/link"
(cd / && built env PATH="$room/compilers:$tools" "$room/link")
words=()
while read -r line; do
    eval "words+=($line)"
done < <(sed -n 's/^    //p' "$room/out")
due=(cc -O2 -I "$dist" "$copy/examples/host.c" "$dist/libwharfgrain.a" -o "$copy/target/host" "$copy/target/host")
[ "${words[*]@Q}" = "${due[*]@Q}" ] || fail "it says to link so: $(cat "$room/out")"

# what goes wrong later leaves dist/ as it was
touch "$room/broken"
refused 1 'could not be proved or built' "${with_compiler[@]}"
rm "$room/broken"
touch "$room/unlinkable"
refused 1 'examples/host.c could not be linked' "${with_compiler[@]}"
said 'what does not link'
rm "$room/unlinkable"

# ---- the compiler

# without linking on trial none is needed, and none is looked for
rm "$room/compiled"
built env PATH="$room/apt:$tools" "$command" --unlinked
built "${with_compiler[@]}" --unlinked
[ ! -e "$room/compiled" ] && [ ! -e "$room/asked" ] || fail "--unlinked has used a compiler or apt-get"

# it is installed where it is missing, which is said before; and where that fails, nothing is proved
proved=$(wc -l <"$room/proved")
touch "$room/offline"
refused 1 'apt-get could not install gcc libc6-dev' env PATH="$room/apt:$tools" "$command"
[ "$(wc -l <"$room/proved")" -eq "$proved" ] || fail "it has proved something before it looked for a compiler"
rm "$room/offline" "$room/asked"
built env PATH="$room/installed:$room/apt:$tools" "$command"
said 'installing gcc libc6-dev by apt-get'
[ "$(sed -n '$p' "$room/asked")" = 'install -y -q --no-install-recommends gcc libc6-dev' ] || fail "apt-get was called so: $(cat "$room/asked")"
rm "$room/asked"
built env PATH="$room/installed:$room/apt:$tools" "$command"
[ ! -e "$room/asked" ] || fail "apt-get was called although the compiler is there"

# on another machine it is the cross compiler, and the toolchain's emulator runs the program
on_arm=(env MACHINE=aarch64 PATH="$room/installed:$room/apt:$tools" "$command")
emulator=$room/kit/on/aarch64/toolchain/bin/qemu-x86_64
refused_at_once 1 "there is none at $emulator" "${on_arm[@]}"
mkdir -p "$(dirname "$emulator")"
stand_in "$emulator" </dev/null
rm "$room/installed/"*
built "${on_arm[@]}"
said 'installing gcc-x86-64-linux-gnu libc6-dev-amd64-cross by apt-get'
grep -qF 'The archive is for x86-64, and this machine is aarch64' "$room/out" || fail "it does not say what the archive is for: $(cat "$room/out")"
grep -q '^    x86_64-linux-gnu-gcc -static ' "$room/out" || fail "it says to link so: $(cat "$room/out")"
grep -qF "    $emulator " "$room/out" || fail "it says to run so: $(cat "$room/out")"
grep -q '^x86_64-linux-gnu-gcc -static .*libwharfgrain\.a' "$room/compiled" || fail "it has not linked so: $(cat "$room/compiled")"

# ---- the help

for option in -h --help; do
    ended 0 env PATH="$room/tools" "$command" "$option"
    [ ! -s "$room/err" ] && grep -q '^usage: bin/build-host' "$room/out" || fail "$option does not explain"
done

echo "the command builds and refuses as its help says"
