#!/usr/bin/env bash
# Compiles the library for the machine at hand, for measuring. The archive libwharfgrain.a is for x86-64, and
# on another machine an emulator would be measured with it. This takes the module that the archive is made of, as
# the prover hands it to the toolchain's compiler, and has the same compiler make an object of it for this machine.
set -euo pipefail
unset CDPATH

root=$(cd "$(dirname "$(readlink -f "$0")")/.." && pwd -P)
machine=$(uname -m)

say() {
    printf 'native-object: %s\n' "$*" >&2
}

fail() {
    say "$@"
    exit 1
}

explain() {
    cat <<'TEXT'
usage: scripts/native-object.sh OUT.o     proves the crate host_c, and compiles its functions for this machine
       scripts/native-object.sh --help    says this

A program in C links OUT.o in the place of libwharfgrain.a, with this machine's own compiler. Beside it there is
OUT.ll, the module as the compiler has improved it for this machine. Only bin/build-host makes what is handed to
users.

The exit status is 0 where OUT.o is new. It is 1 where something is missing, not proved or not compiled, and 2 for
anything but one name that ends in .o: standard error tells what.
TEXT
}

case $#:${1-} in
1:-h | 1:--help)
    explain
    exit 0
    ;;
1:?*.o) out=$(readlink -f "$1") || fail "there is no folder for $1" ;;
*)
    say "one name that ends in .o is needed; scripts/native-object.sh --help tells how it is used"
    exit 2
    ;;
esac

# Two programs that prove at once would be in each other's way. The lock is that of bin/build-host.
wait_for_others() {
    { mkdir -p "$root/target" && exec 9>"$root/target/wharfgrain.lock"; } 2>/dev/null || fail "$root/target cannot be written"
    if command -v flock >/dev/null && ! flock -n 9; then
        say "waiting for another call, which is proving and building"
        flock 9
    fi
}

# link_all_but NAMES FOLDER: the shadow's folder gets links to all that the kit's folder has, but for a pattern of names
link_all_but() {
    local file
    mkdir -p "$shadow/$2"
    for file in "$kit/$2"/*; do
        # shellcheck disable=SC2053
        [[ ${file##*/} == $1 ]] || ln -s "$file" "$shadow/$2/"
    done
}

# A shadow of the toolchain, all links but for rt, which looks for the rest beside itself; only the compiler is
# another: before it does what it is told it keeps a copy of the module that it is given.
make_shadow() {
    link_all_but '@(bin|toolchain)' .
    link_all_but '@(rt|rtlib.py)' bin
    cp "$kit/bin/rt" "$kit/bin/rtlib.py" "$shadow/bin"
    link_all_but bin toolchain
    link_all_but clang toolchain/bin
    cat >"$shadow/toolchain/bin/clang" <<WRAPPER
#!/usr/bin/env bash
for word; do
    case \$word in *.bc | *.ll) cp "\$word" "$room/module" ;; esac
done
exec -a clang "$compiler" "\$@"
WRAPPER
    chmod +x "$shadow/toolchain/bin/clang"
}

# quietly WORDS...: runs them, and shows what they write only where they fail
quietly() {
    "$@" </dev/null >"$room/log" 2>&1 || {
        cat "$room/log" >&2
        return 1
    }
}

# The archive that rt writes in crates/host_c/out/ is the usual one. The first `rt lib` proves; the shadow's compiles
# what is proved once more.
prove_and_build() {
    (cd "$root/crates/host_c" && quietly rt lib 9>&- && quietly "$shadow/bin/rt" lib 9>&-)
}

# The module as text; for another machine without what is said of x86-64 in it.
write_module() {
    quietly "$compiler" --target=x86_64-unknown-linux-gnu -x ir "$room/module" -S -emit-llvm -O3 -Xclang -disable-llvm-passes -o "$room/module.ll" ||
        fail "the module cannot be read"
    if [ "$machine" != x86_64 ]; then
        sed -E -i -e '/^target (datalayout|triple)/d' -e 's/"probe-stack"="inline-asm" ?//; s/ ?"target-cpu"="x86-64"//' "$room/module.ll"
    fi
}

# compile_module WORDS... FILE: what the words ask of the compiler for this machine, from the module
compile_module() {
    quietly "$compiler" --target="$machine-unknown-linux-gnu" -O3 -fPIC -Wno-override-module -x ir "$room/module.ll" "${@:1:$#-1}" -o "${!#}" ||
        fail "the module could not be compiled for $machine"
}

command -v rt >/dev/null || fail "the Rattle toolchain, which proves and builds the library, is not here: its command rt is not on the PATH"
guide=$(rt doc) || fail "rt does not tell where the toolchain is"
kit=$(dirname "$guide")
compiler=$kit/toolchain/bin/clang
[ -x "$compiler" ] || fail "the toolchain has no compiler for this machine, $machine, at $compiler"
room=$(mktemp -d)
trap 'rm -rf "$room"' EXIT
shadow=$room/kit

wait_for_others
make_shadow
say "proving the library, which takes some minutes the first time, and compiling it for $machine"
prove_and_build || fail "the library could not be proved or built"
[ -f "$room/module" ] || fail "the prover has handed no module to the compiler"
write_module
compile_module -c "$room/module.o"
compile_module -S -emit-llvm "$room/improved.ll"
{ cp "$room/improved.ll" "${out%.o}.ll" && cp "$room/module.o" "$out"; } 2>/dev/null || fail "$out cannot be written"
