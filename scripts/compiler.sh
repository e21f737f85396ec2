# The compilers that make programs for x86-64, as the archive libwharfgrain.a is, and what runs such a program
# on this machine. To be sourced, behind emulator.sh, by a script that has a function `fail`, which says its
# words and ends the script. An x86-64 machine uses its own compiler; another one uses Debian's cross compiler, links the whole
# library in, and runs the program by the toolchain's emulator.
#
#     need_compiler c
#     need_runner
#     "${compiler[@]}" -O2 -I dist program.c dist/libwharfgrain.a -o program
#     "${runner[@]}" ./program

# name_compiler LANGUAGE: sets `compiler`, the words that compile and link it (c or c++), and `packages`,
# Debian's packages that have it
name_compiler() {
    case $1:$(uname -m) in
    c:x86_64) compiler=(cc) packages=(gcc libc6-dev) ;;
    c++:x86_64) compiler=(c++) packages=(g++ libc6-dev) ;;
    c:*) compiler=(x86_64-linux-gnu-gcc -static) packages=(gcc-x86-64-linux-gnu libc6-dev-amd64-cross) ;;
    c++:*) compiler=(x86_64-linux-gnu-g++ -static) packages=(g++-x86-64-linux-gnu libc6-dev-amd64-cross) ;;
    esac
}

# the compiler is there, and the library that every program needs
compiles() {
    local folder status=0
    folder=$(mktemp -d) || fail "no folder can be made to try ${compiler[0]} in"
    printf '#include <stdio.h>\nint main(void) { return puts("") < 0; }\n' >"$folder/try.c"
    "${compiler[@]}" "$folder/try.c" -o "$folder/try" >"$folder/log" 2>&1 || status=1
    rm -rf "$folder"
    return "$status"
}

# need_compiler LANGUAGE: name_compiler, and where it does not compile it is installed
need_compiler() {
    name_compiler "$1"
    compiles || install_compiler
}

install_compiler() {
    local missing="there is no ${compiler[0]} that compiles and links"
    command -v apt-get >/dev/null || fail "$missing, and no apt-get to install Debian's ${packages[*]}"
    [ "$(id -u)" -eq 0 ] || fail "$missing; to install it, as root: apt-get install ${packages[*]}"
    echo "$missing: installing ${packages[*]} by apt-get" >&2
    { apt-get update -q && DEBIAN_FRONTEND=noninteractive apt-get install -y -q --no-install-recommends "${packages[@]}"; } </dev/null >&2 ||
        fail "apt-get could not install ${packages[*]}"
    compiles || fail "$missing, although ${packages[*]} are installed"
}

# need_runner: sets `runner`, the words before the name of a program that run it: none on x86-64
need_runner() {
    runner=()
    [ "$(uname -m)" != x86_64 ] || return 0
    find_emulator
    runner=("$emulator")
}
