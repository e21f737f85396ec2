# What runs programs for x86-64 on another machine: the toolchain's own emulator. To be sourced by a script
# that has a function `fail`, which says its words and ends the script.

# find_emulator: sets `emulator`, the emulator's own path, and `emulated`, the folder with the libraries of
# x86-64 that come with it
find_emulator() {
    local machine guide
    machine=$(uname -m)
    command -v rt >/dev/null ||
        fail "this machine, $machine, needs the toolchain's emulator, and its command rt is not on the PATH"
    guide=$(rt doc) || fail "rt does not tell where the toolchain is"
    emulator=$(dirname "$guide")/on/$machine/toolchain/bin/qemu-x86_64
    emulated=${emulator%/bin/*}/lib
    [ -x "$emulator" ] || fail "this machine, $machine, needs the toolchain's emulator, and there is none at $emulator"
}
