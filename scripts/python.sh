# python3, which the tests from the host side need. To be sourced by a script that has a function `fail`, which
# says its words and ends the script.

# need_python: it is there, or is installed by apt-get, which is said before
need_python() {
    ! command -v python3 >/dev/null || return 0
    echo "python3 is missing: installing it by apt-get" >&2
    { apt-get update -q && apt-get install -y -q python3; } >&2 || fail "python3 could not be installed"
}
