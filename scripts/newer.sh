# Whether something has to be made again. To be sourced by a script.

# newer_than FILE PATH...: prints the first of the paths' files that is newer than the file; it is called where crates/
# is. What rt leaves in a crate's folder out/ counts for nothing, and neither does the time of the crate's folder, in
# which rt makes that one.
newer_than() {
    local made=$1
    shift
    find "$@" \( -name out -type d -prune \) -o \( -path 'crates/*' ! -path 'crates/*/*' -type d \) -o -newer "$made" -print -quit
}
