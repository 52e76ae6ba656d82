# shellcheck shell=sh disable=SC2154
# Finds the program of a script: ./cedar, ./cedar-files and ./cedar-lsp read this file with `.`, and set `root` before.

# Reports on standard error, by the name of the script.
tell() {
    echo "$script: $1" >&2
}

# Whether a file of these folders is newer than the program.
is_older() {
    [ -n "$(find "$root/crates.txt" "$@" -type f -newer "$program" -print -quit)" ]
}

# Sets `program` to one that was built without a proof and is as new as the sources, if there is one.
find_unproved() {
    case ${XDG_CACHE_HOME:-} in
    /*) cache=$XDG_CACHE_HOME ;;
    *) cache=${HOME:+$HOME/.cache} ;;
    esac
    for folder in "$root/out/unproved" ${cache:+"$cache/noblesilk$root"}; do
        program=$folder/$crate
        if [ -x "$program" ] && ! is_older "$root"/crates/*/src; then
            return 0
        fi
    done
    return 1
}

# Builds the program without a proof. A signal to the script ends that too.
build_unproved() {
    for it in python3 rt; do
        command -v "$it" > /dev/null || {
            tell "there is no $it on the PATH, see \"Install\" in $root/README.md"
            exit 1
        }
    done
    "$root/build-unproved" "$crate" < /dev/null &
    child=$!
    for it in HUP:129 INT:130 TERM:143; do
        # shellcheck disable=SC2064
        trap "kill $child 2> /dev/null; wait $child; exit ${it#*:}" "${it%:*}"
    done
    wait "$child" || exit
    trap - HUP INT TERM
}

# Sets `program` to that of the crate $1, for the script $2: the proved one, if ./build has made it, else one that the first
# use builds from the sources, in a minute or two. If that fails, the script ends with status 1.
find_program() {
    crate=$1 script=$2 program=$root/crates/$1/out/$1
    if [ -x "$program" ]; then
        # (only if a person reads it: an editor takes standard error for that of the program)
        if [ -t 2 ] && is_older "$root"/crates/*/src "$root"/crates/*/specs "$root"/crates/*/proofs; then
            tell "the proved program is older than the sources; ./build brings it up to date"
        fi
    elif ! find_unproved; then
        build_unproved
        find_unproved || {
            tell "the sources changed while the program was built; run it again"
            exit 1
        }
    fi
    # (once a build, to the first person who uses it)
    if [ -t 2 ] && [ -e "$program.new" ] && rm "$program.new" 2> /dev/null; then
        tell "not proved on this machine; ./build proves it and puts the proved program in its place"
    fi
}
