# For the launchers in bin/, which set $name, what errors begin with, and $root, this repository.

fail() {
    echo "$name: $1" >&2
    exit 1
}

# Whether something that the program may be built from is newer than it.
is_outdated() { # PROGRAM
    [ -n "$(find "$root/crates" "$root/crates.txt" -name out -prune -o -type f -newer "$1" -print -quit)" ]
}

# Runs the program of a crate, and builds it first where it is missing or out of date.
launch() { # CRATE
    local crate=$1
    local program=$root/crates/$crate/out/$crate
    if [ ! -x "$program" ] || is_outdated "$program"; then
        command -v rt >/dev/null || fail "the program is not built, and rt, which builds it, is not on the PATH"
        echo "$name: building with 'rt run' in crates/$crate; the first time takes minutes" >&2
        # rt also runs what it built, on no input; its own lines come on standard error
        (cd "$root/crates/$crate" && rt run) </dev/null >/dev/null || fail "'rt run' in crates/$crate failed"
        [ -x "$program" ] || fail "'rt run' left no crates/$crate/out/$crate"
        # rt leaves a program as it is if nothing that it is built from has changed; this says that it is up to date
        touch "$program"
    fi
    exec "$program"
}
