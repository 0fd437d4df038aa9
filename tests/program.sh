# Sourced by the tests from outside and by play, at the top of the repository: whether a native program is up to date.

# below CRATE: the crate, and the crates of this repository below it by crates.txt.
below() (
    echo "$1"
    for name in $(sed -n "s/^$1\( [^:]*\)*: *//p" crates.txt); do
        if [ -d "crates/$name" ]; then
            below "$name"
        fi
    done
)

# newer_source CRATE FILE: a file that the crate is made from and that is newer than FILE, if there is one.
newer_source() (
    set -- "$2" $(below "$1" | sort -u | sed 's|.*|crates/&/src crates/&/specs crates/&/proofs|')
    file=$1
    shift
    find crates.txt "$@" -type f -newer "$file" 2>/dev/null | head -n 1
)

# need CRATE FILE: ends the test where FILE, a native program made from the crate, isn't there or is older than its sources.
need() {
    if [ ! -x "$2" ]; then
        echo "$2 isn't there: run .ci/run"
        exit 1
    fi
    if [ -n "$(newer_source "$1" "$2")" ]; then
        echo "$2 is older than $(newer_source "$1" "$2"): remove it, and run .ci/run"
        exit 1
    fi
}

# begin CRATE: what a test of a native program begins with. $program is that of the crate, or the one that PROGRAM names, and $work
# is a temporary folder, which goes with the test.
begin() {
    program=${PROGRAM:-crates/$1/out/$1}
    need "$1" "$program"
    work=$(mktemp -d)
    trap 'rm -rf "$work"' EXIT
}
