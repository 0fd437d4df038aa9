#!/bin/sh
# Compares the texts in tests/play/help, which `./play NAME --help` prints before a program is compiled, with what the programs print now.
# `--write` writes them. It needs the native programs lines_demo, console and fanout; HELPS has other programs, `lines_demo=FILE console=FILE`.
set -eu
cd "$(dirname "$0")/../.."
. tests/program.sh
work=$(mktemp -d)
trap 'rm -rf "$work"' EXIT

# help_of NAME CRATE WORD..: compares or writes one.
failed=0
help_of() {
    name=$1
    crate=$2
    shift 2
    case " ${HELPS-} " in
    *" $crate="*) program=$(printf '%s\n' ${HELPS} | sed -n "s/^$crate=//p") ;;
    *) program=crates/$crate/out/$crate ;;
    esac
    need "$crate" "$program"
    "$program" "$@" --help >"$work/$name"
    if [ "$write" = yes ]; then
        cp "$work/$name" "tests/play/help/$name.txt"
    elif ! cmp "$work/$name" "tests/play/help/$name.txt"; then
        echo "tests/play/help/$name.txt is not what $crate prints: tests/play/help.sh --write"
        failed=1
    fi
}

write=no
[ "${1-}" != --write ] || write=yes
help_of threads lines_demo threads
help_of console console
help_of fanout fanout
[ "$failed" -ne 0 ] || echo 'the three texts are what the programs print'
exit "$failed"
