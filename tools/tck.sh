#!/usr/bin/env bash
# Runs the TCK of Reactive Streams 1.0.3, its tests of a publisher, on consoles: a publisher of Java (tck/ConsolePublisher.java) types
# lines and reads what the program console prints. Prints which tests failed and which were skipped; the last line is
# `N passed, M failed, K skipped`. It is no part of the gate.
# With --spoilt it runs the tests once for each way in which tck/spoil.py spoils what the console prints, or for those that are named, and
# prints how many tests fail; its status is 1 if none does in one of them.
# It needs the native program, which `rt ci` leaves in crates/console/out, Java 17 (default-jdk-headless), and TestNG (the package testng).
# TCK is the folder of the TCK's sources; without it they are fetched, as Debian's source package reactive-streams. PROGRAM names another
# program.
set -eu
cd "$(dirname "$0")/.."
. tests/program.sh
program=$(realpath "${PROGRAM:-crates/console/out/console}")
need console "$program"
work=$(mktemp -d)
trap 'rm -rf "$work"' EXIT

# fetch: puts the sources into $work, with lists of packages of its own.
fetch() {
    mkdir -p "$work/lists/partial"
    echo 'deb-src [signed-by=/usr/share/keyrings/debian-archive-keyring.gpg] http://deb.debian.org/debian bookworm main' >"$work/sources.list"
    local apt=(apt-get -q -o "Dir::Etc::sourcelist=$work/sources.list" -o Dir::Etc::sourceparts=- -o "Dir::State::lists=$work/lists")
    (cd "$work" && "${apt[@]}" update && "${apt[@]}" source reactive-streams=1.0.3-1) >"$work/fetched" 2>&1 || {
        cat "$work/fetched" >&2
        exit 1
    }
    TCK=$work/reactive-streams-1.0.3
}

if [ -z "${TCK-}" ]; then
    fetch
fi
jars=/usr/share/java/testng.jar:/usr/share/java/jcommander.jar:/usr/share/java/bsh.jar
find "$TCK"/api/src/main/java "$TCK"/api/src/main/java9 "$TCK"/tck/src/main/java "$TCK"/tck-flow/src/main/java "$TCK"/examples/src/main/java -name '*.java' >"$work/sources"
javac -nowarn -Xlint:none -cp "$jars" -d "$work/classes" @"$work/sources" tools/tck/*.java

# run PROGRAM
run() {
    java -Dconsole="$1" -cp "$work/classes:$jars" Run "$work/results"
}

if [ "${1-}" != --spoilt ]; then
    run "$program"
    exit
fi
shift
if [ $# -eq 0 ]; then
    # shellcheck disable=SC2046
    set -- $(tools/tck/spoil.py)
fi
missed=0
for kind; do
    SPOILT=$kind CONSOLE=$program run "$PWD/tools/tck/spoil.py" >"$work/run" 2>"$work/said" || true
    echo "$kind: $(tail -n 1 "$work/run")"
    grep '^FAILED' "$work/run" | sed 's/^/    /'
    grep -q '^FAILED' "$work/run" || missed=1
done
exit "$missed"
