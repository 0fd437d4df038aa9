#!/usr/bin/env bash
# Runs each program of bench/ with little to do: it has to print its line. That of bench/soak.sh is compiled, formatted and run by `rt try`,
# which takes a minute or two.
set -eu
cd "$(dirname "$0")/../.."
work=$(mktemp -d)
trap 'rm -rf "$work"' EXIT
. bench/build.sh

# fits NAME PATTERN TEXT: the text is one line that fits the pattern.
fits() {
    if ! [[ $3 =~ ^$2$ ]]; then
        echo "$1 prints $3, and not a line $2"
        exit 1
    fi
}

# prints PROGRAM PATTERN WORD..: the program prints one line for these words, which fits the pattern.
prints() {
    local program="$1" pattern="$2" said
    shift 2
    need "$program" "crates/$program/out/$program"
    said=$("crates/$program/out/$program" "$@")
    fits "$program $*" "$pattern" "$said"
}

prints cell_bench '[0-9]+' size
prints cell_bench '[0-9]+' cell 4 1000
prints cell_bench '[0-9]+' queue 4 1000
prints pool_bench '[0-9]+' 2 4 1000 9
prints deliveries_bench '[0-9]+' fast 1 4 4 16 256 400
prints deliveries_bench '[0-9]+ [0-9]+ [0-9]+' left 100 2 4 4 16 256 400
prints deliveries_bench '[0-9]+ [0-9]+' slow 2
prints deliveries_bench '[0-9]+' alone 1 20 100

soak_room "$work"
(cd "$work/crates/soak" && rt fmt) >"$work/said" 2>&1
for file in bench/soak/*.rt.txt; do
    diff "$file" "$work/crates/soak/src/$(basename "$file" .txt)"
done
said=$(cd "$work/crates/soak" && rt try soak -- 2 4 2000 2>"$work/said") || {
    cat "$work/said"
    exit 1
}
# The faults are the last number but one.
fits 'soak 2 4 2000' '([0-9]+ ){8}0 [0-9]+' "$said"
echo 'each program of bench/ runs'
