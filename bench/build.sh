# Sourced by the scripts of this folder, at the top of the repository. $work is a temporary folder.
. tests/program.sh

# room PROGRAM CHECKOUT FOLDER: copies the sources of a program of this checkout, and the libraries that it is made from, of CHECKOUT, with
# what was proved of these.
room() {
    local crate
    mkdir -p "$3/crates/$1"
    cp "$2/HANDLES" "$3/"
    cp -r "crates/$1/src" "$3/crates/$1/"
    [ ! -d "crates/$1/proofs" ] || cp -r "crates/$1/proofs" "$3/crates/$1/"
    sed -n "/^$1[ :]/p" crates.txt >"$3/crates.txt"
    for crate in $(cd "$2" && for name in $(sed 's/.*://' "$3/crates.txt"); do
        [ ! -d "crates/$name" ] || below "$name"
    done | sort -u); do
        cp -r "$2/crates/$crate" "$3/crates/"
        sed -n "/^${crate}[ :]/p" "$2/crates.txt" >>"$3/crates.txt"
    done
}

# soak_room FOLDER: copies the sources of bench/soak, and of the crates of this checkout that it is made from.
soak_room() {
    local file crate
    mkdir -p "$1/crates/soak/src"
    cp HANDLES "$1/"
    for file in bench/soak/*.rt.txt; do
        cp "$file" "$1/crates/soak/src/$(basename "$file" .txt)"
    done
    echo 'soak: flow_rules publisher' >"$1/crates.txt"
    for crate in $(below publisher | sort -u); do
        mkdir "$1/crates/$crate"
        cp -r "crates/$crate/src" "crates/$crate/specs" "$1/crates/$crate/"
        [ ! -d "crates/$crate/proofs" ] || cp -r "crates/$crate/proofs" "$1/crates/$crate/"
        sed -n "/^${crate}[ :]/p" crates.txt >>"$1/crates.txt"
    done
}

# build PROGRAM CHECKOUT FILE WORD..: proves and builds a program over the libraries of a checkout, as FILE, and runs it once with these words.
build() {
    local program="$1" file="$3" at="$work/of_$(basename "$3")"
    room "$1" "$2" "$at"
    shift 3
    (cd "$at/crates/$program" && rt run --jobs 1 -- "$@" >"$work/built" 2>&1) || {
        cat "$work/built"
        exit 1
    }
    mv "$at/crates/$program/out/$program" "$file"
    rm -rf "$at"
}
