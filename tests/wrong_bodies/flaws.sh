#!/usr/bin/env bash
# Plants flaws of its own in a tiny crate, and compares what try.py says of each: a bug is refused, and all else is reported.
# All is tried over what a check kept of the crate without them: what has changed since has to be proved anew. What was refused is kept, and
# is tried again as soon as the edit, the crate or a crate below it has changed. A line of the repository stands for what was refused on another
# machine; one that is forged is found as soon as it is drawn.
# It needs the toolchain's command `rt`, and takes some twenty checks of a crate of six functions and a few of one above it, four or five
# minutes.
set -eu
try=$(cd "$(dirname "$0")/../.." && pwd)/tools/wrong_bodies/try.py
work=$(mktemp -d)
root=$work
trap 'rm -rf "$work"' EXIT
crate=$work/crates/tiny
export XDG_CACHE_HOME="$work/cache"
mkdir -p "$crate/src" "$crate/proofs/least_of_three" "$crate/proofs/lowest" "$crate/wrong-bodies"
echo 'tiny:' >"$work/crates.txt"
cat >"$crate/src/lib.rt" <<'END'
#![tactic(auto)]

ghost use Rattle.std.specs.Prelude.{◌≡◌, ◌≤◌, min};

pub const MOST: u8 = 200;

pub fn least(a: u8, b: u8) -> u8
    ensures { result ≡ min a b }
{
    if a < b { a } else { b }
}

pub fn least_of_three(a: u8, b: u8, c: u8) -> u8
    ensures { result ≡ min (min a b) c }
{
    let low = least(a, b);
    least(low, c)
}

pub fn lowest(a: u8, b: u8, c: u8) -> u8
    ensures { result ≡ min (min a b) c }
{
    let low: u8 = least(a, b);
    least(c, low)
}

pub fn least_again(a: u8, b: u8) -> u8
    ensures { result ≡ min a b }
{
    least(a, b)
}

pub fn greatest(a: u8, b: u8) -> u8
    ensures first { a ≤ result }
    ensures second { b ≤ result }
{
    if a > b { a } else { b }
}

pub fn bounded(a: u8) -> u8
    ensures { result ≤ 200 }
{
    a.min(MOST)
}

pub trait Picks {
    fn pick(a: u8, b: u8) -> u8
        ensures { result ≡ min a b };
}

#[derive(Drop)]
pub struct Low;

impl Picks for Low {
    fn pick(a: u8, b: u8) -> u8 {
        if b < a { b } else { a }
    }
}
END
cat >"$crate/proofs/least_of_three/Answers.antt" <<'END'
use Rattle.std.proofs.Common.{rules, ◌≡◌}
use Rattle.std.specs.Prelude.{min}
use Rattle.tiny.proofs.least_of_three.Goals as goal

low_is : (c : goal.After-least) → c.least-low.result ≡ min c.args.a c.args.b
low_is c = c.least-low.ensures

pub returns : goal.returns
returns c = search (low_is c, c.least.ensures, rules)
END
# One more with answers, which a lemma names.
sed 's/least_of_three/lowest/' "$crate/proofs/least_of_three/Answers.antt" >"$crate/proofs/lowest/Answers.antt"
echo 'mod Naming' >"$crate/proofs/Lib.antt"
cat >"$crate/proofs/Naming.antt" <<'END'
use Rattle.tiny.proofs.lowest.Statement.{statement}

pub again : {A : Type 1} → statement A → statement A
again it = it
END

# edit NAME LINE..: an edit that says where it is refused by its last line, or else by the clause with no name.
edit() {
    name=$1
    shift
    case ${!#} in
    new:*) set -- "$@" 'clause: its only one' ;;
    esac
    printf '%s\n' 'file: src/lib.rt' "$@" >"$crate/wrong-bodies/$name.edit"
}

# try: runs try.py on the tiny crate. The status has to be 1 where anything fails, and 0 else.
try() {
    try_kept --all "$@"
}

# try_kept: the same, but for what earlier runs saw refused.
try_kept() {
    status=0
    "$try" --root "$root" "$@" >"$work/said" 2>&1 || status=$?
}

# is_kept NAME: what try_kept tries is refused, and this edit was not tried.
is_kept() {
    try_kept "$@"
    [ "$status" -eq 0 ]
    said "$1: refused: kept: "
    said '1 of these kept from earlier runs on this machine, 0 by their lines'
    said '1 passed, 0 failed'
    if grep -q 'proved as it is' "$work/said"; then
        echo "$1 was tried again"
        exit 1
    fi
}

# is_tried NAME WORD..: try_kept refuses this edit, which it tries.
is_tried() {
    try_kept "$@"
    [ "$status" -eq 0 ]
    said "$1: refused: note: src/lib.rt:"
    said '0 of these kept from earlier runs'
    said '1 passed, 0 failed'
}

# at_a_commit TEXT WORD..: try_kept at one commit after another, each of which draws other lines, until it writes a line that begins so.
at_a_commit() {
    wanted=$1
    shift
    for _ in $(seq 200); do
        git -C "$root" commit --quiet --allow-empty --message another
        try_kept "$@"
        if grep -q "^$wanted" "$work/said"; then
            return
        fi
    done
    echo "at none of 200 commits a line with: $wanted"
    exit 1
}

# forge NAME: adds the line of this edit of the tiny crate that fits.
forge() {
    python3 - "$(dirname "$try")" "$root" "$1" >>"$root/crates/tiny/wrong-bodies/kept" <<'END'
import sys

sys.dont_write_bytecode = True
_, tools, root, name = sys.argv
sys.path.append(tools)
from crate import Crate
from kept import Kept

crate, kept = Crate("tiny", [], [], root, [f"tiny/{name}"]), Kept(True)
kept.recall(crate, root)
print(name, kept.sum_of(crate.edits[0], crate))
END
}

# said TEXT: it wrote a line that begins so.
said() {
    grep -qF -- "$1" "$work/said" || {
        echo "no line with: $1"
        cat "$work/said"
        exit 1
    }
}

try
[ "$status" -eq 1 ]
said 'no edit was tried'
said '0 passed, 1 failed'

(cd "$crate" && rt check --jobs 1 >"$work/said" 2>&1)
[ -d "$crate/out/incremental" ]
edit a_bug 'old: if a < b' 'new: if a > b'
edit a_bug_in_a_constant 'old: u8 = 200' 'new: u8 = 201'
edit no_bug 'old: if a < b' 'new: if a <= b'
edit a_bug_in_an_impl 'old: if b < a' 'new: if b > a'
edit another_bug_in_an_impl 'old: { b } else { a }' 'new: { a } else { a }'
edit a_bug_in_what_is_named 'old: least(c, low)' 'new: least(b, low)'
edit no_bug_in_what_is_named 'old: least(c, low)' 'new: (least(c, low))'
edit names_are_gone 'old: let low = least(a, b);' 'new: let lowest = least(a, b);' 'old: least(low, c)' 'new: least(lowest, c)'
edit no_bug_with_answers 'old: least(low, c)' 'new: (least(low, c))'
edit one_bug_more 'old: if a < b { a }' 'new: if a < b { b }'
edit one_more_with_answers 'old: least(low, c)' 'new: least(low, b)'
edit only_its_callee_is_wrong 'old:     least(a, b)' 'new:     least(b, a)'
answer=('file: proofs/least_again/Answers.antt' 'add: use Rattle.tiny.proofs.least_again.Goals as goal' 'add: pub returns : goal.returns'
    'add: returns c = c.least.ensures' 'clause: its only one')
edit no_bug_with_its_answer 'old:     least(a, b)' 'new:     (least(a, b))' "${answer[@]}"
edit a_bug_with_an_answer 'old:     least(a, b)' 'new:     least(a, a)' "${answer[@]}"
edit the_first_clause 'old: if a > b { a }' 'new: if a > b { b }' 'clause: first'
edit another_clause 'old: if a > b { a } else { b }' 'new: if a > b { a } else { a }' 'clause: first'
edit another_goal 'old: if a > b { a }' 'new: if b > b { a }' 'goal: least-requires'
edit no_such_name 'old: a.min(MOST)' 'new: a.min(LEAST)'
edit no_single_place 'old: least(' 'new: most('
edit no_line 'old: a.min(MOST)' 'now: a'
edit half_a_pair 'old: a.min(MOST)'
printf '%s\n' 'file: src/lib.rt' 'old: a.min(MOST)' 'new: a' >"$crate/wrong-bodies/no_clause.edit"
touch "$crate/wrong-bodies/another_end.txt"
sum=$("$try" --root "$work" --sum)
try --proved "$sum"
[ "$status" -eq 1 ]
said 'tiny/a_bug: refused: note: src/lib.rt:'
said 'tiny/a_bug_in_a_constant: refused: '
said 'tiny/a_bug_in_an_impl: refused: note: src/lib.rt:'
said 'tiny/another_bug_in_an_impl: refused: note: src/lib.rt:'
said 'tiny/a_bug_in_what_is_named: refused: ./proofs/lowest/Answers.antt:'
said 'tiny/no_bug_in_what_is_named: LET THROUGH'
said 'tiny/no_bug: LET THROUGH'
said 'tiny/names_are_gone: refused only by names that are gone'
said 'tiny/no_bug_with_answers: LET THROUGH'
said 'tiny/one_bug_more: refused: note: src/lib.rt:'
said 'tiny/one_more_with_answers: refused: ./proofs/least_of_three_again_2/Answers.antt:'
said 'tiny/only_its_callee_is_wrong: LET THROUGH'
said 'tiny/no_bug_with_its_answer: LET THROUGH'
said 'tiny/a_bug_with_an_answer: refused: ./proofs/least_again/Answers.antt:'
said 'tiny/the_first_clause: refused: note: src/lib.rt:'
said 'tiny/another_clause: refused, but not at first: note: src/lib.rt:'
said 'tiny/another_goal: refused, but not at least-requires: note: src/lib.rt:'
said 'tiny/no_clause: it has no line `clause:` or `goal:`'
said "tiny/no_such_name: it doesn't compile"
said 'tiny/no_single_place: an `old:` text is in src/lib.rt 6 times'
said 'tiny/no_line: this line is not in its place: now: a'
said 'tiny/half_a_pair: it has no pair'
said "tiny/another_end.txt: its name doesn't end in .edit"
said '9 passed, 14 failed'

# An edit that was refused is kept. It is tried again if it changes, if its crate does, and with --all; one that was not refused always is.
# What it says of a promise is no change. A line that fits no longer, or is another's, is ignored.
lines=$crate/wrong-bodies/kept
is_kept tiny/a_bug --write
[ "$(grep -vc '^#' "$lines")" -eq 9 ]
cp "$lines" "$work/lines"
is_kept tiny/a_bug --write
cmp "$lines" "$work/lines"
is_tried tiny/a_bug --all
said '0 lines taken, 1 tried (all), 0 ignored'
said 'all 1 wrong bodies were tried'
edit a_bug 'old: if a < b' 'new: if a == b'
is_tried tiny/a_bug
said ', 1 ignored'
is_kept tiny/a_bug
printf '%s\n' 'shows: least its only one' 'says: The answer is the smaller number.' >>"$crate/wrong-bodies/a_bug.edit"
is_kept tiny/a_bug --write
[ "$(diff "$work/lines" "$lines" | sed -n 's/^> \([^ ]*\) .*/\1/p')" = a_bug ]
[ "$(grep -vc '^#' "$lines")" -eq 9 ]
echo '// A comment more.' >>"$crate/src/lib.rt"
is_tried tiny/a_bug
said ', 1 ignored'
sed -i '/^\/\/ A comment more/d' "$crate/src/lib.rt"
is_kept tiny/a_bug
cp "$lines" "$work/lines"
sed -n 's/^a_bug /no_bug /p' "$work/lines" >>"$lines"
try_kept tiny/no_bug --write
[ "$status" -eq 1 ]
said 'tiny/no_bug: LET THROUGH'
said '0 of these kept from earlier runs on this machine, 0 by their lines'
said ', 1 ignored'
cmp "$lines" "$work/lines"
edit a_bug 'old: if a < b' 'new: if a > b'
is_kept tiny/a_bug --write
sum=$("$try" --root "$work" --sum)

# In a clone on another machine a line stands for a try, unless it is drawn by the commit. What is tried then is kept there.
export GIT_CONFIG_GLOBAL=/dev/null GIT_AUTHOR_NAME=One GIT_COMMITTER_NAME=One GIT_AUTHOR_EMAIL=one@example GIT_COMMITTER_EMAIL=one@example
root=$work/clone
mkdir "$root"
cp -r "$work/crates" "$work/crates.txt" "$root"
git -C "$root" init --quiet
export XDG_CACHE_HOME="$root/cache"
at_a_commit '1 lines taken' tiny/a_bug
[ "$status" -eq 0 ]
said 'tiny/a_bug: refused: kept: by its line in wrong-bodies/kept'
said '0 of these kept from earlier runs on this machine, 1 by their lines'
said '1 passed, 0 failed'
at_a_commit '0 lines taken, 1 tried' tiny/a_bug
[ "$status" -eq 0 ]
said 'tiny/a_bug: refused: note: src/lib.rt:'
said '1 passed, 0 failed'
is_kept tiny/a_bug

# A forged line is believed only until it is drawn.
forge no_bug
at_a_commit '1 lines taken' tiny/no_bug --write
[ "$status" -eq 0 ]
grep -q '^no_bug ' "$root/crates/tiny/wrong-bodies/kept"
at_a_commit '0 lines taken, 1 tried' tiny/no_bug --write
[ "$status" -eq 1 ]
said 'tiny/no_bug: LET THROUGH'
said 'FALSE LINE: the prover does not refuse tiny/no_bug'
said '0 passed, 1 failed'
cmp "$root/crates/tiny/wrong-bodies/kept" "$lines"
# The gate below refuses another repository in this one.
rm -rf "$root"
root=$work
export XDG_CACHE_HOME="$work/cache"

try tiny/no_such_edit
[ "$status" -eq 1 ]
said 'no edit tiny/no_such_edit'

sed -i 's/a.min(MOST)/a/' "$crate/src/lib.rt"
try --proved "$sum" tiny/a_bug
[ "$status" -eq 1 ]
said 'a crate is not proved as it is'
sed -i '/result ≤ 200/,/^}/s/^    a$/    a.min(MOST)/' "$crate/src/lib.rt"

# A crate above: the one below it is built where it isn't, and else taken as it is.
above=$work/crates/above
mkdir -p "$above/src" "$above/wrong-bodies"
echo 'above: tiny' >>"$work/crates.txt"
cat >"$above/src/lib.rt" <<'END'
#![tactic(auto)]

ghost use Rattle.std.specs.Prelude.{◌≡◌, min};

use tiny::least;

pub fn least_of_two(a: u8, b: u8) -> u8
    ensures { result ≡ min a b }
{
    least(a, b)
}
END
printf '%s\n' 'file: src/lib.rt' 'old: least(a, b)' 'new: least(a, a)' 'clause: its only one' >"$above/wrong-bodies/a_bug.edit"
sum=$("$try" --root "$work" --sum above)
try --proved "$sum" above
[ "$status" -eq 0 ]
said 'tiny: proved as it is'
said 'above/a_bug: refused: note: src/lib.rt:'
said '1 passed, 0 failed'
(cd "$work" && RT_JOBS=1 rt ci >"$work/said" 2>&1) || cat "$work/said"
try --proved "$sum" above
[ "$status" -eq 0 ]
if grep -q 'proved as it is' "$work/said"; then
    echo 'what is proved and built was proved once more'
    exit 1
fi
said '1 passed, 0 failed'
try above
[ "$status" -eq 0 ]
said 'tiny: proved as it is'
said 'above: proved as it is'
is_kept above/a_bug
echo '// A comment more.' >>"$crate/src/lib.rt"
is_tried above/a_bug
sed -i '/^\/\/ A comment more/d' "$crate/src/lib.rt"
is_kept above/a_bug

# Beside `rt ci`, by what that has printed so far: a crate waits until its libraries are proved, or until the run has ended.
find "$crate/wrong-bodies" -type f ! -name a_bug.edit -delete
echo 'rt: tiny proved' >"$work/ci"
"$try" --root "$work" --all --follow "$work/ci" >"$work/said" 2>&1 &
trying=$!
for _ in $(seq 900); do
    if grep -q '^tiny: ' "$work/said"; then
        break
    fi
    sleep 1
done
said 'tiny: 1 of 1 refused'
if grep -q '^above' "$work/said"; then
    echo 'a crate was tried before its libraries were proved'
    exit 1
fi
echo 'rt ci has ended' >>"$work/ci"
wait "$trying"
said 'above: 1 of 1 refused'
said '2 passed, 0 failed'

sed -i 's/result ≡ min a b/result ≤ b/' "$crate/src/lib.rt"
rm "$crate/proofs/least_of_three/Answers.antt"
try --proved "$sum" above
[ "$status" -eq 1 ]
said 'a crate is not proved as it is'
echo 'each planted flaw is told from a bug'
