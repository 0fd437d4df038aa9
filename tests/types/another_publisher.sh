#!/bin/sh
# A publisher can't be ended with a submitter or a subscription of another one: such a program does not compile, and for no other reason.
# It needs the toolchain's command `rt`, and takes a quarter of a minute: it compiles a tiny crate over copies of the sources.
set -eu
cd "$(dirname "$0")/../.."
. tests/program.sh
work=$(mktemp -d)
trap 'rm -rf "$work"' EXIT
crate=$work/crates/foreign
mkdir -p "$crate/src"
cp HANDLES "$work"
for name in $(below publisher | sort -u); do
    mkdir -p "$work/crates/$name"
    for folder in src specs proofs; do
        [ ! -d "crates/$name/$folder" ] || cp -r "crates/$name/$folder" "$work/crates/$name"
    done
    grep -E "^$name( [^:]*)?:" crates.txt >>"$work/crates.txt"
done
echo 'foreign may_wait=9: flow_rules publisher' >>"$work/crates.txt"

# ends NAME SUBMITTERS SUBSCRIPTIONS: a function that ends the publisher of L with what belongs to the publishers of these ledgers.
ends() {
    cat <<END

fn $1<L: SharedLedgers, M: SharedLedgers, R: Wait>(
    rt: &R,
    alloc: Global,
    publisher: Publisher<L, Tally>,
    submitters: Vec<Submitter<$2, Tally>>,
    subscriptions: Vec<Subscription<$3, Tally>>,
) -> bool
{
    finish(rt, alloc, publisher, submitters, subscriptions).is_ok()
}
END
}

cat >"$crate/src/main.rt" <<'END'
//! Ends publishers.
#![tactic(auto)]

use flow_rules::Tally;
use publisher::{Publisher, SharedLedgers, Submitter, Subscription, finish};
use std::alloc::Global;
use std::sync::Wait;

fn main(_rt: HostRuntime) {}
END
# The functions before and after are right, and nothing is said of them.
{
    ends with_its_own L L
    ends with_anothers_subscription L M
    ends with_anothers_submitter M L
    ends with_its_own_again L L
} >>"$crate/src/main.rt"
status=0
(cd "$crate" && rt try </dev/null >"$work/said" 2>&1) || status=$?
grep '^src/main.rt:' "$work/said" | sed 's/^[^ ]* //' >"$work/errors" || true
cat >"$work/want" <<'END'
error[mismatched-types]: expected `Vec<Subscription<L, Tally>>`, found `Vec<Subscription<M, Tally>>`
error[mismatched-types]: expected `Vec<Submitter<L, Tally>>`, found `Vec<Submitter<M, Tally>>`
END
if [ "$status" -ne 1 ] || ! cmp "$work/want" "$work/errors"; then
    cat "$work/said"
    exit 1
fi
echo 'a publisher is ended with what is its own'
