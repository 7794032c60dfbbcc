#!/usr/bin/env bash
# An event that `StreamEnd::feed_ref` lends keeps the end borrowed: a second call while the event is held is refused by
# the borrow check, and the same calls with the first event given up before are not. A step of `StreamEnd::advance`
# borrows the piece alone, so the end may be asked while it is held. A must-fail edit can't show this, since it has to
# reach the prover. Each form is a program of its own, built without proofs.
set -u
cd "$(dirname "${BASH_SOURCE[0]}")/.." || exit 1
. tools/gate.sh

place=$(mktemp -d) || exit 1
trap 'rm -rf "$place"' EXIT
mapfile -t crates < <(with_crates_below amqp_core)
copy_crates "$place" "${crates[@]}" || exit 1

# compile NAME FIRST USE: what is said of a program with two calls, the result of the first kept as given, goes to
# NAME.log.
compile() {
    local crate=$place/crates/held_$1
    mkdir -p "$crate/src" || return 1
    cat >"$crate/src/main.rt" <<END
//! Two calls of an end that lends.

use amqp_core::{CoreFault, Role, StreamEnd};

fn both<R: Role>(end: &mut StreamEnd<R>, piece: &[u8]) -> Result<usize, CoreFault> {
    let first = end.$2;
    let second = end.feed_ref(piece)?;
    Ok(first$3.max(second.octets))
}

fn main() {}
END
    (cd "$crate" && rt try) >"$place/$1.log" 2>&1
}

for form in event given_up step; do
    echo "held_$form: amqp_core" >>"$place/crates.txt"
done
compile event 'feed_ref(piece)?' '.octets' &
compile given_up 'feed_ref(piece)?.octets' '' &
compile step 'advance(piece)?' '.octets' &
wait

if ! grep -qF 'src/main.rt:7:18: error[borrow-e0499]' "$place/event.log"; then
    tail -n 40 "$place/event.log"
    echo "a second call while an event is held was not refused"
    exit 1
fi
for form in given_up step; do
    if ! grep -q '^run=ended' "$place/$form.log"; then
        tail -n 40 "$place/$form.log"
        echo "a call that holds no event was refused ($form)"
        exit 1
    fi
done
