#!/usr/bin/env bash
# A frame that `Splitter::feed_ref` lends keeps the splitter borrowed: a second call while the frame is held is
# refused by the borrow check, and the same calls with the first frame given up before are not. A must-fail edit can't
# show this, since it has to reach the prover.
set -u
cd "$(dirname "${BASH_SOURCE[0]}")/.." || exit 1

place=$(mktemp -d) || exit 1
trap 'rm -rf "$place"' EXIT
crate=$place/crates/amqp_frame
mkdir -p "$crate" && cp -r crates/amqp_frame/src crates/amqp_frame/specs crates/amqp_frame/proofs "$crate" || exit 1
grep '^amqp_frame:' crates.txt >"$place/crates.txt" || exit 1
git -C "$place" init -q || exit 1
sed -i 's/^mod laws;/mod held;\nmod laws;/' "$crate/src/lib.rt"

# What the compiler says of two calls, where the first call's result is kept as given.
compiled_with() {
    cat >"$crate/src/held.rt" <<END
use crate::{FrameFault, Splitter};

pub fn both(splitter: &mut Splitter, piece: &[u8]) -> Result<usize, FrameFault> {
    let first = splitter.feed_ref(piece)?$1;
    let second = splitter.feed_ref(piece)?;
    Ok(first$2.max(second.taken))
}
END
    (cd "$crate" && rt check --only= 2>&1)
}

held=$(compiled_with '' '.taken')
given_up=$(compiled_with '.taken' '')
if ! echo "$held" | grep -qF 'src/held.rt:5:18: error[borrow-e0499]'; then
    echo "$held"
    echo "a second call while a frame is held was not refused"
    exit 1
fi
if echo "$given_up" | grep -qF 'error['; then
    echo "$given_up"
    echo "two calls one after the other were refused"
    exit 1
fi
