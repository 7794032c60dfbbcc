#!/usr/bin/env bash
# The benchmarks are still programs of these crates, in the layout of all code: each is built without proofs in a copy
# of the crates, and ends at once, since it is given no word. What stands in `bench/` is seen by no other check.
set -u
cd "$(dirname "${BASH_SOURCE[0]}")/.." || exit 1
. tools/gate.sh

place=$(mktemp -d) || exit 1
trap 'rm -rf "$place"' EXIT

# Whether a benchmark builds, and is laid out as `rt fmt` does. What is wrong with it goes to its log.
holds() {
    local name=$1 crate=$place/crates/bench_$1
    (cd "$crate" && rt try) >"$place/$name.log" 2>&1
    if ! grep -q '^run=ended' "$place/$name.log"; then
        return 1
    fi
    cp -r "$crate/src" "$place/$name.src"
    (cd "$crate" && rt fmt) >>"$place/$name.log" 2>&1 || return 1
    diff -r "$place/$name.src" "$crate/src" >>"$place/$name.log" 2>&1
}

names=()
for libraries in bench/*/libraries; do
    names+=("$(basename "$(dirname "$libraries")")")
done
mapfile -t crates < <(with_crates_below $(cat bench/*/libraries))
copy_crates "$place" "${crates[@]}" || exit 1
for name in "${names[@]}"; do copy_benchmark "$place" "$name" || exit 1; done

failed=0
for name in "${names[@]}"; do
    holds "$name" && touch "$place/$name.ok" &
done
wait
for name in "${names[@]}"; do
    if [ -f "$place/$name.ok" ]; then
        echo "bench/$name: builds"
    else
        echo "bench/$name: does not build, or is not laid out as rt fmt does"
        tail -n 40 "$place/$name.log"
        failed=1
    fi
done
exit "$failed"
