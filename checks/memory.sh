#!/usr/bin/env bash
# What is asked of the allocator, counted: no contract speaks of how much memory is asked for. Of calls, between the
# marks of the tests `..::memory::..` in `crates/amqp_codec_tests`, `amqp_core_tests` and `amqp_typed_tests`: exact
# numbers. Of the program: an input that announces more than it has costs no more than one that has it, and a large one
# a small multiple of its octets; what a server holds for contents that a peer begins and leaves is little more than
# their octets, and so is what `publish` takes for a content; and a connection of `link` that has begun keeps little
# more than its two ends.
set -u
cd "$(dirname "${BASH_SOURCE[0]}")/.." || exit 1

place=$(mktemp -d) || exit 1
trap 'rm -rf "$place"' EXIT
gcc -O2 -shared -fPIC -o "$place/count.so" checks/memory/count.c -ldl || exit 1

for crate in amqp_codec_tests amqp_core_tests amqp_typed_tests; do
    checks/built_tests $crate || exit 1
    python3 checks/memory/marked.py crates/$crate/out/${crate}_tests "$place/count.so" || exit 1
done
checks/built_program || exit 1
python3 checks/memory/counted.py crates/amqp/out/amqp "$place/count.so" || exit 1
python3 checks/memory/held.py crates/amqp/out/amqp || exit 1
python3 checks/memory/linked.py crates/amqp/out/amqp || exit 1
python3 checks/memory/published.py crates/amqp/out/amqp
