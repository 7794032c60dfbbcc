#!/usr/bin/env bash
# Whole runs of the built program: input, arguments, standard output, standard error and status, against texts that
# are known, also with each request for memory refused in turn (runs.py, and refused.py of `show`); and so a session
# for whose events there is no room (events.py), and tests of single calls (refused_calls.py).
set -u
cd "$(dirname "${BASH_SOURCE[0]}")/.." || exit 1

place=$(mktemp -d) || exit 1
trap 'rm -rf "$place"' EXIT
gcc -O2 -shared -fPIC -o "$place/refuse.so" checks/memory/refuse.c -ldl || exit 1
checks/built_program || exit 1
program=crates/amqp/out/amqp
python3 checks/runs.py "$program" "$place/refuse.so" || exit 1
python3 checks/memory/refused.py "$program" "$place/refuse.so" || exit 1
checks/built_tests amqp_io_tests || exit 1
python3 checks/memory/events.py crates/amqp_io_tests/out/amqp_io_tests_tests "$place/refuse.so" || exit 1
checks/built_tests amqp_codec_tests || exit 1
checks/built_tests amqp_core_tests || exit 1
python3 checks/memory/refused_calls.py "$place/refuse.so" crates/amqp_codec_tests/out/amqp_codec_tests_tests \
    crates/amqp_core_tests/out/amqp_core_tests_tests
