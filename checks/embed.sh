#!/usr/bin/env bash
# The library that C, Rust and Python programs call: made of what is proved, and tested (embed/check.sh). Where there
# is no C compiler it is left out.
set -u
cd "$(dirname "${BASH_SOURCE[0]}")/.." || exit 1

if ! command -v "${CC:-cc}" >/dev/null 2>&1; then
    echo "left out: the tests of embed/, since there is no C compiler"
    exit 0
fi
embed/build || exit 1
embed/check.sh
