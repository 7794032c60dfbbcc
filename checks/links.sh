#!/usr/bin/env bash
# Each link of the docs leads to a file of the repository, and to a heading there if it names one; each source file
# that the docs name is there.
set -u
cd "$(dirname "${BASH_SOURCE[0]}")/.." || exit 1
python3 checks/links.py
