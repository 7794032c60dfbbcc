#!/usr/bin/env bash
# Compares the tables of docs/PROTOCOL.md with those of the code and with those of the definitions, word by word:
# methods, tags, properties, faults, refusals, closes. A proof shows only that code and definitions agree; two names
# swapped in both at once are seen here. The files of amqp_typed that restate the table of methods are those that
# their script writes.
set -u
cd "$(dirname "${BASH_SOURCE[0]}")/.." || exit 1
python3 checks/tables.py
