"""Counts what the program asks of the allocator, for inputs that announce more than they have, and for large ones."""

import os
import subprocess
import sys
import tempfile

PROGRAM, SHIM = sys.argv[1:3]
differences = []


def counted(octets):
    """How many requests a run of `show` makes, how many octets they are in all, and the greatest of them."""
    with tempfile.TemporaryFile() as told:
        words = ["bash", "-c", f'exec 9>&{told.fileno()}; LD_PRELOAD="$1" exec "$2" show', "-", SHIM, PROGRAM]
        subprocess.run(words, input=octets.encode(), stdout=subprocess.DEVNULL, timeout=60, check=False, pass_fds=[told.fileno()])
        told.seek(0)
        part, *numbers = (int(word) for word in told.read().split())
        return numbers


def method(payload):
    return f"010001{len(payload) // 2:08x}{payload}ce"


def in_tables(levels, value):
    """A field table in which a value stands so many tables deep: its tag and its octets."""
    for _ in range(levels):
        body = f"0161{value}"
        value = f"46{len(body) // 2:08x}{body}"
    return value[2:]


DECLARE = "0032000a00000171ea"
# what announces more than it has, and the same with what it has
PAIRS = (
    ("a frame of a megabyte", "030001000ffff8010203040506070809", "03000100000009010203040506070809"),
    ("a field's string", method("000a0014ffffffff4142"), method("000a0014000000024142")),
    ("a table", method(f"{DECLARE}ffffffff0161740101627401"), method(f"{DECLARE}000000080161740101627401")),
    ("a string in a table", method(DECLARE + in_tables(1, "53ffffffff4142")), method(DECLARE + in_tables(1, "53000000024142"))),
    ("a byte array in a table", method(DECLARE + in_tables(1, "78ffffffff4142")), method(DECLARE + in_tables(1, "78000000024142"))),
    ("an array in a table", method(DECLARE + in_tables(1, "41ffffffff5656")), method(DECLARE + in_tables(1, "41000000025656"))),
    ("a table in a table", method(DECLARE + in_tables(1, "46ffffffff01615601")), method(DECLARE + in_tables(1, "46000000030161560162"))),
    ("an array far inside", method(DECLARE + in_tables(31, "41ffffffff5656")), method(DECLARE + in_tables(31, "41000000025656"))),
    ("a header's string", "02000100000011003c000000000000000000028000ff4142ce", "02000100000011003c000000000000000000028000024142ce"),
)
for name, announced, there in PAIRS:
    more, wanted = counted(announced), counted(there)
    if more[0] > wanted[0] or more[1] > wanted[1] or more[2] > wanted[2]:
        differences.append(f"{name}: {more} requests, octets and greatest request, and {wanted} for what is there")

# what a large input costs, in octets asked for in all, for each of its own octets, and the greatest request
few = counted("")
for name, octets, each, most in (
    ("a long body", f"030001{70_000:08x}{'5a' * 70_000}ce", 24, 4),
    ("many frames", "08000000000000ce" * 10_000, 33, 7),
    ("a string far inside", method(DECLARE + in_tables(31, f"53{10_000:08x}{'5a' * 10_000}")), 30, 4),
    ("many values", method(DECLARE + in_tables(1, f"41{10_000:08x}{'56' * 10_000}")), 215, 66),
):
    length = len(octets) // 2
    _, asked, greatest = counted(octets)
    if asked - few[1] > each * length or greatest > most * length:
        differences.append(f"{name}: {asked} octets asked for, {greatest} at once, for {length} octets")
for difference in differences:
    print(difference)
sys.exit(1 if differences else 0)
