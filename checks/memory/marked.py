"""Runs the tests of a crate that mark their calls (`..::memory::..`) with the allocator's requests counted, and compares each part
between two marks with what the call is to take: how many requests, and of how many octets in all."""

import pathlib
import subprocess
import sys
import tempfile

PROGRAM, SHIM = sys.argv[1:]
# What one of these takes where it lies. A short string has its form, in a word, room for 23 octets, which take no memory of their own,
# and an octet with their count; so have a string and a byte array of a table, and a value has its tag and at most one of these; an argument has
# its kind and at most a short string.
WORD = 8
SHORT_STRING = WORD + 23 + 1
VALUE = WORD + SHORT_STRING
PAIR = SHORT_STRING + VALUE
ARGUMENT = WORD + SHORT_STRING
# of a crate: test, and for each part its number, its requests, their octets in all, and why
CODEC = (
    ("frames::memory::frames_in_place_take_none", (
        (1, 0, 0, "a frame that lies whole in the piece is lent from it"),
        (2, 1, 60_000, "`feed` copies the payload, in one request"),
    )),
    ("frames::memory::announced_octets_take_none", (
        (3, 2, 8 + 16, "16 octets of an announced megabyte are kept: the first seven in a buffer of eight, and then all in one of twice that"),
    )),
    ("frames::memory::frames_take_what_they_have", (
        (4, 1, 50_000, "a copy of a lent frame takes its payload"),
        (5, 1, 50_008, "room for the whole frame is made at once"),
        (6, 0, 0, "an output with room takes none"),
    )),
    ("values::memory::tables_take_what_they_have", (
        (10, 0, 0, "an outer count that is greater than what is there is refused before anything is taken"),
        (11, 0, 0, "so is a string's that passes the table"),
        (12, 0, 0, "and an array's"),
        (13, 0, 0, "and that of a table inside"),
        (14, 0, 0, "a table of no pairs takes none"),
        (15, 1, PAIR, "a table of one pair takes one"),
        (16, 4, (3 + 6 + 12 + 9) * PAIR, "27 octets look like three pairs of 12; as they are nine, the room is doubled twice, and what is left over given back"),
        (17, 5, 2 * PAIR + 2 * VALUE + VALUE + VALUE + PAIR, "17 octets look like two pairs, 10 like two values of eight, five like one; there is one of each, and the array inside has none"),
        (18, 0, 0, "where the inner array's count is greater than what is there, nothing is taken either"),
        (19, 2, 3 * PAIR + PAIR, "30 octets look like three pairs, and are one; a string of 23 octets lies in its value"),
        (20, 3, 3 * PAIR + 24 + PAIR, "one of 24 takes a request of its own"),
        (21, 3, 3 * PAIR + 24 + PAIR, "and so does a byte array"),
    )),
    ("methods::memory::methods_take_what_they_have", (
        (30, 0, 0, "a method without arguments takes none"),
        (31, 0, 0, "it is written into an output with room"),
        (32, 1, 4 * ARGUMENT, "four arguments take one request; short names lie in them"),
        (33, 0, 0, "they are written into an output with room"),
        (34, 0, 0, "where its string isn't there, nothing is taken"),
        (36, 0, 0, "an unknown method is refused before anything is taken"),
    )),
)

# contents that are sent by their parts, where the output has room
CORE = (
    ("memory::contents_take_room_alone", (
        (50, 0, 0, "a content of no octets with a table of headers takes none"),
        (51, 0, 0, "nor does one of 1,024 octets"),
        (52, 0, 0, "nor does one of 50,000"),
    )),
)
# part 40 is an operation with its arguments by place, and part 41 the same by name
# by the table of methods: so many arguments, a table's first room of four pairs, a body of five octets
TYPED = (
    ("memory::declaring_a_queue", ((40, 2, 7 * ARGUMENT + 4 * PAIR, "the arguments and the table's pairs"), (41, 2, 7 * ARGUMENT + 4 * PAIR, "the same"))),
    ("memory::publishing", ((40, 2, 4 * ARGUMENT + 5, "the arguments and the body"), (41, 2, 4 * ARGUMENT + 5, "the same"))),
    ("memory::consuming", ((40, 1, 7 * ARGUMENT, "the arguments"), (41, 1, 7 * ARGUMENT, "the same"))),
    ("memory::acknowledging", ((40, 1, 2 * ARGUMENT, "the arguments"), (41, 1, 2 * ARGUMENT, "the same"))),
    ("memory::rejecting", ((40, 1, 3 * ARGUMENT, "the arguments"), (41, 1, 3 * ARGUMENT, "the same"))),
    ("memory::limiting", ((40, 1, 3 * ARGUMENT, "the arguments"), (41, 1, 3 * ARGUMENT, "the same"))),
    ("memory::reading_a_return", ((40, 0, 0, "what came is only looked at"), (41, 0, 0, "the same"))),
    ("memory::reading_a_confirm", ((40, 0, 0, "what came is only looked at"), (41, 0, 0, "the same"))),
    ("memory::closing_a_channel", ((40, 1, 4 * ARGUMENT, "the arguments"), (41, 1, 4 * ARGUMENT, "the same"))),
    ("memory::forwarding", ((40, 2, 4 * ARGUMENT + 5, "the arguments and the body"), (41, 2, 4 * ARGUMENT + 5, "the same"))),
)
WANTED = {"amqp_codec_tests": CODEC, "amqp_core_tests": CORE, "amqp_typed_tests": TYPED}


def counted(test):
    """The parts of a test: number, requests, octets in all. The last line, of what stands outside of all parts, is left out."""
    with tempfile.TemporaryFile() as told:
        words = ["bash", "-c", f'exec 9>&{told.fileno()}; LD_PRELOAD="$1" exec "$2" "$3"', "-", SHIM, PROGRAM, test]
        ran = subprocess.run(words, stdout=subprocess.PIPE, stderr=subprocess.STDOUT, timeout=60, check=False, pass_fds=[told.fileno()])
        if ran.returncode:
            sys.exit(f"{test}: {ran.stdout.decode(errors='replace')}")
        told.seek(0)
        *parts, _ = told.read().decode().splitlines()
    return [tuple(int(word) for word in part.split()[:3]) for part in parts]


differences = []
for test, parts in WANTED[pathlib.Path(PROGRAM).name.removesuffix("_tests")]:
    found = {number: counts for number, *counts in counted(test)}
    for number, requests, octets, why in parts:
        counts = found.pop(number, "nothing")
        if counts != [requests, octets]:
            differences.append(f"{test}, part {number}: requests and octets are {counts}, and not {[requests, octets]}: {why}")
    differences += [f"{test}, part {number}: not expected" for number in found]
for difference in differences:
    print(difference)
sys.exit(1 if differences else 0)
