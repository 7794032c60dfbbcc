"""Runs tests of calls with their requests for memory refused, one a run, until a run meets none. Each run ends in the answers that the
calls have with ample memory, or in one of them without memory. Where memory ran out before a call, the test reports that."""

import os
import subprocess
import sys
import tempfile

SHIM, CODEC, CORE = sys.argv[1:4]
# what a test reports where memory is refused before the call that it is about: also its helpers, whose octets are right, and
# which fail for nothing else
BEFORE_A_CALL = ("AllocError", "AllocFailed", "OutOfMemory", "setting up", "NotOctets", "NotReadable")
# the tests' program and the test; what it calls, with the answers that it prints; and whether a call may run out of memory
CALLS = (
    (CORE, "memory::a_header_is_dropped_without_memory", {"header": "dropped"}, False),
    (CORE, "memory::a_content_is_put_whole_or_not", {"4089": "put", "4088": "put", "0": "put"}, True),
    (CODEC, "values::memory::a_table_is_read_or_memory_is_refused", {"table": "one pair"}, True),
)


def run(program, test, number):
    """What the test prints, what it says on standard error, its status, and whether its request of that number was refused."""
    with tempfile.TemporaryFile() as told:
        words = ["bash", "-c", f'exec 9<&{told.fileno()}; LD_PRELOAD="$1" REFUSED="$2" exec "$3" "$4"', "-", SHIM, str(number), program, test]
        ran = subprocess.run(words, capture_output=True, timeout=60, check=False, pass_fds=[told.fileno()])
        return ran.stdout.decode(), ran.stderr.decode(), ran.returncode, os.fstat(told.fileno()).st_size > 0


def answers_in(printed, calls):
    """The calls and answers that a test printed, among its other lines."""
    pairs = (line.split(": ", 1) for line in printed.splitlines() if ": " in line)
    return [(call, answer) for call, answer in pairs if call in calls]


def are_right(answers, calls):
    """Each call's own answer, in order, but for one at most that had no memory."""
    without = [call for call, answer in answers if answer == "no memory"]
    others = [(call, answer) for call, answer in answers if answer != "no memory"]
    in_order = [call for call, _ in answers] == list(calls)[: len(answers)]
    return in_order and len(without) <= 1 and all(calls[call] == answer for call, answer in others)


differences = []
for program, test, calls, may_run_out in CALLS:
    number, refused, without_memory = 1, True, 0
    while refused and number < 5000:
        printed, said, status, refused = run(program, test, number)
        answers = answers_in(printed, calls)
        without_memory += any(answer == "no memory" for _, answer in answers)
        is_whole = status == 0 and len(answers) == len(calls)
        is_cut = status == 101 and any(fault in said for fault in BEFORE_A_CALL)
        if not are_right(answers, calls) or not (is_whole or is_cut):
            differences.append(f"{test}, request {number} refused: status {status}, printed {printed!r:.200}, {said!r:.200}")
        if not refused and (status != 0 or answers != list(calls.items())):
            differences.append(f"{test}, none refused: status {status}, printed {printed!r:.200}")
        number += 1
    if number < 3 or number == 5000 or may_run_out != (without_memory > 0):
        differences.append(f"{test}: {number} runs, in {without_memory} of which the call ran out of memory")
for difference in differences[:20]:
    print(difference)
sys.exit(1 if differences else 0)
