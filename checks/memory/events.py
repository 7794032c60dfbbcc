"""Runs the tests of sessions for whose events there may be no room, with their requests for memory refused, one a run, until a run
meets none. Either memory runs out elsewhere, which the test reports, or no event is lost."""

import os
import subprocess
import sys
import tempfile

TESTS, SHIM = sys.argv[1:3]
NAMES = ("memory::no_event_is_lost", "rooms::a_session_taken_apart")
LOST_NONE = "no room for an event, and none lost"
OUT_OF_MEMORY = ("AllocError", "AllocFailed", "OutOfMemory")


def run(name, number):
    """What the test prints, what it says on standard error, its status, and whether its request of that number was refused."""
    with tempfile.TemporaryFile() as told:
        words = ["bash", "-c", f'exec 9<&{told.fileno()}; LD_PRELOAD="$1" REFUSED="$2" exec "$3" "$4"', "-", SHIM, str(number), TESTS, name]
        ran = subprocess.run(words, capture_output=True, timeout=60, check=False, pass_fds=[told.fileno()])
        return ran.stdout.decode(), ran.stderr.decode(), ran.returncode, os.fstat(told.fileno()).st_size > 0


def differences_of(name):
    """Refuses each request of the test in turn, and answers what was wrong."""
    differences, without_room = [], 0
    number, refused = 1, True
    while refused and number < 5000:
        printed, said, status, refused = run(name, number)
        without_room += LOST_NONE in printed
        if status != 0 and not (status == 101 and any(fault in said for fault in OUT_OF_MEMORY)):
            differences.append(f"{name}: request {number} refused: status {status}, {said!r:.200}")
        number += 1
    if without_room == 0:
        differences.append(f"{name}: {number} requests, and there was room for each event, so nothing was tried")
    return differences


differences = [difference for name in NAMES for difference in differences_of(name)]
for difference in differences[:20]:
    print(difference)
sys.exit(1 if differences else 0)
