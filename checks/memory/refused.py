"""Runs the program with its requests for memory refused, one a run, until a run meets none. Each run ends in the answer that it
has with ample memory, or says that memory ran out, after a part of that answer, with status 1."""

import os
import subprocess
import sys
import tempfile

PROGRAM, SHIM = sys.argv[1:3]
OPEN = "010001000000050014000a00ce"
DECLARE = "010001000000150032000a00000171ea000000080161530000000161ce"
differences = []


def run(given, number):
    """What a run prints, its status, and whether its request of that number was refused."""
    with tempfile.TemporaryFile() as told:
        words = ["bash", "-c", f'exec 9<&{told.fileno()}; LD_PRELOAD="$1" REFUSED="$2" exec "$3" show', "-", SHIM, str(number), PROGRAM]
        ran = subprocess.run(words, input=given.encode(), capture_output=True, timeout=60, check=False, pass_fds=[told.fileno()])
        return ran.stdout.decode(), ran.returncode, os.fstat(told.fileno()).st_size > 0


def is_answer(printed, status, whole, wanted):
    if (printed, status) == (whole, wanted):
        return True
    if status == 0:
        return False
    body, _, last = printed.rstrip("\n").rpartition("\n")
    # what is refused while standard input is read is reported as a read that failed
    said = last in ("fault memory", "fault read") or last.startswith("fault 4 at ")
    return printed == "" or said and whole.startswith(f"{body}\n" if body else "")


for given in ("", OPEN, OPEN + DECLARE + OPEN, "01\n0g", OPEN + "04"):
    whole, wanted, _ = run(given, 0)
    number, refused = 1, True
    while refused and number < 5000:
        printed, status, refused = run(given, number)
        if not is_answer(printed, status, whole, wanted):
            differences.append(f"{given[:40]!r}, request {number} refused: status {status}, printed {printed!r:.200}")
        number += 1
    if number < 10 or number == 5000:
        differences.append(f"{given[:40]!r}: {number} requests, so nothing was tried")
for difference in differences[:20]:
    print(difference)
sys.exit(1 if differences else 0)
