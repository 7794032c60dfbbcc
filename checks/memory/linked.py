"""What a connection of `link` keeps that has begun: how much the peak of resident memory grows with each."""

import os
import subprocess
import sys

PROGRAM = sys.argv[1]
# A process counts the memory of the one that it was forked from, so there are many.
FEW, MANY = 10_000, 20_000
# two ends, each less than 800 octets when it is Running, and what is kept of their histories
MOST = 3_000


def peak(script):
    """The peak of resident memory of a run on this script."""
    with subprocess.Popen([PROGRAM, "link"], stdin=subprocess.PIPE, stdout=subprocess.DEVNULL) as process:
        process.stdin.write(script)
        process.stdin.close()
        _, status, used = os.wait4(process.pid, 0)
        process.returncode = os.waitstatus_to_exitcode(status)
    if process.returncode:
        sys.exit(f"link: status {process.returncode}")
    return used.ru_maxrss * 1024


each = (peak(b"begin\n" * MANY) - peak(b"begin\n" * FEW)) / (MANY - FEW)
if "--tell" in sys.argv:
    print(f"a connection that has begun: {each:,.0f} octets")
if each > MOST:
    print(f"a connection that has begun: {each:,.0f} octets, and not {MOST} at most")
    sys.exit(1)
