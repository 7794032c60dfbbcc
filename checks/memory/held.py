"""What a server holds for contents that a peer begins and leaves: memory beside the octets that came, in the dearest shapes."""

import socket
import subprocess
import sys
import time

PROGRAM = sys.argv[1]
CHANNELS = 64
FRAME_MAX = 131072
HELLO = bytes.fromhex("414d515000000901")
START_OK = bytes.fromhex("01000000000024000a000b0000000005504c41494e0000000c006775657374006775657374" "05656e5f5553ce")
TUNE_OK = bytes.fromhex("0100000000000c000a001f07ff000200000000ce")
OPEN = bytes.fromhex("01000000000008000a0028012f0000ce")


def frame(kind, channel, payload):
    return bytes([kind]) + channel.to_bytes(2, "big") + len(payload).to_bytes(4, "big") + payload + b"\xce"


def counted(body):
    return len(body).to_bytes(4, "big") + body


def nested(levels):
    """A pair whose value is a table in a table, so many deep, the last one empty."""
    value = counted(b"")
    for _ in range(levels - 1):
        value = counted(b"\x00F" + value)
    return b"\x00F" + value


def filled(element, room):
    return element * (room // len(element))


ROOM = FRAME_MAX - 8 - 18 - 16
SHAPES = (
    ("tables 31 deep", filled(nested(31), ROOM)),
    ("an array of nothing", b"\x00A" + counted(filled(b"V", ROOM - 6))),
    ("pairs of two octets", filled(b"\x00V", ROOM)),
    ("empty tables", filled(b"\x00F\x00\x00\x00\x00", ROOM)),
)


def header(pairs):
    """A content header of a body of one octet, with these pairs among its properties."""
    return b"\x00\x3c\x00\x00" + (1).to_bytes(8, "big") + b"\x20\x00" + counted(pairs)


def resident(pid):
    with open(f"/proc/{pid}/status", encoding="ascii") as status:
        for line in status:
            if line.startswith("VmRSS"):
                return int(line.split()[1]) * 1024
    return 0


def settled(pid):
    """The resident memory once it no longer changes."""
    last = resident(pid)
    for _ in range(100):
        time.sleep(0.05)
        now = resident(pid)
        if now == last:
            return now
        last = now
    return last


def held(pairs):
    """The octets that come of the contents, and the memory that a server holds for them."""
    words = [PROGRAM, "serve", "127.0.0.1:0", "--max-body", "1"]
    with subprocess.Popen(words, stdout=subprocess.PIPE, text=True) as server:
        try:
            port = int(server.stdout.readline().rsplit(":", 1)[1])
            with socket.create_connection(("127.0.0.1", port), timeout=20) as peer:
                peer.sendall(HELLO + START_OK + TUNE_OK + OPEN)
                for channel in range(1, CHANNELS + 1):
                    peer.sendall(frame(1, channel, bytes.fromhex("0014000a00")))
                time.sleep(0.3)
                before = settled(server.pid)
                came = 0
                for channel in range(1, CHANNELS + 1):
                    octets = frame(1, channel, bytes.fromhex("003c00280000000171" "00")) + frame(2, channel, header(pairs))
                    peer.sendall(octets)
                    came += len(octets)
                # what is read last, so that all before it is known to have been taken
                peer.sendall(frame(8, 0, b""))
                time.sleep(0.5)
                return came, settled(server.pid) - before
        finally:
            server.kill()


differences = []
for name, pairs in SHAPES:
    came, kept = held(pairs)
    if "--tell" in sys.argv:
        print(f"{name}: {came} octets came, {kept} are held, {kept / came:.2f} times as many")
    if kept > 1.5 * came + 12_000_000:
        differences.append(f"{name}: {kept} octets held for {came} that came")
for difference in differences:
    print(difference)
sys.exit(1 if differences else 0)
