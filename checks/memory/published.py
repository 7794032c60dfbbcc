"""What `publish` takes for a large content: its octets once, whether they wait to be put or to be written."""

import contextlib
import os
import socket
import subprocess
import sys
import tempfile
import threading

PROGRAM = sys.argv[1]
SIZE = 50_000_000
MOST = 1.15
SECONDS = 60
FRAME_MAX = 131_072


def frame(channel, payload):
    payload = bytes.fromhex(payload)
    return b"\x01" + channel.to_bytes(2, "big") + len(payload).to_bytes(4, "big") + payload + b"\xce"


START = frame(0, "000a000a00090000000000000005504c41494e00000005656e5f5553")
TUNE = frame(0, "000a001e07ff000200000000")
CONNECTION_OPEN_OK = frame(0, "000a002900")
OPEN_OK = frame(1, "0014000b00000000")
PUBLISH = frame(1, "003c0028000000017100")


def exactly(peer, count):
    octets = b""
    while len(octets) < count:
        octets += peer.recv(count - len(octets))
    return octets


def take_frames(peer, count):
    """Reads so many frames."""
    for _ in range(count):
        size = int.from_bytes(exactly(peer, 7)[3:], "big")
        exactly(peer, size + 1)


def take_content(listener):
    """Plays a server to one client, which publishes the content on channel 1."""
    with contextlib.closing(listener.accept()[0]) as peer:
        peer.settimeout(SECONDS)
        exactly(peer, 8)
        peer.sendall(START)
        take_frames(peer, 1)
        peer.sendall(TUNE)
        take_frames(peer, 2)
        peer.sendall(CONNECTION_OPEN_OK)
        take_frames(peer, 1)
        peer.sendall(OPEN_OK)
        # the frames of the method, of the header and of the body
        left = len(PUBLISH) + 22 + SIZE + 8 * -(-SIZE // (FRAME_MAX - 8))
        while left:
            left -= len(peer.recv(min(left, 1 << 20)))
        take_frames(peer, 1)
        peer.sendall(frame(1, "00140029"))
        take_frames(peer, 1)
        peer.sendall(frame(0, "000a0033"))


def peak():
    """The peak of resident memory of a run, in octets."""
    with socket.create_server(("127.0.0.1", 0)) as listener, tempfile.TemporaryFile() as body:
        listener.settimeout(SECONDS)
        server = threading.Thread(target=take_content, args=(listener,), daemon=True)
        server.start()
        # a file with no octet written, since a process counts the memory of the one that it was forked from
        body.truncate(SIZE)
        words = [PROGRAM, "publish", "--timeout", str(SECONDS), f"127.0.0.1:{listener.getsockname()[1]}", "", "q"]
        with subprocess.Popen(words, stdin=body, stdout=subprocess.PIPE) as run:
            printed = run.stdout.read()
            _, status, used = os.wait4(run.pid, 0)
            run.returncode = os.waitstatus_to_exitcode(status)
        server.join(SECONDS)
    if printed != b"published %d\n" % SIZE:
        print(f"publish: {printed!r}")
        sys.exit(1)
    return used.ru_maxrss * 1024


taken = peak()
if "--tell" in sys.argv:
    print(f"{taken} octets for {SIZE}, {taken / SIZE:.2f} times as many")
if taken > MOST * SIZE:
    print(f"publish takes {taken} octets for a content of {SIZE}")
    sys.exit(1)
