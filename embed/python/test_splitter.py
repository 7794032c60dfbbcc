"""The splitter through ctypes: frames however the stream is cut, faults, and misuse."""

import unittest

from meadowtray import Fault, Frame, FrameKind, Splitter


def octets(frame):
    head = bytes([frame.kind]) + frame.channel.to_bytes(2, "big") + len(frame.payload).to_bytes(4, "big")
    return head + frame.payload + b"\xce"


FRAMES = [
    Frame(FrameKind.METHOD, 1, b"\0\x14\0\x0a\0"),
    Frame(FrameKind.HEARTBEAT, 0, b""),
    Frame(FrameKind.BODY, 7, bytes(i * 7 % 256 for i in range(300))),
    Frame(FrameKind.BODY, 65535, b""),
]
STREAM = b"".join(octets(frame) for frame in FRAMES)


class SplitterTest(unittest.TestCase):
    def test_frames_of_any_pieces(self):
        for size in range(1, 41):
            with self.subTest(size=size), Splitter(4096) as splitter:
                pieces = [STREAM[start : start + size] for start in range(0, len(STREAM), size)]
                self.assertEqual([frame for piece in pieces for frame in splitter.feed(piece)], FRAMES)

    def test_faults(self):
        rows = [
            (b"\4", 101, 0),
            (b"\1\0\1\xff\xff\xff\xff", 102, 6),
            (b"\x08\0\0\0\0\0\0\0", 103, 7),
            (octets(FRAMES[1]) + b"\x09", 101, 8),
        ]
        for piece, status, at in rows:
            with self.subTest(piece=piece), Splitter(4096) as splitter:
                with self.assertRaises(Fault) as raised:
                    list(splitter.feed(piece))
                self.assertEqual((raised.exception.status, raised.exception.at), (status, at))
                with self.assertRaises(Fault) as raised:
                    list(splitter.feed(b"\x08"))
                self.assertEqual((raised.exception.status, raised.exception.at), (105, at))

    def test_misuse(self):
        with self.assertRaises(Fault) as raised:
            Splitter(7)
        self.assertEqual(str(raised.exception), "a limit that can't be set")
        splitter = Splitter(4096)
        self.assertEqual(list(splitter.feed(b"\x08")), [])
        self.assertEqual(splitter.pending, 1)
        splitter.close()
        splitter.close()
        with self.assertRaises(Fault) as raised:
            list(splitter.feed(b"\x08"))
        self.assertEqual(raised.exception.status, 1)


if __name__ == "__main__":
    unittest.main()
