"""Methods, content headers and tables through ctypes: what stands in them, and faults with their places."""

import unittest

from meadowtray import MT_BIT, MT_SHORT_STRING, MT_TABLE, Fault, Value, read_header, read_method, read_table
from meadowtray import write_header, write_method, write_table


class CodecTest(unittest.TestCase):
    def test_methods(self):
        method = read_method(b"\0\x3c\0\x28\0\0\x03amq\x01k\x02")
        self.assertEqual(method.name, "basic.publish")
        fields = {"exchange": b"amq", "routing-key": b"k", "mandatory": False, "immediate": True}
        self.assertEqual(method.fields, fields)
        self.assertEqual(list(method.fields), list(fields))
        method = read_method(b"\0\x28\0\x0a\0\0\x01e\x06direct\x12\0\0\0\x04\x01yB\x07")
        self.assertEqual((method.name, method.fields["no-wait"]), ("exchange.declare", True))
        self.assertEqual(method.fields["arguments"], [(b"y", Value("B", 7))])
        self.assertEqual(read_method(b"\0\x5a\0\x0a").fields, {})

    def test_headers(self):
        octets = b"\0\x3c\0\0\0\0\0\0\0\0\0\x05\xb0\x40\x03a/b\0\0\0\x03\x01kV\x02\0\0\0\0\0\0\x01\0"
        header = read_header(octets)
        self.assertEqual(header.body_size, 5)
        headers = [(b"k", Value("V", None))]
        properties = {"content-type": b"a/b", "headers": headers, "delivery-mode": 2, "timestamp": 256}
        self.assertEqual(header.properties, properties)

    def test_tables(self):
        self.assertEqual(read_table(b"\0\0\0\0"), [])
        octets = b"\0\0\0\x14\x01aA\0\0\0\x0dF\0\0\0\x03\x01nVA\0\0\0\0rest"
        values = [Value("F", [(b"n", Value("V", None))]), Value("A", [])]
        self.assertEqual(read_table(octets), [(b"a", Value("A", values))])
        rows = [
            (b"t\x01", True),
            (b"b\xff", -1),
            (b"B\xff", 255),
            (b"s\xff\xfe", -2),
            (b"U\x80\0", -32768),
            (b"u\x80\0", 32768),
            (b"I\xff\xff\xff\xfd", -3),
            (b"i\xff\xff\xff\xfd", 4294967293),
            (b"l\x80" + bytes(7), -(2**63)),
            (b"L" + b"\xff" * 8, -1),
            (b"f\x3f\xc0\0\0", 1.5),
            (b"d\x3f\xf8" + bytes(6), 1.5),
            (b"D\x02\0\0\x01\0", (256, 2)),
            (b"T" + bytes(7) + b"\x09", 9),
            (b"V", None),
            (b"S\0\0\0\x01y", b"y"),
            (b"x\0\0\0\0", b""),
        ]
        pairs = b"".join(b"\x01" + octets[:1] + octets for octets, _ in rows)
        expected = [(octets[:1], Value(chr(octets[0]), holds)) for octets, holds in rows]
        self.assertEqual(read_table(len(pairs).to_bytes(4, "big") + pairs), expected)

    def test_written(self):
        fields = [(MT_SHORT_STRING, b"amq"), (MT_SHORT_STRING, b"k"), (MT_BIT, False), (MT_BIT, True)]
        self.assertEqual(write_method("basic.publish", *fields), b"\0\x3c\0\x28\0\0\x03amq\x01k\x02")
        nested = Value("F", [(b"n", Value("I", -2))])
        table = [(b"y", Value("B", 7)), (b"t", nested), (b"f", Value("f", 1.5)), (b"v", Value("V", None))]
        self.assertEqual(read_table(write_table(table)), table)
        fields = [(MT_SHORT_STRING, b"e"), (MT_SHORT_STRING, b"direct"), *[(MT_BIT, False)] * 5, (MT_TABLE, table)]
        self.assertEqual(read_method(write_method("exchange.declare", *fields)).fields["arguments"], table)
        headers = [(b"k", Value("V", None))]
        properties = {"content_type": b"a/b", "headers": headers, "delivery_mode": 2, "timestamp": 256}
        octets = b"\0\x3c\0\0\0\0\0\0\0\0\0\x05\xb0\x40\x03a/b\0\0\0\x03\x01kV\x02\0\0\0\0\0\0\x01\0"
        self.assertEqual(write_header(5, **properties), octets)
        self.assertEqual(write_header(0, message_id=b"x" * 255)[12:15], b"\0\x80\xff")
        for write in (lambda: write_method("basic.publish"), lambda: write_header(0, priority=256)):
            with self.assertRaises(Fault) as raised:
                write()
            self.assertEqual(raised.exception.status, 9)
        with self.assertRaises(Fault) as raised:
            write_method("basic.post")
        self.assertEqual(raised.exception.status, 201)

    def test_faults(self):
        rows = [
            (read_method, b"", 301, 0),
            (read_method, b"\0\x3c\0\x01", 201, 0),
            (read_method, b"\0\x5a\0\x0a\0", 203, 4),
            (read_header, b"\0\x3c\0\x01", 204, 2),
            (read_header, b"\0\x3c" + bytes(10) + b"\0\x01", 205, 12),
            (read_table, b"\0\0\0\x03\x01a?", 302, 6),
            (read_table, b"\0\0\0\x02\x05a", 303, 4),
        ]
        for read, octets, status, at in rows:
            with self.subTest(read=read, octets=octets), self.assertRaises(Fault) as raised:
                read(octets)
            self.assertEqual((raised.exception.status, raised.exception.at), (status, at))


if __name__ == "__main__":
    unittest.main()
