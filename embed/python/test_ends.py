"""A client and a server through ctypes: the handshake however it is cut, a content, closes, refusals and misuse."""

import unittest

from meadowtray import (
    MT_BIT,
    MT_SHORT_STRING,
    ChannelState,
    Client,
    Content,
    EndFault,
    EventKind,
    Fault,
    FrameKind,
    Phase,
    Rule,
    Server,
    write_header,
    write_method,
)


def carry(source, target, size):
    """Carries all that an end has to say to the other. The answer is what was told, but for quiet events."""
    output = source.output
    pieces = [output[start : start + size] for start in range(0, len(output), size)]
    events = [event for piece in pieces for event in target.feed(piece)]
    source.wrote(len(output))
    return [event for event in events if event.kind != EventKind.QUIET]


def settle(client, server, size=4096):
    events = []
    while client.output or server.output:
        events += carry(client, server, size) + carry(server, client, size)
    return events


def connected(size=4096, lends=False):
    client = Client(user=b"ann", password=b"secret", virtual_host=b"shop")
    server = Server(frame_max=4096, lends=lends)
    kinds = [event.kind for event in settle(client, server, size)]
    assert kinds == [EventKind.NEGOTIATED] * 2
    assert client.open_channel() == 1
    kinds = [event.kind for event in settle(client, server, size)]
    assert kinds == [EventKind.OPENED] * 2
    return client, server


def publish(queue):
    return write_method("basic.publish", (MT_SHORT_STRING, b""), (MT_SHORT_STRING, queue), (MT_BIT, 0), (MT_BIT, 0))


class EndsTest(unittest.TestCase):
    def test_a_content_in_any_pieces(self):
        body = bytes(i * 7 % 256 for i in range(9000))
        for size in range(1, 41):
            with self.subTest(size=size):
                client, server = connected(size)
                client.send(1, publish(b"orders"), write_header(len(body), content_type=b"text/plain"), body)
                [event] = carry(client, server, size)
                self.assertEqual((event.kind, event.channel), (EventKind.TOLD, 1))
                self.assertEqual(event.method.name, "basic.publish")
                self.assertEqual(event.method.fields["routing-key"], b"orders")
                self.assertEqual(event.header.properties, {"content-type": b"text/plain"})
                self.assertEqual(event.body, body)
                client.close()
                server.close()

    def test_a_content_that_is_lent(self):
        body = bytes(i * 7 % 256 for i in range(9000))
        for size in (1, 7, 40, 4096, 20000):
            with self.subTest(size=size):
                client, server = connected(size, lends=True)
                client.send(1, publish(b"orders"), write_header(len(body)), body)
                begins, heads, *parts = carry(client, server, size)
                self.assertEqual((begins.kind, begins.method.name), (EventKind.BEGINS, "basic.publish"))
                self.assertEqual((heads.kind, heads.header.body_size, heads.whole), (EventKind.HEADS, 9000, False))
                self.assertEqual(b"".join(part.body for part in parts), body)
                self.assertEqual([part.whole for part in parts], [False, False, True])
                self.assertEqual((server.kept, server.gathered_in_all), (0, 0))

    def test_a_body_that_comes_in_parts(self):
        body = bytes(range(250)) * 40
        method, header = publish(b"orders"), write_header(len(body))
        ends = [(Client(lends=True), Server(frame_max=4096, lends=True)) for _ in range(2)]
        for client, server in ends:
            settle(client, server)
            client.open_channel()
            settle(client, server)
        (client, server), (twin, _) = ends
        twin.send(1, method, header, body)
        with Content() as content:
            octets = client.begin_content(content, 1, method, header)
            for start in range(0, len(body), 999):
                self.assertEqual(content.left, len(body) - start)
                octets += content.write(body[start : start + 999])
            self.assertEqual(content.left, 0)
            with self.assertRaises(Fault):
                content.write(b"x")
        self.assertEqual(octets, twin.output)
        parts = [event for event in server.feed(octets) if event.kind == EventKind.PART]
        self.assertEqual(b"".join(event.body for event in parts), body)

    def test_answers(self):
        client, server = connected()
        self.assertEqual(client.agreed, (2047, 4096))
        self.assertEqual((client.phase, server.phase), (Phase.RUNNING, Phase.RUNNING))
        self.assertEqual((client.channel_state(1), client.channel_state(2)), (ChannelState.OPEN, ChannelState.FREE))
        self.assertEqual((client.lowest_free(), client.pending, client.gathered(1)), (2, 0, 0))
        client.send(1, write_method("queue.purge", (MT_SHORT_STRING, b"q"), (MT_BIT, 0)))
        self.assertEqual(client.reply_due(1), "queue.purge")

    def test_closes(self):
        client, server = connected()
        server.flow(1, False)
        server.blocked(b"disk full")
        server.close_channel(1, 404, b"no queue")
        events = settle(client, server)
        told = [(event.kind, event.channel, event.active, event.code, event.text) for event in events]
        self.assertIn((EventKind.FLOW, 1, False, None, None), told)
        self.assertIn((EventKind.BLOCKED, 0, None, None, b"disk full"), told)
        self.assertIn((EventKind.CHANNEL_CLOSED, 1, None, 404, b"no queue"), told)
        client.close_connection(200, b"bye")
        [closed, ended] = settle(client, server)
        self.assertEqual((closed.code, closed.text, ended.code), (200, b"bye", None))
        self.assertEqual((client.phase, server.phase), (Phase.CLOSED, Phase.CLOSED))

    def test_faults(self):
        client, server = connected()
        with self.assertRaises(EndFault) as raised:
            list(server.feed(b"\x08\0\3\0\0\0\0\xce"))
        self.assertEqual(raised.exception.status, 401)
        self.assertIsNotNone(raised.exception.code)
        blame = server.blame
        self.assertEqual((blame.rule, blame.code, blame.frame), (Rule.HEARTBEAT_ON_ZERO, 501, FrameKind.HEARTBEAT))
        self.assertEqual((blame.octet, blame.channel), (server.octets_taken - 8, 3))
        self.assertEqual(blame.line, f"octet {blame.octet}, channel 3: a heartbeat on a channel (501)")
        self.assertIsNone(client.blame)
        self.assertEqual(server.phase, Phase.FAILED)
        with self.assertRaises(Fault) as raised:
            client.send(2, write_method("queue.purge", (MT_SHORT_STRING, b"q"), (MT_BIT, 0)))
        self.assertEqual(raised.exception.status, 603)

    def test_what_was_heard(self):
        client, server = connected()
        self.assertEqual(server.heard("connection.open").fields["virtual-host"], b"shop")
        self.assertEqual(client.heard("connection.start").fields["mechanisms"], b"PLAIN")
        self.assertIsNone(server.heard("connection.start"))
        server.forget_heard()
        self.assertIsNone(server.heard("connection.open"))
        self.assertEqual((client.heartbeat, client.kept, client.gathered_in_all), (0, 0, 0))

    def test_closes_for_a_method(self):
        client, server = connected()
        self.assertIsNone(client.closed_for)
        server.close_channel_for(1, 404, b"no queue", "queue.declare")
        settle(client, server)
        self.assertEqual(client.closed_for, (50, 10))
        with self.assertRaises(Fault) as raised:
            server.close_connection_for(320, b"no", "queue.undeclare")
        self.assertEqual(raised.exception.status, 9)
        server.close_connection_for(320, b"shut down", "basic.publish")
        settle(client, server)
        self.assertEqual(client.closed_for, (60, 40))

    def test_misuse(self):
        with self.assertRaises(Fault) as raised:
            Client(frame_max=4095)
        self.assertEqual(raised.exception.status, 501)
        client = Client()
        client.close()
        client.close()
        with self.assertRaises(Fault) as raised:
            client.open_channel()
        self.assertEqual(raised.exception.status, 1)


if __name__ == "__main__":
    unittest.main()
