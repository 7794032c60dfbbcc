"""Load for the example broker and for RabbitMQ beside it, over raw sockets: load.py PORT PID RABBITMQ_PORT.

Each client sends octets that are made before, and drops what it reads, so that a broker is measured and not the client.
It prints a line for each thing that was tried, and ends with status 1 where one did not go as it should."""

import resource
import socket
import struct
import sys
import threading
import time

PORT, PID, RABBITMQ_PORT = (int(word) for word in sys.argv[1:4])
BROKERS = {"the example broker": PORT, "RabbitMQ": RABBITMQ_PORT}
CONNECTIONS, CHANNELS = 1000, 10

# the example broker may hold so much for a connection that is idle, and so much in all
IDLE, MOST = 20_000, 400_000_000

failed = False


def says(what, well):
    global failed
    failed |= not well
    print(f"{'ok' if well else 'FAILED'}: load: {what}", flush=True)


def frame(kind, channel, payload):
    return struct.pack(">BHI", kind, channel, len(payload)) + payload + b"\xce"


def method(channel, class_id, method_id, arguments=b""):
    return frame(1, channel, struct.pack(">HH", class_id, method_id) + arguments)


def short(text):
    return bytes([len(text)]) + text


def publish(queue, body):
    """A content on channel 1 to a queue by the default exchange, in frames of at most 131,072 octets."""
    parts = [body[at : at + 131_064] for at in range(0, len(body), 131_064)]
    header = struct.pack(">HHQH", 60, 0, len(body), 0)
    start = method(1, 60, 40, b"\0\0" + short(b"") + short(queue) + b"\0") + frame(2, 1, header)
    return start + b"".join(frame(3, 1, part) for part in parts)


class Client:
    """A connection with a channel 1, and what was read and not looked at."""

    def __init__(self, port, channels=1):
        self.socket = socket.create_connection(("127.0.0.1", port), timeout=120)
        self.pending = b""
        response = b"\0guest\0guest"
        self.socket.sendall(b"AMQP\0\0\x09\x01")
        self.expect(10, 10)
        start_ok = b"\0\0\0\0" + short(b"PLAIN") + struct.pack(">I", len(response)) + response + short(b"en_US")
        self.socket.sendall(method(0, 10, 11, start_ok))
        self.expect(10, 30)
        self.socket.sendall(method(0, 10, 31, struct.pack(">HIH", 2047, 131_072, 0)))
        self.socket.sendall(method(0, 10, 40, short(b"/") + b"\0\0"))
        self.expect(10, 41)
        self.socket.sendall(b"".join(method(number, 20, 10, b"\0") for number in range(1, channels + 1)))
        for _ in range(channels):
            self.expect(20, 11)

    def frame(self):
        """The next frame: its kind and its payload."""
        while len(self.pending) < 7 or len(self.pending) < 8 + struct.unpack_from(">I", self.pending, 3)[0]:
            more = self.socket.recv(1 << 20)
            if not more:
                raise SystemExit("the broker hung up")
            self.pending += more
        size = struct.unpack_from(">I", self.pending, 3)[0]
        kind, payload = self.pending[0], self.pending[7 : 7 + size]
        self.pending = self.pending[8 + size :]
        return kind, payload

    def skip(self, count):
        """Reads so many octets, and drops them."""
        count -= len(self.pending)
        self.pending = b""
        room = bytearray(1 << 20)
        while count > 0:
            more = self.socket.recv_into(room, min(count, len(room)))
            if not more:
                raise SystemExit("the broker hung up")
            count -= more

    def expect(self, class_id, method_id):
        kind, payload = self.frame()
        wanted = struct.pack(">HH", class_id, method_id)
        if (kind, payload[:4]) != (1, wanted):
            raise SystemExit(f"wanted {class_id}.{method_id}, and not {payload[:80]!r}")
        return payload[4:]

    def declare(self, queue, passive=False):
        """Declares a queue, and answers how many messages it has."""
        self.socket.sendall(method(1, 50, 10, b"\0\0" + short(queue) + bytes([passive]) + b"\0\0\0\0"))
        answer = self.expect(50, 11)
        return struct.unpack_from(">I", answer, 1 + answer[0])[0]

    def delete(self, queue):
        self.socket.sendall(method(1, 50, 40, b"\0\0" + short(queue) + b"\0"))
        self.expect(50, 41)

    def consume(self, queue):
        self.socket.sendall(method(1, 60, 20, b"\0\0" + short(queue) + short(b"") + b"\x02" + b"\0\0\0\0"))
        self.expect(60, 21)


def memory():
    """What the example broker holds in memory, and what it held at most, in octets."""
    with open(f"/proc/{PID}/status", encoding="ascii") as it:
        sizes = dict(line.split(":", 1) for line in it)
    return tuple(int(sizes[name].split()[0]) * 1024 for name in ("VmRSS", "VmHWM"))


def rates(port, size, count):
    """Messages published a second, to a queue, and consumed a second, without acks."""
    client, body = Client(port), b"x" * size
    client.declare(b"load")
    octets = publish(b"load", body) * count
    start = time.monotonic()
    client.socket.sendall(octets)
    while client.declare(b"load", passive=True) < count:
        time.sleep(0.005)
    published = time.monotonic() - start
    start = time.monotonic()
    client.consume(b"load")
    # all deliveries have the same length, that of the first: its method, its header, and its parts
    length, body_seen = 0, 0
    while body_seen < size:
        kind, payload = client.frame()
        length += len(payload) + 8
        body_seen += len(payload) if kind == 3 else 0
    client.skip(length * (count - 1))
    consumed = time.monotonic() - start
    client.delete(b"load")
    return count / published, count / consumed


def throughput(size, count):
    """The example broker's rates beside RabbitMQ's, which it is to have half of at least."""
    own, others = (rates(port, size, count) for port in BROKERS.values())
    for what, rate, other in zip(("published", "consumed"), own, others):
        ratio = f"{rate / other:.1f} times RabbitMQ's {other:,.0f}"
        says(f"{size:,} octets: {rate:,.0f} {what} a second, {ratio}", rate > other / 2)


def crowd(name, port):
    """Many connections with some channels each, which stay idle."""
    before, _ = memory()
    clients = [Client(port, CHANNELS) for _ in range(CONNECTIONS)]
    what = f"{name}: {len(clients):,} connections with {CHANNELS} channels each"
    if port != PORT:
        says(what, True)
        return
    each = (memory()[0] - before) // CONNECTIONS
    says(f"{what}, {each:,} octets a connection", each < IDLE)


def killed(name, port):
    """Clients that go away in the middle of a content: the broker serves on."""
    for cut in range(1, 400, 7):
        client = Client(port)
        client.socket.sendall(publish(b"nowhere", b"x" * 1000)[:cut])
        client.socket.close()
    served = Client(port).declare(b"after") == 0
    says(f"{name}: others are served after clients went away in the middle of a content", served)


def take_all(client):
    """Reads until nothing comes for five seconds, and answers how many octets of contents came."""
    seen = 0
    client.socket.settimeout(5)
    try:
        while True:
            kind, payload = client.frame()
            seen += len(payload) if kind == 3 else 0
    except TimeoutError:
        return seen


def never_reads(name, port):
    """A consumer that never reads, while 200 MB are published and another consumer takes at least its half."""
    feeder, stuck, quick = Client(port), Client(port), Client(port)
    feeder.declare(b"both")
    stuck.consume(b"both")
    quick.consume(b"both")
    count, body = 2000, b"x" * 100_000
    for _ in range(count):
        feeder.socket.sendall(publish(b"both", body))
    seen, octets = take_all(quick), count * len(body)
    what = f"beside a consumer that never reads another took {seen:,} of {octets:,} octets"
    says(f"{name}: {what}", seen >= octets // 2)
    feeder.delete(b"both")


def reads_slowly(client, is_over, taken):
    """Reads about 5 MB a second."""
    room = bytearray(100_000)
    while not is_over.is_set():
        taken.append(client.socket.recv_into(room))
        time.sleep(0.02)


def slow_beside_fast(name, port):
    """A consumer that reads 5 MB a second, while 100 MB are published and another consumer takes at least its half."""
    feeder, slow, quick = Client(port), Client(port), Client(port)
    feeder.declare(b"two")
    slow.consume(b"two")
    quick.consume(b"two")
    is_over, taken = threading.Event(), []
    reader = threading.Thread(target=reads_slowly, args=(slow, is_over, taken), daemon=True)
    reader.start()
    count, body = 1000, b"x" * 100_000
    for _ in range(count):
        feeder.socket.sendall(publish(b"two", body))
    seen, octets = take_all(quick), count * len(body)
    is_over.set()
    both = f"beside a slow consumer, which read {sum(taken):,} octets, another took {seen:,} of {octets:,}"
    says(f"{name}: {both}", sum(taken) > 0 and seen >= octets // 2)


soft, hard = resource.getrlimit(resource.RLIMIT_NOFILE)
resource.setrlimit(resource.RLIMIT_NOFILE, (min(hard, 4096), hard))
for broker, at in BROKERS.items():
    crowd(broker, at)
throughput(100, 50_000)
throughput(10_000, 10_000)
for run in (killed, never_reads, slow_beside_fast):
    for broker, at in BROKERS.items():
        run(broker, at)
held, most = memory()
says(f"the example broker: it held {most:,} octets at most, and {held:,} after all this", most < MOST)
sys.exit(failed)
