"""Runs clients against the example proxy in front of the broker at 127.0.0.1 and the port that is given, and says
of each thing whether it went as it should.

The runs of broker.py are made through the proxy, with the word `rabbitmq` after the port those of RabbitMQ; then what
a proxy alone has to do. The variable PROXY has the proxy's words."""

import os
import pathlib
import select
import socket
import struct
import subprocess
import sys
import threading
import time

import pika

BROKER = int(sys.argv[1])
IS_RABBITMQ = "rabbitmq" in sys.argv[2:]
HERE = pathlib.Path(__file__).parent
WORDS = os.environ["PROXY"].split()
# how many of them a reader gets that reads one a second
MEGABYTES = int(os.environ.get("MEGABYTES", "20"))
failed = 0


def says(what, wanted, found):
    global failed
    if wanted == found:
        print(f"ok: {what}", flush=True)
    else:
        failed += 1
        print(f"failed: {what}: wanted {wanted!r:.300}, and not {found!r:.300}", flush=True)


class Proxy:
    """A proxy on a port of its own, for as long as the block lasts."""

    def __init__(self, *options, broker=BROKER):
        words = [*WORDS, "127.0.0.1:0", f"127.0.0.1:{broker}", *options]
        self.process = subprocess.Popen(words, stdout=subprocess.PIPE, text=True)
        self.port = int(self.process.stdout.readline().rsplit(":", 1)[1])

    def __enter__(self):
        return self

    def __exit__(self, *_):
        self.process.kill()
        self.process.wait()

    def connect(self, **parameters):
        where = pika.ConnectionParameters("127.0.0.1", self.port, heartbeat=0, **parameters)
        return pika.BlockingConnection(where)

    def memory(self):
        """Its greatest resident memory, in megabytes."""
        status = pathlib.Path(f"/proc/{self.process.pid}/status").read_text()
        return next(int(line.split()[1]) // 1000 for line in status.splitlines() if line.startswith("VmHWM"))


# The runs of broker.py but for rabbitmq-c's tools, which don't wait until the broker has what they published.
RUNS = "sizes order exchanges acks prefetch turns refusals lives confirms channels py-amqp go ruby php".split()


def clients_of_the_broker():
    with Proxy() as proxy:
        runs = [word for word in sys.argv[2:] if word in RUNS] or RUNS
        words = [sys.executable, str(HERE / "broker.py"), str(proxy.port), *IS_RABBITMQ * ["rabbitmq"], *runs]
        ran = subprocess.run(words, check=False)
        says("proxy: all that clients do with the broker itself", 0, ran.returncode)


def tool(proxy, name, *words, data=None):
    command = [name, "--server", "127.0.0.1", "--port", str(proxy.port), *words]
    ran = subprocess.run(command, input=data, capture_output=True, timeout=120, check=False)
    return ran.returncode, ran.stdout


def get_with_tool(proxy, queue):
    """What amqp-get prints. A proxy answers a close before the broker has what was published, so it is tried again
    for a while."""
    for _ in range(40):
        status, body = tool(proxy, "amqp-get", "-q", queue)
        if status != 2:
            break
        time.sleep(0.25)
    return body


def tools():
    with Proxy() as proxy:
        says("amqp-declare-queue", (0, b"p.tools\n"), tool(proxy, "amqp-declare-queue", "-q", "p.tools"))
        for size in (0, 1, 131_064, 1_000_000, 50_000_000):
            body = os.urandom(size)
            says(f"amqp-publish {size} octets", 0, tool(proxy, "amqp-publish", "-r", "p.tools", data=body)[0])
            says(f"amqp-get {size} octets", True, get_with_tool(proxy, "p.tools") == body)
        says("amqp-get of an empty queue", 2, tool(proxy, "amqp-get", "-q", "p.tools")[0])
        says("amqp-get of no such queue", 1, tool(proxy, "amqp-get", "-q", "p.nowhere")[0])
        says("amqp-delete-queue", (0, b"0\n"), tool(proxy, "amqp-delete-queue", "-q", "p.tools"))


def slow_reader():
    """100 MB to a consumer that reads nothing for a while."""
    count, body, seen = 100, bytes(range(250)) * 4_000, []
    with Proxy() as proxy:
        connection, writer = proxy.connect(), proxy.connect()
        queue = writer.channel().queue_declare("p.slow").method.queue
        connection.channel().basic_consume(queue, lambda _c, _m, _p, came: seen.append(came), auto_ack=True)
        sends = threading.Thread(target=send_all, args=(writer, queue, body, count))
        sends.start()
        time.sleep(3)
        held = proxy.memory()
        until = time.monotonic() + 120
        while len(seen) < count and time.monotonic() < until:
            connection.process_data_events(1)
        sends.join()
        says("proxy: 100 MB to a slow reader", True, seen == count * [body])
        most = proxy.memory()
        says(f"proxy: it held {held} MB before they were read, and {most} at most", True, most < 16)
        connection.channel().queue_delete(queue)
        connection.close()


def paced_reader():
    """So many megabytes, each a content, to a consumer that reads one of them a second. What the kernel keeps for the
    reader is small."""
    body, bodies, left = bytes(range(250)) * 4_000, bytearray(), b""
    whole = MEGABYTES * len(body)
    with Proxy() as proxy, socket.socket() as client:
        client.setsockopt(socket.SOL_SOCKET, socket.SO_RCVBUF, 65_536)
        client.settimeout(60)
        client.connect(("127.0.0.1", proxy.port))
        log_in(client)
        writer = proxy.connect()
        queue = writer.channel().queue_declare("p.paced").method.queue
        consume = b"\0\x3c\0\x14\0\0" + short(queue.encode()) + short(b"") + b"\x02\0\0\0\0"
        client.sendall(frame(1, 1, b"\0\x14\0\x0a\0") + frame(1, 1, consume))
        sends = threading.Thread(target=send_all, args=(writer, queue, body, MEGABYTES))
        sends.start()
        began, came = time.monotonic(), 0
        while len(bodies) < whole:
            piece = client.recv(100_000)
            if not piece:
                break
            came += len(piece)
            left = keep_bodies(left + piece, bodies)
            time.sleep(max(0.0, began + came / 1_000_000 - time.monotonic()))
        seconds = time.monotonic() - began
        sends.join()
        most = proxy.memory()
        what = f"proxy: {MEGABYTES} MB to a reader of 1 MB a second"
        says(f"{what}: it took {seconds:.1f} seconds", True, bodies == MEGABYTES * body and seconds > 0.99 * MEGABYTES)
        says(f"{what}: it held {most} MB at most", True, most < 16)
        connection = proxy.connect()
        connection.channel().queue_delete(queue)
        connection.close()


def keep_bodies(octets, bodies):
    """Keeps the parts of bodies that whole frames hold. It gives the octets after these frames."""
    start = 0
    while len(octets) >= start + 7:
        kind, _, size = struct.unpack_from(">BHI", octets, start)
        if len(octets) < start + size + 8:
            break
        if kind == 3:
            bodies += octets[start + 7 : start + 7 + size]
        start += size + 8
    return octets[start:]


def send_all(connection, queue, body, count):
    channel = connection.channel()
    for _ in range(count):
        channel.basic_publish("", queue, body)
    connection.close()


def small_frames():
    """Contents are cut anew where the sides have agreed on other sizes."""
    with Proxy() as proxy:
        connection = proxy.connect(frame_max=4096)
        channel = connection.channel()
        channel.confirm_delivery()
        queue = channel.queue_declare("", exclusive=True).method.queue
        for size in (4_088, 4_089, 1_000_000):
            body = os.urandom(size)
            channel.basic_publish("", queue, body)
            says(f"proxy: {size} octets in frames of 4096", True, channel.basic_get(queue, auto_ack=True)[2] == body)
        connection.close()


def channels():
    """The client's numbers are its own, and can be used again."""
    with Proxy() as proxy:
        connection = proxy.connect()
        found = []
        for number in (7, 3, 2_000, 3):
            channel = connection.channel(number)
            queue = channel.queue_declare("", exclusive=True).method.queue
            channel.basic_publish("", queue, str(number).encode())
            found.append((channel.channel_number, channel.basic_get(queue, auto_ack=True)[2]))
            if number == 3:
                channel.close()
        says("proxy: channels 7, 3, 2000, and 3 again", [(n, b"%d" % n) for n in (7, 3, 2_000, 3)], found)
        connection.close()


def frame(kind, channel, payload):
    return struct.pack(">BHI", kind, channel, len(payload)) + payload + b"\xce"


def short(text):
    return bytes([len(text)]) + text


def until(client, end):
    """Reads until what came ends so."""
    came = b""
    while not came.endswith(end + b"\xce"):
        more = client.recv(65_536)
        if not more:
            raise ConnectionError(f"hung up after {came!r}")
        came += more


def log_in(client):
    """The handshake on a raw socket."""
    client.sendall(b"AMQP\0\0\x09\x01")
    until(client, b"en_US")
    response = b"\0guest\0guest"
    start_ok = b"\0\x0a\0\x0b\0\0\0\0" + short(b"PLAIN") + struct.pack(">I", len(response)) + response
    client.sendall(frame(1, 0, start_ok + short(b"en_US")))
    until(client, struct.pack(">HHHIH", 10, 30, 2047, 131_072, 60))
    client.sendall(frame(1, 0, struct.pack(">HHHIH", 10, 31, 2047, 131_072, 0)))
    client.sendall(frame(1, 0, b"\0\x0a\0\x28\x01/\0\0"))
    until(client, b"\0\x0a\0\x29\0")


def pipelined():
    """Requests that don't wait for the replies to those before them, a content after them, and a close."""
    with Proxy() as proxy, socket.create_connection(("127.0.0.1", proxy.port), timeout=30) as client:
        log_in(client)
        # all at once from here on: open, declares, a content, a close
        names = [b"p.%d" % number for number in range(50)]
        declares = [b"\0\x32\0\x0a\0\0" + short(name) + b"\0\0\0\0\0" for name in names]
        publish = b"\0\x3c\0\x28\0\0\0" + short(names[49]) + b"\0"
        close = b"\0\x14\0\x28\0\xc8" + short(b"bye") + b"\0\0\0\0"
        frames = [frame(1, 1, payload) for payload in [b"\0\x14\0\x0a\0", *declares, publish]]
        content = [frame(2, 1, struct.pack(">HHQH", 60, 0, 5, 0)), frame(3, 1, b"after"), frame(1, 1, close)]
        client.sendall(b"".join([*frames, *content]))
        until(client, b"\0\x14\0\x29")
        connection = proxy.connect()
        channel = connection.channel()
        channel.queue_declare("p.49")
        time.sleep(1)
        says("proxy: a content after 50 requests, and a close", b"after", channel.basic_get("p.49", auto_ack=True)[2])
        found = [channel.queue_delete(name.decode()) is not None for name in names]
        says("proxy: each request was made", 50, sum(found))
        connection.close()


def content(size, properties=b"\0\0"):
    """The payload of a content's header."""
    return struct.pack(">HHQ", 60, 0, size) + properties


def publish(key, exchange=b""):
    return b"\0\x3c\0\x28\0\0" + short(exchange) + short(key) + b"\0"


def large_content():
    """A content that goes out as it comes, both ways."""
    body = bytes(range(250)) * 400_000
    with Proxy() as proxy:
        connection = proxy.connect(blocked_connection_timeout=300)
        channel = connection.channel()
        channel.confirm_delivery()
        queue = channel.queue_declare("", exclusive=True).method.queue
        channel.basic_publish("", queue, body)
        says("proxy: a content of 100 MB", True, channel.basic_get(queue, auto_ack=True)[2] == body)
        most = proxy.memory()
        says(f"proxy: of a content of 100 MB it held {most} MB at most", True, most < 16)
        connection.close()


OPEN, CLOSE_OK = b"\0\x14\0\x0a\0", b"\0\x14\0\x29"
CLOSE = b"\0\x14\0\x28\0\xc8" + short(b"bye") + b"\0\0\0\0"


def open_channels(client, queue, channels=1, flags=0):
    """Logs in, opens channels and declares a queue on the first. What follows finds them open at the broker."""
    log_in(client)
    client.sendall(b"".join(frame(1, number + 1, OPEN) for number in range(channels)))
    client.sendall(frame(1, 1, b"\0\x32\0\x0a\0\0" + short(queue) + bytes([flags]) + bytes(4)))
    until(client, short(queue) + bytes(8))


def frames(client):
    """The frames that come, each as its kind, its channel and its payload, until the peer hangs up."""
    left = b""
    while True:
        while len(left) < 7 or len(left) < 8 + struct.unpack_from(">I", left, 3)[0]:
            more = client.recv(1_000_000)
            if not more:
                return
            left += more
        kind, channel, size = struct.unpack_from(">BHI", left)
        yield kind, channel, left[7 : 7 + size]
        left = left[8 + size :]


def is_quiet(client, seconds):
    return not select.select([client], [], [], seconds)[0]


def contents_in_turn():
    """Two contents of one client whose frames come in turn: one goes out as it comes, the other waits for its end."""
    bodies = {1: os.urandom(900_000), 2: os.urandom(600_000)}
    with Proxy() as proxy, socket.create_connection(("127.0.0.1", proxy.port), timeout=30) as client:
        connection = proxy.connect()
        channel = connection.channel()
        queues = {number: channel.queue_declare("", exclusive=True).method.queue for number in bodies}
        open_channels(client, b"p.turns", channels=2)
        for number, body in bodies.items():
            client.sendall(frame(1, number, publish(queues[number].encode())) + frame(2, number, content(len(body))))
        for start in range(0, 850_000, 50_000):
            for number, body in bodies.items():
                if start < len(body):
                    client.sendall(frame(3, number, body[start : start + 50_000]))
        time.sleep(1)
        found = channel.basic_get(queues[2], auto_ack=True)[2]
        says("proxy: a content that is whole waits for one that was begun", None, found)
        client.sendall(frame(3, 1, bodies[1][850_000:]))
        time.sleep(1)
        found = {number: channel.basic_get(queue, auto_ack=True)[2] for number, queue in queues.items()}
        says("proxy: two contents whose frames come in turn", True, found == bodies)
        channel.queue_delete("p.turns")
        connection.close()


def half_a_content():
    """A client that is gone in the middle of a content: nobody gets anything of it, and its connection ends."""
    with Proxy() as proxy:
        connection = proxy.connect()
        channel = connection.channel()
        queue = channel.queue_declare("", exclusive=True).method.queue
        with socket.create_connection(("127.0.0.1", proxy.port), timeout=30) as client:
            open_channels(client, b"p.half", flags=4)
            client.sendall(frame(1, 1, publish(queue.encode())) + frame(2, 1, content(1_000_000)))
            client.sendall(frame(3, 1, bytes(100_000)))
            time.sleep(1)
        time.sleep(1)
        channel.basic_publish("", queue, b"whole")
        says("proxy: nothing of half a content", b"whole", channel.basic_get(queue, auto_ack=True)[2])
        says("proxy: nothing after it", None, channel.basic_get(queue, auto_ack=True)[2])
        try:
            channel.queue_declare("p.half", passive=True)
            found = None
        except pika.exceptions.ChannelClosedByBroker as error:
            found = error.reply_code
        says("proxy: the connection to the broker ended with it", 404, found)
        connection.close()


def closed_by_the_receiver():
    """A channel that the broker closes while a content goes to it: the client hears of it once it has sent the rest."""
    with Proxy() as proxy, socket.create_connection(("127.0.0.1", proxy.port), timeout=30) as client:
        connection = proxy.connect()
        channel = connection.channel()
        queue = channel.queue_declare("", exclusive=True).method.queue
        open_channels(client, b"p.middle", channels=2)
        lost = frame(1, 1, publish(b"", b"nowhere")) + frame(2, 1, content(4)) + frame(3, 1, b"lost")
        begun = frame(1, 1, publish(queue.encode())) + frame(2, 1, content(1_000_000)) + frame(3, 1, bytes(60_000))
        client.sendall(lost + begun)
        says("proxy: a close waits for the rest of a content", True, is_quiet(client, 1))
        client.sendall(b"".join(frame(3, 1, bytes(94_000)) for _ in range(10)))
        until(client, b"\0\x3c\0\x28")
        client.sendall(frame(1, 1, CLOSE_OK))
        client.sendall(frame(1, 2, b"\0\x32\0\x0a\0\0" + short(b"p.middle") + bytes(5)))
        until(client, short(b"p.middle") + bytes(8))
        says("proxy: nothing of a content whose channel was closed", None, channel.basic_get(queue, auto_ack=True)[2])
        channel.queue_delete("p.middle")
        client.sendall(frame(1, 1, OPEN) + frame(1, 1, publish(queue.encode())))
        client.sendall(frame(2, 1, content(5)) + frame(3, 1, b"again"))
        time.sleep(1)
        says("proxy: its number is used again", b"again", channel.basic_get(queue, auto_ack=True)[2])
        connection.close()


def closed_while_receiving():
    """A client that closes its channel in the middle of a content that it is sent: it gets the rest, and then
    close-ok."""
    body = os.urandom(20_000_000)
    with Proxy() as proxy, socket.socket() as client:
        client.setsockopt(socket.SOL_SOCKET, socket.SO_RCVBUF, 65_536)
        client.settimeout(30)
        client.connect(("127.0.0.1", proxy.port))
        open_channels(client, b"p.receives", flags=8)
        connection = proxy.connect()
        connection.channel().basic_publish("", "p.receives", body)
        consume = b"\0\x3c\0\x14\0\0" + short(b"p.receives") + short(b"") + b"\x02\0\0\0\0"
        client.sendall(frame(1, 1, consume))
        came = frames(client)
        bodies = bytearray(next(payload for kind, _, payload in came if kind == 3))
        client.sendall(frame(1, 1, CLOSE))
        for _, _, payload in came:
            if payload == CLOSE_OK:
                break
            bodies += payload
        says("proxy: all of a content whose channel the client closes", True, bodies == body)
        connection.close()


def closed_by_the_sender():
    """A client that closes its channel in the middle of its own content: half a content can't be ended."""
    with Proxy() as proxy, socket.create_connection(("127.0.0.1", proxy.port), timeout=30) as client:
        connection = proxy.connect()
        channel = connection.channel()
        queue = channel.queue_declare("", exclusive=True).method.queue
        open_channels(client, b"p.sender", flags=4)
        client.sendall(frame(1, 1, publish(queue.encode())) + frame(2, 1, content(1_000_000)))
        client.sendall(frame(3, 1, bytes(100_000)))
        time.sleep(1)
        client.sendall(frame(1, 1, CLOSE))
        until(client, b"CONNECTION_FORCED" + bytes(4))
        says("proxy: half a content ends the connection", None, channel.basic_get(queue, auto_ack=True)[2])
        connection.close()


HALF = bytes(range(250)) * 800


class Amid:
    """A client in the middle of a content that goes to a broker, which is this one: it takes a client and a channel,
    with a heartbeat of one second, and keeps nothing."""

    def __enter__(self):
        self.listening = socket.create_server(("127.0.0.1", 0))
        self.proxy = Proxy(broker=self.listening.getsockname()[1])
        self.client = socket.create_connection(("127.0.0.1", self.proxy.port), timeout=30)
        sends = threading.Thread(target=self.send_half)
        sends.start()
        self.broker = self.listening.accept()[0]
        self.broker.settimeout(30)
        self.broker.recv(8)
        self.came = frames(self.broker)
        long = [struct.pack(">I", len(text)) + text for text in (b"", b"PLAIN", b"en_US")]
        self.broker.sendall(frame(1, 0, b"\0\x0a\0\x0a\0\x09" + b"".join(long)))
        next(self.came)
        self.broker.sendall(frame(1, 0, struct.pack(">HHHIH", 10, 30, 2047, 131_072, 1)))
        next(self.came)
        next(self.came)
        self.broker.sendall(frame(1, 0, b"\0\x0a\0\x29\0"))
        next(self.came)
        self.broker.sendall(frame(1, 1, b"\0\x14\0\x0b" + bytes(4)))
        sends.join()
        begun = [next(self.came) for _ in range(3)]
        self.body = begun[2][2]
        return self

    def send_half(self):
        log_in(self.client)
        self.client.sendall(frame(1, 1, OPEN) + frame(1, 1, publish(b"q")) + frame(2, 1, content(2 * len(HALF))))
        for start in range(0, len(HALF), 40_000):
            self.client.sendall(frame(3, 1, HALF[start : start + 40_000]))

    def close(self):
        """The class, the method and the code of the next method that the broker hears, if one comes."""
        for kind, _, payload in self.came:
            if kind == 1:
                return struct.unpack(">HHH", payload[:6])
        return None

    def __exit__(self, *_):
        for each in (self.client, self.broker, self.listening):
            each.close()
        self.proxy.__exit__()


def paused_sender():
    """A client that pauses in the middle of a content: the broker hears heartbeats, and then gets the rest."""
    with Amid() as amid:
        kinds, ends = [], time.monotonic() + 5
        while time.monotonic() < ends:
            amid.broker.sendall(frame(8, 0, b""))
            kinds.append(next(amid.came)[0])
        says("proxy: heartbeats while the sender of a content pauses", True, kinds.count(8) > 3 and {8} == set(kinds))
        amid.client.sendall(frame(3, 1, HALF[:100_000]) + frame(3, 1, HALF[100_000:]))
        while len(amid.body) < 2 * len(HALF):
            amid.broker.sendall(frame(8, 0, b""))
            kind, _, payload = next(amid.came)
            amid.body += payload if kind == 3 else b""
        says("proxy: and then the rest of the content", True, amid.body == 2 * HALF)


def closes_amid_a_content():
    """The broker hears why its connection ends: it was at fault, or the client is gone."""
    with Amid() as amid:
        amid.broker.sendall(frame(1, 7, CLOSE_OK))
        says("proxy: a receiver at fault in the middle of a content hears why", (10, 50, 504), amid.close())
    with Amid() as amid:
        amid.client.close()
        says("proxy: half a content ends with a close of the connection", (10, 50, 320), amid.close())


def flow():
    """A client that takes no contents for a while, which RabbitMQ doesn't have."""
    if IS_RABBITMQ:
        return
    with Proxy() as proxy:
        connection = proxy.connect()
        channel, other, seen = connection.channel(), connection.channel(), []
        queue = channel.queue_declare("", exclusive=True).method.queue
        channel.basic_consume(queue, lambda _c, _m, _p, body: seen.append(body), auto_ack=True)
        channel.flow(False)
        for _ in range(5):
            other.basic_publish("", queue, b"m")
        connection.process_data_events(1)
        says("proxy: nothing comes on a channel that is paused", [], seen)
        channel.flow(True)
        connection.process_data_events(1)
        says("proxy: all comes once it goes on", 5 * [b"m"], seen)
        connection.close()


def outcome(proxy):
    try:
        proxy.connect().close()
        return None
    except pika.exceptions.AMQPConnectionError as error:
        # pika wraps a close in the handshake in an error of its own
        return next((code for code in (403, 320) if f"({code})" in repr(error)), repr(error))


def refused_logins():
    if IS_RABBITMQ:
        with Proxy("--user", "nobody", "--password", "wrong") as proxy:
            says("proxy: a login that the broker refuses", 403, outcome(proxy))
    with socket.create_server(("127.0.0.1", 0)) as closed:
        free = closed.getsockname()[1]
    with Proxy(broker=free) as proxy:
        says("proxy: no broker", 320, outcome(proxy))


def broker_that_hangs_up():
    """A broker that ends in the middle of a connection: here a proxy before it."""
    with Proxy() as broker, Proxy(broker=broker.port) as proxy:
        connection = proxy.connect()
        channel = connection.channel()
        broker.process.kill()
        try:
            channel.queue_declare("", exclusive=True)
            found = None
        except pika.exceptions.ConnectionClosedByBroker as error:
            found = error.reply_code
        says("proxy: the broker is gone", 320, found)


def log():
    with Proxy("--log") as proxy:
        connection = proxy.connect()
        connection.channel().queue_declare("p.log", auto_delete=True)
        connection.channel().queue_delete("p.log")
        connection.close()
        proxy.process.terminate()
        lines = proxy.process.stdout.read().splitlines()
        found = [line for line in lines if " queue.de" in line]
        says("proxy: a line for each method", 4, len(found))


PARTS = {
    "clients": clients_of_the_broker,
    "tools": tools,
    "slow": slow_reader,
    "paced": paced_reader,
    "frames": small_frames,
    "numbers": channels,
    "pipelined": pipelined,
    "large": large_content,
    "in-turn": contents_in_turn,
    "half": half_a_content,
    "closed": closed_by_the_receiver,
    "receiving": closed_while_receiving,
    "sender": closed_by_the_sender,
    "paused": paused_sender,
    "closes": closes_amid_a_content,
    "flow": flow,
    "logins": refused_logins,
    "gone": broker_that_hangs_up,
    "log": log,
}
chosen = [word for word in sys.argv[2:] if word in PARTS]
for part in chosen or PARTS:
    try:
        PARTS[part]()
    except Exception as error:
        says(f"{part} ends", None, error)
sys.exit(1 if failed else 0)
