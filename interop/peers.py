"""Publishes to a broker at 127.0.0.1 and the port that is given, and serves other clients; says of each whether it went as it should."""

import datetime
import decimal
import os
import shlex
import subprocess
import sys
import tempfile
import threading

import amqp
import amqp.exceptions
import pika
import pika.spec

PROGRAM = shlex.split(os.environ["AMQP"])
HERE = os.path.dirname(os.path.abspath(__file__))
PROTOCOL = os.path.join(HERE, "..", "docs", "PROTOCOL.md")
CLIENTS = os.path.join(HERE, "clients")
PORT = int(sys.argv[1])
BROKER = f"127.0.0.1:{PORT}"
failed = 0


def says(what, wanted, found):
    global failed
    if wanted == found:
        print(f"ok: {what}")
    else:
        failed += 1
        print(f"failed: {what}: wanted {wanted!r:.600}, and not {found!r:.600}")


def published(words, body):
    ran = subprocess.run([*PROGRAM, "publish", *words], input=body, capture_output=True, timeout=120, check=False)
    return ran.stdout.decode(), ran.returncode, ran.stderr.decode()


def to_the_broker():
    connection = pika.BlockingConnection(pika.ConnectionParameters("127.0.0.1", PORT, heartbeat=0))
    channel = connection.channel()
    queue = channel.queue_declare("", exclusive=True).method.queue
    channel.exchange_declare("interop", "direct", auto_delete=True)
    channel.queue_bind(queue, "interop", "key")
    for options in ([], ["--confirm"], ["--frame-max", "4096"], ["--confirm", "--frame-max", "4096"], ["--channel-max", "1"]):
        for size in (0, 1, 100_000, 16_000_000):
            body = os.urandom(size)
            what = " ".join(["publish", *options, f"{size} octets"])
            says(what, (f"published {size}\n", 0, ""), published([BROKER, "", queue, *options], body))
            method, properties, came = channel.basic_get(queue, auto_ack=True)
            while method is None and "--confirm" not in options:
                connection.sleep(0.05)
                method, properties, came = channel.basic_get(queue, auto_ack=True)
            says(f"{what}, as pika gets it", True, came == body)
            says(f"{what}, its properties", {}, {name: value for name, value in vars(properties).items() if value is not None})
    says("publish to an exchange with a binding", ("published 2\n", 0, ""), published([BROKER, "interop", "key", "--confirm"], b"hi"))
    tool = subprocess.run(["amqp-get", "--server", "127.0.0.1", "--port", str(PORT), "-q", "nowhere"], capture_output=True, timeout=60, check=False)
    says("amqp-get of no such queue", 1, tool.returncode)
    method, _, came = channel.basic_get(queue, auto_ack=True)
    says("publish to an exchange with a binding, as pika gets it", ("interop", "key", b"hi"), (method.exchange, method.routing_key, came))
    # what a broker says of a content that it refuses comes after the client has begun to close, and is not heard
    for words in (["no such exchange", "key"], ["", "no such queue"]):
        says(f"publish to {words}", ("published 2\n", 0, ""), published([BROKER, *words], b"hi"))
    says(
        "publish --confirm to no such exchange",
        ("fault short\n", 1, f"amqp: {BROKER}: the server closed the channel: 404 \"NOT_FOUND - no exchange 'nowhere' in vhost '/'\"\n"),
        published([BROKER, "nowhere", "key", "--confirm"], b"hi"),
    )
    says(
        "publish --confirm to no such queue",
        ("fault short\n", 1, f'amqp: {BROKER}: the server returned the content: 312 "NO_ROUTE"\n'),
        published([BROKER, "", "nowhere", "--confirm"], b"hi"),
    )
    connection.close()
    # the same with rabbitmq-c's tools at the other end
    tools = ["--server", "127.0.0.1", "--port", str(PORT)]
    subprocess.run(["amqp-declare-queue", *tools, "-q", "tools"], check=True, capture_output=True, timeout=60)
    body = os.urandom(100_000)
    says("publish for amqp-get", ("published 100000\n", 0, ""), published([BROKER, "", "tools", "--confirm"], body))
    got = subprocess.run(["amqp-get", *tools, "-q", "tools"], check=True, capture_output=True, timeout=60)
    says("publish, as amqp-get gets it", True, got.stdout == body)


def with_options():
    """`publish` with each option, read back by pika; logins that a broker takes and refuses; and contents that no queue takes."""
    connection = pika.BlockingConnection(pika.ConnectionParameters("127.0.0.1", PORT, heartbeat=0))
    channel = connection.channel()
    queue = channel.queue_declare("", exclusive=True).method.queue
    headers = ["--header", "source=shell", "--header", "empty=", "--header", "text=\u00e9=1"]
    whole = {
        "content_type": "text/plain", "headers": {"source": "shell", "empty": "", "text": "\u00e9=1"}, "delivery_mode": 2,
        "correlation_id": "c", "reply_to": "answers", "expiration": "60000",
    }
    for options, wanted in (
        (["--content-type", "text/plain"], {"content_type": "text/plain"}),
        (headers, {"headers": whole["headers"]}),
        (["--persistent"], {"delivery_mode": 2}),
        (["--correlation-id", "c"], {"correlation_id": "c"}),
        (["--reply-to", "answers"], {"reply_to": "answers"}),
        (["--expiration", "60000"], {"expiration": "60000"}),
        (["--content-type", "text/plain", *headers, "--persistent", "--correlation-id", "c", "--reply-to", "answers", "--expiration", "60000"], whole),
    ):
        what = " ".join(["publish", *options])
        says(what, ("published 2\n", 0, ""), published([BROKER, "", queue, "--mandatory", *options], b"hi"))
        _, properties, came = channel.basic_get(queue, auto_ack=True)
        found = {name: value for name, value in vars(properties).items() if value is not None}
        says(f"{what}, as pika gets it", (b"hi", wanted), (came, found))
    for words in (["", "no such queue"], ["amq.direct", "no such key"]):
        returned = ("fault short\n", 1, f'amqp: {BROKER}: the server returned the content: 312 "NO_ROUTE"\n')
        says(f"publish --mandatory to {words}", returned, published([BROKER, *words, "--mandatory"], b"hi"))
    says(
        "publish --mandatory to no such exchange",
        ("fault short\n", 1, f"amqp: {BROKER}: the server closed the channel: 404 \"NOT_FOUND - no exchange 'nowhere' in vhost '/'\"\n"),
        published([BROKER, "nowhere", "key", "--mandatory"], b"hi"),
    )
    for words in ([f"amqp://{BROKER}"], [f"amqp://guest:guest@{BROKER}/%2F"], ["--user", "guest", "--password", "guest", "--vhost", "/", BROKER]):
        says(f"publish to {words}", ("published 2\n", 0, ""), published([*words, "", queue, "--mandatory"], b"hi"))
        _, _, came = channel.basic_get(queue, auto_ack=True)
        says(f"publish to {words}, as pika gets it", b"hi", came)
    # this broker resets the connection, or hangs up, where it refuses a login: the client has not said that it hears refusals
    for words in ([f"amqp://guest:wrong@{BROKER}"], ["--user", "nobody", BROKER]):
        printed, status, said = published([*words, "", queue], b"hi")
        says(f"publish to {words}", (True, 1, False), (printed in ("fault read\n", "fault end-of-input\n"), status, "wrong" in said))
    closed = f"amqp: {BROKER}: the server closed the connection: 530 \"NOT_ALLOWED - vhost nowhere not found\"\n"
    says("publish to no such virtual host", ("fault short\n", 1, closed), published(["--vhost", "nowhere", BROKER, "", queue], b"hi"))
    connection.close()


class Served:
    """A run of `serve`, which listens once it is made."""

    def __init__(self, *options):
        self.run = subprocess.Popen([*PROGRAM, "serve", "127.0.0.1:0", *options], stdout=subprocess.PIPE, stderr=subprocess.PIPE, text=True)
        self.address = self.run.stdout.readline().split()[1]
        self.port = int(self.address.rsplit(":", 1)[1])
        # what it prints is read all the time: it would wait for room in the pipe otherwise
        self.printed = []
        self.reader = threading.Thread(target=lambda: self.printed.extend(self.run.stdout.read().splitlines()), daemon=True)
        self.reader.start()

    def ended(self):
        """What it printed after the address, its status, and what it said on standard error."""
        self.run.wait(timeout=60)
        self.reader.join(timeout=60)
        return self.printed, self.run.returncode, self.run.stderr.read()


def shaken(channel_max=2047, frame_max=131_072):
    return ["quiet", "quiet", "quiet", f"negotiated {channel_max} {frame_max}", "opened 1"]


def with_pika():
    served = Served()
    connection = pika.BlockingConnection(pika.ConnectionParameters("127.0.0.1", served.port, heartbeat=600, blocked_connection_timeout=5))
    channel = connection.channel()
    headers = {
        "text": "é",
        "whole": 5,
        "large": 1 << 40,
        "negative": -3,
        "true": True,
        "nothing": None,
        "list": [1, "two"],
        "table": {"inner": 1},
        "decimal": decimal.Decimal("1.5"),
        "time": datetime.datetime(2001, 9, 9, 1, 46, 40),
    }
    properties = pika.BasicProperties(
        content_type="text/plain", content_encoding="utf-8", headers=headers, delivery_mode=2, priority=7, correlation_id="c", reply_to="r",
        expiration="60000", message_id="m", timestamp=1_000_000_000, type="t", user_id="guest", app_id="a", cluster_id="k",
    )
    channel.basic_publish("x", "k", b"hello", properties)
    channel.basic_publish("", "long", b"\xff" * 300_000)
    connection.close()
    fields = (
        'headers={"text"=S:"\\xc3\\xa9","whole"=I:5,"large"=l:1099511627776,"negative"=I:-3,"true"=t:1,"nothing"=V,'
        '"list"=A[I:1,S:"two"],"table"=F{"inner"=I:1},"decimal"=D:1:15,"time"=T:1000000000}'
    )
    rest = (
        'delivery-mode=2 priority=7 correlation-id="c" reply-to="r" expiration="60000" message-id="m" timestamp=1000000000 type="t" '
        'user-id="guest" app-id="a" cluster-id="k"'
    )
    wanted = [
        *shaken(),
        'told 1 basic.publish exchange="x" routing-key="k" mandatory=0 immediate=0',
        f'  header size=5 content-type="text/plain" content-encoding="utf-8" {fields} {rest}',
        "  body 68656c6c6f",
        'told 1 basic.publish exchange="" routing-key="long" mandatory=0 immediate=0',
        "  header size=300000",
        f"  body {'ff' * 300_000}",
        'channel-closed 1 200 "Normal shutdown"',
        'connection-closed 200 "Normal shutdown"',
    ]
    says("serve a client of pika", (wanted, 0, ""), served.ended())


def with_py_amqp():
    served = Served("--frame-max", "4096", "--channel-max", "3")
    connection = amqp.Connection(served.address)
    connection.connect()
    channel = connection.channel()
    message = amqp.Message("hello", content_type="text/plain", application_headers={"whole": 5, "text": "x", "true": True, "list": [1]}, delivery_mode=2)
    channel.basic_publish(message, exchange="x", routing_key="k")
    channel.basic_publish(amqp.Message(b"\x01" * 10_000), exchange="", routing_key="long")
    channel.close()
    connection.close()
    wanted = [
        *shaken(3, 4096),
        'told 1 basic.publish exchange="x" routing-key="k" mandatory=0 immediate=0',
        '  header size=5 content-type="text/plain" content-encoding="utf-8" headers={"whole"=I:5,"text"=S:"x","true"=t:1,"list"=A[I:1]} delivery-mode=2',
        "  body 68656c6c6f",
        'told 1 basic.publish exchange="" routing-key="long" mandatory=0 immediate=0',
        "  header size=10000",
        f"  body {'01' * 10_000}",
        'channel-closed 1 0 ""',
        'connection-closed 0 ""',
    ]
    says("serve a client of py-amqp", (wanted, 0, ""), served.ended())


def with_tools():
    served = Served()
    words = ["amqp-publish", "--server", "127.0.0.1", "--port", str(served.port), "-e", "x", "-r", "k", "-C", "text/plain", "-p"]
    ran = subprocess.run([*words, "-H", "name: value", "-b", "hello"], capture_output=True, timeout=60, check=False)
    says("amqp-publish", 0, ran.returncode)
    wanted = [
        *shaken(),
        'told 1 basic.publish exchange="x" routing-key="k" mandatory=0 immediate=0',
        '  header size=5 content-type="text/plain" headers={"name"=S:"value"} delivery-mode=2',
        "  body 68656c6c6f",
        # its closes have the code as their text too
        'channel-closed 1 200 "200"',
        'connection-closed 200 "200"',
    ]
    says("serve amqp-publish", (wanted, 0, ""), served.ended())
    # a client that waits for an answer, which this server doesn't give
    served = Served()
    words = ["timeout", "2", "amqp-declare-queue", "--server", "127.0.0.1", "--port", str(served.port), "-q", "q"]
    ran = subprocess.run(words, capture_output=True, timeout=60, check=False)
    says("amqp-declare-queue waits for an answer", 124, ran.returncode)
    printed, status, said = served.ended()
    told = 'told 1 queue.declare queue="q" passive=0 durable=0 exclusive=0 auto-delete=0 no-wait=0 arguments={}'
    says("serve amqp-declare-queue", ([*shaken(), told, "fault end-of-input"], 1), (printed, status))


def idle_pika(port, heartbeat):
    connection = pika.BlockingConnection(pika.ConnectionParameters("127.0.0.1", port, heartbeat=heartbeat))
    channel = connection.channel()
    connection.sleep(60)
    channel.basic_publish("", "q", b"hi")
    connection.close()


def idle_go(port, heartbeat):
    go = {"GO111MODULE": "off", "GOPATH": "/usr/share/gocode", "GOFLAGS": ""}
    go["GOCACHE"] = os.environ.get("GOCACHE", os.path.join(tempfile.gettempdir(), "interop-go"))
    words = ["go", "run", os.path.join(CLIENTS, "idle.go"), str(port), str(heartbeat)]
    subprocess.run(words, check=True, capture_output=True, timeout=300, env={**os.environ, **go})


def idles(what, client, heartbeat, options):
    """A client that settles on this heartbeat, and says nothing else for a minute, is neither given up nor gives up."""
    served = Served(*options)
    try:
        client(served.port, heartbeat)
    except Exception as error:
        says(f"serve {what}, idle for a minute", "no error", repr(error))
    printed, status, said = served.ended()
    told = ['told 1 basic.publish exchange="" routing-key="q" mandatory=0 immediate=0', "  header size=2", "  body 6869"]
    beats = [line for line in printed[5:] if line == "quiet"]
    rest = [line for line in printed[5:] if not line.startswith(("quiet", "channel-closed", "connection-closed"))]
    says(f"serve {what}, idle for a minute", (shaken(), told, 0, ""), (printed[:5], rest, status, said))
    says(f"serve {what}, heartbeats that come", True, len(beats) >= 60 // heartbeat)


def with_idle_clients():
    """All at once, so that it takes one minute."""
    runs = [
        (" ".join([name, "with a heartbeat of", str(heartbeat), *options]), client, heartbeat, options)
        for name, client in (("pika", idle_pika), ("amqp091-go", idle_go))
        for heartbeat in (2, 10)
        for options in ([], ["--heartbeat", str(heartbeat)])
    ]
    threads = [threading.Thread(target=idles, args=run) for run in runs]
    for thread in threads:
        thread.start()
    for thread in threads:
        thread.join()


def codes_of_the_peers():
    """The table of reply codes in docs/PROTOCOL.md, beside pika's names of them and py-amqp's levels of errors."""
    with open(PROTOCOL, encoding="utf-8") as file:
        lines = file.read().split("\n")
    rows = [line.strip("| ").split("|") for line in lines[lines.index("| Code | Name | Hard |") + 2 :]]
    rows = [[cell.strip() for cell in row] for row in rows[: [len(row) for row in rows].index(1)]]
    names = {int(row[0]): row[1] for row in rows}
    hard = {int(row[0]) for row in rows if row[2:] == ["yes"]}
    theirs = {number: name for name, number in vars(pika.spec).items() if isinstance(number, int) and 200 <= number < 600}
    theirs.pop(pika.spec.FRAME_END)
    says("reply codes of pika", {number: name.lower().replace("_", "-") for number, name in theirs.items()}, names)
    errors = {each.code: each for each in vars(amqp.exceptions).values() if isinstance(each, type) and getattr(each, "code", 0)}
    closing = {code for code, error in errors.items() if issubclass(error, amqp.exceptions.ConnectionError)}
    says("hard errors of py-amqp", closing, hard)


for part in (codes_of_the_peers, to_the_broker, with_options, with_pika, with_py_amqp, with_tools, with_idle_clients):
    part()
sys.exit(1 if failed else 0)
