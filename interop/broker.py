"""Runs clients against a broker at 127.0.0.1 and the port that is given, and says of each thing whether it went as it
should.

What is wanted is what RabbitMQ does: with the word `rabbitmq` after the port the same runs are made against it,
without those of what the example leaves out."""

import os
import pathlib
import socket
import subprocess
import sys
import tempfile
import threading
import time

import amqp
import pika

PORT = int(sys.argv[1])
IS_RABBITMQ = "rabbitmq" in sys.argv[2:]
CLIENTS = pathlib.Path(__file__).parent / "clients"
# nothing, one octet, what a frame of the greatest size holds, one and fifty megabytes
SIZES = (0, 1, 131_072 - 8, 1_000_000, 50_000_000)
COUNT = 10_000
failed = 0


def says(what, wanted, found):
    global failed
    if wanted == found:
        print(f"ok: {what}", flush=True)
    else:
        failed += 1
        print(f"failed: {what}: wanted {wanted!r:.300}, and not {found!r:.300}", flush=True)


def connect(**properties):
    """A connection, as a client with these properties beside pika's own."""
    where = pika.ConnectionParameters(
        "127.0.0.1", PORT, heartbeat=0, blocked_connection_timeout=30, client_properties=properties
    )
    return pika.BlockingConnection(where)


def got(channel, queue, count):
    """The bodies of so many messages, consumed without acknowledgements."""
    bodies = []
    for method, _, body in channel.consume(queue, auto_ack=True, inactivity_timeout=60):
        if method is None:
            break
        bodies.append(body)
        if len(bodies) == count:
            break
    channel.cancel()
    return bodies


def ready(channel, queue):
    return channel.queue_declare(queue, passive=True).method.message_count


def contents_of_all_sizes():
    connection = connect()
    channel = connection.channel()
    channel.confirm_delivery()
    queue = channel.queue_declare("", exclusive=True).method.queue
    for size in SIZES:
        body = os.urandom(size)
        channel.basic_publish("", queue, body, pika.BasicProperties(message_id=str(size), headers={"size": size}))
        method, properties, came = channel.basic_get(queue, auto_ack=True)
        found = (came == body, properties.message_id, properties.headers)
        says(f"pika: get a content of {size} octets", (True, str(size), {"size": size}), found)
        channel.basic_publish("", queue, body)
        says(f"pika: consume a content of {size} octets", True, got(channel, queue, 1) == [body])
    connection.close()


def messages_in_order():
    connection = connect()
    channel = connection.channel()
    queue = channel.queue_declare("", exclusive=True).method.queue
    bodies = [b"%d" % number for number in range(COUNT)]
    for body in bodies:
        channel.basic_publish("", queue, body)
    says(f"pika: {COUNT} messages in order, no acks", True, got(channel, queue, COUNT) == bodies)
    channel.basic_qos(prefetch_count=100)
    seen = []

    def take(channel, method, _, body):
        seen.append(body)
        if len(seen) % 10 == 0:
            channel.basic_ack(method.delivery_tag, multiple=True)

    channel.basic_consume(queue, take)
    for body in bodies:
        channel.basic_publish("", queue, body)
    until = time.monotonic() + 180
    while len(seen) < COUNT and time.monotonic() < until:
        connection.process_data_events(1)
    says(f"pika: {COUNT} messages in order, a prefetch of 100", True, seen == bodies)
    connection.close()


def routes(channel, exchange, key, properties=None):
    """Publishes a mandatory message, and answers whether it was routed."""
    try:
        channel.basic_publish(exchange, key, b"m", properties, mandatory=True)
        return True
    except pika.exceptions.UnroutableError as error:
        returned = error.messages[0]
        method = returned.method
        return (method.reply_code, method.reply_text, method.exchange, method.routing_key, returned.body)


def exchanges():
    connection = connect()
    channel = connection.channel()
    channel.confirm_delivery()
    queue = channel.queue_declare("", exclusive=True).method.queue
    back = (312, "NO_ROUTE", "", "nowhere", b"m")
    says("pika: default exchange, no such queue", back, routes(channel, "", "nowhere"))
    for exchange, kind in (("amq.direct", None), ("b.direct", "direct")):
        if kind:
            channel.exchange_declare(exchange, kind)
        channel.queue_bind(queue, exchange, "key")
        found = [routes(channel, exchange, key) is True for key in ("key", "other", "")]
        says(f"pika: {exchange}", [True, False, False], found)
        channel.queue_unbind(queue, exchange, "key")
        says(f"pika: {exchange}, unbound", False, routes(channel, exchange, "key") is True)
    for exchange, kind in (("amq.fanout", None), ("b.fanout", "fanout")):
        if kind:
            channel.exchange_declare(exchange, kind)
        says(f"pika: {exchange}, no binding", False, routes(channel, exchange, "key") is True)
        channel.queue_bind(queue, exchange, "")
        says(f"pika: {exchange}", True, routes(channel, exchange, "key"))
    channel.exchange_declare("b.topic", "topic")
    for pattern, keys in (
        ("a.*.c", {"a.b.c": True, "a..c": True, "a.c": False, "a.b.b.c": False}),
        ("a.#", {"a": True, "a.b": True, "a.b.c": True, "b.a": False, "": False}),
        ("#.c", {"c": True, "a.b.c": True, "c.a": False}),
        ("a.#.b.*.#", {"a.b.c": True, "a.x.y.b.z.w": True, "a.b": False, "a.x.b.y.b": True}),
        ("#", {"": True, "a.b": True}),
        ("*", {"": False, "a": True, "a.b": False}),
        ("a", {"a": True, "A": False, "a.": False}),
        ("#.#", {"": True, "a": True, "a.b": True}),
        ("*.#", {"a": True, "a.b": True}),
    ):
        channel.queue_bind(queue, "b.topic", pattern)
        says(f"pika: topic {pattern}", keys, {key: routes(channel, "b.topic", key) is True for key in keys})
        channel.queue_unbind(queue, "b.topic", pattern)
    channel.exchange_declare("b.headers", "headers")
    asked = {"a": 1, "b": "x"}
    some = ({"a": 1}, {"a": 2, "b": "y"}, {"a": "1", "b": "x"}, {}, None)
    sent = ({"a": 1, "b": "x"}, {"a": 1, "b": "x", "c": 3}, *some)
    every, any_one = [1, 1, 0, 0, 0, 0, 0], [1, 1, 1, 0, 1, 0, 0]
    for match, wanted in ((None, every), ("all", every), ("any", any_one)):
        arguments = asked if match is None else {**asked, "x-match": match}
        channel.queue_bind(queue, "b.headers", "", arguments)
        properties = [pika.BasicProperties(headers=headers) for headers in sent]
        found = [int(routes(channel, "b.headers", "", each) is True) for each in properties]
        says(f"pika: headers, x-match {match}", wanted, found)
        channel.queue_unbind(queue, "b.headers", "", arguments)
    headers = pika.BasicProperties(headers=asked)
    channel.queue_bind(queue, "b.headers", "", asked)
    channel.queue_unbind(queue, "b.headers", "", dict(reversed(asked.items())))
    says("pika: a binding's arguments in another order", False, routes(channel, "b.headers", "", headers) is True)
    channel.queue_bind(queue, "b.headers", "", {"a": pika.compat.long(1)})
    says("pika: headers, a number of another width", True, routes(channel, "b.headers", "", headers))
    channel.queue_bind("", "amq.direct", "")
    says("pika: bound by the queue declared last", True, routes(channel, "amq.direct", queue))
    # one message to two queues, and one queue with two bindings gets it once
    other = channel.queue_declare("", exclusive=True).method.queue
    channel.queue_purge(queue)
    for name, pattern in ((queue, "#"), (queue, "a.*"), (other, "a.b")):
        channel.queue_bind(name, "b.topic", pattern)
    channel.basic_publish("b.topic", "a.b", b"shared")
    counts = [ready(channel, name) for name in (queue, other)]
    bodies = [got(channel, name, 1) for name in (queue, other)]
    says("pika: one message to two queues", ([1, 1], [[b"shared"], [b"shared"]]), (counts, bodies))
    for exchange in ("b.direct", "b.fanout", "b.topic", "b.headers"):
        channel.exchange_delete(exchange)
    connection.close()


def acknowledgements():
    connection = connect()
    channel = connection.channel()
    queue = channel.queue_declare("", exclusive=True).method.queue
    for number in range(6):
        channel.basic_publish("", queue, b"%d" % number)
    taken = [channel.basic_get(queue) for _ in range(4)]
    says("pika: gets in order", [b"0", b"1", b"2", b"3"], [body for _, _, body in taken])
    says("pika: message counts", [5, 4, 3, 2], [method.message_count for method, _, _ in taken])
    channel.basic_nack(taken[1][0].delivery_tag, requeue=True)
    channel.basic_reject(taken[2][0].delivery_tag, requeue=False)
    channel.basic_ack(taken[0][0].delivery_tag)
    came = [channel.basic_get(queue, auto_ack=True) for _ in range(3)]
    found = [(body, method.redelivered) for method, _, body in came]
    says("pika: requeued at its old place", [(b"1", True), (b"4", False), (b"5", False)], found)
    says("pika: get of an empty queue", (None, None, None), channel.basic_get(queue))
    channel.basic_recover(requeue=True)
    method, _, body = channel.basic_get(queue)
    says("pika: recovered", (b"3", True), (body, method.redelivered))
    channel.close()
    channel = connection.channel()
    method, _, body = channel.basic_get(queue, auto_ack=True)
    says("pika: back after its channel is closed", (b"3", True), (body, method.redelivered))
    says("pika: all is settled", 0, ready(channel, queue))
    connection.close()


def prefetch():
    connection = connect()
    channel = connection.channel()
    queue = channel.queue_declare("", exclusive=True).method.queue
    for number in range(10):
        channel.basic_publish("", queue, b"%d" % number)
    channel.basic_qos(prefetch_count=3)
    seen = []
    channel.basic_consume(queue, lambda _channel, method, _properties, body: seen.append((method.delivery_tag, body)))
    wait(connection)
    says("pika: three at most wait for acks", [b"0", b"1", b"2"], [body for _, body in seen])
    channel.basic_ack(seen[1][0], multiple=True)
    wait(connection)
    says("pika: two more after two acks", [b"0", b"1", b"2", b"3", b"4"], [body for _, body in seen])
    channel.basic_cancel(channel.consumer_tags[0])
    says("pika: a cancel gives back what pika held", 5, ready(channel, queue))
    connection.close()


def wait(connection, seconds=0.3):
    until = time.monotonic() + seconds
    while time.monotonic() < until:
        connection.process_data_events(0.1)


def two_consumers_by_turns():
    connection = connect()
    channel = connection.channel()
    queue = channel.queue_declare("", exclusive=True).method.queue
    seen = {"first": 0, "second": 0}
    for tag in seen:
        def take(_channel, method, _properties, _body):
            seen[method.consumer_tag] += 1
        channel.basic_consume(queue, take, auto_ack=True, consumer_tag=tag)
    for _ in range(10):
        channel.basic_publish("", queue, b"m")
        wait(connection, 0.05)
    wait(connection)
    says("pika: two consumers by turns", {"first": 5, "second": 5}, seen)
    connection.close()


def refused(what, code, action, of_connection=False):
    """A method that is refused closes its channel, or the connection."""
    connection = connect()
    channel = connection.channel()
    try:
        action(channel)
        connection.process_data_events(0.2)
        channel.queue_declare("", exclusive=True)
        found = None
    except pika.exceptions.ChannelClosedByBroker as error:
        found = error.reply_code, False
    except pika.exceptions.ChannelWrongStateError:
        found = channel._closing_reason.reply_code, False
    except pika.exceptions.ConnectionClosedByBroker as error:
        found = error.reply_code, True
    says(f"pika: {what}", (code, of_connection), found)
    if connection.is_open:
        says(f"pika: after {what} another channel works", True, connection.channel().is_open)
        connection.close()


def refusals():
    owner = connect()
    channel = owner.channel()
    locked = channel.queue_declare("b.locked", exclusive=True).method.queue
    channel.queue_declare("b.busy")
    channel.basic_publish("", "b.busy", b"m")
    channel.exchange_declare("b.used", "fanout")
    channel.queue_bind("b.busy", "b.used")
    channel.exchange_declare("b.internal", "fanout", internal=True)
    refused("passive declare of no such queue", 404, lambda c: c.queue_declare("b.nowhere", passive=True))
    refused("passive declare of no such exchange", 404, lambda c: c.exchange_declare("b.nowhere", passive=True))
    refused("bind to no such exchange", 404, lambda c: c.queue_bind("b.busy", "b.nowhere"))
    refused("bind of no such queue", 404, lambda c: c.queue_bind("b.nowhere", "amq.direct", "key"))
    refused("consume of no such queue", 404, lambda c: c.basic_consume("b.nowhere", print))
    refused("get of no such queue", 404, lambda c: c.basic_get("b.nowhere"))
    refused("purge of no such queue", 404, lambda c: c.queue_purge("b.nowhere"))
    refused("publish to no such exchange", 404, lambda c: c.basic_publish("b.nowhere", "key", b"m"))
    refused("declare of another's exclusive queue", 405, lambda c: c.queue_declare(locked, exclusive=True))
    refused("get of another's exclusive queue", 405, lambda c: c.basic_get(locked))
    refused("consume of another's exclusive queue", 405, lambda c: c.basic_consume(locked, print))
    refused("delete of another's exclusive queue", 405, lambda c: c.queue_delete(locked))
    refused("declare of a queue with other bits", 406, lambda c: c.queue_declare("b.busy", durable=True))
    refused("declare of an exchange with another type", 406, lambda c: c.exchange_declare("b.used", "direct"))
    refused("delete of a queue that is not empty", 406, lambda c: c.queue_delete("b.busy", if_empty=True))
    refused("delete of an exchange that is used", 406, lambda c: c.exchange_delete("b.used", if_unused=True))
    refused("ack of an unknown tag", 406, lambda c: c.basic_ack(7))
    refused("reject of an unknown tag", 406, lambda c: c.basic_reject(7))
    refused("declare of a reserved queue", 403, lambda c: c.queue_declare("amq.own"))
    refused("declare of a reserved exchange", 403, lambda c: c.exchange_declare("amq.own", "direct"))
    refused("delete of a standard exchange", 403, lambda c: c.exchange_delete("amq.direct"))
    refused("bind to the default exchange", 403, lambda c: c.queue_bind("b.busy", "", "key"))
    refused("publish to an internal exchange", 403, lambda c: c.basic_publish("b.internal", "key", b"m"))
    refused("a second consumer beside an exclusive one", 403, two_exclusive)
    refused("one consumer tag twice", 530, tag_twice, True)
    refused("an unknown exchange type", 503, lambda c: c.exchange_declare("b.odd", "odd"), True)
    refused("an immediate publish", 540, lambda c: publish_immediate(c), True)
    refused("a recover without requeue", 540, lambda c: c.basic_recover(requeue=False), True)
    if not IS_RABBITMQ:
        refused("a transaction", 540, lambda c: c.tx_select(), True)
    says("pika: delete of no such queue", True, channel.queue_delete("b.nowhere") is not None)
    says("pika: delete of no such exchange", True, channel.exchange_delete("b.nowhere") is not None)
    says("pika: delete tells of its messages", 1, channel.queue_delete("b.busy").method.message_count)
    channel.exchange_delete("b.used")
    channel.exchange_delete("b.internal")
    owner.close()


def two_exclusive(channel):
    channel.basic_consume("b.busy", print, exclusive=True)
    channel.basic_consume("b.busy", print)


def tag_twice(channel):
    # pika itself refuses to use a tag twice
    for _ in range(2):
        channel._impl._send_method(pika.spec.Basic.Consume(queue="b.busy", consumer_tag="one", nowait=True))


def publish_immediate(channel):
    method = pika.spec.Basic.Publish(exchange="", routing_key="b.busy", immediate=True)
    channel._impl._send_method(method, (pika.BasicProperties(), b"m"))


def lives_of_queues():
    first, second = connect(), connect()
    channel = first.channel()
    other = second.channel()
    channel.queue_declare("b.own", exclusive=True)
    channel.queue_declare("b.auto", auto_delete=True)
    channel.exchange_declare("b.passing", "fanout", auto_delete=True)
    channel.queue_bind("b.auto", "b.passing")
    channel.basic_consume("b.auto", print, consumer_tag="one")
    channel.basic_cancel("one")
    says("pika: an auto-delete queue goes with its last consumer", 404, code_of_queue(second, "b.auto"))
    code = code_of(lambda: second.channel().exchange_declare("b.passing", passive=True))
    says("pika: an auto-delete exchange goes with its last binding", 404, code)
    first.close()
    # behind a proxy, the broker hears of the close a moment after the client has its answer
    until = time.monotonic() + 10
    while (code := code_of_queue(second, "b.own")) == 405 and time.monotonic() < until:
        time.sleep(0.05)
    says("pika: an exclusive queue goes with its connection", 404, code)
    other.queue_declare("b.left")
    other.basic_publish("", "b.left", b"m")
    child = os.fork()
    if child == 0:
        connect().channel().basic_get("b.left")
        os._exit(0)
    os.waitpid(child, 0)
    until = time.monotonic() + 10
    while ready(other, "b.left") == 0 and time.monotonic() < until:
        time.sleep(0.05)
    method, _, body = other.basic_get("b.left", auto_ack=True)
    says("pika: back after its connection is lost", (b"m", True), (body, method and method.redelivered))
    other.queue_delete("b.left")
    second.close()
    # RabbitMQ tells a client of a consumer that went with its queue if the client says that it wants that, as pika does
    second = connect(capabilities={"consumer_cancel_notify": False})
    other = second.channel()
    for _ in range(2):
        other.queue_declare("b.gone")
        # pika itself refuses to use a tag twice
        other._impl._send_method(pika.spec.Basic.Consume(queue="b.gone", consumer_tag="one", nowait=True))
        found = other.queue_declare("b.gone", passive=True).method.consumer_count
        says("pika: a consumer goes with its queue", 1, found)
        other.queue_delete("b.gone")
    second.close()


def code_of(action):
    try:
        action()
        return None
    except pika.exceptions.ChannelClosedByBroker as error:
        return error.reply_code


def code_of_queue(connection, queue):
    """What a passive declare of the queue is refused with."""
    return code_of(lambda: connection.channel().queue_declare(queue, passive=True))


def confirms():
    connection = connect()
    channel = connection.channel()
    queue = channel.queue_declare("", exclusive=True).method.queue
    acked = []

    def note(frame):
        acked.append((frame.method.NAME, frame.method.delivery_tag, frame.method.multiple))

    channel._impl.confirm_delivery(note, callback=lambda _frame: None)
    wait(connection)
    for number in range(100):
        channel._impl.basic_publish("", queue if number % 2 else "nowhere", b"m")
    wait(connection, 1)
    last = max((tag for _, tag, _ in acked), default=0)
    named = {tag for _, tag, _ in acked} | {tag for _, upto, multiple in acked if multiple for tag in range(1, upto)}
    found = (last, named, {name for name, _, _ in acked})
    says("pika: 100 confirms", (100, set(range(1, 101)), {"Basic.Ack"}), found)
    says("pika: 50 of them in the queue", 50, ready(channel, queue))
    connection.close()


def many_channels():
    connections = [connect() for _ in range(20)]
    channels = [connection.channel() for connection in connections for _ in range(10)]
    queues = [channel.queue_declare("", exclusive=True).method.queue for channel in channels]
    for channel, queue in zip(channels, queues):
        channel.basic_publish("", queue, queue.encode())
    bodies = [channel.basic_get(queue, auto_ack=True)[2] for channel, queue in zip(channels, queues)]
    says("pika: 200 channels of 20 connections", queues, [body.decode() for body in bodies])
    for connection in connections:
        connection.close()


def with_py_amqp():
    with amqp.Connection(f"127.0.0.1:{PORT}", confirm_publish=True) as connection:
        channel = connection.channel()
        queue = channel.queue_declare("", exclusive=True).queue
        channel.exchange_declare("b.py", "topic", auto_delete=False)
        channel.queue_bind(queue, "b.py", "a.#")
        for size in SIZES:
            body = os.urandom(size)
            channel.basic_publish_confirm(amqp.Message(body, application_headers={"size": size}), "b.py", "a.b")
            message = channel.basic_get(queue)
            came = message.body.encode("latin-1") if isinstance(message.body, str) else message.body
            found = (bytes(came) == body, message.headers["size"])
            says(f"py-amqp: get a content of {size} octets", (True, size), found)
            channel.basic_ack(message.delivery_tag)
        seen = []

        def take(message):
            seen.append(message.body)
            channel.basic_ack(message.delivery_tag)

        channel.basic_qos(0, 10, False)
        channel.basic_consume(queue, callback=take)
        for number in range(1000):
            channel.basic_publish(amqp.Message(b"%d" % number), "b.py", "a")
        until = time.monotonic() + 180
        while len(seen) < 1000 and time.monotonic() < until:
            connection.drain_events(timeout=60)
        wanted = [b"%d" % number for number in range(1000)]
        bodies = [body if isinstance(body, bytes) else body.encode() for body in seen]
        says("py-amqp: 1000 messages in order, with confirms and acks", wanted, bodies)
        returned = []

        def take_return(_error, exchange, key, message):
            text = message.body if isinstance(message.body, str) else bytes(message.body).decode()
            returned.append((exchange, key, text))

        channel.events["basic_return"].add(take_return)
        channel.basic_publish(amqp.Message("m"), "b.py", "nowhere", mandatory=True)
        says("py-amqp: a return", [("b.py", "nowhere", "m")], returned)
        channel.exchange_delete("b.py")
        other = connection.channel()
        try:
            other.queue_declare("b.nowhere", passive=True)
            found = None
        except amqp.NotFound as error:
            found = error.code, error.method_sig
        says("py-amqp: passive declare of no such queue, and the close says for which method", (404, (50, 10)), found)
    connection = amqp.Connection(f"127.0.0.1:{PORT}")
    connection.connect()
    try:
        connection.channel().exchange_declare("b.odd", "odd")
        found = None
    except amqp.exceptions.ConnectionError as error:
        found = error.code, error.method_sig
    says("py-amqp: an unknown exchange type, and the connection's close says for which method", (503, (40, 10)), found)


def error_of(action):
    """The name of the exception that an action ends with, and the code that the broker gave."""
    try:
        action()
        return None
    except (pika.exceptions.AMQPError, amqp.exceptions.AMQPError) as error:
        codes = [code for code in (403, 530) if str(code) in repr(error)]
        return type(error).__name__, codes


def start_as(mechanism, response):
    """Answers start so on a raw socket. It gives the socket and the method that comes, or None where the broker
    hangs up."""
    stream = socket.create_connection(("127.0.0.1", PORT), timeout=30)
    stream.sendall(b"AMQP\x00\x00\x09\x01")
    next_method(stream)
    send_method(stream, pika.spec.Connection.StartOk({}, mechanism, response, "en_US"))
    return stream, next_method(stream)


def send_method(stream, method):
    stream.sendall(pika.frame.Method(0, method).marshal())


def received(stream):
    """What comes next, and nothing where the broker hung up."""
    try:
        return stream.recv(65_536)
    except ConnectionResetError:
        return b""


def next_method(stream):
    octets = b""
    while True:
        size, frame = pika.frame.decode_frame(octets)
        if frame is not None:
            return frame.method
        more = received(stream)
        if not more:
            return None
        octets += more


def logins():
    bad = pika.PlainCredentials("guest", "wrong")
    nobody = pika.PlainCredentials("nobody", "guest")
    for what, wanted, words in (
        ("a wrong password", ("ProbableAuthenticationError", [403]), {"credentials": bad}),
        ("no such user", ("ProbableAuthenticationError", [403]), {"credentials": nobody}),
        ("no such virtual host", ("ProbableAccessDeniedError", [530]), {"virtual_host": "nowhere"}),
    ):
        where = pika.ConnectionParameters("127.0.0.1", PORT, heartbeat=0, **words)
        says(f"pika: {what}", wanted, error_of(lambda: pika.BlockingConnection(where)))
    for what, wanted, words in (
        ("a wrong password", ("AccessRefused", [403]), {"password": "wrong"}),
        ("a wrong password, by PLAIN", ("AccessRefused", [403]), {"password": "wrong", "login_method": "PLAIN"}),
        ("no such virtual host", ("NotAllowed", [530]), {"virtual_host": "nowhere"}),
    ):
        found = error_of(lambda: amqp.Connection(f"127.0.0.1:{PORT}", **words).connect())
        says(f"py-amqp: {what}", wanted, found)
    for method in ("PLAIN", "AMQPLAIN"):
        with amqp.Connection(f"127.0.0.1:{PORT}", login_method=method) as connection:
            says(f"py-amqp: a login by {method}", True, connection.channel().is_open)
    for what, code, words in (
        ("a wrong password", "error 403", ["--username", "guest", "--password", "wrong"]),
        ("no such virtual host", "error 530", ["--vhost", "nowhere"]),
    ):
        where = ["--server", "127.0.0.1", "--port", str(PORT)]
        ran = subprocess.run(["amqp-get", *where, *words, "-q", "q"], capture_output=True, text=True, check=False)
        says(f"amqp-get: {what}", (1, True), (ran.returncode, code in ran.stderr))
    for mechanism, response in (("EXTERNAL", "guest"), ("PLAIN", "guest"), ("AMQPLAIN", "guest")):
        stream, answer = start_as(mechanism, response)
        code = getattr(answer, "reply_code", None)
        # RabbitMQ hangs up where it doesn't know the mechanism, or can't read the response
        says(f"raw: a login by {mechanism} that is none", True, code == 403 or (IS_RABBITMQ and code is None))
        stream.close()
    with_program("amqp091-go", ["go", "run", str(CLIENTS / "client.go")], "logins")


def idle_pika(heartbeat):
    connection = pika.BlockingConnection(pika.ConnectionParameters("127.0.0.1", PORT, heartbeat=heartbeat))
    channel = connection.channel()
    connection.sleep(60)
    channel.queue_declare("", exclusive=True)
    connection.close()
    return True


def idle_go(heartbeat):
    words = ["go", "run", str(CLIENTS / "idle.go"), str(PORT), str(heartbeat)]
    ran = subprocess.run(words, capture_output=True, timeout=300, check=False, text=True, env={**os.environ, **go()})
    return ran.returncode == 0 or ran.stdout + ran.stderr


def idle_raw(heartbeat):
    """A client that agrees on a heartbeat, opens and falls silent is given up after two of them, and hears beats."""
    stream, _ = start_as("PLAIN", "\0guest\0guest")
    send_method(stream, pika.spec.Connection.TuneOk(2047, 131_072, heartbeat))
    send_method(stream, pika.spec.Connection.Open("/"))
    next_method(stream)
    begun, beats = time.monotonic(), 0
    while octets := received(stream):
        beats += octets.count(b"\x08\x00\x00\x00\x00\x00\x00\xce")
    lasted = time.monotonic() - begun
    return (beats >= 2 and 1.5 * heartbeat <= lasted <= 3 * heartbeat) or (beats, lasted)


def idle_before_login(_):
    """A client that connects and says nothing is given up."""
    begun = time.monotonic()
    stream = socket.create_connection(("127.0.0.1", PORT), timeout=60)
    while received(stream):
        pass
    lasted = time.monotonic() - begun
    return lasted <= 45 or lasted


def idle():
    """All at once, so that it takes one minute."""
    found = {}

    def run(what, client, heartbeat):
        try:
            found[what] = client(heartbeat)
        except Exception as error:
            found[what] = error

    clients = (("pika", idle_pika), ("amqp091-go", idle_go))
    runs = [(f"{name}: idle for a minute, a heartbeat of {beat}", client, beat) for name, client in clients
            for beat in (2, 10)]
    runs.append(("raw: a client that falls silent is given up", idle_raw, 4))
    runs.append(("raw: a client that never logs in is given up", idle_before_login, 0))
    threads = [threading.Thread(target=run, args=each) for each in runs]
    for thread in threads:
        thread.start()
    for thread in threads:
        thread.join()
    for what, _, _ in runs:
        says(what, True, found[what])


# A publisher that says when it is blocked, and waits.
KILLED = """
import sys, pika
where = pika.ConnectionParameters("127.0.0.1", int(sys.argv[1]), heartbeat=0)
connection = pika.BlockingConnection(where)
told = []
connection.add_on_connection_blocked_callback(lambda _connection, _frame: told.append(1))
channel = connection.channel()
channel.queue_declare("b.own", exclusive=True)
for _ in range(6):
    channel.basic_publish("", "b.own", bytes(50_000_000))
while not told:
    connection.process_data_events(0.5)
print("blocked", flush=True)
connection.sleep(600)
"""


def blocked():
    """Publishers are held where messages hold more than 256 MB, and are told so, until they hold less."""
    publisher, other = connect(), connect()
    channel = publisher.channel()
    told = []
    publisher.add_on_connection_blocked_callback(lambda _connection, frame: told.append(frame.method.reason))
    publisher.add_on_connection_unblocked_callback(lambda _connection, _frame: told.append(None))
    channel.queue_declare("b.large")
    # who published before isn't held
    other.channel().basic_publish("", "b.large", b"small")
    for _ in range(6):
        channel.basic_publish("", "b.large", bytes(50_000_000))
    until = time.monotonic() + 60
    while not told and time.monotonic() < until:
        publisher.process_data_events(0.5)
    says("pika: a publisher is told that it is blocked", ["low on memory"], told)
    says("pika: another client isn't held", True, other.channel().queue_declare("", exclusive=True) is not None)
    other.channel().queue_purge("b.large")
    while len(told) < 2 and time.monotonic() < until:
        publisher.process_data_events(0.5)
    says("pika: and that it is not any more", ["low on memory", None], told)
    channel.queue_delete("b.large")
    publisher.close()
    killed = subprocess.Popen([sys.executable, "-c", KILLED, str(PORT)], stdout=subprocess.PIPE)
    says("pika: another publisher is blocked", b"blocked\n", killed.stdout.readline())
    killed.kill()
    killed.wait()
    channel = other.channel()
    channel.confirm_delivery()
    channel.queue_declare("b.small", exclusive=True)
    says("pika: what it held is gone with it", True, routes(channel, "", "b.small"))
    other.close()


def tool(name, *words, data=None):
    command = [name, "--server", "127.0.0.1", "--port", str(PORT), *words]
    ran = subprocess.run(command, input=data, capture_output=True, timeout=120, check=False)
    return ran.returncode, ran.stdout


def with_tools():
    says("amqp-declare-queue", (0, b"b.tools\n"), tool("amqp-declare-queue", "-q", "b.tools"))
    for size in SIZES:
        body = os.urandom(size)
        says(f"amqp-publish {size} octets", 0, tool("amqp-publish", "-r", "b.tools", data=body)[0])
        says(f"amqp-get {size} octets", True, tool("amqp-get", "-q", "b.tools") == (0, body))
    says("amqp-get of an empty queue", 2, tool("amqp-get", "-q", "b.tools")[0])
    says("amqp-get of no such queue", 1, tool("amqp-get", "-q", "b.nowhere")[0])
    for number in range(5):
        tool("amqp-publish", "-r", "b.tools", "-b", str(number))
    consumed = tool("amqp-consume", "-q", "b.tools", "-c", "5", "-p", "1", "cat")
    says("amqp-consume 5 messages", (0, b"01234"), consumed)
    says("amqp-delete-queue", (0, b"0\n"), tool("amqp-delete-queue", "-q", "b.tools"))


def go():
    """What Go's command wants of its environment."""
    cache = os.environ.get("GOCACHE", os.path.join(tempfile.gettempdir(), "interop-go"))
    return {"GO111MODULE": "off", "GOPATH": "/usr/share/gocode", "GOFLAGS": "", "GOCACHE": cache}


def with_program(name, command, *more):
    """A client in another language, which prints the same lines."""
    global failed
    words = [*command, str(PORT), *more]
    ran = subprocess.run(words, capture_output=True, timeout=300, check=False, text=True, env={**os.environ, **go()})
    lines = ran.stdout.splitlines()
    print(ran.stdout, end="", flush=True)
    failed += sum(1 for line in lines if not line.startswith("ok: "))
    says(f"{name}: the run ends well", (0, True), (ran.returncode, len(lines) > 0))
    if ran.returncode:
        print(ran.stderr, flush=True)


PARTS = {
    "sizes": contents_of_all_sizes,
    "order": messages_in_order,
    "exchanges": exchanges,
    "acks": acknowledgements,
    "prefetch": prefetch,
    "turns": two_consumers_by_turns,
    "refusals": refusals,
    "lives": lives_of_queues,
    "confirms": confirms,
    "channels": many_channels,
    "logins": logins,
    "idle": idle,
    "py-amqp": with_py_amqp,
    "tools": with_tools,
    "go": lambda: with_program("amqp091-go", ["go", "run", str(CLIENTS / "client.go")]),
    "ruby": lambda: with_program("bunny", ["ruby", str(CLIENTS / "client.rb")]),
    "php": lambda: with_program("php-amqplib", ["php", str(CLIENTS / "client.php")]),
}
if not IS_RABBITMQ:
    # RabbitMQ's bound depends on the machine
    PARTS["blocked"] = blocked
chosen = [word for word in sys.argv[2:] if word in PARTS]
for part in chosen or PARTS:
    try:
        PARTS[part]()
    except Exception as error:
        says(f"{part} ends", None, error)
sys.exit(1 if failed else 0)
