"""Scripts of `amqp link`, each with the lines that it prints and the status of the run. They are worked out by hand from the
protocol; nothing here was printed by the program."""

OPENING = ["begin", "shake 1", "ask 1 client open", "carry 1 to-server all", "carry 1 to-client all"]

# methods, headers and a body, in hexadecimal
DELIVER = "003c003c0174000000000000000100000171"
GET = "003c00460000017100"
GET_OK = "003c004700000000000000010000017100000000"
PUBLISH = "003c0028000000017100"
DECLARE = "0032000a000001710000000000"
DECLARE_OK = "0032000b01710000000000000000"
BIND_OK = "00320015"
SELECT, SELECT_OK = "005a000a", "005a000b"
ACK, NACK = "003c0050000000000000000100", "003c0078000000000000000100"
CANCEL, CANCEL_OK = "003c001e017400", "003c001f0174"
NO_BODY = "003c" + "0" * 24
TWO_OCTETS = "003c000000000000000000020000"
PUBLISHED = f"content 1 {PUBLISH} {TWO_OCTETS} 6869"
DELIVERED = f"content 1 {DELIVER} {NO_BODY} -"
BYE = "close-channel 1 200 bye"


def life(name, to_server=(0, 0), to_client=(0, 0)):
    """The two lines of a life: how much was sent and acted on each way."""
    return [f"{name} {way} sent {sent} acted {acted}" for way, (sent, acted) in (("to-server", to_server), ("to-client", to_client))]


def whole_runs():
    """Name, options, script, lines, of runs that end with status 0."""
    yield "nothing", [], [], []
    yield "comments and empty lines", [], ["", "# begin", "#", "", "#no"], []
    yield "a connection alone", [], ["begin"], []
    yield "a handshake alone", [], ["begin", "shake 1"], []
    yield "an open that is not carried", [], OPENING[:3], life("1.1.1")
    crossing = [*OPENING, f"ask 1 client {BYE}", f"ask 1 server {BYE}", "carry 1 to-server all", "ask 1 client open", "carry 1 to-client all", "ask 1 client open", "carry 1 to-server all", "carry 1 to-client all"]
    yield "closes that cross", ["--channel-max", "1"], crossing, ["line 9: refused 3.8", *life("1.1.1"), *life("1.1.2")]
    together = [*OPENING, f"ask 1 server {BYE}", "carry 1 to-client all", "ask 1 client open", "carry 1 to-server all"]
    yield "an answer to a close and an open in one piece", [], together, [*life("1.1.1"), *life("1.1.2")]
    early = [*OPENING[:4], f"ask 1 server {BYE}", "carry 1 to-client all", "carry 1 to-server all", "ask 1 client open", "carry 1 to-server all"]
    yield "a close right after the answer to the open", [], early, [*life("1.1.1"), *life("1.1.2")]
    behind = [*OPENING, *[f"ask 1 server {DELIVERED}"] * 3, "carry 1 to-client 48", f"ask 1 client {BYE}", "carry 1 to-client all", "carry 1 to-server all", "carry 1 to-client all"]
    yield "contents that come after the close", [], behind, life("1.1.1", to_client=(3, 1))
    paused = [*OPENING, f"ask 1 client send 1 {GET}", "ask 1 client flow 1 0", "ask 1 client flow 1 1", "carry 1 to-server all", f"ask 1 server {DELIVERED}", f"ask 1 server content 1 {GET_OK} {NO_BODY} -", "carry 1 to-client all"]
    yield "a pause, and a content that is sent all the same", [], paused, ["line 8: refused 3.7", "line 10: refused 3.4", *life("1.1.1", (2, 2), (2, 2))]
    replies = [*OPENING, f"ask 1 server send 1 {DECLARE_OK}", *[f"ask 1 client send 1 {DECLARE}"] * 2, "carry 1 to-server all", f"ask 1 server send 1 {BIND_OK}", f"ask 1 server send 1 {DECLARE_OK}", "carry 1 to-client all", f"ask 1 client send 1 {DECLARE}"]
    yield "requests and replies", [], replies, ["line 6: refused 3.11", "line 8: refused 3.10", "line 10: refused 3.11", *life("1.1.1", (2, 1), (1, 1))]
    yield from drops()
    yield from shared_writers()
    yield from lone_channels()
    yield from handshakes()
    yield from decisions()
    yield from beats()
    yield from refusals()
    yield from spellings()
    yield from orders()


def drops():
    dropped = [*OPENING, f"ask 1 client {PUBLISHED}", "carry 1 to-server 21", "drop 1 client", "begin", "shake 2", "ask 2 client open", "carry 2 to-server all", "carry 1 to-client all"]
    yield "a drop inside a header", [], dropped, ["line 13: refused 2", *life("1.1.1", (1, 0)), *life("2.1.1")]
    yield "a drop, and what was written comes", [], [*dropped, "carry 1 to-server all"], ["line 13: refused 2", *life("1.1.1", (1, 1)), *life("2.1.1")]
    # a content of 50 octets, of which so many are carried before a side is dropped
    for octets in range(51):
        start = [*OPENING, f"ask 1 client {PUBLISHED}", f"carry 1 to-server {octets}"]
        rest = ["begin", "shake 2", "ask 2 client open", "carry 2 to-server all"]
        acted = 1 if octets == 50 else 0
        yield f"the server dropped after {octets} octets", [], [*start, "drop 1 server", *rest], [*life("1.1.1", (1, acted)), *life("2.1.1")]
        last = f"carry 1 to-server {50 - octets}"
        yield f"the client dropped after {octets} octets", [], [*start, "drop 1 client", *rest, last], [*life("1.1.1", (1, 1)), *life("2.1.1")]


def shared_writers():
    """Two contents of 50 octets on two channels take turns: 18 and 18 octets, 22 and 22, 10 and 10."""
    second = PUBLISHED.replace("content 1", "content 2")
    shared = [*OPENING, "ask 1 client open", "carry 1 to-server all", "carry 1 to-client all", f"ask 1 client {PUBLISHED}", f"ask 1 client {second}"]
    for octets, first_acted, second_acted in ((89, 0, 0), (90, 1, 0), (99, 1, 0), (100, 1, 1)):
        printed = [*life("1.1.1", (1, first_acted)), *life("1.2.1", (1, second_acted))]
        yield f"{octets} octets of two channels", [], [*shared, f"carry 1 to-server {octets}"], printed


def lone_channels():
    """What is asked on channel 1 by either side."""
    server = [*OPENING, "ask 1 server flow 1 0", "carry 1 to-client all", f"ask 1 client {PUBLISHED}", "carry 1 to-server all", "ask 1 server flow 1 1", "carry 1 to-client all", f"ask 1 client {PUBLISHED}", "carry 1 to-server all"]
    yield "a server that pauses", [], server, ["line 8: refused 3.4", *life("1.1.1", (3, 3), (2, 2))]
    extensions = [*OPENING, *[f"ask 1 server send 1 {method}" for method in (ACK, NACK, CANCEL)], "carry 1 to-client all", f"ask 1 client send 1 {CANCEL_OK}", "carry 1 to-server all"]
    yield "methods that both sides send", [], extensions, life("1.1.1", (1, 1), (3, 3))
    for side, other, way, back in (("client", "server", "to-server", "to-client"), ("server", "client", "to-client", "to-server")):
        closed = [*OPENING, f"ask 1 {side} close 200 bye", f"ask 1 {side} flow 1 0", f"carry 1 {way} all", f"ask 1 {other} flow 1 0", f"carry 1 {back} all", f"ask 1 {side} flow 1 0"]
        yield f"a close by the {side}", [], closed, ["line 7: refused 3.1", "line 9: refused 3.1", "line 11: refused 3.1", *life("1.1.1")]
    # the frames of blocked and unblocked are of 16 and 12 octets, and that with the longest text of 268
    for side, printed in (("client", ["line 6: refused 3.5", "line 7: refused 3.5"]), ("server", [])):
        said = [*OPENING, f"ask 1 {side} blocked low", f"ask 1 {side} unblocked"]
        yield f"a {side} that blocks", [], said, [*printed, *life("1.1.1")]
    counted = [*OPENING]
    printed = []
    for ask, octets in (("blocked low", 16), ("unblocked", 12), ("blocked " + "x" * 255, 268)):
        counted += [f"ask 1 server {ask}", f"carry 1 to-client {octets + 1}", f"carry 1 to-client {octets}", "carry 1 to-client 1"]
        printed += [f"line {len(counted) - 2}: refused 4", f"line {len(counted)}: refused 4"]
    yield "the octets of blocked and unblocked", [], counted, [*printed, *life("1.1.1")]
    yield "a body that is too large", ["--max-body", "1"], [*OPENING, f"ask 1 client {PUBLISHED}", "carry 1 to-server all"], life("1.1.1", (1, 0))
    yield "a body just not too large", ["--max-body", "2"], [*OPENING, f"ask 1 client {PUBLISHED}", "carry 1 to-server all"], life("1.1.1", (1, 1))


def handshakes():
    """The protocol header is of 8 octets, the start of 36 and its answer of 44, the tune of 20, its answer and the open of 36, and
    the last answer of 13."""
    script, printed = ["begin", "ask 1 server blocked low", "ask 1 client open"], ["line 2: refused 3.1", "line 3: refused 3.1"]
    for way, octets in (("server", 8), ("client", 36), ("server", 44), ("client", 20), ("server", 36), ("client", 13)):
        script += [f"carry 1 to-{way} {octets + 1}", "ask 1 client open", f"carry 1 to-{way} {octets}"]
        printed += [f"line {len(script) - 2}: refused 4", f"line {len(script) - 1}: refused 3.1"]
    yield "a handshake step by step", [], [*script, "ask 1 client open"], [*printed, *life("1.1.1")]
    # a shake goes on as far as no carry is refused, and is refused once
    yield "a shake to a server that was dropped", [], ["begin", "drop 1 server", "shake 1", "carry 1 to-server 8"], ["line 3: refused 2", "line 4: refused 2"]
    yield "a shake to a client that was dropped", [], ["begin", "drop 1 client", "shake 1", "carry 1 to-server 1"], ["line 3: refused 2", "line 4: refused 4"]


def decisions():
    """A tune is of 20 octets, a close with a text of two of 21, its answer of 12, and an answer to start with the mechanism
    EXTERNAL and no response of 35."""
    gated = ["--gated", "server"]
    admitted = ["begin", "shake 1", "ask 1 server admit", "shake 1", "ask 1 client open", "ask 1 server admit", "shake 1", "ask 1 client open", "carry 1 to-server all"]
    yield "a server that admits", gated, admitted, ["line 5: refused 3.1", *life("1.1.1")]
    held = ["begin", "shake 1", "carry 1 to-client 1", "ask 1 client admit", "ask 1 server admit", "ask 1 server refuse 403 no", "carry 1 to-client 20", "carry 1 to-server 36", "carry 1 to-client 1"]
    yield "a server that holds a login, and then an open", gated, held, ["line 3: refused 4", "line 4: refused 3.12", "line 6: refused 3.12", "line 9: refused 4"]
    end = ["ask 1 server refuse 403 no", "ask 1 server admit", "ask 1 server beat", "carry 1 to-client 22", "carry 1 to-client 21", "carry 1 to-server 13", "carry 1 to-server 12", "ask 1 client open", "ask 1 client beat"]
    refused = [(1, "3.12"), (2, "3.1"), (3, "4"), (5, "4"), (7, "3.1"), (8, "3.1")]
    for what, start in (("a login", []), ("an open", ["ask 1 server admit", "shake 1"])):
        script = ["begin", "shake 1", *start, *end]
        yield f"a server that refuses {what}", gated, script, [f"line {line + len(start) + 3}: refused {number}" for line, number in refused]
    answered = ["begin", "shake 1", "carry 1 to-server 1", "ask 1 client admit", "ask 1 client refuse 403 no", "ask 1 server answer-start PLAIN - en_US", "ask 1 client answer-start PLAIN 006775657374006775657374 en_US", "carry 1 to-server 45", "carry 1 to-server 44", "shake 1", "ask 1 client open", "shake 1"]
    yield "a client that answers start", ["--gated", "client"], answered, ["line 3: refused 4", *[f"line {line}: refused 3.12" for line in (4, 5, 6)], "line 8: refused 4", *life("1.1.1")]
    both = ["begin", "shake 1", "ask 1 client answer-start EXTERNAL - en_US", "carry 1 to-server 36", "carry 1 to-server 35", *["ask 1 server admit", "shake 1"] * 2, "ask 1 client open", "shake 1"]
    yield "both sides decide", ["--gated", "both"], both, ["line 4: refused 4", *life("1.1.1")]
    # of 4096 octets the frame may be, and no longer
    long = ["begin", "shake 1", *[f"ask 1 client answer-start EXTERNAL {'00' * octets} en_US" for octets in (4062, 4061)], "carry 1 to-server 4096", "carry 1 to-server 1"]
    yield "the longest answer to start", ["--gated", "client"], long, ["line 3: refused 3.6", "line 6: refused 4"]
    early = ["begin", *[f"ask 1 {ask}" for ask in ("server admit", "server refuse 403 no", "client answer-start PLAIN - en_US")], "shake 1", "ask 1 client open"]
    for options in ([], ["--gated", "both"]):
        yield f"decisions before they are awaited {options}", options, early, [*[f"line {line}: refused 3.12" for line in (2, 3, 4)], *(["line 6: refused 3.1"] if options else life("1.1.1"))]
    yield "decisions of no side", gated, ["begin", "ask 2 server admit", "drop 1 server", "ask 1 server admit", "ask 1 server refuse 403 no"], ["line 2: refused 1", "line 4: refused 2", "line 5: refused 2"]


def beats():
    """A heartbeat is of 8 octets. It passes the frames of channels that are not begun: of a content the header, of 22 octets."""
    for side, way in (("client", "to-server"), ("server", "to-client")):
        script = [*OPENING, f"ask 1 {side} beat", f"carry 1 {way} 9", f"carry 1 {way} 8", f"carry 1 {way} 1"]
        yield f"a {side} that beats", [], script, ["line 7: refused 4", "line 9: refused 4", *life("1.1.1")]
    yield "heartbeats in the handshake", [], ["begin", "ask 1 client beat", "ask 1 server beat"], ["line 2: refused 3.1", "line 3: refused 3.1"]
    inside = [*OPENING, f"ask 1 client {PUBLISHED}", "carry 1 to-server 21", "ask 1 client beat"]
    yield "a heartbeat inside a content", [], [*inside, "carry 1 to-server 36"], life("1.1.1", (1, 0))
    yield "a heartbeat inside a content that comes", [], [*inside, "carry 1 to-server 37"], life("1.1.1", (1, 1))
    yield "a heartbeat before a content", [], [*OPENING, f"ask 1 client {PUBLISHED}", "ask 1 client beat", "carry 1 to-server 57"], life("1.1.1", (1, 0))
    yield "heartbeats that cross a close", [], [*OPENING, "ask 1 server beat", "ask 1 client close 200 bye", "ask 1 client beat", "carry 1 to-client all", "carry 1 to-server all", "ask 1 server beat"], ["line 8: refused 3.1", "line 11: refused 3.1", *life("1.1.1")]


def refusals():
    absent = ["shake 2", "ask 2 client open", "carry 2 to-server all", "carry 2 to-client 5", "drop 2 client", "carry 18446744073709551615 to-server 0"]
    yield "connections that have not begun", [], ["begin", *absent], [f"line {line}: refused 1" for line in range(2, 8)]
    yield "a shake before all", [], ["shake 1", "begin"], ["line 1: refused 1"]
    twice = ["drop 1 client", "drop 1 client", "ask 1 client open", "ask 1 client blocked low", "carry 1 to-client all", "carry 1 to-client 18446744073709551615"]
    yield "a client that was dropped", [], ["begin", *twice], [f"line {line}: refused 2" for line in range(3, 8)]
    yield "more octets than wait", [], ["begin", "carry 1 to-server 18446744073709551615", "carry 1 to-client 1", "carry 1 to-client 0"], ["line 2: refused 4", "line 3: refused 4"]
    asked = []
    for number, asks in (
        (2, ("client flow 0 1", "server flow 2048 1", f"client send 65535 {SELECT}", "client close-channel 0 200 bye", f"server content 0 {DELIVER} {NO_BODY} -")),
        (3, ("client flow 2 1", "server flow 2047 1", f"client send 2 {SELECT}", "server close-channel 2 200 bye", f"server content 2 {DELIVER} {NO_BODY} -")),
        (5, ("server open", f"server send 1 {SELECT}", f"client send 1 {SELECT_OK}", "client send 1 0014000a00", "server send 1 000a0033", f"client {DELIVERED}", "client blocked low", "client unblocked")),
    ):
        asked += [(f"ask 1 {ask}", number) for ask in asks]
    printed = [f"line {line}: refused 3.{number}" for line, (_, number) in enumerate(asked, 6)]
    yield "asks that are refused", [], [*OPENING, *[ask for ask, _ in asked]], [*printed, *life("1.1.1")]
    # a method and a header of 4088 octets fit a frame of 4096, and no longer ones do
    for octets, refused in ((4088, False), (4089, True)):
        method = "0032000a0000017100" + table(octets - 9)
        header = "003c000000000000000000002000" + table(octets - 14)
        script = [*OPENING, f"ask 1 client content 1 {PUBLISH} {header} -", f"ask 1 client send 1 {method}", "carry 1 to-server all"]
        printed = ["line 6: refused 3.6", "line 7: refused 3.6", *life("1.1.1")] if refused else life("1.1.1", (2, 2))
        yield f"a method and a header of {octets} octets", ["--frame-max", "4096"], script, printed
    yield "the same in a longer frame", ["--frame-max", "4097"], script, life("1.1.1", (2, 2))
    yield "no channel left", ["--channel-max", "2"], [*OPENING, "ask 1 client open", "ask 1 client open"], ["line 7: refused 3.8", *life("1.1.1"), *life("1.2.1")]


def table(octets):
    """The encoding, of so many octets, of a table with a byte array."""
    return f"{octets - 4:08x}016178{octets - 11:08x}{'00' * (octets - 11)}"


def spellings():
    """Steps that are written in other ways."""
    yield "runs of spaces", [], ["  begin ", "shake   1", " ask  1   client open  "], life("1.1.1")
    yield "zeros before numbers", [], ["begin", "shake 0001", "ask 01 client open", "carry 1 to-server 000", "shake 1", "ask 1 client flow 00001 0"], life("1.1.1", (1, 0))
    yield "digits in upper case", [], [*OPENING, f"ask 1 client {PUBLISHED.replace('003c', '003C')}", "carry 1 to-server all"], life("1.1.1", (1, 1))
    yield "texts of all octets", [], [*OPENING, b"ask 1 client close-channel 1 65535 \xff\0\t#\r", b"ask 1 server blocked \r"], life("1.1.1")
    yield "the longest texts", [], [*OPENING, f"ask 1 client close-channel 1 0 {'x' * 255}", f"ask 1 client close 0 {'x' * 255}"], life("1.1.1")


def orders():
    """Lives by connection, channel and number, whatever came first."""
    script = ["begin", "begin", "shake 2", "shake 1", "ask 2 client open", *["ask 1 client open"] * 2, "shake 1", "ask 1 client close-channel 2 200 bye", "shake 1", "ask 1 client open", f"ask 2 client {PUBLISHED}", "shake 2", "shake 1"]
    # the content is refused: channel 1 of the second connection is not open yet
    yield "lives in order", [], script, ["line 12: refused 3.3", *life("1.1.1"), *life("1.2.1"), *life("1.2.2"), *life("2.1.1")]


def no_steps():
    """Lines that are no steps."""
    yield from ("Begin", "begin 1", "beginn", " ", "   ", "\t", "begin\t", "begin\r", "\r", " #", "begin # one", "begin\0", b"\xff", "dance", "begin;shake 1")
    yield from ("shake", "shake 0", "shake 1 1", "shake one", "shake -1", "shake +1", "shake 1.0", "shake 0x1", "shake 18446744073709551616", "shake\t1")
    yield from ("ask", "ask 1", "ask 1 client", "ask 1 broker open", "ask 1 Client open", "ask 0 client open", "ask client 1 open", "ask 1 client open 1", "ask 1 client shut", "ask 1 client open\r")
    yield from ("carry", "carry 1", "carry 1 to-server", "carry 1 to-server -1", "carry 1 to-server +1", "carry 1 server all", "carry 1 To-server all", "carry 1 to-server All", "carry 1 to-server all all", "carry 0 to-server all", "carry 1 to-client 18446744073709551616", "carry to-server 1 all", "carry 1 to-server 0x7")
    yield from ("drop", "drop 1", "drop 0 client", "drop 1 both", "drop 1 client server", "drop client 1")
    for ask in (
        *("flow", "flow 1", "flow 1 01", "flow 1 00", "flow 1 2", "flow 1 -0", "flow 1 true", "flow 1 0 0", "flow 65536 0", "flow -1 0"),
        *("close", "close 200", "close 65536 bye", "close -1 bye", "close 200 good bye", f"close 200 {'x' * 256}", "close bye 200"),
        *("close-channel 1", "close-channel 1 200", "close-channel 65536 200 bye", "close-channel 1 65536 bye", "close-channel 1 200 good bye", f"close-channel 1 200 {'x' * 256}"),
        *("beat 1", "admit 1", "refuse", "refuse 403", "refuse no 403", "refuse 65536 no", "refuse 403 no way", f"refuse 403 {'x' * 256}", "answer-start", "answer-start PLAIN", "answer-start PLAIN -"),
        *(f"answer-start {words}" for words in ("PLAIN - en_US 1", "PLAIN 0 en_US", "PLAIN zz en_US", f"{'x' * 256} - en_US", f"PLAIN - {'x' * 256}", "- PLAIN en_US")),
        *("blocked", "blocked too low", f"blocked {'x' * 256}", "unblocked now"),
        *("send", "send 1", f"send {SELECT}", f"send 65536 {SELECT}", f"send 1 {SELECT} -", "send 1 -", "send 1 0", "send 1 00", "send 1 zz", f"send 1 {SELECT}00", f"send 1 {SELECT[:-2]}", "send 1 005a0028", "send 1 ffff0001", "send 1 0x005a000a"),
        *(f"send 1 {method}" for method in (PUBLISH, DELIVER, GET_OK)),
        *(f"content 1 {PUBLISH}", f"content 1 {PUBLISH} {NO_BODY}", f"content 65536 {PUBLISH} {NO_BODY} -", f"content 1 {PUBLISH} {NO_BODY} - -", f"content 1 - {NO_BODY} -", f"content 1 {PUBLISH} - -"),
        *(f"content 1 {method} {NO_BODY} -" for method in (SELECT, GET, DECLARE, PUBLISH + "00", PUBLISH[:-2], PUBLISH[:-1])),
        *(f"content 1 {PUBLISH} {header} -" for header in (NO_BODY + "00", NO_BODY[:-2], "0032" + NO_BODY[4:], "003c0001" + NO_BODY[8:], NO_BODY[:-1] + "1", TWO_OCTETS)),
        *(f"content 1 {PUBLISH} {TWO_OCTETS} {body}" for body in ("68", "686921", "6", "zz", "68-69")),
        *(f"content 1 {PUBLISH} {NO_BODY} {body}" for body in ("00", "--")),
    ):
        yield f"ask 1 client {ask}"


def given_up():
    """Name, options, script, lines, of runs that end with status 1."""
    for line in no_steps():
        yield f"no step: {line[:60]!r}", [], [*OPENING, "", line, "ask 2 client open"], ["line 7: not a step"]
    yield "no step before all", [], ["dance"], ["line 1: not a step"]
    yield "no step after refused ones", [], ["begin", "ask 2 client open", "", "drop 2 server", "dance", "drop 2 server"], ["line 2: refused 1", "line 4: refused 1", "line 5: not a step"]
    # also where the ask would be refused
    yield "no step of a connection that has not begun", [], [f"ask 9 client content 1 {PUBLISH} {TWO_OCTETS} -"], ["line 1: not a step"]


def line_ends():
    """Name, octets, lines, status."""
    yield "no octet", b"", [], 0
    yield "an empty line", b"\n", [], 0
    yield "a last line that is not ended", b"begin\nshake 1\nask 1 client open", life("1.1.1"), 0
    yield "a last line that is not ended, refused", b"begin\nshake 2", ["line 2: refused 1"], 0
    yield "a last line that is not ended, no step", b"begin\nshake", ["line 2: not a step"], 1
    yield "lines that end as on Windows", b"begin\r\nshake 1\r\n", ["line 1: not a step"], 1
    yield "an empty line that ends so", b"begin\n\r\n", ["line 2: not a step"], 1
    yield "a comment that ends so", b"begin\n# one\r\nshake 2\n", ["line 3: refused 1"], 0


def in_pieces(way, octets):
    """The octets that wait, 7 at a time."""
    return [*[f"carry 1 {way} 7"] * (octets // 7), *([f"carry 1 {way} {octets % 7}"] if octets % 7 else [])]


def many_lives(lives):
    """Channel 1 is opened, given a content from each side and closed so many times, all in pieces."""
    script = ["begin"]
    for way, octets in (("server", 8), ("client", 36), ("server", 44), ("client", 20), ("server", 36), ("client", 13)):
        script += in_pieces(f"to-{way}", octets)
    one = ["ask 1 client open", *in_pieces("to-server", 13), *in_pieces("to-client", 16)]
    one += [f"ask 1 client {PUBLISHED}", *in_pieces("to-server", 50), f"ask 1 server {DELIVERED}", *in_pieces("to-client", 48)]
    one += [f"ask 1 client {BYE}", *in_pieces("to-server", 22), *in_pieces("to-client", 12)]
    printed = []
    for number in range(1, lives + 1):
        printed += life(f"1.1.{number}", (1, 1), (1, 1))
    return script + one * lives, printed


def long_runs():
    """Name, options, script, lines, seconds that the run may take at most."""
    yield ("a thousand lives in pieces", ["--channel-max", "1"], *many_lives(1000), 10)
    yield "100,000 lines that say nothing", [], ["", "#"] * 50_000, [], 10
    yield "100,000 refused lines", [], ["drop 1 client"] * 100_000, [f"line {line}: refused 1" for line in range(1, 100_001)], 10
    both = [f"ask 1 client {PUBLISHED}", "carry 1 to-server all", f"ask 1 server {DELIVERED}", "carry 1 to-client all"]
    yield "100,000 lines of contents", [], OPENING + both * 25_000, life("1.1.1", (25_000, 25_000), (25_000, 25_000)), 10
    waiting = [f"ask 1 client {PUBLISHED}"]
    yield "100,000 contents carried at once", [], [*OPENING, *waiting * 100_000, "carry 1 to-server all"], life("1.1.1", (100_000, 100_000)), 10


def refused_runs():
    """Runs in which each request for memory is refused in turn."""
    chosen = {
        "closes that cross",
        "contents that come after the close",
        "a pause, and a content that is sent all the same",
        "requests and replies",
        "a drop inside a header",
        "a drop, and what was written comes",
        "89 octets of two channels",
        "90 octets of two channels",
        "a server that blocks",
        "the longest texts",
        "both sides decide",
        "a server that refuses an open",
        "heartbeats that cross a close",
    }
    runs = [row for row in whole_runs() if row[0] in chosen]
    if len(runs) != len(chosen):
        raise ValueError("not all of the runs to be refused memory are there")
    yield from runs
