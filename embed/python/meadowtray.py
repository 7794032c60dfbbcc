"""AMQP 0-9-1 on the wire, over the C library: both ends of a connection, frames split from a stream, and the methods,
content headers and tables that they carry.

It is for tests and tools. What a call lends is copied at once, so a frame may be kept as long as one likes. The
library is looked for in the environment's MEADOWTRAY_LIB, a folder, and else beside this folder.
"""

import ctypes
import enum
import os
import struct
from dataclasses import dataclass


def _load():
    here = os.path.dirname(os.path.abspath(__file__))
    folder = os.environ.get("MEADOWTRAY_LIB", os.path.join(here, "..", "c", "out"))
    return ctypes.CDLL(os.path.join(folder, "libmeadowtray.so"))


_LIBRARY = _load()


class _Handle(ctypes.Structure):
    _fields_ = [("at", ctypes.c_void_p), ("open", ctypes.c_bool)]


class _Frame(ctypes.Structure):
    _fields_ = [
        ("taken", ctypes.c_size_t),
        ("at", ctypes.c_uint64),
        ("payload", ctypes.c_void_p),
        ("length", ctypes.c_size_t),
        ("channel", ctypes.c_uint16),
        ("kind", ctypes.c_uint8),
    ]


class _Value(ctypes.Structure):
    _fields_ = [
        ("octets", ctypes.c_void_p),
        ("length", ctypes.c_size_t),
        ("number", ctypes.c_uint64),
        ("kind", ctypes.c_uint8),
        ("scale", ctypes.c_uint8),
    ]


class _Method(ctypes.Structure):
    _fields_ = [
        ("at", ctypes.c_size_t),
        ("count", ctypes.c_size_t),
        ("kind", ctypes.c_uint32),
        ("fields", _Value * 8),
    ]


class _Header(ctypes.Structure):
    _fields_ = [
        ("body_size", ctypes.c_uint64),
        ("at", ctypes.c_size_t),
        ("flags", ctypes.c_uint16),
        ("properties", _Value * 14),
    ]


class _Pair(ctypes.Structure):
    _fields_ = [("name", ctypes.c_void_p), ("name_length", ctypes.c_size_t), ("value", _Value)]


class _Table(ctypes.Structure):
    _fields_ = [(name, ctypes.c_size_t) for name in ("at", "length", "count", "placed")]


class _Written(ctypes.Structure):
    _fields_ = [(name, ctypes.c_size_t) for name in ("length", "value", "at")]


class _Octets(ctypes.Structure):
    _fields_ = [("at", ctypes.c_void_p), ("length", ctypes.c_size_t)]


_LIMITS = [
    ("max_body", ctypes.c_uint64),
    ("frame_max", ctypes.c_uint32),
    ("channel_max", ctypes.c_uint16),
    ("heartbeat", ctypes.c_uint16),
    ("gated", ctypes.c_bool),
    ("lends", ctypes.c_bool),
]


class _ClientSettings(ctypes.Structure):
    _fields_ = [
        (name, _Octets)
        for name in ("user", "password", "virtual_host", "mechanism", "response", "locale", "properties")
    ] + _LIMITS


class _ServerSettings(ctypes.Structure):
    _fields_ = [(name, _Octets) for name in ("mechanisms", "locales", "properties")] + _LIMITS


class _Event(ctypes.Structure):
    _fields_ = [
        ("method", _Octets),
        ("header", _Octets),
        ("body", _Octets),
        ("text", _Octets),
        ("frame_max", ctypes.c_uint32),
        ("channel", ctypes.c_uint16),
        ("channel_max", ctypes.c_uint16),
        ("heartbeat", ctypes.c_uint16),
        ("code", ctypes.c_uint16),
        ("kind", ctypes.c_uint8),
        ("holds", ctypes.c_bool),
        ("taken", ctypes.c_size_t),
    ]


class _Message(ctypes.Structure):
    _fields_ = [(name, _Octets) for name in ("method", "header", "body")]


class _Agreed(ctypes.Structure):
    _fields_ = [("frame_max", ctypes.c_uint32), ("channel_max", ctypes.c_uint16), ("heartbeat", ctypes.c_uint16)]


class _Blame(ctypes.Structure):
    _fields_ = [
        ("octet", ctypes.c_uint64),
        ("field_at", ctypes.c_size_t),
        ("field", ctypes.c_uint32),
        ("method", ctypes.c_uint32),
        ("channel", ctypes.c_uint16),
        ("code", ctypes.c_uint16),
        ("frame", ctypes.c_uint8),
        ("rule", ctypes.c_uint8),
    ]


class _Channel(ctypes.Structure):
    _fields_ = [("gathered", ctypes.c_size_t), ("reply_due", ctypes.c_uint32), ("state", ctypes.c_uint8)]


def _declare(name, *arguments, result=ctypes.c_uint32):
    function = getattr(_LIBRARY, name)
    function.argtypes = arguments
    function.restype = result
    return function


_HANDLE = ctypes.POINTER(_Handle)
_SIZE = ctypes.POINTER(ctypes.c_size_t)

_status_text = _declare("mt_status_text", ctypes.c_uint32, result=ctypes.c_char_p)
_splitter_open = _declare("mt_splitter_open", _HANDLE, ctypes.c_uint32)
_splitter_feed = _declare("mt_splitter_feed", _HANDLE, ctypes.c_void_p, ctypes.c_size_t, ctypes.POINTER(_Frame))
_splitter_pending = _declare("mt_splitter_pending", _HANDLE, _SIZE)
_splitter_set_limit = _declare("mt_splitter_set_limit", _HANDLE, ctypes.c_uint32)
_splitter_close = _declare("mt_splitter_close", _HANDLE)
_OCTETS_AT = (ctypes.c_void_p, ctypes.c_size_t)
_method_read = _declare("mt_method_read", *_OCTETS_AT, ctypes.POINTER(_Method))
_method_name = _declare("mt_method_name", ctypes.c_uint32, result=ctypes.c_char_p)
_field_name = _declare("mt_field_name", ctypes.c_uint32, ctypes.c_size_t, result=ctypes.c_char_p)
_header_read = _declare("mt_header_read", *_OCTETS_AT, ctypes.POINTER(_Header))
_property_name = _declare("mt_property_name", ctypes.c_size_t, result=ctypes.c_char_p)
_table_read = _declare("mt_table_read", *_OCTETS_AT, ctypes.POINTER(_Pair), ctypes.c_size_t, ctypes.POINTER(_Table))
_ROOM = (ctypes.c_void_p, ctypes.c_size_t, ctypes.POINTER(_Written))
_method_kind = _declare("mt_method_kind", ctypes.c_char_p)
_method_write = _declare("mt_method_write", ctypes.c_uint32, ctypes.POINTER(_Value), ctypes.c_size_t, *_ROOM)
_header_write = _declare("mt_header_write", ctypes.c_uint64, ctypes.POINTER(_Value), *_ROOM)
_table_write = _declare("mt_table_write", ctypes.POINTER(_Pair), ctypes.c_size_t, *_ROOM)
_array_read = _declare("mt_array_read", *_OCTETS_AT, ctypes.POINTER(_Value), ctypes.c_size_t, ctypes.POINTER(_Table))


_NUMBER = ctypes.c_uint16
_client_defaults = _declare("mt_client_defaults", ctypes.POINTER(_ClientSettings), result=None)
_server_defaults = _declare("mt_server_defaults", ctypes.POINTER(_ServerSettings), result=None)
_open_client = _declare("mt_end_open_client", _HANDLE, ctypes.POINTER(_ClientSettings))
_open_server = _declare("mt_end_open_server", _HANDLE, ctypes.POINTER(_ServerSettings))
_end_close = _declare("mt_end_close", _HANDLE)
_end_feed = _declare("mt_end_feed", _HANDLE, *_OCTETS_AT, ctypes.POINTER(_Event))
_end_output = _declare("mt_end_output", _HANDLE, ctypes.POINTER(_Octets))
_end_wrote = _declare("mt_end_wrote", _HANDLE, ctypes.c_size_t)
_end_open_channel = _declare("mt_end_open_channel", _HANDLE, ctypes.POINTER(_NUMBER))
_end_send = _declare("mt_end_send", _HANDLE, _NUMBER, ctypes.POINTER(_Message))
_content_open = _declare("mt_content_open", _HANDLE)
_content_close = _declare("mt_content_close", _HANDLE)
_content_left = _declare("mt_content_left", _HANDLE, ctypes.POINTER(ctypes.c_uint64))
_content_write = _declare("mt_content_write", _HANDLE, *_OCTETS_AT, ctypes.POINTER(_Octets))
_end_begin_content = _declare(
    "mt_end_begin_content", _HANDLE, _HANDLE, _NUMBER, _Octets, _Octets, ctypes.POINTER(_Octets)
)
_end_flow = _declare("mt_end_flow", _HANDLE, _NUMBER, ctypes.c_bool)
_end_close_channel = _declare("mt_end_close_channel", _HANDLE, _NUMBER, _NUMBER, _Octets)
_end_close_connection = _declare("mt_end_close_connection", _HANDLE, _NUMBER, _Octets)
_end_blocked = _declare("mt_end_blocked", _HANDLE, _Octets)
_end_unblocked = _declare("mt_end_unblocked", _HANDLE)
_end_phase = _declare("mt_end_phase", _HANDLE, ctypes.POINTER(ctypes.c_uint8))
_end_agreed = _declare("mt_end_agreed", _HANDLE, ctypes.POINTER(_Agreed))
_end_channel = _declare("mt_end_channel", _HANDLE, _NUMBER, ctypes.POINTER(_Channel))
_end_lowest_free = _declare("mt_end_lowest_free", _HANDLE, ctypes.POINTER(_NUMBER))
_end_pending = _declare("mt_end_pending", _HANDLE, _SIZE)
_end_beat = _declare("mt_end_beat", _HANDLE)
_end_admit = _declare("mt_end_admit", _HANDLE)
_end_refuse = _declare("mt_end_refuse", _HANDLE, _NUMBER, _Octets)
_end_answer_start = _declare("mt_end_answer_start", _HANDLE, _Octets, _Octets, _Octets)
_end_waiting = _declare("mt_end_waiting", _HANDLE, _NUMBER, _SIZE)
_end_counters = _declare("mt_end_counters", _HANDLE, *[ctypes.POINTER(ctypes.c_uint64)] * 2)
_end_octets_taken = _declare("mt_end_octets_taken", _HANDLE, ctypes.POINTER(ctypes.c_uint64))
_end_kept = _declare("mt_end_kept", _HANDLE, _SIZE)
_end_gathered_in_all = _declare("mt_end_gathered_in_all", _HANDLE, _SIZE)
_end_heartbeat = _declare("mt_end_heartbeat", _HANDLE, ctypes.POINTER(_NUMBER))
_end_heard = _declare("mt_end_heard", _HANDLE, ctypes.c_uint32, *_ROOM)
_end_forget_heard = _declare("mt_end_forget_heard", _HANDLE)
_end_closed_for = _declare("mt_end_closed_for", _HANDLE, *[ctypes.POINTER(_NUMBER)] * 2)
_end_close_channel_for = _declare("mt_end_close_channel_for", _HANDLE, _NUMBER, _NUMBER, _Octets, ctypes.c_uint32)
_end_close_connection_for = _declare("mt_end_close_connection_for", _HANDLE, _NUMBER, _Octets, ctypes.c_uint32)
_end_blame = _declare("mt_end_blame", _HANDLE, ctypes.POINTER(_Blame))
_end_blame_line = _declare("mt_end_blame_line", _HANDLE, ctypes.c_char_p, ctypes.c_size_t)


class Fault(Exception):
    """What is wrong: its number, and where it stands in the stream if it stands there."""

    def __init__(self, status, at=None):
        text = _status_text(status).decode()
        super().__init__(text if at is None else f"{text} at octet {at}")
        self.status = status
        self.at = at


def _check(status):
    if status != 0:
        raise Fault(status)


def _copy(address, length):
    return ctypes.string_at(address, length) if length > 0 else b""


class FrameKind(enum.IntEnum):
    METHOD = 1
    HEADER = 2
    BODY = 3
    HEARTBEAT = 8


@dataclass(frozen=True)
class Frame:
    kind: FrameKind
    channel: int
    payload: bytes


class _Open:
    """A handle that is closed once: by `close`, at the end of a `with`, or when nothing refers to it any more."""

    _close = None

    def __init__(self):
        self._handle = _Handle()

    def close(self):
        type(self)._close(self._handle)

    def __enter__(self):
        return self

    def __exit__(self, *_):
        self.close()

    def __del__(self):
        self.close()


class Splitter(_Open):
    """Splits a stream into its frames."""

    _close = _splitter_close

    def __init__(self, limit=131072):
        super().__init__()
        _check(_splitter_open(self._handle, limit))

    def feed(self, piece):
        """The frames that end in this piece. A fault is raised once the frames before it were given."""
        buffer = ctypes.create_string_buffer(bytes(piece), len(piece))
        start = ctypes.addressof(buffer)
        frame = _Frame()
        taken = 0
        while taken < len(piece):
            status = _splitter_feed(self._handle, start + taken, len(piece) - taken, frame)
            if status != 0:
                raise Fault(status, frame.at)
            taken += frame.taken
            if frame.kind != 0:
                yield Frame(FrameKind(frame.kind), frame.channel, _copy(frame.payload, frame.length))

    @property
    def pending(self):
        """How many octets were taken of a frame that isn't whole yet."""
        pending = ctypes.c_size_t()
        _check(_splitter_pending(self._handle, pending))
        return pending.value

    def set_limit(self, limit):
        """Changes the limit, between two frames."""
        _check(_splitter_set_limit(self._handle, limit))


@dataclass(frozen=True)
class Method:
    """A method: its name, as "basic.publish", and its fields by their names, in order."""

    name: str
    fields: dict


@dataclass(frozen=True)
class Header:
    """A content header: the size of the body, and the properties that are there by their names, in order."""

    body_size: int
    properties: dict


@dataclass(frozen=True)
class Value:
    """A value in a table or an array: its tag, as "S", and what it holds.

    That is a bool, an int, a float, bytes, None, a list of values, a list of pairs for a table, or for a decimal a
    pair of its number and how many digits of it stand after the point.
    """

    tag: str
    holds: object


(MT_BIT, MT_OCTET, MT_SHORT, MT_LONG, MT_LONG_LONG, MT_SHORT_STRING, MT_LONG_STRING, MT_TABLE) = range(1, 9)

_PROPERTIES = [_property_name(place).decode() for place in range(14)]
_PROPERTY_KINDS = {"headers": MT_TABLE, "delivery_mode": MT_OCTET, "priority": MT_OCTET, "timestamp": MT_LONG_LONG}
_SIGNED = "bsUIlL"
_NO_ROOM = 7
_NOT_THERE = 8


def _lasting(octets):
    """The octets where C can read them: the buffer, which stays while they are read, its address and their number."""
    buffer = ctypes.create_string_buffer(bytes(octets), max(len(octets), 1))
    return buffer, ctypes.addressof(buffer), len(octets)


def _field(value):
    if value.kind == 1:
        return value.number != 0
    if value.kind in (6, 7):
        return _copy(value.octets, value.length)
    if value.kind == 8:
        return _pairs(value.octets, value.length)
    return value.number


def _float(value):
    bits, number = (">I", ">f") if value.kind == ord("f") else (">Q", ">d")
    return struct.unpack(number, struct.pack(bits, value.number))[0]


def _value(value):
    tag = chr(value.kind)
    if tag == "t":
        return Value(tag, value.number != 0)
    if tag in _SIGNED:
        return Value(tag, ctypes.c_int64(value.number).value)
    if tag in "fd":
        return Value(tag, _float(value))
    if tag == "D":
        return Value(tag, (value.number, value.scale))
    if tag == "V":
        return Value(tag, None)
    if tag in "Sx":
        return Value(tag, _copy(value.octets, value.length))
    if tag == "A":
        return Value(tag, _items(value.octets, value.length))
    if tag == "F":
        return Value(tag, _pairs(value.octets, value.length))
    return Value(tag, value.number)


def _all(read, element, address, length):
    """All pairs or values: their number is asked for first."""
    told = _Table()
    status = read(address, length, None, 0, told)
    if status not in (0, _NO_ROOM):
        raise Fault(status, told.at)
    elements = (element * told.count)()
    read(address, length, elements, told.count, told)
    return elements


def _pairs(address, length):
    pairs = _all(_table_read, _Pair, address, length)
    return [(_copy(pair.name, pair.name_length), _value(pair.value)) for pair in pairs]


def _items(address, length):
    return [_value(value) for value in _all(_array_read, _Value, address, length)]


def read_method(payload):
    """The method that a payload encodes."""
    buffer, address, length = _lasting(payload)
    method = _Method()
    status = _method_read(address, length, method)
    if status != 0:
        raise Fault(status, method.at)
    names = [_field_name(method.kind, place).decode() for place in range(method.count)]
    return Method(_method_name(method.kind).decode(), dict(zip(names, map(_field, method.fields))))


def read_header(payload):
    """The content header that a payload encodes."""
    buffer, address, length = _lasting(payload)
    header = _Header()
    status = _header_read(address, length, header)
    if status != 0:
        raise Fault(status, header.at)
    there = [(place, value) for place, value in enumerate(header.properties) if value.kind != 0]
    return Header(header.body_size, {_property_name(place).decode(): _field(value) for place, value in there})


def read_table(octets):
    """The pairs of the table that the octets begin with, each a name and a value."""
    buffer, address, length = _lasting(octets)
    return _pairs(address, length)


class _Lent:
    """Octets that C reads, which stay as long as this does."""

    def __init__(self):
        self._buffers = []

    def octets(self, octets):
        buffer, address, length = _lasting(octets)
        self._buffers.append(buffer)
        return address, length

    def field(self, kind, value):
        """A field of a kind: its number, or its octets; a table is given by its pairs."""
        if kind in (6, 7, 8):
            address, length = self.octets(write_table(value) if kind == 8 else value)
            return _Value(octets=address, length=length, kind=kind)
        return _Value(number=int(value), kind=kind)

    def value(self, value):
        tag, holds = value.tag, value.holds
        kind = ord(tag)
        if tag in "SxF":
            address, length = self.octets(write_table(holds) if tag == "F" else holds)
            return _Value(octets=address, length=length, kind=kind)
        if tag == "D":
            return _Value(number=holds[0], scale=holds[1], kind=kind)
        if tag in "fd":
            number, bits = (">f", ">I") if tag == "f" else (">d", ">Q")
            return _Value(number=struct.unpack(bits, struct.pack(number, holds))[0], kind=kind)
        if tag == "V":
            return _Value(kind=kind)
        return _Value(number=int(holds) & (2**64 - 1), kind=kind)


def _written(write, *arguments):
    """What a write puts into its room, which is made larger until it fits."""
    size, status = 256, _NO_ROOM
    while status == _NO_ROOM:
        size *= 4
        room, told = ctypes.create_string_buffer(size), _Written()
        status = write(*arguments, ctypes.addressof(room), size, told)
    if status != 0:
        raise Fault(status, told.value)
    return room.raw[: told.length]


def write_method(name, *fields):
    """The payload of a method. Each field is a pair of its kind, as MT_SHORT_STRING, and what it holds: of a table,
    its pairs."""
    kind = _method_kind(name.encode())
    lent = _Lent()
    values = [lent.field(*field) for field in fields]
    return _written(_method_write, kind, (_Value * len(values))(*values), len(values))


def write_header(body_size, **properties):
    """The payload of a content header, with the properties that are given by name, with `_` for `-`."""
    lent = _Lent()
    values = (_Value * 14)()
    for name, value in properties.items():
        place = _PROPERTIES.index(name.replace("_", "-"))
        values[place] = lent.field(_PROPERTY_KINDS.get(name, 6), value)
    return _written(_header_write, body_size, values)


def write_table(pairs):
    """The octets of a table with these pairs, each a name and a value; none is an array."""
    lent = _Lent()
    made = (_Pair * len(pairs))()
    for pair, (name, value) in zip(made, pairs):
        pair.name, pair.name_length = lent.octets(name)
        pair.value = lent.value(value)
    return _written(_table_write, made, len(pairs))


class EventKind(enum.IntEnum):
    NEGOTIATED = 1
    OPENED = 2
    TOLD = 3
    FLOW = 4
    FLOW_OK = 5
    CHANNEL_CLOSED = 6
    CONNECTION_CLOSED = 7
    DISCARDED = 8
    BLOCKED = 9
    UNBLOCKED = 10
    QUIET = 11
    ANSWER_ASKED = 12
    LOGIN_ASKED = 13
    OPEN_ASKED = 14
    BEGINS = 15
    HEADS = 16
    PART = 17


@dataclass(frozen=True)
class Event:
    """What an end tells: its kind, the channel that it concerns, and what an event of its kind has beside that.

    A message has a method, and a header and a body where there is a content. The other end's close has a code and a
    text, and blocked a text. A flow has whether contents may be sent. A handshake that is over has
    both limits and the heartbeat. An end that lends tells the method that begins a content, its header and each part of
    its body, the last two with whether the content is whole.
    """

    kind: EventKind
    channel: int = 0
    method: Method = None
    header: Header = None
    body: bytes = None
    code: int = None
    text: bytes = None
    active: bool = None
    channel_max: int = None
    frame_max: int = None
    heartbeat: int = None
    whole: bool = None


class Phase(enum.IntEnum):
    HANDSHAKE = 1
    RUNNING = 2
    CLOSING = 3
    CLOSED = 4
    FAILED = 5


class ChannelState(enum.IntEnum):
    FREE = 1
    OPENING = 2
    OPEN = 3
    CLOSING = 4


class Rule(enum.IntEnum):
    """The rules that the other end can break."""

    PROTOCOL_HEADER = 1
    FRAME_TYPE = 2
    FRAME_SIZE = 3
    FRAME_END = 4
    HEARTBEAT_EMPTY = 7
    HEARTBEAT_ON_ZERO = 8
    KNOWN_METHOD = 9
    NO_SECURE = 10
    SYNTAX = 11
    HANDSHAKE_ORDER = 12
    TUNE_FRAME_SIZE = 13
    TUNE_OK_RANGE = 14
    HANDSHAKE_IS_OVER = 15
    CONNECTION_ON_ZERO = 16
    SENT_BY_SIDE = 17
    WAS_ASKED = 18
    NOT_ON_ZERO = 19
    CHANNEL_MAXIMUM = 20
    OPENED_ONCE = 21
    CHANNEL_OPEN = 22
    HEADER_DUE = 23
    BODY_DUE = 24
    CONTENT_BEGUN = 25
    BODY_SIZE = 26
    WAITING_REQUESTS = 27


@dataclass(frozen=True)
class Blame:
    """What was wrong: the place in the stream where the frame at fault begins, the rule that it breaks, the code of the
    close, and the whole as a line. Of a whole frame also its kind and its channel, the name of its method, and, where
    it can't be read, the status of what is wrong with it and the place of that in its payload."""

    octet: int
    rule: Rule
    code: int
    line: str
    frame: FrameKind = None
    channel: int = None
    method: str = None
    field: int = None
    field_at: int = None


def _blamed(blame, line):
    fields = {}
    if blame.frame:
        fields.update(frame=FrameKind(blame.frame), channel=blame.channel)
    if blame.method:
        fields["method"] = _method_name(blame.method).decode()
    if blame.field:
        fields.update(field=blame.field, field_at=blame.field_at)
    return Blame(blame.octet, Rule(blame.rule), blame.code or None, line, **fields)


def _taken(octets):
    return _copy(octets.at, octets.length)


def _told(event):
    kind = EventKind(event.kind)
    fields = {}
    if kind in (EventKind.OPENED, EventKind.TOLD, EventKind.FLOW, EventKind.FLOW_OK, EventKind.DISCARDED):
        fields["channel"] = event.channel
    if kind == EventKind.TOLD:
        fields["method"] = read_method(_taken(event.method))
        if event.holds:
            fields.update(header=read_header(_taken(event.header)), body=_taken(event.body))
    if kind in (EventKind.FLOW, EventKind.FLOW_OK):
        fields["active"] = event.holds
    if kind == EventKind.CHANNEL_CLOSED:
        fields["channel"] = event.channel
    if kind in (EventKind.CHANNEL_CLOSED, EventKind.CONNECTION_CLOSED) and event.holds:
        fields.update(code=event.code, text=_taken(event.text))
    if kind == EventKind.BLOCKED:
        fields["text"] = _taken(event.text)
    if kind == EventKind.BEGINS:
        fields.update(channel=event.channel, method=read_method(_taken(event.method)))
    if kind == EventKind.HEADS:
        fields.update(channel=event.channel, header=read_header(_taken(event.header)), whole=event.holds)
    if kind == EventKind.PART:
        fields.update(channel=event.channel, body=_taken(event.body), whole=event.holds)
    if kind == EventKind.NEGOTIATED:
        fields.update(channel_max=event.channel_max, frame_max=event.frame_max, heartbeat=event.heartbeat)
    return Event(kind, **fields)


class _End(_Open):
    """What a client and a server have in common. Neither touches a socket: octets that came are fed, and `output` are
    those that are to be sent."""

    _close = _end_close

    def _set_up(self, settings, defaults, open_end, given):
        """Opens the end with these settings: octets, or the limits."""
        defaults(settings)
        lent = _Lent()
        for name, value in given.items():
            octets = isinstance(value, (bytes, bytearray))
            setattr(settings, name, _Octets(*lent.octets(value)) if octets else value)
        _check(open_end(self._handle, settings))

    def feed(self, piece):
        """The events of this piece. An EndFault is raised once the events before it were given."""
        buffer, start, length = _lasting(piece)
        event = _Event()
        taken = 0
        while taken < length:
            status = _end_feed(self._handle, start + taken, length - taken, event)
            if status != 0:
                raise EndFault(status, event.code)
            taken += event.taken
            if event.kind != 0:
                yield _told(event)

    @property
    def output(self):
        """The octets to send next, which stay until `wrote`."""
        output = _Octets()
        _check(_end_output(self._handle, output))
        return _taken(output)

    def wrote(self, count):
        """So many octets of the output were sent."""
        _check(_end_wrote(self._handle, count))

    def send(self, channel, method, header=b"", body=b""):
        """Sends a message: the payloads of its method and of its content header, and its body."""
        lent = _Lent()
        message = _Message(*(_Octets(*lent.octets(part)) for part in (method, header, body)))
        _check(_end_send(self._handle, channel, message))

    def begin_content(self, content, channel, method, header):
        """Begins a content by the payloads of its method and of its header. The answer is what is to be written first;
        the frames of the body come by the content's `write`."""
        lent = _Lent()
        parts = (_Octets(*lent.octets(part)) for part in (method, header))
        octets = _Octets()
        _check(_end_begin_content(self._handle, content._handle, channel, *parts, octets))
        return _taken(octets)

    def flow(self, channel, active):
        """Asks the other end to send contents on a channel, or no more of them."""
        _check(_end_flow(self._handle, channel, active))

    def close_channel(self, channel, code, text):
        lent = _Lent()
        _check(_end_close_channel(self._handle, channel, code, _Octets(*lent.octets(text))))

    def close_connection(self, code, text):
        lent = _Lent()
        _check(_end_close_connection(self._handle, code, _Octets(*lent.octets(text))))

    def close_channel_for(self, channel, code, text, method):
        """Closes a channel for a method, which the close names: "queue.declare"."""
        lent = _Lent()
        kind = _method_kind(method.encode())
        _check(_end_close_channel_for(self._handle, channel, code, _Octets(*lent.octets(text)), kind))

    def close_connection_for(self, code, text, method):
        """Closes the connection for a method, likewise."""
        lent = _Lent()
        kind = _method_kind(method.encode())
        _check(_end_close_connection_for(self._handle, code, _Octets(*lent.octets(text)), kind))

    def beat(self):
        """Puts a heartbeat. When to beat is the program's."""
        _check(_end_beat(self._handle))

    def waiting(self, channel):
        """How many octets wait of a channel, put and not sent."""
        octets = ctypes.c_size_t()
        _check(_end_waiting(self._handle, channel, octets))
        return octets.value

    @property
    def counters(self):
        """How many frames were taken, and how many octets were sent."""
        frames, octets = ctypes.c_uint64(), ctypes.c_uint64()
        _check(_end_counters(self._handle, frames, octets))
        return frames.value, octets.value

    @property
    def phase(self):
        phase = ctypes.c_uint8()
        _check(_end_phase(self._handle, phase))
        return Phase(phase.value)

    @property
    def agreed(self):
        """The greatest channel number and the greatest frame that were agreed, or None before."""
        agreed = _Agreed()
        _check(_end_agreed(self._handle, agreed))
        return (agreed.channel_max, agreed.frame_max) if agreed.frame_max else None

    def _channel(self, channel):
        told = _Channel()
        _check(_end_channel(self._handle, channel, told))
        return told

    def channel_state(self, channel):
        return ChannelState(self._channel(channel).state)

    def gathered(self, channel):
        """How many octets are kept of the body of a content that isn't whole yet."""
        return self._channel(channel).gathered

    def reply_due(self, channel):
        """The name of the request that is to be answered next, or None."""
        kind = self._channel(channel).reply_due
        return _method_name(kind).decode() if kind else None

    @property
    def pending(self):
        """How many octets were taken of a frame that isn't whole yet, or of the protocol header."""
        pending = ctypes.c_size_t()
        _check(_end_pending(self._handle, pending))
        return pending.value

    @property
    def octets_taken(self):
        """How many octets were taken in all, also those with which fault was found."""
        octets = ctypes.c_uint64()
        _check(_end_octets_taken(self._handle, octets))
        return octets.value

    @property
    def kept(self):
        """How many octets the end keeps for its peer: of contents that aren't whole yet, and those that are pending."""
        octets = ctypes.c_size_t()
        _check(_end_kept(self._handle, octets))
        return octets.value

    @property
    def gathered_in_all(self):
        """How many octets of bodies are kept on all channels."""
        octets = ctypes.c_size_t()
        _check(_end_gathered_in_all(self._handle, octets))
        return octets.value

    @property
    def heartbeat(self):
        """The heartbeat that was agreed, in seconds; 0 is none, and what stands before."""
        heartbeat = _NUMBER()
        _check(_end_heartbeat(self._handle, heartbeat))
        return heartbeat.value

    def heard(self, method):
        """The method with this name that the other end said in the handshake, or None where none is kept."""
        try:
            return read_method(_written(_end_heard, self._handle, _method_kind(method.encode())))
        except Fault as fault:
            if fault.status == _NOT_THERE:
                return None
            raise

    def forget_heard(self):
        """Forgets what the other end said in the handshake, its credentials among it."""
        _check(_end_forget_heard(self._handle))

    @property
    def closed_for(self):
        """What the last close of the other end was about, its class id and its method id; None where there was none."""
        class_id, method_id = _NUMBER(), _NUMBER()
        status = _end_closed_for(self._handle, class_id, method_id)
        if status == _NOT_THERE:
            return None
        _check(status)
        return class_id.value, method_id.value

    @property
    def blame(self):
        """What was wrong with octets that the end took, or None where it found no fault with them."""
        blame, line = _Blame(), ctypes.create_string_buffer(512)
        status = _end_blame(self._handle, blame)
        if status == _NOT_THERE:
            return None
        _check(status)
        _check(_end_blame_line(self._handle, line, len(line)))
        return _blamed(blame, line.value.decode())


class EndFault(Fault):
    """Why an end takes no more octets. Where the other end broke the protocol, `code` is that of the close."""

    def __init__(self, status, code):
        super().__init__(status)
        self.code = code or None


class Content(_Open):
    """A content whose body comes part by part."""

    _close = _content_close

    def __init__(self):
        super().__init__()
        _check(_content_open(self._handle))

    def write(self, part):
        """Frames the next octets of the body: the answer is to be written."""
        lent = _Lent()
        octets = _Octets()
        _check(_content_write(self._handle, *lent.octets(part), octets))
        return _taken(octets)

    @property
    def left(self):
        """How many octets of the body are still to come."""
        left = ctypes.c_uint64()
        _check(_content_left(self._handle, left))
        return left.value


class Client(_End):
    """The side that opens the connection and its channels. Settings by name: user, password, virtual_host, mechanism,
    response, locale and properties, each as bytes; max_body, frame_max, channel_max, heartbeat,
    gated and lends."""

    def __init__(self, **settings):
        super().__init__()
        self._set_up(_ClientSettings(), _client_defaults, _open_client, settings)

    def open_channel(self):
        """Opens the lowest channel that is free."""
        channel = _NUMBER()
        _check(_end_open_channel(self._handle, channel))
        return channel.value

    def answer_start(self, mechanism, response, locale):
        """Answers the start that a gated client holds, with what its program chose."""
        lent = _Lent()
        _check(_end_answer_start(self._handle, *(_Octets(*lent.octets(part)) for part in (mechanism, response, locale))))

    def lowest_free(self):
        channel = _NUMBER()
        _check(_end_lowest_free(self._handle, channel))
        return channel.value


class Server(_End):
    """The side that is connected to. Settings by name: mechanisms, locales and properties, each as bytes; max_body,
    frame_max, channel_max, heartbeat, gated and lends."""

    def __init__(self, **settings):
        super().__init__()
        self._set_up(_ServerSettings(), _server_defaults, _open_server, settings)

    def admit(self):
        """Admits a login or an open that a gated server holds."""
        _check(_end_admit(self._handle))

    def refuse(self, code, text):
        """Refuses it, and closes the connection."""
        lent = _Lent()
        _check(_end_refuse(self._handle, code, _Octets(*lent.octets(text))))

    def blocked(self, reason):
        """Says that the server takes no more contents, and why."""
        lent = _Lent()
        _check(_end_blocked(self._handle, _Octets(*lent.octets(reason))))

    def unblocked(self):
        """Says that the server takes contents again."""
        _check(_end_unblocked(self._handle))
