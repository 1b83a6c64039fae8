"""Reads the byte streams of AMQP 0-9-1 and 1.0, apart from the gateway's own reading of them.

`take_unit` takes the first whole unit of a stream: a protocol header or a frame. `Frame091` and `Frame10` are frames by their parts.
`check` says what is wrong with a unit that the gateway wrote to a peer, by the standards' tables (AMQP 0-9-1 1.4 to 1.8; AMQP 1.0 1.6,
2.7, 5.3.3). Behind it stand functions that write units. Scripts that talk to the gateway share all this; it knows nothing of theirs.
"""

import struct
from collections import namedtuple

CLIENT, UP = "client", "up"
HEADER_091 = b"AMQP\x00\x00\x09\x01"
HEADER_SASL = b"AMQP\x03\x01\x00\x00"
HEADER_10 = b"AMQP\x00\x01\x00\x00"
METHOD, CONTENT, BODY, HEARTBEAT = 1, 2, 3, 8
OPEN, BEGIN, ATTACH, FLOW, TRANSFER, DISPOSITION, DETACH, END, CLOSE = range(0x10, 0x19)
ACCEPTED, REJECTED, RELEASED, MODIFIED = range(0x24, 0x28)
MECHANISMS, INIT, CHALLENGE, RESPONSE, OUTCOME = range(0x40, 0x45)

Frame091 = namedtuple("Frame091", "kind channel payload")
Frame10 = namedtuple("Frame10", "kind channel code fields payload")


class Bad(Exception):
    """A unit is none of its standard's, or none that may come there."""


def take_unit(end, stream):
    """The first unit of what goes to or comes from an end, or None where it isn't whole yet."""
    if stream[:1] == b"A":
        return stream[:8] if len(stream) >= 8 else None
    if end == CLIENT:
        if len(stream) >= 1 and stream[0] not in (METHOD, CONTENT, BODY, HEARTBEAT):
            raise Bad(f"no frame of AMQP 0-9-1 begins with {stream[:1].hex()}")
        if len(stream) < 7:
            return None
        size = 8 + int.from_bytes(stream[3:7], "big")
        if len(stream) >= size and stream[size - 1] != 0xCE:
            raise Bad("a frame of AMQP 0-9-1 has another end")
    else:
        if len(stream) < 8:
            return None
        size = int.from_bytes(stream[:4], "big")
        if size < 8 or not 2 <= stream[4] <= size // 4 or stream[5] > 1:
            raise Bad(f"no frame of AMQP 1.0 begins with {stream[:8].hex()}")
    return stream[:size] if len(stream) >= size else None


class Stream:
    """The bytes of one direction, and the units that are whole."""

    def __init__(self, end):
        self.end, self.rest, self.count = end, b"", 0

    def units(self, data):
        """The units that these bytes make whole."""
        self.rest += data
        self.count += len(data)
        while (unit := take_unit(self.end, self.rest)) is not None:
            self.rest = self.rest[len(unit) :]
            yield unit


# ---- AMQP 0-9-1


def frame_091(unit):
    kind, channel, _ = struct.unpack(">BHI", unit[:7])
    return Frame091(kind, channel, unit[7:-1])


def method_of(unit):
    """The class and the method of a method frame, else None."""
    return struct.unpack(">HH", unit[7:11]) if unit[0] == METHOD else None


# What the arguments of a server's methods are: octets of 1, 2, 4 and 8 bytes, short strings (s), long ones (l) and tables (t).
SERVERS = {
    (10, 10): "11tll",
    (10, 30): "242",
    (10, 41): "s",
    (10, 50): "2s22",
    (10, 51): "",
    (20, 11): "l",
    (20, 20): "1",
    (20, 21): "1",
    (20, 40): "2s22",
    (20, 41): "",
    (40, 11): "",
    (50, 11): "s44",
    (60, 11): "",
    (60, 21): "s",
    (60, 30): "s1",
    (60, 31): "s",
    (60, 50): "2sss",
    (60, 60): "s81ss",
    (60, 71): "81ss4",
    (60, 72): "s",
    (60, 80): "81",
    (60, 111): "",
    (60, 120): "81",
    (85, 11): "",
}


def arguments(payload, types):
    """The arguments of a method, and no byte behind them."""
    values, at = [], 4
    for kind in types:
        wide = {"s": 1, "l": 4, "t": 4}.get(kind) or int(kind)
        number = int.from_bytes(payload[at : at + wide], "big")
        at += wide
        if kind in "slt":
            values.append(payload[at : at + number])
            at += number
        else:
            values.append(number)
        if at > len(payload):
            raise Bad(f"an argument is cut off: {payload.hex()}")
    if at != len(payload):
        raise Bad(f"bytes behind the arguments: {payload.hex()}")
    return values


# ---- AMQP 1.0

WIDTHS = {4: 0, 5: 1, 6: 2, 7: 4, 8: 8, 9: 16}
KINDS = {
    0x40: "null",
    **dict.fromkeys((0x41, 0x42, 0x56), "boolean"),
    0x50: "ubyte",
    0x60: "ushort",
    **dict.fromkeys((0x43, 0x52, 0x70), "uint"),
    **dict.fromkeys((0x44, 0x53, 0x80), "ulong"),
    **dict.fromkeys((0xA0, 0xB0), "binary"),
    **dict.fromkeys((0xA1, 0xB1), "string"),
    **dict.fromkeys((0xA3, 0xB3), "symbol"),
    **dict.fromkeys((0x45, 0xC0, 0xD0), "list"),
    **dict.fromkeys((0xC1, 0xD1), "map"),
}
FIXED = {0x41: True, 0x42: False, 0x43: 0, 0x44: 0}


class Value(namedtuple("Value", "kind value")):
    """A value of AMQP 1.0 by its type; a described one has the type of its descriptor's code."""


NULL = Value("null", None)


def value_at(data, at):
    """The value at a place, and the place behind it (AMQP 1.0 1.2)."""
    if at >= len(data):
        raise Bad("a value is cut off")
    code = data[at]
    if code == 0:
        descriptor, at = value_at(data, at + 1)
        value, at = value_at(data, at)
        return Value(descriptor.value, value), at
    kind = KINDS.get(code, "other")
    if code >> 4 in WIDTHS:
        if code in (0x45,):
            return Value("list", []), at + 1
        end = at + 1 + WIDTHS[code >> 4]
        if end > len(data):
            raise Bad("a number is cut off")
        number = int.from_bytes(data[at + 1 : end], "big")
        value = None if code == 0x40 else FIXED.get(code, bool(number) if code == 0x56 else number)
        return Value(kind, value), end
    wide = 4 if code & 0x10 else 1
    start = at + 1 + wide
    end = start + int.from_bytes(data[at + 1 : start], "big")
    if end > len(data) or start > len(data):
        raise Bad("a value is cut off")
    if kind in ("list", "map"):
        return Value(kind, items(data[:end], start, wide)), end
    return Value(kind, data[start:end]), end


def items(data, at, wide):
    """The items of a list or a map, whose count stands first, and no byte behind them."""
    count, at, found = int.from_bytes(data[at : at + wide], "big"), at + wide, []
    for _ in range(count):
        value, at = value_at(data, at)
        found.append(value)
    if at != len(data):
        raise Bad("bytes behind the last item")
    return found


def frame_10(unit):
    """A frame of AMQP 1.0. Fields that are left out at the end are null. An empty frame has no code."""
    kind, channel, start = unit[5], int.from_bytes(unit[6:8], "big"), 4 * unit[4]
    if start == len(unit):
        return Frame10(kind, channel, None, [], b"")
    value, at = value_at(unit, start)
    if not isinstance(value.value, Value) or value.value.kind != "list":
        raise Bad("a frame's body begins with no performative")
    fields = value.value.value
    return Frame10(kind, channel, value.kind, fields + [NULL] * (15 - len(fields)), unit[at:])


def plain(frame):
    """The fields of a frame without their types."""
    return [field.value for field in frame.fields]


# The types of fields, in order; `!` stands behind mandatory ones, and `*` stands for any.
ROWS = {
    OPEN: "string! string uint ushort uint * * * * map",
    BEGIN: "ushort uint! uint! uint! uint * * map",
    ATTACH: "string! uint! boolean! ubyte ubyte 40 41 map boolean uint ulong * * map",
    FLOW: "uint uint! uint! uint! uint uint uint uint boolean boolean map",
    TRANSFER: "uint! uint binary uint boolean boolean ubyte * boolean boolean boolean",
    DISPOSITION: "boolean! uint! uint boolean * boolean",
    DETACH: "uint! boolean 29",
    END: "29",
    CLOSE: "29",
    INIT: "symbol! binary string",
}


def check_fields(frame):
    """A performative's fields are of the types of its row."""
    if frame.code not in ROWS:
        raise Bad(f"no performative of the gateway has the code {frame.code}")
    row = ROWS[frame.code].split()
    if any(field != NULL for field in frame.fields[len(row) :]):
        raise Bad("more fields than the row has")
    for kind, field in zip(row, frame.fields):
        if field == NULL:
            if kind.endswith("!"):
                raise Bad("a mandatory field is null")
        elif kind != "*" and str(field.kind) != kind.rstrip("!"):
            raise Bad(f"a field is of the type {field.kind}, not {kind}")
    if frame.payload and frame.code != TRANSFER:
        raise Bad("a payload behind another performative than a transfer")


def check(end, unit, most):
    """What the gateway wrote to an end is a unit that it may write there, within the peer's limit of frames in bytes."""
    if unit[:4] == b"AMQP":
        if unit not in ((HEADER_091,) if end == CLIENT else (HEADER_SASL, HEADER_10)):
            raise Bad(f"another protocol header: {unit.hex()}")
        return
    if len(unit) > most:
        raise Bad(f"a frame of {len(unit)} bytes, where {most} are agreed on")
    if end == UP:
        frame = frame_10(unit)
        if frame.code is not None:
            check_fields(frame)
        return
    frame = frame_091(unit)
    if frame.kind == METHOD:
        if method_of(unit) not in SERVERS:
            raise Bad(f"no method of a server: {frame.payload[:4].hex()}")
        arguments(frame.payload, SERVERS[method_of(unit)])
    elif frame.kind == HEARTBEAT and (frame.channel or frame.payload):
        raise Bad("a heartbeat on a channel, or with bytes")
    elif frame.kind == CONTENT and frame.payload[:4] != b"\0\x3C\0\0":
        raise Bad("a content header of another class")


# ---- writing


def frame(kind, channel, payload):
    return struct.pack(">BHI", kind, channel, len(payload)) + payload + b"\xce"


def method(channel, class_id, method_id, arguments=b""):
    return frame(1, channel, struct.pack(">HH", class_id, method_id) + arguments)


def short(text):
    return bytes([len(text)]) + text


def long(text):
    return struct.pack(">I", len(text)) + text


def typed(value):
    """A value of AMQP 1.0 in some encoding: None, a boolean, a number of 32 bits, a tag, a string, or what is encoded already."""
    if isinstance(value, tuple):
        return value[0]
    if value is None or isinstance(value, bool):
        return {None: b"\x40", True: b"\x41", False: b"\x42"}[value]
    if isinstance(value, int):
        return b"\x43" if value == 0 else b"\x52" + bytes([value]) if value < 256 else b"\x70" + struct.pack(">I", value % 2**32)
    return (b"\xa0" if isinstance(value, bytearray) else b"\xa1") + short(bytes(value))


def described(code, *fields):
    body = b"".join(map(typed, fields))
    return (b"\0\x53" + bytes([code]) + b"\xd0" + struct.pack(">II", len(body) + 4, len(fields)) + body,)


def frame10(channel, code, *fields, payload=b"", kind=0):
    body = described(code, *fields)[0] + payload
    return struct.pack(">IBBH", len(body) + 8, 2, kind, channel) + body


def symbol(text):
    return (b"\xa3" + short(text),)


def ushort(number):
    return (b"\x60" + struct.pack(">H", number),)
