#!/usr/bin/env python3
"""Writes the cases of the mapping in tools/cases/amqp_10.txt, and the answers to them in amqp_10.answers.txt.

    python3 tools/make_mapping_cases.py            writes them
    python3 tools/make_mapping_cases.py --check    compares them with those that stand there

The expected lines are worked out here and not by the program: messages are built from values of this script, spelled by its
own code after AMQP 0-9-1 4.2.5 and AMQP 1.0 1.6 and 3.2, and mapped by its own tables. The messages of client libraries stand
in tools/captured_messages.txt, as tools/record_messages.py wrote them: their content headers are read by code of this script,
and put into the input as they came. This is no part of the build.
"""

import re
import struct
import sys
import uuid
from pathlib import Path

from case_parts import put_part

TOOLS = Path(__file__).resolve().parent
ROOM = 131064

# ---- AMQP 0-9-1: fields are pairs of a type byte and a value; a table is a list of names and fields

PROPERTIES = [("content-type", "s", "ContentType"), ("content-encoding", "s", "ContentEncoding"),
              ("headers", "F", "Headers"), ("delivery-mode", "o", "DeliveryMode"), ("priority", "o", "Priority"),
              ("correlation-id", "s", "CorrelationId"), ("reply-to", "s", "ReplyTo"), ("expiration", "s", "Expiration"),
              ("message-id", "s", "MessageId"), ("timestamp", "q", "Timestamp"), ("type", "s", "Kind"),
              ("user-id", "s", "UserId"), ("app-id", "s", "AppId"), ("cluster-id", "s", "ClusterId")]
PACKED = {"b": "b", "B": "B", "s": "h", "u": "H", "I": "i", "i": "I", "l": "q", "T": "Q", "f": "I", "d": "Q"}
WORDS = {"b": "I8", "B": "U8", "s": "I16", "u": "U16", "I": "I32", "i": "U32", "l": "I64", "T": "Time", "f": "F32", "d": "F64"}


class Fault(Exception):
    pass


def field_091(field):
    kind, v = field
    if kind in PACKED:
        body = struct.pack(">" + PACKED[kind], v)
    elif kind == "t":
        body = bytes([v])
    elif kind == "D":
        body = struct.pack(">BI", *v)
    elif kind in "Sx":
        body = struct.pack(">I", len(v)) + v
    elif kind == "A":
        inner = b"".join(field_091(f) for f in v)
        body = struct.pack(">I", len(inner)) + inner
    elif kind == "F":
        body = table_091(v)
    else:
        body = b""
    return kind.encode() + body


def table_091(entries):
    inner = b"".join(bytes([len(n)]) + n + field_091(f) for n, f in entries)
    return struct.pack(">I", len(inner)) + inner


def header_091(props, size=0):
    flags, out = 0, b""
    for k, (name, kind, _) in enumerate(PROPERTIES):
        if name in props:
            v = props[name]
            flags |= 1 << (15 - k)
            out += {"s": lambda: bytes([len(v)]) + v, "F": lambda: table_091(v), "o": lambda: bytes([v]),
                    "q": lambda: struct.pack(">Q", v)}[kind]()
    return struct.pack(">HHQH", 60, 0, size, flags) + out


class Reader:
    """Reads what stands in bytes, from the front on."""

    def __init__(self, data):
        self.data, self.at = data, 0

    def take(self, count):
        self.at += count
        if self.at > len(self.data):
            raise ValueError("cut off")
        return self.data[self.at - count:self.at]

    def number(self, packed):
        return struct.unpack(">" + packed, self.take(struct.calcsize(">" + packed)))[0]

    def short(self):
        return self.take(self.number("B"))

    def part(self):
        return Reader(self.take(self.number("I")))

    def field(self):
        kind = chr(self.number("B"))
        if kind in PACKED:
            return (kind, self.number(PACKED[kind]))
        if kind == "t":
            return (kind, int(self.number("B") != 0))
        if kind == "D":
            return (kind, (self.number("B"), self.number("I")))
        if kind in "Sx":
            return (kind, self.part().data)
        if kind == "A":
            return (kind, self.part().all(Reader.field))
        if kind == "F":
            return (kind, self.table())
        if kind == "V":
            return (kind, None)
        raise ValueError("no field begins with " + kind)

    def table(self):
        return self.part().all(lambda inner: (inner.short(), inner.field()))

    def all(self, item):
        out = []
        while self.at < len(self.data):
            out.append(item(self))
        return out


def read_header_091(payload):
    """The properties that the payload of a content header tells, and the size of the body."""
    reader = Reader(payload)
    if reader.number("H") != 60 or reader.number("H") != 0:
        raise ValueError("another class, or a weight")
    size, flags, props = reader.number("Q"), reader.number("H"), {}
    for k, (name, kind, _) in enumerate(PROPERTIES):
        if flags >> (15 - k) & 1:
            props[name] = {"s": reader.short, "F": reader.table, "o": lambda: reader.number("B"),
                           "q": lambda: reader.number("Q")}[kind]()
    if reader.at != len(payload) or flags & 3:
        raise ValueError("bytes or flags are left")
    return props, size


def text(s):
    out = ""
    for b in s:
        c = chr(b)
        out += {"\t": "\\t", "\n": "\\n", "\r": "\\r", "'": "\\'", '"': '\\"', "\\": "\\\\"}.get(c) or (c if 32 <= b < 127 else "\\x%02x" % b)
    return '"' + out + '"'


def debug(field):
    kind, v = field
    if kind in WORDS:
        return "%s(%d)" % (WORDS[kind], v)
    if kind == "t":
        return "Bool(%s)" % ("true" if v else "false")
    if kind == "D":
        return "Decimal(%d, %d)" % v
    if kind == "V":
        return "Void"
    if kind in "Sx":
        return ("Long(%s)" if kind == "S" else "Bytes(%s)") % text(v)
    if kind == "A":
        return "Array(FieldList { items: [%s] })" % ", ".join(debug(f) for f in v)
    return "Table(%s)" % debug_table(v)


def debug_table(entries):
    return "Table { entries: [%s] }" % ", ".join("(%s, %s)" % (text(n), debug(f)) for n, f in entries)


def shown(m):
    out = "%s %s |" % (text(m["exchange"]), text(m["key"]))
    for name, kind, _ in PROPERTIES:
        if name in m["props"]:
            v = m["props"][name]
            out += " %s %s" % (name, text(v) if kind == "s" else debug_table(v) if kind == "F" else v)
    out += " | %d" % len(m["body"])
    if len(m["body"]) <= 64:
        out += " " + text(m["body"])
    return out


# ---- AMQP 1.0: values are pairs of a type and a value

def number(short, long, zero, v, signed=False):
    packs = {1: "b" if signed else "B", 4: "i" if signed else "I", 8: "q" if signed else "Q"}
    if zero is not None and v == 0:
        return bytes([zero])
    if (-128 <= v <= 127) if signed else v <= 255:
        return bytes([short]) + struct.pack(">" + packs[1], v)
    return bytes([long[0]]) + struct.pack(">" + packs[long[1]], v)


def sized(short, long, body, count=None):
    if count is None:
        return bytes([short, len(body)]) + body if len(body) < 256 else bytes([long]) + struct.pack(">I", len(body)) + body
    if len(body) + 1 < 256 and count < 256:
        return bytes([short, len(body) + 1, count]) + body
    return bytes([long]) + struct.pack(">II", len(body) + 4, count) + body


def value_10(value):
    kind, v = value
    if kind == "null":
        return b"\x40"
    if kind == "boolean":
        return b"\x41" if v else b"\x42"
    if kind == "ubyte":
        return struct.pack(">BB", 0x50, v)
    if kind == "byte":
        return struct.pack(">Bb", 0x51, v)
    if kind == "ushort":
        return struct.pack(">BH", 0x60, v)
    if kind == "short":
        return struct.pack(">Bh", 0x61, v)
    if kind == "uint":
        return number(0x52, (0x70, 4), 0x43, v)
    if kind == "ulong":
        return number(0x53, (0x80, 8), 0x44, v)
    if kind == "int":
        return number(0x54, (0x71, 4), None, v, True)
    if kind == "long":
        return number(0x55, (0x81, 8), None, v, True)
    if kind in ("float", "double", "char", "timestamp"):
        code, pack = {"float": (0x72, "I"), "double": (0x82, "Q"), "char": (0x73, "I"), "timestamp": (0x83, "q")}[kind]
        return bytes([code]) + struct.pack(">" + pack, v)
    if kind in ("decimal32", "decimal64", "decimal128", "uuid"):
        return {"decimal32": b"\x74", "decimal64": b"\x84", "decimal128": b"\x94", "uuid": b"\x98"}[kind] + v
    if kind in ("binary", "string", "symbol"):
        short = {"binary": 0xA0, "string": 0xA1, "symbol": 0xA3}[kind]
        return sized(short, short + 0x10, v)
    if kind == "list":
        return b"\x45" if not v else sized(0xC0, 0xD0, b"".join(value_10(x) for x in v), len(v))
    if kind == "map":
        return sized(0xC1, 0xD1, b"".join(value_10(k) + value_10(x) for k, x in v), 2 * len(v))
    if kind == "array":  # given with its constructor and the elements without it
        return sized(0xE0, 0xF0, v[1], v[0])
    if kind == "described":
        return b"\x00" + value_10(v[0]) + value_10(v[1])
    raise ValueError(kind)


def fields(values):
    while values and values[-1] is None:
        values = values[:-1]
    return ("list", [("null", None) if v is None else v for v in values])


def section(code, value):
    return b"\x00\x53" + bytes([code]) + value_10(value)


def message_10(header=None, annotations=None, properties=None, application=None, body=b"", sections=None):
    out = b""
    if header is not None:
        out += section(0x70, fields(header))
    if annotations is not None:
        out += section(0x72, ("map", annotations))
    if properties is not None:
        out += section(0x73, fields(properties))
    if application is not None:
        out += section(0x74, ("map", application))
    return out + (section(0x75, ("binary", body)) if sections is None else sections)


# ---- to AMQP 1.0

def utf8(s, name):
    try:
        s.decode("utf-8")
    except UnicodeDecodeError:
        raise Fault("NotUtf8(%s)" % name) from None
    return ("string", s)


def ascii_symbol(s, name):
    if any(b > 127 for b in s):
        raise Fault("NotAscii(%s)" % name)
    return ("symbol", s)


def milliseconds(n, name):
    if n > 9223372036854775:
        raise Fault("Time(%s)" % name)
    return ("timestamp", 1000 * n)


SAME = {"t": "boolean", "b": "byte", "B": "ubyte", "s": "short", "u": "ushort", "I": "int", "i": "uint", "l": "long",
        "f": "float", "d": "double", "V": "null", "x": "binary"}


def value_of(field):
    kind, v = field
    if kind in SAME:
        return (SAME[kind], bool(v) if kind == "t" else v)
    if kind == "D":
        raise Fault("ValueKind(Headers)")
    if kind == "S":
        return utf8(v, "Headers")
    if kind == "T":
        return milliseconds(v, "Headers")
    if kind == "A":
        return ("list", [value_of(f) for f in v])
    pairs, names = [], set()
    for name, f in v:
        utf8(name, "Headers")
        if name in names:
            raise Fault("Repeated(%s)" % text(name))
        names.add(name)
        pairs.append((("string", name), value_of(f)))
    return ("map", pairs)


def depth(field):
    kind, v = field
    if kind == "A":
        return 1 + max([depth(f) for f in v], default=0)
    if kind == "F":
        return 1 + max([depth(f) for _, f in v], default=0)
    return 0


def headers_10(entries):
    plain, nested, names = [], [], set()
    for name, f in entries:
        utf8(name, "Headers")
        if name.startswith(b"x-opt-091-"):
            raise Fault("Reserved(%s)" % text(name))
        if name in names:
            raise Fault("Repeated(%s)" % text(name))
        names.add(name)
        (nested if f[0] in "AF" else plain).append((("string", name), value_of(f)))
    if depth(("F", entries)) > 15:
        raise Fault("Depth")
    return plain, nested


def pieces_10(m):
    """The parts of the image: header, annotations, properties, those of the application, body."""
    p = m["props"]

    def maybe(name, make):
        return make(p[name], {n: w for n, _, w in PROPERTIES}[name]) if name in p else None

    exchange = utf8(m["exchange"], "Exchange") if m["exchange"] else None
    key = utf8(m["key"], "RoutingKey")
    content_type = maybe("content-type", ascii_symbol)
    encoding = maybe("content-encoding", ascii_symbol)
    plain, nested = headers_10(p["headers"]) if "headers" in p else (None, [])
    durable = None
    if "delivery-mode" in p:
        if p["delivery-mode"] not in (1, 2):
            raise Fault("DeliveryMode")
        durable = ("boolean", p["delivery-mode"] == 2)
    priority = ("ubyte", p["priority"]) if "priority" in p else None
    correlation, reply = maybe("correlation-id", utf8), maybe("reply-to", utf8)
    ttl = None
    if "expiration" in p:
        s = p["expiration"]
        if not (s and all(48 <= b <= 57 for b in s) and (s == b"0" or s[0] != 48) and int(s) < 2 ** 32):
            raise Fault("Expiration")
        ttl = ("uint", int(s))
    mid, time = maybe("message-id", utf8), maybe("timestamp", milliseconds)
    kind = maybe("type", utf8)
    user = ("binary", p["user-id"]) if "user-id" in p else None
    app, cluster = maybe("app-id", utf8), maybe("cluster-id", utf8)
    header = [durable, priority, ttl] if durable or priority or ttl else None
    annotations = [(("symbol", b"x-opt-091-" + n), v) for n, v in
                   ((b"exchange", exchange), (b"type", kind), (b"app-id", app), (b"cluster-id", cluster),
                    (b"headers", ("map", nested) if nested else None)) if v]
    application = None if plain is None or (not plain and nested) else plain
    properties = [mid, user, None, key, reply, correlation, content_type, encoding, None, time]
    return header, annotations or None, properties, application, m["body"]


# ---- to AMQP 0-9-1

def short(s, name):
    if len(s) > 255:
        raise Fault("TooLong(%s)" % name)
    return s


def seconds(n, name):
    if n < 0:
        raise Fault("Time(%s)" % name)
    return n // 1000


FIELDS = {v: k for k, v in SAME.items()}


def field_of(value):
    kind, v = value
    if kind in FIELDS:
        return (FIELDS[kind], v)
    if kind in ("string", "symbol"):
        return ("S", v)
    if kind == "ulong" and v < 2 ** 63:
        return ("l", v)
    if kind == "char":
        return ("S", chr(v).encode("utf-8"))
    if kind == "uuid":
        return ("S", str(uuid.UUID(bytes=v)).encode())
    if kind == "timestamp":
        return ("T", seconds(v, "Headers"))
    if kind == "list":
        return ("A", [field_of(x) for x in v])
    if kind == "array":
        return ("A", [field_of(x) for x in v[2]])
    if kind == "map":
        return ("F", entries_of(v, []))
    raise Fault("ValueKind(Headers)")


def entries_of(pairs, before):
    names, out = [n for n, _ in before], []
    for (kind, name), v in pairs:
        if kind not in ("string", "symbol"):
            raise Fault("ValueKind(Headers)")
        short(name, "Headers")
        if name in names:
            raise Fault("Repeated(%s)" % text(name))
        names.append(name)
        out.append((name, field_of(v)))
    return out


def id_text(value, name):
    kind, v = value
    if kind == "ulong":
        return str(v).encode()
    if kind == "uuid":
        return str(uuid.UUID(bytes=v)).encode()
    return short(v, name)


def image_091(queue, room, header, annotations, properties, application, body):
    header = (header or []) + [None] * 5
    p = (properties or []) + [None] * 13

    def annotated(name, word):
        for k, v in annotations or []:
            if k == ("symbol", b"x-opt-091-" + name):
                if v[0] != "string":
                    raise Fault("ValueKind(%s)" % word)
                return short(v[1], word)
        return None

    m = {"exchange": annotated(b"exchange", "Exchange") or b"", "props": {}}
    m["key"] = short(p[3][1] if p[3] else queue, "RoutingKey")

    def put(name, v):
        if v is not None:
            m["props"][name] = v

    put("content-type", p[6] and short(p[6][1], "ContentType"))
    put("content-encoding", p[7] and short(p[7][1], "ContentEncoding"))
    nested = next((v for k, v in annotations or [] if k == ("symbol", b"x-opt-091-headers")), None)
    if application is not None or nested is not None:
        kept = [(k, v) for k, v in application or []
                if not (k[0] in ("string", "symbol") and k[1].startswith(b"x-opt-091-"))]
        entries = entries_of(kept, [])
        if nested is not None:
            if nested[0] != "map":
                raise Fault("ValueKind(Headers)")
            entries += entries_of(nested[1], entries)
        put("headers", entries)
    put("delivery-mode", header[0] and (2 if header[0][1] else 1))
    put("priority", header[1] and header[1][1])
    put("correlation-id", p[5] and id_text(p[5], "CorrelationId"))
    put("reply-to", p[4] and short(p[4][1], "ReplyTo"))
    put("expiration", header[2] and str(header[2][1]).encode())
    put("message-id", p[0] and id_text(p[0], "MessageId"))
    put("timestamp", p[9] and seconds(p[9][1], "Timestamp"))
    put("type", annotated(b"type", "Kind"))
    put("user-id", p[1] and short(p[1][1], "UserId"))
    put("app-id", annotated(b"app-id", "AppId"))
    put("cluster-id", annotated(b"cluster-id", "ClusterId"))
    if len(header_091(m["props"])) > room:
        raise Fault("TooLong(Header)")
    if body is None:
        raise Fault("BodyKind")
    if len(body) > 16777216:
        raise Fault("TooLong(Body)")
    m["body"] = body
    return m


# ---- lines

def run(b, n):
    return " %02X*%d" % (b, n) if n >= 8 else " %02X" % b * n


def hexes(data):
    return "".join(run(same[0][0], len(same[0])) for same in re.finditer(rb"(?s)(.)\1*", data))


STDIN, STDOUT = [], []


def must(holds, otherwise):
    if not holds:
        sys.exit(otherwise)


def remark(line):
    STDIN.append("# " + line)
    STDOUT.append("# " + line)


def case_10(m, header):
    """A message whose content header is spelled so, its image, and what comes back of that."""
    exchange, key = hexes(m["exchange"]) or " ", hexes(m["key"]) or " "
    STDIN.append("to10%s,%s,%s,%s" % (exchange, key, header, hexes(m["body"])))
    try:
        pieces = pieces_10(m)
    except Fault as fault:
        STDOUT.append(str(fault))
        return
    try:
        back = shown(image_091(b"queue", ROOM, *pieces))
    except Fault as fault:
        back = str(fault)
    STDOUT.append("%s | %s" % (hexes(message_10(*pieces)), "=" if back == shown(m) else back))


def to10(exchange=b"", key=b"k", body=b"", **props):
    props = {k.replace("_", "-"): v for k, v in props.items()}
    m = {"exchange": exchange, "key": key, "props": props, "body": body}
    case_10(m, hexes(header_091(props, len(body))))


def published(exchange, key, header, body):
    """A message whose content header is told by bytes."""
    props, size = read_header_091(header)
    must(size == len(body), "a header tells another size")
    return {"exchange": exchange, "key": key, "props": props, "body": body}


def to091(header=None, annotations=None, properties=None, application=None, body=b"", sections=None, queue=b"q", room=ROOM):
    written = message_10(header, annotations, properties, application, body, sections)
    STDIN.append("to091%s, %d,%s" % (hexes(queue) or " ", room, hexes(written)))
    try:
        line = shown(image_091(queue, room, header, annotations, properties, application, body))
    except Fault as fault:
        line = str(fault)
    count = header[4][1] if header and len(header) > 4 and header[4] else 0
    STDOUT.append(line + (" | redelivered" if count > 0 else ""))


def nested_table(levels):
    field = ("I", 1)
    for _ in range(levels):
        field = ("F", [(b"a", field)])
    return field


def nested_array(levels):
    field = ("I", 1)
    for _ in range(levels):
        field = ("A", [field])
    return field


def nested_list(levels):
    value = ("int", 1)
    for _ in range(levels):
        value = ("list", [value])
    return value


EURO = "\u20ac".encode()
LETTERS = [("t", 0), ("t", 1), ("b", -128), ("b", 127), ("B", 0), ("B", 255), ("s", -32768), ("s", 32767), ("u", 0), ("u", 65535),
           ("I", -2 ** 31), ("I", 2 ** 31 - 1), ("i", 0), ("i", 2 ** 32 - 1), ("l", -2 ** 63), ("l", 2 ** 63 - 1),
           ("f", 0x7F800001), ("d", 0x7FF8000000000000), ("D", (2, 314)), ("S", b""), ("S", EURO), ("S", b"\xFF"),
           ("T", 0), ("T", 9223372036854775), ("T", 9223372036854776), ("V", None), ("x", b""), ("x", b"\xFF\x00"),
           ("A", []), ("A", [("I", 1), ("S", b"a")]), ("F", []), ("F", [(b"a", ("I", 1)), (b"b", ("A", []))])]


def towards_10():
    remark("Nothing but the key, which is always there")
    to10()
    to10(key=b"")
    to10(key=b"k" * 255, body=b"body")
    to10(key=b"\xFF")
    remark("The exchange: absent where it is empty")
    to10(exchange=b"e")
    to10(exchange=EURO * 85)
    to10(exchange=b"\xC3")
    remark("Texts: at their edges, and past them")
    for name in ("content_type", "content_encoding"):
        for s in (b"", b"a", b"\x7F" * 255, b"\x80"):
            to10(**{name: s})
    for name in ("correlation_id", "reply_to", "message_id", "type", "app_id", "cluster_id", "user_id"):
        for s in (b"", EURO, b"a" * 255, b"\xFF"):
            to10(**{name: s})
    remark("Numbers")
    for n in (0, 1, 2, 3, 255):
        to10(delivery_mode=n)
    for n in (0, 4, 255):
        to10(priority=n)
    for s in (b"0", b"1", b"60000", b"4294967295", b"4294967296", b"00", b"01", b"", b"-1", b"+1", b"1 ", b"1.0", b"9" * 255, EURO):
        to10(expiration=s)
    for n in (0, 1, 1700000000, 9223372036854775, 9223372036854776, 2 ** 64 - 1):
        to10(timestamp=n)
    to10(delivery_mode=2, priority=9, expiration=b"1000")
    remark("The first row at fault counts")
    to10(delivery_mode=3)
    to10(correlation_id=b"\xFF")
    to10(delivery_mode=3, correlation_id=b"\xFF")
    to10(exchange=b"\xFF", key=b"\xFF")
    to10(content_type=b"\xFF", content_encoding=b"\xFF", headers=[(b"a", ("D", (0, 0)))])
    to10(headers=[(b"a", ("D", (0, 0)))], delivery_mode=0)
    to10(reply_to=b"\xFF", expiration=b"x")
    to10(expiration=b"x", message_id=b"\xFF")
    to10(message_id=b"\xFF", timestamp=2 ** 64 - 1)
    to10(timestamp=2 ** 64 - 1, type=b"\xFF", app_id=b"\xFF")
    to10(type=b"\xFF", app_id=b"\xFF", cluster_id=b"\xFF")
    to10(app_id=b"\xFF", cluster_id=b"\xFF")
    remark("Headers: present and empty, and each type of field alone and inside")
    to10(headers=[])
    for f in LETTERS:
        to10(headers=[(b"h", f)])
        to10(headers=[(b"h", ("A", [f]))])
        to10(headers=[(b"h", ("F", [(b"i", f)]))])
    remark("Headers that hold others come back behind those that hold none")
    to10(headers=[(b"a", ("A", [])), (b"b", ("I", 1)), (b"c", ("F", [])), (b"d", ("S", b"x"))])
    to10(headers=[(b"b", ("I", 1)), (b"d", ("S", b"x")), (b"a", ("A", [])), (b"c", ("F", []))])
    remark("Names")
    for n in (b"", b"n" * 255, EURO, b"\xFF", b"x-opt-091-", b"x-opt-091-a", b"x-opt-091", b"X-opt-091-a", b"x-opt-mqtt"):
        to10(headers=[(n, ("I", 1))])
        to10(headers=[(n, ("A", []))])
        to10(headers=[(b"h", ("F", [(n, ("I", 1))]))])
    to10(headers=[(b"a", ("I", 1)), (b"a", ("I", 1))])
    to10(headers=[(b"a", ("I", 1)), (b"b", ("I", 1)), (b"a", ("A", []))])
    to10(headers=[(b"a", ("A", [])), (b"a", ("D", (0, 0)))])
    to10(headers=[(b"a", ("D", (0, 0))), (b"a", ("A", []))])
    to10(headers=[(b"x-opt-091-a", ("I", 1)), (b"x-opt-091-a", ("I", 1))])
    to10(headers=[(b"h", ("F", [(b"a", ("I", 1)), (b"a", ("I", 2))]))])
    to10(headers=[(b"h", ("F", [(b"a", ("I", 1))])), (b"a", ("I", 2))])
    to10(headers=[(b"%d" % (7 * k % 300), ("I", k)) for k in range(300)])
    to10(headers=[(b"%d" % (7 * k % 300), ("I", k)) for k in range(300)] + [(b"299", ("I", 0))])
    remark("Depth: 15 levels with the table of headers, 16 are too many, and told so behind all other faults")
    to10(headers=[(b"h", nested_table(14))])
    to10(headers=[(b"h", nested_table(15))])
    to10(headers=[(b"h", nested_array(14))])
    to10(headers=[(b"h", nested_array(15))])
    to10(headers=[(b"h", nested_array(15)), (b"h", ("I", 1))])
    to10(headers=[(b"h", nested_array(15))], delivery_mode=3)
    remark("All at once")
    to10(exchange=b"orders", key=b"new.eu", body=b"x" * 300, content_type=b"application/json", content_encoding=b"gzip",
         headers=[(b"tries", ("I", 2)), (b"x-death", ("A", [("F", [(b"count", ("l", 1)), (b"time", ("T", 1700000000))])]))],
         delivery_mode=2, priority=4, correlation_id=b"c", reply_to=b"answers", expiration=b"60000", message_id=b"m",
         timestamp=1700000000, type=b"order", user_id=b"guest", app_id=b"shop", cluster_id=b"here")


def towards_091():
    string, symbol, binary = (lambda s: ("string", s)), (lambda s: ("symbol", s)), (lambda s: ("binary", s))

    def at(place, v):
        return [None] * place + [v]

    remark("Nothing: the key is the name of the queue, where there is no subject")
    to091()
    to091(queue=b"")
    to091(queue=b"q" * 255)
    to091(queue=b"q" * 256)
    to091(properties=[])
    to091(properties=at(3, string(b"")))
    to091(properties=at(3, string(b"s" * 255)), queue=b"q" * 256)
    to091(properties=at(3, string(b"s" * 256)))
    remark("Annotations: strings of at most 255 bytes under symbols, the first of a name")
    for name in (b"exchange", b"type", b"app-id", b"cluster-id"):
        key = symbol(b"x-opt-091-" + name)
        for v in (string(b""), string(b"a" * 255), string(b"a" * 256), symbol(b"a"), binary(b"a"), ("null", None), ("uint", 1)):
            to091(annotations=[(key, v)])
        to091(annotations=[(key, string(b"1")), (key, string(b"2"))])
        to091(annotations=[(key, string(b"1")), (key, ("uint", 2))])
    to091(annotations=[(symbol(b"x-opt-091-typ"), string(b"a")), (symbol(b"x-opt-091-types"), string(b"b")), (("ulong", 1), string(b"c"))])
    to091(annotations=[])
    remark("Texts")
    for place in (4, 6, 7):
        make = string if place == 4 else symbol
        for s in (b"", b"a" * 255, b"a" * 256):
            to091(properties=at(place, make(s)))
    for s in (b"", b"\xFF" * 255, b"\xFF" * 256):
        to091(properties=at(1, binary(s)))
    remark("Ids of each kind")
    for place in (0, 5):
        for v in (string(b""), string(b"a" * 255), string(b"a" * 256), binary(b"\xFF"), binary(b"a" * 256), ("ulong", 0), ("ulong", 2 ** 64 - 1),
                  ("uuid", bytes(range(0xA0, 0xB0)))):
            to091(properties=at(place, v))
    remark("Times, in seconds")
    for n in (0, 999, 1000, 1700000000123, 2 ** 63 - 1, -1, -1000, -2 ** 63):
        to091(properties=at(9, ("timestamp", n)))
    remark("The header")
    for b in (True, False):
        to091(header=[("boolean", b)])
    for n in (0, 255):
        to091(header=[None, ("ubyte", n)])
    for n in (0, 1, 4294967295):
        to091(header=[None, None, ("uint", n)])
    to091(header=[])
    to091(header=[None, None, None, ("boolean", True)])
    for n in (0, 1, 4294967295):
        to091(header=[None, None, None, None, ("uint", n)])
    to091(header=[None, None, None, None, ("uint", 1)], queue=b"q" * 256)
    remark("What has no place is left out")
    to091(properties=[None, None, string(b"to"), None, None, None, None, None, ("timestamp", 5), None, string(b"g"), ("uint", 1), string(b"r")])
    remark("Headers: present where either is")
    headers = symbol(b"x-opt-091-headers")
    to091(application=[])
    to091(annotations=[(headers, ("map", []))])
    to091(application=[], annotations=[(headers, ("map", []))])
    values = [("null", None), ("boolean", True), ("boolean", False), ("ubyte", 255), ("byte", -128), ("ushort", 65535), ("short", -32768),
              ("uint", 0), ("uint", 4294967295), ("int", -2 ** 31), ("ulong", 0), ("ulong", 2 ** 63 - 1), ("ulong", 2 ** 63),
              ("ulong", 2 ** 64 - 1), ("long", -2 ** 63), ("float", 0x3E000000), ("double", 0x7FF8000000000000), ("decimal32", bytes(4)),
              ("decimal64", bytes(8)), ("decimal128", bytes(16)), ("char", 0), ("char", 0x41), ("char", 0x20AC), ("char", 0x10FFFF), ("timestamp", 0),
              ("timestamp", 1999), ("timestamp", -1), ("uuid", bytes(range(16))), ("binary", b"\xFF"), ("string", EURO), ("symbol", b"sym"),
              ("list", []), ("list", [("int", 1), ("null", None)]), ("map", []), ("map", [(("symbol", b"s"), ("int", 1)), (("string", b"t"), ("list", []))]),
              ("array", (2, b"\x54\x01\xFF", [("int", 1), ("int", -1)])), ("array", (0, b"\x40", [])),
              ("described", (("ulong", 1), ("int", 1)))]
    for v in values:
        to091(application=[(string(b"h"), v)])
        to091(annotations=[(headers, ("map", [(string(b"h"), v)]))])
        to091(application=[(string(b"h"), ("list", [v]))])
        to091(application=[(string(b"h"), ("map", [(symbol(b"i"), v)]))])
    remark("Names")
    for n in (b"", b"n" * 255, b"n" * 256, EURO):
        to091(application=[(string(n), ("int", 1))])
        to091(annotations=[(headers, ("map", [(string(n), ("int", 1))]))])
        to091(application=[(string(b"h"), ("map", [(string(n), ("int", 1))]))])
    for k in (("int", 1), ("null", None), binary(b"a"), ("list", [])):
        to091(annotations=[(headers, ("map", [(k, ("int", 1))]))])
        to091(application=[(string(b"h"), ("map", [(k, ("int", 1))]))])
    for n in (b"x-opt-091-", b"x-opt-091-order", b"x-opt-091", b"X-OPT-091-a", b"x-opt-091-" + b"n" * 300):
        to091(application=[(string(n), ("int", 1)), (string(b"a"), ("int", 2))])
        to091(annotations=[(headers, ("map", [(string(n), ("int", 1))]))])
    to091(application=[(string(b"x-opt-091-a"), ("decimal32", bytes(4))), (string(b"x-opt-091-a"), ("int", 1))])
    to091(application=[(string(b"a"), ("int", 1)), (string(b"a"), ("int", 2))])
    to091(application=[(string(b"a"), ("int", 1))], annotations=[(headers, ("map", [(string(b"a"), ("int", 2))]))])
    to091(application=[(string(b"a"), ("int", 1))], annotations=[(headers, ("map", [(symbol(b"a"), ("int", 2))]))])
    to091(application=[(string(b"h"), ("map", [(string(b"a"), ("int", 1)), (symbol(b"a"), ("int", 2))]))])
    to091(application=[(string(b"%d" % (7 * k % 300)), ("int", k)) for k in range(300)] + [(string(b"299"), ("int", 0))])
    remark("An annotation that is no map, behind the properties of the application")
    to091(annotations=[(headers, string(b"a"))])
    to091(annotations=[(headers, ("null", None))])
    to091(annotations=[(headers, ("list", []))], application=[(string(b"a"), ("int", 1))])
    to091(annotations=[(headers, ("list", []))], application=[(string(b"n" * 256), ("int", 1))])
    to091(annotations=[(headers, ("map", [])), (headers, ("list", []))])
    remark("Depth: as deep as a section can be")
    to091(application=[(string(b"h"), nested_list(15))])
    to091(annotations=[(headers, ("map", [(string(b"h"), nested_list(14))]))])
    remark("The first row at fault counts")
    long = string(b"l" * 256)
    to091(annotations=[(symbol(b"x-opt-091-exchange"), long)], properties=at(3, long))
    to091(properties=[None, None, None, long, None, None, symbol(b"l" * 256)])
    to091(properties=[None, None, None, None, None, None, symbol(b"l" * 256), symbol(b"l" * 256)])
    to091(properties=at(7, symbol(b"l" * 256)), application=[(long, ("int", 1))])
    to091(application=[(long, ("int", 1))], properties=at(5, long))
    to091(properties=[None, None, None, None, long, long])
    to091(properties=[long, None, None, None, long])
    to091(properties=[long] + [None] * 8 + [("timestamp", -1)])
    to091(properties=at(9, ("timestamp", -1)), annotations=[(symbol(b"x-opt-091-type"), long)])
    to091(properties=at(1, binary(b"l" * 256)), annotations=[(symbol(b"x-opt-091-type"), long), (symbol(b"x-opt-091-app-id"), long)])
    to091(properties=at(1, binary(b"l" * 256)), annotations=[(symbol(b"x-opt-091-app-id"), long)])
    to091(annotations=[(symbol(b"x-opt-091-cluster-id"), long), (symbol(b"x-opt-091-app-id"), ("uint", 1))])
    to091(annotations=[(symbol(b"x-opt-091-cluster-id"), long)], room=13)
    remark("The room of the header, exactly, and then the body")
    to091(room=14)
    to091(room=13)
    to091(properties=[string(b"id")], room=17)
    to091(properties=[string(b"id")], room=16)
    table = [(string(b"a"), ("int", 1)), (string(b"bc"), ("list", [("ulong", 7), ("string", b"xyz"), ("null", None)])), (string(b"d"), ("map", []))]
    size = len(header_091(image_091(b"q", 10 ** 6, None, None, None, table, b"")["props"]))
    to091(application=table, room=size)
    to091(application=table, room=size - 1)
    to091(application=table, room=0)
    bodies(string, binary)


def bodies(string, binary):
    remark("Bodies")
    data = [section(0x75, binary(b"ab")), section(0x75, binary(b"")), section(0x75, binary(b"c"))]
    to091(body=b"abc", sections=b"".join(data))
    to091(body=b"", sections=data[1])
    to091(body=b"\xFF", sections=section(0x77, binary(b"\xFF")))
    to091(body=EURO, sections=section(0x77, string(EURO)))
    for v in (("symbol", b"a"), ("null", None), ("uint", 1), ("list", []), ("map", []), ("boolean", True)):
        to091(body=None, sections=section(0x77, v))
    to091(body=None, sections=section(0x76, ("list", [("int", 1)])) + section(0x76, ("list", [])))
    to091(body=None, sections=section(0x76, ("list", [])), room=13)
    remark("A body at its edge, in one section and in two")
    most = b"x" * 16777216
    to091(body=most)
    to091(body=most + b"x")
    to091(body=most + b"x", sections=section(0x75, binary(most)) + section(0x75, binary(b"x")))


def peers():
    string, symbol = (lambda s: ("string", s)), (lambda s: ("symbol", s))
    remark("RabbitMQ's plugin: a message of a client of AMQP 0-9-1, whose time is in milliseconds that it takes for seconds")
    rabbit = [("boolean", False), None, None, ("boolean", True), None]
    to091(header=rabbit, properties=[string(b"m-1"), ("binary", b"guest"), None, None, string(b"/queue/answers"), string(b"c-1"), symbol(b"text/plain"),
                                     symbol(b"utf-8"), None, ("timestamp", 1700000000)], body=b"hello")
    remark("The same of a client of AMQP 1.0, again after it was released, and one that counts deliveries")
    to091(header=[("boolean", False), None, None, ("boolean", False), None], properties=[None, None, string(b"/queue/q"), string(b"new.eu")], body=b"hello")
    to091(header=[("boolean", False), None, None, ("boolean", False), ("uint", 1)], body=b"hello")
    remark("Proton: a body that is a string, an id that is an ulong, and properties of the application of several types")
    to091(header=[("boolean", True), ("ubyte", 4)], properties=[("ulong", 7), None, string(b"q"), string(b"hi")],
          application=[(string(b"n"), ("long", 5)), (string(b"u"), ("ulong", 5)), (string(b"s"), string(b"x")), (string(b"b"), ("binary", b"y"))],
          body=b"hello", sections=section(0x77, string(b"hello")))
    remark("Proton: an annotation of its own, and sections in their long spelling")
    to091(annotations=[(symbol(b"x-opt-jms-msg-type"), ("byte", 5))], properties=[("uuid", bytes(range(16)))], body=b"x" * 300)


def there_and_back(header, body, *sections):
    """A message that comes back, also from the bytes of its image, which are worked out by hand."""
    m = published(b"", b"q", bytes.fromhex(header), bytes.fromhex(body))
    case_10(m, " " + header)
    written = " ".join(sections)
    must(STDOUT[-1] == " %s | =" % written, "another image than by hand: " + written)
    STDIN.append("to091%s, %d, %s" % (hexes(b"queue"), ROOM, written))
    STDOUT.append(shown(m))


def by_hand():
    remark("Worked out by hand: three faults")
    reserved = [(b"x-opt-091-type", ("S", b"x"))]
    for fault, props in (("Expiration", {"expiration": b"0042"}),
                         ("Time(Timestamp)", {"timestamp": 2 ** 63}),
                         ('Reserved("x-opt-091-type")', {"headers": reserved})):
        to10(**props)
        must(STDOUT[-1] == fault, "another fault than by hand: " + fault)
    remark("A header that holds others, without properties of the application")
    with_headers = "00 3C" + " 00" * 10 + " 20 00 "
    subject, no_body = "00 53 73 C0 07 04 40 40 40 A1 01 71", "00 53 75 A0 00"
    there_and_back(with_headers + "00 00 00 1A 09 74 69 6D 65 6C 69 6D 69 74 41 00 00 00 0B "
                   "49 00 00 00 01 53 00 00 00 01 78", "",
                   "00 53 72 C1 2A 02 A3 11 78 2D 6F 70 74 2D 30 39 31 2D 68 65 61 64 65 72 73 "
                   "C1 14 02 A1 09 74 69 6D 65 6C 69 6D 69 74 C0 06 02 54 01 A1 01 78",
                   subject, no_body)
    remark("A content with several properties")
    there_and_back("00 3C 00 00 00 00 00 00 00 00 00 02 99 C0 0A 74 65 78 74 2F 70 6C 61 69 6E "
                   "02 05 05 36 30 30 30 30 02 6D 31 00 00 00 00 65 53 F1 00", "68 69",
                   "00 53 70 C0 09 03 41 50 05 70 00 00 EA 60",
                   "00 53 73 C0 23 0A A1 02 6D 31 40 40 A1 01 71 40 40 A3 0A 74 65 78 74 2F 70 6C "
                   "61 69 6E 40 40 83 00 00 01 8B CF E5 68 00",
                   "00 53 75 A0 02 68 69")
    remark("Headers with one field, and with none")
    there_and_back(with_headers + "00 00 00 07 01 6E 49 00 00 00 05", "",
                   subject, "00 53 74 C1 06 02 A1 01 6E 54 05", no_body)
    there_and_back(with_headers + "00 00 00 00", "", subject, "00 53 74 C1 01 00", no_body)


LIBRARIES = {"pika": "pika", "amqp-client": "RabbitMQ's library for Java, amqp-client",
             "amqp091-go": "amqp091-go"}


def captured():
    """Messages of client libraries: each comes back, and its headers as a map."""
    last = None
    for line in (TOOLS / "captured_messages.txt").read_text().splitlines():
        client, *parts = line.split(" ")
        if client != last:
            name, _, version = client.rpartition("-")
            remark("Captured from %s %s" % (LIBRARIES[name], version))
            last = client
        exchange, key, header, body = (bytes.fromhex(part.strip("-")) for part in parts)
        m = published(exchange, key, header, body)
        case_10(m, hexes(header))
        back = image_091(b"queue", ROOM, *pieces_10(m))
        for one in (m, back):
            if "headers" in one["props"]:
                one["props"]["headers"] = dict(one["props"]["headers"])
        must(back == m, "it doesn't come back: " + line)


def main():
    remark("Written by tools/make_mapping_cases.py")
    towards_10()
    towards_091()
    peers()
    by_hand()
    captured()
    differ = put_part("amqp_10", "the mapping", STDIN, STDOUT)
    print("differ: " + ", ".join(differ) if differ else "%d lines" % len(STDIN))
    sys.exit(1 if differ else 0)


if __name__ == "__main__":
    main()
