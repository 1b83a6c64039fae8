#!/usr/bin/env python3
"""Writes the cases of performatives in tools/cases/amqp_10.txt, and the answers to them in amqp_10.answers.txt.

    apt-get install amqp-specs
    python3 tools/make_performative_cases.py            writes them
    python3 tools/make_performative_cases.py --check    compares them with those that stand there

The expected lines are worked out here and not by the program: the rows come from the published definition, which
generate_performatives.py reads, and values are read and written by this script's own code after AMQP 1.0 1.6. Frames of
peers stand here as they were seen. This is no part of the build.
"""

import sys

from case_parts import put_part
from generate_performatives import MODULES, camel, composites, snake

TYPES = composites()
KINDS = sorted((name for names in MODULES.values() for name in names), key=lambda name: TYPES[name][0])
STATES = ["received", "accepted", "rejected", "released", "modified"]
NULL = ("null", None)
LIMIT = 16

# ---- values: pairs of a type and what it holds

FIXED = {0x40: ("null", 0), 0x41: ("boolean", 0), 0x42: ("boolean", 0), 0x56: ("boolean", 1), 0x50: ("ubyte", 1),
         0x51: ("byte", 1), 0x60: ("ushort", 2), 0x61: ("short", 2), 0x43: ("uint", 0), 0x52: ("uint", 1),
         0x70: ("uint", 4), 0x54: ("int", 1), 0x71: ("int", 4), 0x44: ("ulong", 0), 0x53: ("ulong", 1),
         0x80: ("ulong", 8), 0x55: ("long", 1), 0x81: ("long", 8), 0x83: ("timestamp", 8)}
TEXTS = {0xA0: ("binary", 1), 0xB0: ("binary", 4), 0xA1: ("string", 1), 0xB1: ("string", 4),
         0xA3: ("symbol", 1), 0xB3: ("symbol", 4)}
HOLDERS = {0xC0: ("list", 1), 0xD0: ("list", 4), 0xC1: ("map", 1), 0xD1: ("map", 4),
           0xE0: ("array", 1), 0xF0: ("array", 4)}
SIGNED = {"byte", "short", "int", "long", "timestamp"}


class Fault(Exception):
    """What is wrong, and where."""


class Reader:
    """Values out of bytes. `end` is where the innermost holder ends, and `beyond` the fault of what passes it."""

    def __init__(self, data):
        self.data = data

    def take(self, at, count, end, beyond):
        if end - at < count:
            raise beyond
        return self.data[at:at + count]

    def number(self, at, width, end, beyond):
        return int.from_bytes(self.take(at, width, end, beyond), "big")

    def value(self, at, end, beyond, depth=LIMIT):
        code = self.number(at, 1, end, beyond)
        return self.content(code, at, at + 1, end, beyond, depth)

    def content(self, code, place, at, end, beyond, depth):
        """What stands behind a code, whose place is told in faults."""
        if code in FIXED:
            return self.fixed(code, at, end, beyond)
        if code in TEXTS:
            return self.text(code, at, end, beyond)
        if code != 0x45 and code != 0 and code not in HOLDERS:
            raise Fault("UnknownCode", place)
        if depth == 0:
            raise Fault("Depth", place)
        if code == 0x45:
            return ("list", []), at
        if code == 0:
            descriptor, at = self.value(at, end, beyond, depth - 1)
            held, at = self.value(at, end, beyond, depth - 1)
            return ("described", (descriptor, held)), at
        return self.holder(code, place, at, end, beyond, depth - 1)

    def fixed(self, code, at, end, beyond):
        kind, width = FIXED[code]
        body = self.take(at, width, end, beyond)
        number = int.from_bytes(body, "big", signed=kind in SIGNED)
        if kind == "null":
            return NULL, at
        if code in (0x41, 0x42):
            return (kind, code == 0x41), at
        if kind == "boolean" and number > 1:
            raise Fault("UnknownCode", at)
        return (kind, number == 1 if kind == "boolean" else number), at + width

    def text(self, code, at, end, beyond):
        kind, width = TEXTS[code]
        size = self.number(at, width, end, beyond)
        at += width
        body = self.take(at, size, end, beyond)
        try:
            body.decode({"binary": "latin-1", "string": "utf-8", "symbol": "ascii"}[kind])
        except UnicodeDecodeError:
            raise Fault("NotUtf8" if kind == "string" else "NotAscii", at) from None
        return (kind, body), at + size

    def holder(self, code, place, at, end, beyond, depth):
        kind, width = HOLDERS[code]
        size = self.number(at, width, end, beyond)
        at += width
        self.take(at, size, end, beyond)
        inner, left = at + size, Fault("Count", place)
        count = self.number(at, width, inner, left)
        at += width
        if kind == "map" and count % 2 == 1:
            raise left
        items, at = self.items(kind, count, at, inner, left, depth)
        if at != inner:
            raise left
        if kind == "map":
            items = list(zip(items[::2], items[1::2]))
        return (kind, items), at

    def items(self, kind, count, at, end, beyond, depth):
        items = []
        if kind == "array":
            code, place, at = self.number(at, 1, end, beyond), at, at + 1
        for _ in range(count):
            if kind == "array":
                item, at = self.content(code, place, at, end, beyond, depth)
            else:
                item, at = self.value(at, end, beyond, depth)
            items.append(item)
        return items, at


def holder_text(codes, body, count, wide):
    """A list, a map or an array: its size and its count in one byte each, where both fit."""
    if not wide and len(body) + 1 < 256 and count < 256:
        return bytes([codes[0], len(body) + 1, count]) + body
    return bytes([codes[1]]) + (len(body) + 4).to_bytes(4, "big") + count.to_bytes(4, "big") + body


NUMBERS = {"ubyte": [(0x50, 1)], "byte": [(0x51, 1)], "ushort": [(0x60, 2)], "short": [(0x61, 2)],
           "uint": [(0x43, 0), (0x52, 1), (0x70, 4)], "int": [(0x54, 1), (0x71, 4)],
           "ulong": [(0x44, 0), (0x53, 1), (0x80, 8)], "long": [(0x55, 1), (0x81, 8)], "timestamp": [(0x83, 8)]}


def number_text(kind, number, wide):
    for code, width in NUMBERS[kind][-1:] if wide else NUMBERS[kind]:
        try:
            return bytes([code]) + number.to_bytes(width, "big", signed=kind in SIGNED)
        except OverflowError:
            continue
    raise ValueError(number)


def text(value, wide=False):
    """The shortest encoding of a value, or the one with the widest codes."""
    kind, held = value
    if kind == "null":
        return b"\x40"
    if kind == "boolean":
        return bytes([0x56, held]) if wide else b"\x41" if held else b"\x42"
    if kind in NUMBERS:
        return number_text(kind, held, wide)
    if kind in ("binary", "string", "symbol"):
        short, long = (code for code, (name, _) in TEXTS.items() if name == kind)
        if not wide and len(held) < 256:
            return bytes([short, len(held)]) + held
        return bytes([long]) + len(held).to_bytes(4, "big") + held
    if kind == "list":
        body = b"".join(text(item, wide) for item in held)
        return b"\x45" if not held and not wide else holder_text((0xC0, 0xD0), body, len(held), wide)
    if kind == "map":
        body = b"".join(text(key, wide) + text(item, wide) for key, item in held)
        return holder_text((0xC1, 0xD1), body, 2 * len(held), wide)
    if kind == "array":
        return array_text(held, wide)
    return b"\0" + text(held[0], wide) + text(held[1], wide)


def array_text(items, wide):
    """An array: one code for all of its items, the first that fits them all."""
    if not items:
        return holder_text((0xE0, 0xF0), b"\x40", 0, wide)
    kind = items[0][0]
    if kind in NUMBERS:
        fits = [text(item, wide) for item in items]
        code, width = next((c, w) for c, w in NUMBERS[kind] if all(len(fit) <= w + 1 for fit in fits))
        body = bytes([code]) + b"".join(item.to_bytes(width, "big", signed=kind in SIGNED) for _, item in items)
    else:
        long = wide or any(len(held) > 255 for _, held in items)
        code = [code for code, (name, _) in TEXTS.items() if name == kind][long]
        width = 4 if long else 1
        body = bytes([code]) + b"".join(len(held).to_bytes(width, "big") + held for _, held in items)
    return holder_text((0xE0, 0xF0), body, len(items), wide)


# ---- reading a performative by its rows


def described(code, fields):
    return ("described", (("ulong", code), ("list", fields)))


def fields_of(rows, items):
    """Each field as it is read; a field that is absent is None, or its default."""
    found = []
    for place, row in enumerate(rows):
        item = items[place] if place < len(items) else NULL
        if item == NULL:
            if row.need == "mandatory":
                raise Fault("Missing", place)
            found.append(None if row.need == "optional" else (row.kind, default_of(row)))
            continue
        field = field_of(row.kind, item)
        if field is False:
            raise Fault("WrongType", place)
        found.append(field)
    return found


def default_of(row):
    return row.default == "true" if row.kind == "boolean" else int(row.default)


def field_of(kind, value):
    """A value as a field of this type; False where it has another type."""
    if kind == "anything":
        return value
    if kind == "address":
        return value if value[0] == "string" else None
    if kind == "symbols":
        many = value[1] if value[0] == "array" else [value]
        return value if all(item[0] == "symbol" for item in many) else False
    if kind in ("error", "source", "target"):
        return part_of([kind], value)
    if kind == "state":
        return part_of(STATES, value)
    return value if value[0] == {"mapping": "map"}.get(kind, kind) else False


def part_of(names, value):
    """A list behind the code of one of these types, with its fields; False where it is none, or has a fault inside."""
    for name in names:
        code, rows = TYPES[name]
        if value[0] == "described" and value[1][0] == ("ulong", code) and value[1][1][0] == "list":
            try:
                return (name, fields_of(rows, value[1][1][1]))
            except Fault:
                return False
    return False


def performative(data):
    """The kind of the performative, its fields, and the offset behind it."""
    value, after = Reader(data).value(0, len(data), Fault("Cut", len(data)))
    if value[0] == "described" and value[1][1][0] == "list":
        for name in KINDS:
            if value[1][0] == ("ulong", TYPES[name][0]):
                return name, fields_of(TYPES[name][1], value[1][1][1]), after
    raise Fault("UnknownDescriptor", None)


# ---- writing it


def written(name, fields):
    """The value that is written: null for what is absent and for a boolean at its default, and no null at the end."""
    items = []
    for row, field in zip(TYPES[name][1], fields):
        at_default = row.kind == "boolean" and row.need == "default" and field[1] == default_of(row)
        items.append(NULL if field is None or at_default else value_of(row.kind, field))
    while items and items[-1] == NULL:
        items.pop()
    return described(TYPES[name][0], items)


def value_of(kind, field):
    if kind not in ("error", "state", "source", "target"):
        return field
    name, fields = field
    if name == "rejected":
        return written(name, fields)
    return written(name, fields[:2] if name == "error" else [] if name in STATES else fields)


# ---- what is printed


def quoted(data):
    named = {9: "\\t", 10: "\\n", 13: "\\r", 34: "\\\"", 39: "\\'", 92: "\\\\"}
    return '"' + "".join(named.get(b) or (chr(b) if 32 <= b < 127 else f"\\x{b:02x}") for b in data) + '"'


def bare(field):
    """A field of a primitive type."""
    kind, held = field
    if kind == "boolean":
        return str(held).lower()
    return str(held) if kind in NUMBERS else quoted(held)


def shown(value):
    kind, held = value
    if kind == "null":
        return "Null"
    if kind == "list" or kind == "array":
        return f"{kind.capitalize()}(ValueList {{ items: [{', '.join(map(shown, held))}] }})"
    if kind == "map":
        pairs = ", ".join(f"({shown(key)}, {shown(item)})" for key, item in held)
        return f"Map(PairList {{ pairs: [{pairs}] }})"
    if kind == "described":
        return f"Described(Inner {{ value: {shown(held[0])} }}, Inner {{ value: {shown(held[1])} }})"
    return f"{kind.capitalize()}({bare(value)})"


def shown_field(row, field):
    if field is None:
        return "None"
    if row.kind in ("symbols", "mapping", "anything"):
        inner = shown(field)
    elif row.kind == "state":
        inner = shown_state(*field)
    elif row.kind in ("error", "source", "target"):
        inner = shown_struct(row.kind.capitalize() + "10", *field)
    else:
        inner = bare(field)
    return f"Some({inner})" if row.need == "optional" else inner


def shown_state(name, fields):
    return camel(name) + (f"({shown_field(TYPES[name][1][0], fields[0])})" if name == "rejected" else "")


def shown_struct(struct, name, fields):
    rows = TYPES[name][1][:2] if name == "error" else TYPES[name][1]
    inner = ", ".join(f"{snake(row.name)}: {shown_field(row, field)}" for row, field in zip(rows, fields))
    return f"{struct} {{ {inner} }}"


def fault_shown(fault):
    name, at = fault.args
    if name in ("Missing", "WrongType"):
        return f"{name}({at})"
    return name if at is None else f"Value(At {{ fault: {name}, at: {at} }})"


def digits(data):
    return " ".join(f"{b:02X}" for b in data)


def in_runs(data):
    """Bytes as they are printed: eight or more equal ones by their count."""
    out, at = [], 0
    while at < len(data):
        count = 1
        while at + count < len(data) and data[at + count] == data[at]:
            count += 1
        out += [f"{data[at]:02X}*{count}"] if count >= 8 else [f"{data[at]:02X}"] * count
        at += count
    return " ".join(out)


def read_line(data):
    try:
        name, fields, after = performative(data)
    except Fault as fault:
        return fault_shown(fault)
    again = text(written(name, fields))
    same = "=" if again == data[:after] else in_runs(again)
    return f"{camel(name)}({shown_struct(camel(name), name, fields)}) | {after} | {same}"


def cuts_line(data):
    line = read_line(data) + " | cuts"
    for count in range(len(data)):
        found = read_line(data[:count])
        if found != f"Value(At {{ fault: Cut, at: {count} }})":
            line += f", at {count}: {found}"
    return line


class Cases:
    def __init__(self):
        self.asked, self.told = [], []

    def head(self, line):
        self.asked.append("# " + line)
        self.told.append("# " + line)

    def read(self, data):
        self.asked.append(f"read {digits(data)}".rstrip())
        self.told.append(read_line(data))

    def cuts(self, data):
        self.asked.append(f"cuts {digits(data)}")
        self.told.append(cuts_line(data))

    def settled(self, channel, first, last=None):
        fields = [("boolean", False), ("uint", first), NULL if last is None else ("uint", last), ("boolean", True)]
        self.asked.append(f"settled {channel} {first}" + ("" if last is None else f" {last}"))
        data = frame(channel, text(described(0x15, fields)))
        self.told.append(f"{len(data)} | {in_runs(data)}")


    def frame(self, limit, data):
        line = scan(limit, data) + " | cuts"
        for count in range(len(data)):
            found = scan(limit, data[:count])
            if found != "more":
                line += f", at {count}: {found}"
        self.asked.append(f"frame {limit} {in_runs(data)}".rstrip())
        self.told.append(line)

    def header(self, kind, data):
        self.asked.append(f"header {kind} {digits(data)}".rstrip())
        self.told.append(header_line(kind, data))


# ---- the cases of each performative


def sample(kind, place):
    """A value of a field's type, another one at each place."""
    word = bytes([ord("a") + place])
    symbols = ("array", [("symbol", word), ("symbol", b"de")])
    mapping = ("map", [(("symbol", word), ("uint", place))])
    if kind == "error":
        return described(TYPES["error"][0], [("symbol", b"amqp:not-found"), ("string", word)])
    if kind == "state":
        return described(TYPES["rejected"][0], [sample("error", place)])
    if kind in ("source", "target"):
        return described(TYPES[kind][0], [sample(row.kind, k) for k, row in enumerate(TYPES[kind][1])])
    if kind == "anything":
        return described(TYPES["modified"][0], [("boolean", True)]) if place == 8 else symbols
    if kind in ("binary", "string", "symbol", "address"):
        return ("string" if kind == "address" else kind, word)
    numbers = {"ubyte": place, "ushort": 300 + place, "uint": 1000 * place, "ulong": 2 ** 32 + place}
    return {"boolean": ("boolean", True), "symbols": symbols, "mapping": mapping}.get(kind) or (kind, numbers[kind])


# Values of types that are near a field's own.
NEAR = {"boolean": [("ubyte", 1), ("symbol", b"true")], "ubyte": [("uint", 1), ("byte", 1)],
        "ushort": [("uint", 1), ("ubyte", 1)], "uint": [("ulong", 1), ("int", 1)], "ulong": [("uint", 1), ("long", 1)],
        "binary": [("string", b"a"), ("symbol", b"a")], "string": [("symbol", b"a"), ("binary", b"a")],
        "symbol": [("string", b"a"), ("array", [("symbol", b"a")])],
        "symbols": [("string", b"a"), ("array", [("string", b"a")])],
        "mapping": [("list", []), described(0x10, [])],
        "error": [("list", [("symbol", b"a")]), described(0x24, [])],
        "state": [described(0x1D, [("symbol", b"a")]), ("symbol", b"amqp:accepted:list")],
        "source": [described(0x29, []), ("string", b"a")], "target": [described(0x28, []), ("string", b"a")]}


def each_kind(cases, name):
    code, rows = TYPES[name]
    full = [sample(row.kind, place) for place, row in enumerate(rows)]
    least = [item if row.need == "mandatory" else NULL for row, item in zip(rows, full)]
    title = camel(name)
    cases.head(f"{title}: every field, and each shorter length")
    cases.cuts(text(described(code, full)))
    cases.head(f"{title}: the same in the widest codes, with a payload behind it")
    cases.read(text(described(code, full), wide=True) + b"\0SuA")
    cases.head(f"{title}: only what is mandatory, and with all others null and fields past the last")
    cases.read(text(described(code, trimmed(least))))
    cases.read(text(described(code, least + [("uint", 9), sample("mapping", 1), NULL, described(0x24, [])])))
    if any(row.need == "default" for row in rows):
        cases.head(f"{title}: every default written, in the shortest and in the widest codes")
        at_default = [(row.kind, default_of(row)) if row.need == "default" else item for row, item in zip(rows, least)]
        cases.read(text(described(code, at_default)))
        cases.read(text(described(code, at_default), wide=True))
    cases.head(f"{title}: each field null, and absent with those behind it")
    for place in range(len(rows)):
        cases.read(text(described(code, full[:place] + [NULL] + full[place + 1:])))
        cases.read(text(described(code, full[:place])))
    cases.head(f"{title}: each field of another type, the second time with a later one missing")
    for place, row in enumerate(rows):
        first, second = NEAR[row.kind]
        cases.read(text(described(code, full[:place] + [first] + full[place + 1:])))
        cases.read(text(described(code, full[:place] + [second])))
    wrong = [place for place, row in enumerate(rows[:-1]) if row.need == "mandatory"]
    if wrong:
        cases.head(f"{title}: each mandatory field missing before a later one of another type")
    for place in wrong:
        cases.read(text(described(code, full[:place] + [NULL] + full[place + 1:-1] + [NEAR[rows[-1].kind][0]])))


def trimmed(items):
    while items and items[-1] == NULL:
        items = items[:-1]
    return items


# ---- the parts of performatives


def disposition(state):
    return text(described(0x15, [("boolean", True), ("uint", 0), ("uint", 5), ("boolean", True), state]))


def error(*fields):
    return described(0x1D, list(fields))


def states(cases):
    info = ("map", [(("symbol", b"k"), ("uint", 1))])
    gone = error(("symbol", b"amqp:not-found"), ("string", b"gone"))
    cases.head("States")
    for code, fields in [(0x24, []), (0x26, []), (0x25, []), (0x25, [gone]), (0x25, [NULL]), (0x27, []),
                         (0x27, [("boolean", True), NULL, info]), (0x24, [NULL, ("uint", 1)])]:
        cases.read(disposition(described(code, fields)))
    cases.head("Received is read; its fields are dropped, so it is written without them")
    received = described(0x23, [("uint", 1), ("ulong", 2)])
    front = [("uint", 0), ("uint", 1), ("binary", b"t"), ("uint", 0)]
    cases.read(text(described(0x14, front + [NULL] * 3 + [received])))
    cases.head("A fault inside a state, an error or a terminus is a wrong type of the field")
    for code, fields in [(0x23, []), (0x23, [("uint", 1)]), (0x23, [("uint", 1), ("uint", 2)]), (0x25, [("list", [])]),
                         (0x25, [error()]), (0x25, [error(("string", b"a"))]), (0x27, [("uint", 1)]),
                         (0x27, [NULL, NULL, ("list", [])]), (0x28, []), (0x1D, [("symbol", b"a")])]:
        cases.read(disposition(described(code, fields)))
    cases.read(disposition(("described", (("symbol", b"amqp:accepted:list"), ("list", [])))))
    cases.read(disposition(("described", (("ulong", 0x24), ("map", [])))))
    for fields in [[], [NULL, ("string", b"a")], [("symbol", b"a"), ("symbol", b"a")],
                   [("symbol", b"a"), NULL, ("list", [])], [("string", b"a")]]:
        cases.read(text(described(0x18, [error(*fields)])))
        cases.read(text(described(0x16, [("uint", 0), NULL, error(*fields)])))
    attach = [("string", b"l"), ("uint", 0), ("boolean", False), NULL, NULL]
    for name, before in (("source", []), ("target", [NULL])):
        for place, row in enumerate(TYPES[name][1]):
            if row.kind not in ("address", "anything"):
                terminus = described(TYPES[name][0], [NULL] * place + [NEAR[row.kind][0]])
                cases.read(text(described(0x12, attach + before + [terminus])))
    cases.head("The information of an error is dropped")
    cases.read(text(described(0x18, [error(("symbol", b"a"), NULL, info)])))
    cases.read(text(described(0x17, [error(("symbol", b"amqp:internal-error"), ("string", b"why"), info)])))
    cases.head("An address that is no string is absent")
    for address in [("binary", b"q"), ("symbol", b"q"), info, ("list", [])]:
        terms = [described(0x28, [address]), described(0x29, [address, ("uint", 1)])]
        cases.read(text(described(0x12, attach + terms)))


def values(cases):
    cases.head("A multiple symbol is one symbol, or an array of symbols")
    for held in [("symbol", b"PLAIN"), ("array", [("symbol", b"PLAIN"), ("symbol", b"ANONYMOUS")]), ("array", []),
                 ("string", b"PLAIN"), ("array", [("ubyte", 1), ("ubyte", 2)]), ("list", [("symbol", b"PLAIN")])]:
        cases.read(text(described(0x40, [held])))
    cases.head("Descriptors that no performative has, symbolic ones, and values that are no described list")
    for code in (0x0F, 0x19, 0x1D, 0x24, 0x28, 0x3F, 0x45, 0x75, 2 ** 64 - 1, 0x100 + 0x17):
        cases.read(text(described(code, [("symbol", b"a")])))
    for descriptor in (("symbol", b"amqp:open:list"), ("uint", 0x10), ("ubyte", 0x10), ("ulong", 0)):
        cases.read(text(("described", (descriptor, ("list", [("string", b"c")])))))
    for held in (("map", [(("symbol", b"a"), ("uint", 1))]), NULL, ("array", [])):
        cases.read(text(("described", (("ulong", 0x17), held))))
    for value in (NULL, ("list", [("uint", 1)]), ("string", b"x"), ("ulong", 0x17)):
        cases.read(text(value))
    cases.head("A descriptor in eight bytes, and lists of each width")
    for data in ("00 80 00 00 00 00 00 00 00 17 45", "00 53 17 C0 01 00", "00 53 17 D0 00 00 00 04 00 00 00 00"):
        cases.read(bytes.fromhex(data))
    cases.head("Faults of the value itself")
    for data in ("", "00 53 15 01", "00 53 10 C0 04 01 A1 01 FF", "00 53 41 C0 04 01 A3 01 FF",
                 "00 53 17 C0 03 01 40 40", "00 53 17 C0 02 02 40", "00 53 17 C0 00", "00 53 17 C0 02 01 3F",
                 "00 53 15 C0 05 02 56 02 52 07", "00 53 10 C0 05 01 A1 09 61 62", "00 53 17 C0 09 01 40", "00 3F",
                 "00 53 11 C0 08 08 C1 05 01 A1 01 61 40"):
        cases.read(bytes.fromhex(data))


# ---- what is written without memory


def nested(count):
    held = ("uint", 7)
    for _ in range(count):
        held = ("list", [held])
    return held


def kept(cases):
    cases.head("Values that nobody asks for: deep ones, of many elements without bytes, and of many pairs")
    pairs = ("map", [(("symbol", b"k%d" % k), ("list", [])) for k in range(40)])
    attach = [("string", b"l"), ("uint", 0), ("boolean", False), NULL, NULL]
    for held in (nested(11), ("array", [("uint", 0)] * 300), pairs):
        mapping = ("map", [(("symbol", b"k"), held)])
        for wide in (False, True):
            cases.read(text(described(0x10, [("string", b"c")] + [NULL] * 8 + [mapping]), wide))
            cases.read(text(described(0x11, [NULL] + [("uint", 1)] * 3 + [NULL] * 3 + [mapping]), wide))
            source = described(0x28, [NULL] * 7 + [mapping, held, held, held])
            cases.read(text(described(0x12, attach + [source, NULL, mapping]), wide))
    cases.head("One that is too deep where it stands")
    source = described(0x28, [NULL] * 7 + [("map", [(("symbol", b"k"), nested(12))])])
    cases.read(text(described(0x12, attach + [source])))


def frame(channel, body):
    """A frame of AMQP without an extended header (AMQP 1.0 2.3)."""
    return (8 + len(body)).to_bytes(4, "big") + b"\2\0" + channel.to_bytes(2, "big") + body


def settlements(cases):
    cases.head("Settled dispositions of the sender, without a state: of one delivery, and up to a last one")
    for channel, first, last in [(0, 0, None), (1, 255, None), (258, 256, None), (65535, 2 ** 32 - 1, None), (0, 0, 0),
                                 (1, 7, 7), (1, 0, 255), (258, 255, 256), (255, 2 ** 32 - 1, 2 ** 32 - 1),
                                 (1, 2 ** 32 - 2, 1)]:
        cases.settled(channel, first, last)


# ---- frames and protocol headers

FRAME_KINDS = {0: "Amqp", 1: "Sasl"}


def scan(limit, data):
    """The first frame of a stream, or what is wrong with it (AMQP 1.0 2.3)."""
    size = int.from_bytes((data + bytes(4))[:4], "big")
    if size > limit:
        return "FrameSize at 0"
    if len(data) < 4:
        return "more"
    if size < 8:
        return "FrameSize at 0"
    if len(data) > 4 and not 8 <= 4 * data[4] <= size:
        return "DataOffset at 4"
    if len(data) > 5 and data[5] not in FRAME_KINDS:
        return "FrameType at 5"
    if len(data) < size:
        return "more"
    body, channel = data[4 * data[4]:size], int.from_bytes(data[6:8], "big")
    again = (8 + len(body)).to_bytes(4, "big") + bytes([2, data[5]]) + data[6:8] + body
    same = "=" if again == data[:size] else in_runs(again)
    shown_body = (" " + in_runs(body)) if body else ""
    return f"{FRAME_KINDS[data[5]]} {channel} |{shown_body} | {size} | {same}"


def frames(cases):
    cases.head("Frames without a body, with one, with an extended header, and with another frame behind it")
    for data in ["00 00 00 08 02 00 00 00", "00 00 00 08 02 01 00 00", "00 00 00 08 02 00 FF FF",
                 "00 00 00 0B 02 00 00 01 00 53 45", "00 00 00 0C 03 00 00 01 AA BB CC DD",
                 "00 00 00 0F 03 01 12 34 AA BB CC DD 00 53 44", "00 00 00 09 02 00 00 02 41 00 00 00 08 02 00 00 00"]:
        cases.frame(512, bytes.fromhex(data))
    cases.head("Sizes below 8, offsets below 2 and past the size, and other types; of two faults the first")
    for data in ["00 00 00 00 02 00 00 00", "00 00 00 07 02 00 00 00", "00 00 00 08 00 00 00 00",
                 "00 00 00 08 01 00 00 00", "00 00 00 08 03 00 00 00", "00 00 00 0B 03 00 00 00 41 42 43",
                 "00 00 00 08 FF 00 00 00", "00 00 00 08 02 02 00 00", "00 00 00 08 02 FF 00 00",
                 "00 00 00 07 01 02 00 00", "00 00 00 08 01 02 00 00"]:
        cases.frame(512, bytes.fromhex(data))
    cases.head("Sizes at a limit and past it: told as soon as the bytes that came say so")
    for limit in (512, 513):
        cases.frame(limit, frame(3, bytes(limit - 8)))
        cases.frame(limit, frame(3, bytes(limit - 7))[:12])
    for data in ["01", "00 01", "00 00 02", "00 00 03", "00 00 02 01", "FF FF FF FF"]:
        cases.frame(512, bytes.fromhex(data))
    for data in ["00 01", "00 01 00", "00 01 00 01", "00 01 01", "00 02"]:
        cases.frame(65536, bytes.fromhex(data))
    cases.frame(2 ** 32 - 1, bytes.fromhex("FF FF FF FF 02 00 00 00"))


HEADERS = {"amqp": b"AMQP\0\1\0\0", "sasl": b"AMQP\3\1\0\0"}


def header_line(kind, data):
    header = HEADERS[kind]
    for at, byte in enumerate(data[:8]):
        if byte != header[at]:
            return f"NotHeader at {at}"
    return "more" if len(data) < 8 else "whole | 8"


def headers(cases):
    cases.head("Protocol headers: each shorter length, the other kind, other versions, and each byte changed")
    for kind, header in HEADERS.items():
        for count in range(9):
            cases.header(kind, header[:count])
        cases.header(kind, header + b"\0")
        for other in [b"AMQP\0\1\0\0", b"AMQP\2\1\0\0", b"AMQP\3\1\0\0", b"AMQP\0\0\x09\1", b"HTTP", b"amqp"]:
            cases.header(kind, other)
        for at in range(8):
            cases.header(kind, header[:at] + bytes([header[at] ^ 0x20]) + header[at + 1:])


# ---- what real peers send


def list8(code, body, payload=""):
    """A list with a size and a count of one byte: its fields in digits, with `/` between them."""
    fields = bytes.fromhex(body.replace("/", " "))
    return bytes([0, 0x53, code, 0xC0, len(fields) + 1, len(body.split("/"))]) + fields + bytes.fromhex(payload)


def list32(code, body):
    """The same with a size and a count of four bytes."""
    fields, count = bytes.fromhex(body.replace("/", " ")), len(body.split("/"))
    return bytes([0, 0x53, code, 0xD0]) + (len(fields) + 4).to_bytes(4, "big") + count.to_bytes(4, "big") + fields


GATEWAY = [  # sasl-init, open, begin, attach, a drain, a transfer and a settlement
    "00 53 41 C0 16 02 A3 05 50 4C 41 49 4E A0 0C 00 67 75 65 73 74 00 67 75 65 73 74",
    "00 53 10 C0 1C 05 A1 0B 61 6D 71 70 2D 67 61 74 65 2D 30 40 70 00 01 00 00 60 00 FF 70 00 00 EA 60",
    "00 53 11 C0 0F 05 40 43 70 00 00 08 00 70 00 00 08 00 52 FF",
    "00 53 12 C0 1C 0A A1 03 6C 2D 30 43 42 50 00 50 00 00 53 28 45 00 53 29 C0 04 01 A1 01 71 40 40 43",
    "00 53 13 C0 13 09 43 70 00 00 08 00 43 70 00 00 08 00 43 43 52 01 40 41",
    "00 53 14 C0 0F 05 43 43 A0 08 00 00 00 00 00 00 00 01 43 42"
    "00 53 73 C0 07 04 40 40 40 A1 01 71 00 53 75 A0 02 68 69",
    "00 53 15 C0 09 05 41 43 40 41 00 53 24 45",
]
WINDOWS = "43/70 00 00 FF FF/43/70 00 00 FF FF/"
RABBIT = [
    # A drain answered with all credit left, and twice by a queue that counts it; a link's first flow, and a session's.
    list8(0x13, WINDOWS + "43/43/52 01/43/41/40/40"),
    list8(0x13, WINDOWS + "43/52 01/43/43/41/40/40"),
    list8(0x13, WINDOWS + "43/43/43/43/41/40/40"),
    list8(0x13, WINDOWS + "43/40/70 00 01 00 00/40/42/42/40"),
    list8(0x13, WINDOWS + "40/40/40/40/42/42/40"),
    # The answers to a closed detach, an end and a close.
    list8(0x16, "43/40/40"), list8(0x17, "40"), list8(0x18, "40"),
    # A later transfer of a delivery, a disposition whose `last` is its `first`, and the outcome of a wrong password.
    list8(0x14, "43/43/A0 04 00 00 00 00/43/42/41/40/40/40/40/40", "70 61 79"),
    list8(0x15, "42/52 07/52 07/41/00 53 24 45/40"),
    list8(0x44, "50 01/40"),
]
TARGET = digits(list8(0x29, "A1 01 71/43/A3 0B 73 65 73 73 69 6F 6E 2D 65 6E 64/43/42/40/40"))
MISSING = digits(list32(0x1D, "A3 0E 61 6D 71 70 3A 6E 6F 74 2D 66 6F 75 6E 64/40/40"))
PROTON = [
    # The attach to a sending link, and the one of a refusal, behind which comes a closed detach.
    list8(0x12, f"A1 03 6C 2D 30/43/41/50 00/50 00/40/{TARGET}/40/40/43/44/40/40/40"),
    list8(0x12, "A1 03 6C 2D 30/43/41/50 02/50 00/40/40/40/40/43/44/40/40/40"),
    list8(0x16, f"43/41/{MISSING}"),
    # States in a list32, and a settlement without a state.
    list8(0x15, f"41/43/40/41/{digits(list32(0x25, MISSING))}"),
    list8(0x15, f"41/43/52 03/40/{digits(list32(0x27, '41/42/40'))}"),
    list8(0x15, "41/43/40/41"),
    # Open and begin without what isn't set, and a drain answered.
    list8(0x10, "A1 03 70 2D 30/40/40/60 7F FF/70 00 00 05 DC"),
    list8(0x11, "60 00 01/43/70 7F FF FF FF/70 7F FF FF FF"),
    list8(0x13, "43/70 7F FF FF FF/43/70 7F FF FF FF/43/52 01/43/40/41"),
]


def rabbit_attach(cases):
    """The answers to attaches: the terminus of the other side is left out, or is a source of nulls. The default outcome
    is described, and the outcomes are an array."""
    outcomes = ("array", [("symbol", b"amqp:%s:list" % word) for word in (b"accepted", b"rejected", b"released")])
    source = digits(list32(0x28, "/".join([
        "A1 08 2F 71 75 65 75 65 2F 71", "43", "40", "43", "42", "40", "40", "40", "00 53 26 45",
        digits(narrow_array(outcomes)), "40"])))
    cases.read(list32(0x12, f"A1 03 6C 2D 31/43/42/50 02/50 00/{source}/40/40/42/43/40/40/40/40"))
    nulls = digits(list8(0x28, "/".join(["40"] * 11)))
    target = digits(list8(0x29, "A1 08 2F 71 75 65 75 65 2F 71/43/40/43/42/40/40"))
    cases.read(list8(0x12, f"A1 03 6C 2D 30/43/41/50 00/50 00/{nulls}/{target}/40/42/43/40/40/40/40"))


def rabbit_open(cases):
    """The mechanisms in an array of wide symbols, and an open with a map of properties in a list32."""
    names = ("array", [("symbol", word) for word in (b"PLAIN", b"AMQPLAIN", b"ANONYMOUS")])
    cases.read(list8(0x40, digits(narrow_array(names))))
    pairs = [(b"product", b"RabbitMQ"), (b"version", b"3.10.8"), (b"platform", b"Erlang/OTP 25.2.3"),
             (b"copyright", b"Copyright (c) 2007-2022 VMware, Inc. or its affiliates."),
             (b"information", b"Licensed under the MPL 2.0. Website: https://rabbitmq.com")]
    properties = text(("map", [(("symbol", key), ("string", held)) for key, held in pairs]), wide=True)
    front = "A1 0B 72 61 62 62 69 74 40 70 65 65 72/40/70 00 01 00 00/60 00 FF/70 00 00 EA 60/40/40/40/40/"
    cases.read(list32(0x10, front + digits(properties)))


def narrow_array(symbols):
    """An array with a size and a count of one byte, and symbols with lengths of four."""
    body = b"\xB3" + b"".join(len(held).to_bytes(4, "big") + held for _, held in symbols[1])
    return bytes([0xE0, len(body) + 1, len(symbols[1])]) + body


def peers(cases):
    cases.head("As this gateway writes them")
    for data in GATEWAY:
        cases.read(bytes.fromhex(data))
    cases.head("As RabbitMQ sends them")
    for data in RABBIT:
        cases.read(data)
    rabbit_attach(cases)
    rabbit_open(cases)
    cases.head("As Qpid Proton sends them")
    for data in PROTON:
        cases.read(data)


def main():
    cases = Cases()
    for name in KINDS:
        each_kind(cases, name)
    states(cases)
    values(cases)
    kept(cases)
    settlements(cases)
    frames(cases)
    headers(cases)
    peers(cases)
    differing = put_part("amqp_10", "performatives", cases.asked, cases.told)
    print(f"{len(cases.asked)} lines, {len(differing)} files differing")
    return 1 if differing else 0


if __name__ == "__main__":
    sys.exit(main())
