"""Cases of values of AMQP 1.0."""

import struct
from itertools import groupby

from cases import debug
from cases.calls_10 import BEFORE, SKIPPED, call, fault_of, number_of, parted, read_of, told_written, written_of
from cases.told_bytes import NoCase, bytes_of, told_bytes, told_text

DIGITS = {"Float": 8, "Double": 16, "Decimal32": 8, "Decimal64": 16, "Char": 1}
# What stands before bytes among others, and behind a value there.
FRONT = b"\x3F\x3F\x3F"
BEHIND = b"\x40\x3F"


# ---- How values are told: `uint 5`, `string "a"`, `[..]` a list, `{k: v}` a map, `array[..]`, `<descriptor> value`.


def told_items(items):
    """Items with commas between them. One that stands four times or more is told once, with its count."""
    parts = []
    for value, run in groupby(items):
        text, count = told_value(value), len(list(run))
        parts += [text] * count if count < 4 else [f"{text} x{count}"]
    return ", ".join(parts)


def told_scalar(value):
    name, (held,) = value.name, value.parts
    if isinstance(held, bytes):
        return name.lower() + told_text(held)
    if isinstance(held, list):
        return f"{name.lower()} {bytes(held).hex().upper()}"
    if name == "Boolean":
        return str(held).lower()
    return f"{name.lower()} {held:0{DIGITS[name]}X}" if name in DIGITS else f"{name.lower()} {held}"


def told_value(value):
    """A value, as `Debug` told it."""
    if value.name == "Null":
        return "null"
    if value.name == "List":
        return f"[{told_items(value[0]['items'])}]"
    if value.name == "Array":
        return f"array[{told_items(value[0]['items'])}]"
    if value.name == "Map":
        return "{" + ", ".join(f"{told_value(key)}: {told_value(held)}" for key, held in value[0]["pairs"]) + "}"
    if value.name == "Described":
        return f"<{told_value(value[0]['value'])}> {told_value(value[1]['value'])}"
    return told_scalar(value)


# ---- What is read


def answer_at(data, at, answer, less=0):
    """The answer at an offset, and the offset after the value. It is the value, that offset and what is written,
    or a fault and its place. Places are told so much less. It is also told where the value is skipped otherwise.
    """
    both, put = parted(answer)
    read, skipped = SKIPPED.fullmatch(both).groups()
    found = read_of(read)
    if found is None:
        fault, place = fault_of(read)
        text, expected, after, written = f"{fault} {max(place - less, 0)}", read, None, ""
    else:
        value, after = found
        text, expected = f"{told_value(debug.read(value))} | {max(after - less, 0)}", f"Ok({after})"
        written = told_written(written_of(put, BEFORE), data[at:after])
    return text + ("" if skipped == expected else f" | skipped: {skipped}") + written, after


def answer_of(data, at=0):
    """The answer for bytes, and another one where they stand among others and it differs. None stand behind a fault."""
    text, after = answer_at(data, at, *(yield [call("value", data, at)]))
    among = FRONT + data + (b"" if after is None else BEHIND)
    # (an offset that no number of 64 bits adds to is the last one there)
    within = min(at + len(FRONT), (1 << 64) - 1)
    (answer,) = yield [call("value", among, within)]
    other, _ = answer_at(among, within, answer, len(FRONT))
    return text if other == text else f"{text} | among others: {other}"


def read(words):
    return (yield from answer_of(bytes_of(words)))


def at(words):
    number, _, rest = words.partition(" ")
    return (yield from answer_of(bytes_of(rest), number_of(number)))


def lists(words):
    """Bytes with so many lists around them, each of which has nine bytes before it."""
    number, _, rest = words.partition(" ")
    data = bytes_of(rest)
    for _ in range(number_of(number)):
        data = b"\xD0" + struct.pack(">II", len(data) + 4, 1) + data
    return (yield from answer_of(data))


def cuts(words):
    """Of each shorter length the answer, where it isn't cut off at its length."""
    data = bytes_of(words)
    text = yield from answer_of(data)
    answers = yield [call("value", data[:count], 0) for count in range(len(data))]
    text += " | cuts"
    for count, answer in enumerate(answers):
        found, _ = answer_at(data[:count], 0, answer)
        if found != f"Cut {count}":
            text += f", at {count}: {found}"
    return text


def sequence(words):
    data = bytes_of(words)
    lines, place = [], 0
    while place is not None and place < len(data):
        text, place = answer_at(data, place, *(yield [call("value", data, place)]))
        lines.append(text)
    return "\n".join(lines)


def codes(_words):
    """A code is unknown where it is so alone, and with zeros behind it."""
    tried = [(code, bytes([code]) + bytes(count - 1)) for code in range(256) for count in (1, 2, 41)]
    answers = yield [call("value", data, 0) for _, data in tried]
    known = {
        code for (code, data), answer in zip(tried, answers) if answer_at(data, 0, answer)[0] != "UnknownCode 0"
    }
    return "codes" + told_bytes(bytes(sorted(known)))


# ---- What is written


# Each word of a number, with the code of its encoding and how that packs it (AMQP 1.0 1.6).
CODES = {
    "ubyte": (0x50, ">B"),
    "ushort": (0x60, ">H"),
    "uint": (0x70, ">I"),
    "ulong": (0x80, ">Q"),
    "byte": (0x51, ">b"),
    "short": (0x61, ">h"),
    "int": (0x71, ">i"),
    "long": (0x81, ">q"),
    "timestamp": (0x83, ">q"),
}
# Each word of a value of a fixed width that is told in bytes, with its code and its width.
WIDTHS = {
    "float": (0x72, 4),
    "decimal32": (0x74, 4),
    "double": (0x82, 8),
    "decimal64": (0x84, 8),
    "decimal128": (0x94, 16),
    "uuid": (0x98, 16),
}
CONSTANTS = {"null": b"\x40", "true": b"\x41", "false": b"\x42"}
SCALARS = {0x40, 0x41, 0x42, 0xB0, *(code for code, _ in [*CODES.values(), *WIDTHS.values()])}
EMPTY_LIST = b"\x45"


def list_of(values):
    """The list of values that are spelled."""
    data = b"".join(values)
    return b"\xD0" + struct.pack(">II", len(data) + 4, len(values)) + data


def spelled_scalar(word, text):
    """How a value is spelled that holds no others; None where the word tells another, or one that may have no spelling."""
    if word in CONSTANTS:
        return CONSTANTS[word]
    if word in CODES:
        code, form = CODES[word]
        if not text.removeprefix("-").isdecimal():
            raise NoCase(text)
        try:
            return bytes([code]) + struct.pack(form, int(text))
        except struct.error:
            raise NoCase(text) from None
    if word in WIDTHS:
        code, width = WIDTHS[word]
        return bytes([code]) + bytes_of(text).ljust(width, b"\xFF")[:width]
    if word == "binary":
        data = bytes_of(text)
        return b"\xB0" + struct.pack(">I", len(data)) + data
    return None


class Building:
    """The lines that build values. What is spelled and flat is told in bytes, and what stands many times in one list."""

    def __init__(self):
        self.lines = [call("clear")]
        # The last values, as they are spelled, that no line tells yet.
        self.spelled = []

    def tell(self, line):
        """Tells the values that are waiting, and a line behind them."""
        self.lines += [call("push", data) for data in self.spelled] + [line]
        self.spelled = []

    def array(self, count):
        """An array of the last values, so many of them."""
        if 3 < count <= len(self.spelled):
            self.spelled[-count:] = [list_of(self.spelled[-count:])]
        else:
            self.tell(call("list", b"", count))
        self.tell(call("array"))

    def add(self, word, text):
        """Adds what a word tells."""
        data = spelled_scalar(word, text)
        if data is not None:
            self.spelled.append(data)
        elif word in ("string", "symbol"):
            self.tell(call(word, bytes_of(text)))
        elif word == "char":
            self.tell(call(word, b"", int.from_bytes(bytes_of(text), "big")))
        elif word == "described":
            self.described()
        elif word == "times":
            self.spelled += self.spelled[-1:] * (number_of(text) - 1)
        elif word == "array":
            self.array(number_of(text))
        elif (word, text) == ("list", "0"):
            self.spelled.append(EMPTY_LIST)
        elif word in ("list", "map"):
            self.tell(call(word, b"", number_of(text)))
        else:
            raise NoCase(word)

    def described(self):
        """The last value is described by the one before it."""
        if len(self.spelled) == 2 and all(data[0] in SCALARS for data in self.spelled):
            self.spelled = [b"\0" + b"".join(self.spelled)]
        else:
            self.tell(call("described"))


def write(words):
    building = Building()
    for part in words.split(","):
        word, _, text = part.strip(" ").partition(" ")
        building.add(word, text)
    building.tell(call("built"))
    *_, answer = yield building.lines
    value, put = parted(answer)
    return told_value(debug.some(debug.read(value))) + told_written(written_of(put, BEFORE), b"")


VERBS = {"read": read, "at": at, "lists": lists, "cuts": cuts, "sequence": sequence, "codes": codes, "write": write}
