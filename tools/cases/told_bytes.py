"""Bytes as text, in cases and in answers: pairs of hexadecimal digits, texts in quotes, and after a byte `*N`, which stands for N
of it in all. Bytes may have names."""

import re

PART = re.compile(r'"(?P<text>[^"]*)"|(?P<digits>[0-9A-F]{2}(?: ?[0-9A-F]{2})*)|\*(?P<count>[0-9]*)| ')
# As many in a row are told once, with their count.
LONG_RUN = 8
# A text of at most so many bytes is told in quotes.
SHORT_TEXT = 64


class NoCase(Exception):
    """A line is no case."""


def bytes_of(text):
    """The bytes that a text tells."""
    out = bytearray()
    at = 0
    while at < len(text):
        part = PART.match(text, at)
        if part is None:
            raise NoCase(text)
        at = part.end()
        if part["text"] is not None:
            out += part["text"].encode()
        elif part["digits"]:
            out += bytes.fromhex(part["digits"])
        elif part["count"] is not None:
            out += out[-1:] * (int(part["count"] or 0) - 1)
    return bytes(out)


def told_bytes(data):
    """Bytes in digits, each with a blank before it."""
    out = []
    for run in re.finditer(rb"(.)\1*", data, re.S):
        size = len(run[0])
        digits = f" {run[0][0]:02X}"
        out.append(f"{digits}*{size}" if size >= LONG_RUN else digits * size)
    return "".join(out)


def told_text(data):
    """Bytes in quotes where each is printable and they are few, else in digits; with a blank before them."""
    if len(data) <= SHORT_TEXT and all(0x20 <= byte <= 0x7E and byte != 0x22 for byte in data):
        return f' "{data.decode()}"'
    return told_bytes(data)


ESCAPES = {0x09: "\\t", 0x0D: "\\r", 0x0A: "\\n", 0x27: "\\'", 0x22: '\\"', 0x5C: "\\\\"}


def quoted(data):
    """Bytes in quotes, of which those that can't be printed stand as in Rust's byte strings."""
    return '"' + "".join(ESCAPES.get(b) or (chr(b) if 0x20 <= b <= 0x7E else f"\\x{b:02x}") for b in data) + '"'


class Names:
    """Names of bytes, in the order in which they were given."""

    def __init__(self):
        self.bytes = {}
        self.names = {}

    def add(self, text):
        """Gives bytes a name, from a text such as `close-ok 00 0A 00 33`."""
        name, blank, text = text.partition(" ")
        if not blank:
            raise NoCase(text)
        data = self.joined(text)
        self.bytes.setdefault(name, data)
        self.names.setdefault(data, name)

    def joined(self, text):
        """The bytes of names and digits with commas between them."""
        parts = (part.strip(" ") for part in text.split(","))
        return b"".join(self.bytes[part] if part in self.bytes else bytes_of(part) for part in parts)

    def told(self, data):
        """Bytes by their name, or as digits, with a blank before them."""
        return f" {self.names[data]}" if data in self.names else told_bytes(data)
