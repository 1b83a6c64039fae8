"""Reads and prints what a derived `Debug` of Rust prints: numbers, texts, lists, tuples, and values of structs and enums."""

import re

from cases.told_bytes import quoted

TOKEN = re.compile(r'"([^"\\]*(?:\\.[^"\\]*)*)"|(-?[0-9]+)|([A-Za-z_][A-Za-z0-9_]*)|([\[\](){},:])', re.S)
BLANKS = re.compile(r"\s*")
ESCAPED = re.compile(rb"\\(x[0-9a-f]{2}|.)", re.S)
LETTERS = {b"t": b"\t", b"r": b"\r", b"n": b"\n", b"0": b"\0"}


class Value:
    """A value of a struct or an enum: its name, and its parts by their places or their names."""

    __slots__ = ("name", "parts")

    def __init__(self, name, parts=()):
        self.name = name
        self.parts = parts

    def __getitem__(self, part):
        return self.parts[part]

    def __eq__(self, other):
        return isinstance(other, Value) and (self.name, self.parts) == (other.name, other.parts)

    def __repr__(self):
        return f"{self.name}{self.parts!r}"


WORDS = {"true": True, "false": False}


def unescaped(match):
    what = match[1]
    return bytes([int(what[1:], 16)]) if what[:1] == b"x" and len(what) == 3 else LETTERS.get(what, what)


def text_of(quoted):
    """The bytes of a text without its quotes."""
    data = quoted.encode()
    return ESCAPED.sub(unescaped, data) if b"\\" in data else data


class Reader:
    def __init__(self, text):
        self.text = text
        self.at = 0

    def next(self):
        """The next token: its kind (1 a text, 2 a number, 3 a word, 4 a sign) and itself; (0, None) at the end."""
        self.at = BLANKS.match(self.text, self.at).end()
        if self.at == len(self.text):
            return 0, None
        token = TOKEN.match(self.text, self.at)
        if token is None:
            raise ValueError(f"no value of Debug at {self.at}: {self.text[self.at:self.at + 40]}")
        self.at = token.end()
        return token.lastindex, token[token.lastindex]

    def sign(self):
        """The sign that comes next, or None where another token does."""
        at = self.at
        kind, found = self.next()
        if kind != 4:
            self.at = at
            return None
        return found

    def passes(self, sign):
        """Whether this sign comes next; it is passed over then."""
        at = self.at
        if self.sign() == sign:
            return True
        self.at = at
        return False

    def again(self, start):
        """How often the value that began at `start` stands behind itself. Long lists of one value are read fast so."""
        item = f", {self.text[start:self.at].lstrip()}"
        count = 0
        while self.text.startswith(item, self.at) and self.text[self.at + len(item)] in ",]":
            self.at += len(item)
            count += 1
        return count

    def listed(self, end):
        """Values with commas between them, up to a sign."""
        values = []
        while not self.passes(end):
            start = self.at
            value = self.value()
            values += [value] * (1 + self.again(start))
            if not self.passes(","):
                if not self.passes(end):
                    raise ValueError(f"{end} is wanted at {self.at}: {self.text[self.at:self.at + 40]}")
                break
        return values

    def fields(self):
        """The fields of a struct, behind its brace."""
        fields = {}
        while not self.passes("}"):
            _, name = self.next()
            if not self.passes(":"):
                raise ValueError(f"no field at {self.at}: {self.text[self.at:self.at + 40]}")
            fields[name] = self.value()
            self.passes(",")
        return fields

    def named(self, name):
        if self.passes("("):
            return Value(name, tuple(self.listed(")")))
        if self.passes("{"):
            return Value(name, self.fields())
        return WORDS[name] if name in WORDS else Value(name)

    def value(self):
        kind, found = self.next()
        if kind == 1:
            return text_of(found)
        if kind == 2:
            return int(found)
        if kind == 3:
            return self.named(found)
        if found == "[":
            return self.listed("]")
        if found == "(":
            return tuple(self.listed(")"))
        raise ValueError(f"no value of Debug at {self.at}: {self.text[:80]}")


def read(text):
    """The value that a text tells: an int, a bool, bytes, a list, a tuple or a `Value`."""
    reader = Reader(text)
    value = reader.value()
    if reader.next() != (0, None):
        raise ValueError(f"more than a value: {text[:80]}")
    return value


def some(value):
    """What stands in `Some`, or None."""
    return value[0] if value.name == "Some" else None


def shown(value):
    """A value as a derived `Debug` prints it."""
    if isinstance(value, bool):
        return str(value).lower()
    if isinstance(value, bytes):
        return quoted(value)
    if isinstance(value, list):
        return f"[{', '.join(map(shown, value))}]"
    if isinstance(value, tuple):
        return f"({', '.join(map(shown, value))})"
    return value.name + shown_parts(value.parts) if isinstance(value, Value) else str(value)


def shown_parts(parts):
    """The parts of a struct or a variant, as they stand behind its name."""
    if isinstance(parts, dict):
        return f" {{ {', '.join(f'{name}: {shown(part)}' for name, part in parts.items())} }}"
    return shown(parts) if parts else ""
