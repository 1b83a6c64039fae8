"""Calls of AMQP 0-9-1, as the program takes them, and the texts of which its answers are made."""

import re

from . import calls
from .debug import text_of
from .told_bytes import NoCase

PIECE = re.compile(r'"(?:[^"\\]|\\.)*"|[\[({]|[\])}]|,|[^"\[({\])},]+', re.S)
# As many letters in a row are told once, with their count.
LETTERS = re.compile(r"(.)\1{15,}", re.S)


def call(verb, *numbers, data=b""):
    """The line of a call. Without data its bytes are those of the line before, which spares long ones."""
    return calls.call("amqp_091", verb, *numbers, data=data)


def number(word, bits=64):
    """The number that a word tells, of at most so many bits."""
    if not word.isascii() or not word.isdigit() or int(word) >> bits:
        raise NoCase(word)
    return int(word)


def number_first(words, bits=64):
    """The number before the first blank, and the text behind it."""
    word, _, rest = words.partition(" ")
    return number(word, bits), rest


def name_of(text):
    """The name of a value that Debug printed."""
    return re.match(r"\w*", text)[0]


def parts(text):
    """The texts of the parts of a value that Debug printed. They aren't read, so that they can be printed again."""
    found = []
    depth = start = 0
    for piece in PIECE.finditer(text):
        sign = piece[0]
        if sign in ("[", "(", "{"):
            depth += 1
            start = piece.end() if depth == 1 else start
        elif sign in ("]", ")", "}"):
            depth -= 1
        if sign == "," and depth == 1 or sign in ("]", ")", "}") and depth == 0:
            found.append(text[start : piece.start()].strip())
            start = piece.end()
    return [part for part in found if part]


def fields(text):
    """The same of a struct, by their names."""
    return dict(part.split(": ", 1) for part in parts(text))


def fine(text):
    """What stands in `Ok`. The only error that isn't a fault is that memory ran out."""
    if not text.startswith("Ok("):
        raise MemoryError(text[:200])
    return text[3:-1]


def fine_after(text):
    """What stands behind an `Ok(())`, of a pair of answers."""
    first, second = parts(text)
    fine(first)
    return fine(second)


def bytes_in(text):
    """The bytes of a text in quotes, or of a list of numbers."""
    if text.startswith('"'):
        return text_of(text[1:-1])
    return bytes(int(byte) for byte in text[1:-1].split(", ") if byte)


def fault_text(text):
    """A fault and its place."""
    found = fields(text)
    return f"{found['fault']} {found['at']}"


def squeezed(text):
    """A text in which long runs of a letter are told by their length."""
    return LETTERS.sub(lambda run: f"{run[1]}*{len(run[0])}", text)
