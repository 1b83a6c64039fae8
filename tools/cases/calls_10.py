"""Calls of the test program of AMQP 1.0, and what its answers tell."""

import re

from cases import calls, debug
from cases.told_bytes import NoCase, told_bytes

READ = re.compile(r"Ok\(\((?P<value>.*), (?P<after>\d+)\)\)", re.S)
FAULT = re.compile(r"Err\(At \{ fault: (?P<fault>\w+), at: (?P<at>\d+) \}\)")
TEXT = r'"[^"\\]*(?:\\.[^"\\]*)*"'
WRITTEN = rf"Ok\((?:true|false)\), {TEXT}"
READ_AND_WRITTEN = re.compile(rf"\((?P<read>.*), (?P<written>{WRITTEN})\)", re.S)
# What is read, and how it is passed over.
SKIPPED = re.compile(r"(.*), (Ok\(\d+\)|Err\(At \{ fault: \w+, at: \d+ \}\))", re.S)
# What stands before a value and a message that is written.
BEFORE = b"before"


def call(verb, data=b"", *numbers):
    """The line of a call with bytes and numbers."""
    return calls.call("amqp_10", verb, *numbers, data=data)


def parted(answer):
    """The text of what was read, and that of what is written of it."""
    found = READ_AND_WRITTEN.fullmatch(answer)
    if found is None:
        raise ValueError(f"nothing about what is written: {answer[:200]}")
    return found["read"], found["written"]


def read_of(text):
    """The text of a value that was read, and the offset behind it; None where a fault was told."""
    found = READ.fullmatch(text)
    return (found["value"], int(found["after"])) if found else None


def fault_of(answer):
    """The fault and its place, of a call that must have told one."""
    found = FAULT.search(answer)
    if found is None:
        raise ValueError(f"neither a value nor a fault: {answer[:200]}")
    return found["fault"], int(found["at"])


def written_of(text, before=b""):
    """The bytes that were written behind others; None where nothing can be."""
    if not text.startswith("Ok(true)"):
        return None
    data = debug.text_of(text.removeprefix('Ok(true), "').removesuffix('"'))
    if not data.startswith(before):
        raise ValueError(f"what stood before is written over: {text[:200]}")
    return data[len(before) :]


def told_written(written, data):
    """What is written of what these bytes spell: `=` the same, and `-` where nothing can be."""
    if written is None:
        return " | -"
    return " | =" if written == data else f" |{told_bytes(written)}"


def number_of(text, bits=64):
    """A number of so many bits that a text tells."""
    if not re.fullmatch("[0-9]+", text) or int(text) >= 1 << bits:
        raise NoCase(text)
    return int(text)
