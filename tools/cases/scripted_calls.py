"""The lines of calls of the loop and of the gateway, and of what is told before them."""

from cases import calls
from cases.told_bytes import NoCase

ENDS = {"client": 0, "up": 1}
# What only prepares a call.
PREPARES = ("piece", "room", "fault", "run", "rooms", "in", "out", "lost", "word")
# The most entries of a log, and the most bytes.
ENTRY_ROOM = 262_144
BYTE_ROOM = 1_048_576


def call(verb, *numbers, data=b""):
    """The line of a call, or of what is told before it."""
    return calls.call("script" if verb in PREPARES else "gate", verb, *numbers, data=data)


def rooms(entries=ENTRY_ROOM, log=BYTE_ROOM, report=0, capture=0):
    """The line that tells the rooms of the log, in entries and bytes, and of the sinks."""
    return call("rooms", entries, log, report, capture)


def number(word):
    """The number that a word of a case tells."""
    if not (word.isascii() and word.isdigit()):
        raise NoCase(word)
    return int(word)
