"""Cases of captures: what is read and written of them, and their listings.

| Line | Answer |
|---|---|
| `read BYTES` | the words, the count of the entries, and what is written of them: `=` the same bytes |
| `cuts BYTES` | the lengths at which a shorter input is a capture, and each other one that isn't `Cut` there |
| `list BYTES` | the listing, a line for each entry, and how it ended |

A fault is its name and its place. Bytes are digits and texts.
"""

from cases import debug
from cases.told_bytes import bytes_of, told_bytes, told_text
from cases.scripted_calls import call


def told_fault(found):
    return f"{found['fault'].name} {found['at']}"


def told_written(put, written, data):
    """What is written of a capture: `=` for the bytes that were read."""
    if put.name != "Ok":
        return f" {debug.shown(put)}"
    return " =" if written == data else told_bytes(written)


def read(data):
    (answer,) = yield [call("capture", data=data)]
    found = debug.read(answer)
    if isinstance(found, debug.Value):
        return told_fault(found)
    words, entries, put, written = found
    return f"{len(entries)} |{told_text(words)} |{told_written(put, written, data)}"


def cuts(data):
    text = "captures at"
    answers = yield [call("capture", data=data[:size]) for size in range(len(data))]
    for size, answer in enumerate(answers):
        found = debug.read(answer)
        if not isinstance(found, debug.Value):
            text += f" {size}"
        elif told_fault(found) != f"Cut {size}":
            text += f" {size}: {told_fault(found)}"
    return text


def listing(data):
    (answer,) = yield [call("list", data=data)]
    listed, held = debug.read(answer)
    ended = listed[0]
    how = {"Whole": "whole", "OutFailed": "out failed"}
    return bytes(held).decode() + (told_fault(ended[0]) if ended.name == "Bad" else how[ended.name])


VERBS = {"read": read, "cuts": cuts, "list": listing}


def capture_case(line):
    """The case that a line tells, or None."""
    verb, _, text = line.partition(" ")
    return VERBS[verb](bytes_of(text)) if verb in VERBS else None
