"""Cases of messages of AMQP 1.0."""

from itertools import groupby

from cases import debug
from cases.calls_10 import BEFORE, call, fault_of, parted, told_written, written_of
from cases.told_bytes import bytes_of, told_bytes
from cases.values_10 import told_value


def told_part(name, held):
    """A field or a section that is there, behind its name."""
    if not isinstance(held, debug.Value):
        return f"{name} {debug.shown(held)}"
    return f"{name} {told_value(held)}"


def told_fields(name, fields):
    """The fields of a section that are there."""
    parts = [name]
    for field, held in fields.items():
        if isinstance(held, debug.Value) and held.name in ("Some", "None"):
            held = debug.some(held)
        if held is not None:
            parts.append(told_part(field.replace("_", "-"), held))
    return " ".join(parts)


def told_message(message):
    """What a message says, as `Debug` told it."""
    parts = []
    if (header := debug.some(message["header"])) is not None:
        parts.append(told_fields("header", header.parts))
    if (annotations := debug.some(message["annotations"])) is not None:
        parts.append(told_part("annotations", annotations))
    if (properties := debug.some(message["properties"])) is not None:
        parts.append(told_fields("properties", properties.parts))
    if (application := debug.some(message["application"])) is not None:
        parts.append(told_part("application", application))
    body = message["body"]
    parts.append(body.name.lower() + "".join(map(told_bytes, body.parts)))
    return " | ".join(parts)


def answer_of(answer):
    """The message that fills bytes, or a fault and its place."""
    if answer.startswith("Ok("):
        return told_message(debug.read(answer)[0])
    fault, place = fault_of(answer)
    return f"{fault} {place}"


def whole(data):
    """The message that fills bytes, and what is written of it."""
    (answer,) = yield [call("message", data)]
    read, put = parted(answer)
    text = answer_of(read)
    return text + told_written(written_of(put, BEFORE), data) if read.startswith("Ok(") else text


def message(words):
    return (yield from whole(bytes_of(words)))


def cuts_message(words):
    """The same, and the answer at each shorter length, from none on. Equal ones in a row are told once."""
    data = bytes_of(words)
    text = yield from whole(data)
    answers = yield [call("message", data[:count]) for count in range(len(data))]
    text += " | cuts"
    for found, run in groupby(answer_of(parted(answer)[0]) for answer in answers):
        count = len(list(run))
        text += f" {found}" + (f"*{count}" if count > 1 else "")
    return text


VERBS = {"message": message, "cuts message": cuts_message}
