"""Cases of messages of each protocol in the other."""

import re

from cases import debug
from cases.calls_10 import BEFORE, WRITTEN, call, number_of, written_of
from cases.told_bytes import NoCase, bytes_of, quoted, told_bytes

# A body of at most so many bytes is printed.
SHORT_BODY = 64
IMAGE = re.compile(rf"\(({WRITTEN}), (.*)\)", re.S)
MAPPED = re.compile(r"\((?P<again>true|false), (?P<mapped>.*)\)", re.S)


def told_props(props):
    """The properties that are there, each with its name."""
    out = ""
    for field, held in props.parts.items():
        if (part := debug.some(held)) is not None:
            out += f" {'type' if field == 'kind' else field.replace('_', '-')} {debug.shown(part)}"
    return out


def told_message(message):
    """A message of AMQP 0-9-1: exchange, key and properties, the length of its body, and a short body."""
    body = message["body"]
    text = f" {quoted(body)}" if len(body) <= SHORT_BODY else ""
    return f"{quoted(message['exchange'])} {quoted(message['key'])} |{told_props(message['props'])} | {len(body)}{text}"


def told_mapped(answer):
    """A message of AMQP 0-9-1, or the fault."""
    mapped = debug.read(answer)
    return told_message(mapped[0]) if mapped.name == "Ok" else debug.shown(mapped[0])


def told_image(answer):
    """What is written of an image, each byte behind a blank."""
    written = written_of(answer, BEFORE)
    return "not written" if written is None else told_bytes(written)


def props_of(answer):
    """The text of the properties that a content header tells."""
    start = answer.find("props: ")
    if not answer.startswith("Ok(Ok(") or start < 0:
        raise NoCase(answer)
    return answer[start + len("props: ") : -len(" }))")]


def to10(words):
    """What is written of the image, and the message that comes back of it: `=` the same."""
    exchange, key, header, body = map(bytes_of, (words.split(",", 3) + [""] * 3)[:4])
    sizes = len(exchange), len(key), len(header)
    data = exchange + key + header + body
    content, answer = yield [call("content", header), call("to10", data, *sizes)]
    props = props_of(content)
    if not answer.startswith("("):
        return answer
    image, back = IMAGE.fullmatch(answer).groups()
    there = f"exchange: {quoted(exchange)}, key: {quoted(key)}, props: {props}, body: {quoted(body)}"
    is_same = back == f"Ok(Message091 {{ {there} }})"
    return f"{told_image(image)} | {'=' if is_same else told_mapped(back)}"


def to091(words):
    """A message of AMQP 1.0 in AMQP 0-9-1, from a queue and for a room."""
    queue, room, message = (words.split(",", 2) + [""] * 2)[:3]
    number = number_of(room.strip(" "), 32)
    queue = bytes_of(queue)
    (answer,) = yield [call("to091", queue + bytes_of(message), len(queue), number)]
    found = MAPPED.fullmatch(answer)
    if found is None:
        raise NoCase(words)
    return told_mapped(found["mapped"]) + (" | redelivered" if found["again"] == "true" else "")


VERBS = {"to10": to10, "to091": to091}
