"""Cases of frames and protocol headers of AMQP 1.0."""

from cases import debug
from cases.calls_10 import call, number_of, parted, told_written, written_of
from cases.told_bytes import NoCase, bytes_of, told_bytes

KINDS = ("amqp", "sasl")


def told_bad(scan):
    """A fault and its place."""
    return f"{scan[0]['fault'].name} at {scan[0]['at']}"


def answer_of(data, answer):
    """The frame with which bytes begin, the offset behind it and what is written of it; `more`; or a fault."""
    found, put = parted(answer)
    scan = debug.read(found)
    if scan.name == "More":
        return "more"
    if scan.name == "Bad":
        return told_bad(scan)
    held, after = scan.parts
    body = told_bytes(held["body"])
    written = told_written(written_of(put), data[:after])
    return f"{held['kind'].name} {held['channel']} |{body} | {after}{written}"


def frame(words):
    """A frame within a limit, and each shorter length that doesn't want more bytes."""
    number, _, rest = words.partition(" ")
    limit, data = number_of(number, 32), bytes_of(rest)
    sizes = range(len(data) + 1)
    answers = yield [call("frame", data[:size], limit) for size in sizes]
    *shorter, text = [answer_of(data[:size], answer) for size, answer in zip(sizes, answers)]
    text += " | cuts"
    for size, found in enumerate(shorter):
        if found != "more":
            text += f", at {size}: {found}"
    return text


def header(words):
    kind, _, rest = words.partition(" ")
    if kind not in KINDS:
        raise NoCase(words)
    (answer,) = yield [call("headers", bytes_of(rest))]
    scan = debug.read(answer)[KINDS.index(kind)]
    if scan.name == "Bad":
        return told_bad(scan)
    return "more" if scan.name == "More" else f"whole | {scan[1]}"


VERBS = {"frame": frame, "header": header}
