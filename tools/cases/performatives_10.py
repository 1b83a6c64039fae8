"""Cases of performatives."""

import re

from cases import debug
from cases.calls_10 import SKIPPED, TEXT, call, number_of, parted, read_of, told_written, written_of
from cases.told_bytes import NoCase, bytes_of, told_bytes

# The performatives whose properties, their last field, are also read as they are kept.
WITH_PROPERTIES = ("Open", "Flow")
SPELLED = re.compile(rf"Spelling10\(({TEXT})\)")
# What the room of a settlement is filled with before.
FILLED = 0x5A
ROOM = 512


def calls_of_kept(data, answer):
    """The calls that read the values which a performative keeps as they are spelled, and its properties as they are kept."""
    name = answer.removeprefix("(Ok((").partition("(")[0]
    values = [call("value", debug.text_of(text[1:-1])) for text in SPELLED.findall(parted(answer)[0])]
    return values + ([call("properties", data)] if name in WITH_PROPERTIES else [])


def kept_value(answer):
    """The text of a value that fills the bytes by which it is kept."""
    return read_of(SKIPPED.fullmatch(parted(answer)[0])[1])[0]


def with_kept(text, answers):
    """A performative with the values that it keeps in place of their bytes."""
    count = len(SPELLED.findall(text))
    values = [kept_value(answer) for answer in answers[:count]]
    for properties in answers[count:]:
        if properties != (f"Ok({values[-1]})" if "properties: Some(" in text else "false"):
            raise ValueError(f"other properties are kept: {text[:200]}")
    rest = iter(values)
    return SPELLED.sub(lambda _: next(rest), text)


def answer_of(data, answer, kept):
    """The performative, the offset behind it and what is written of it, or the fault."""
    read, put = parted(answer)
    found = read_of(read)
    if found is None:
        return read.removeprefix("Err(").removesuffix(")")
    text, after = found
    return f"{with_kept(text, kept)} | {after}{told_written(written_of(put), data[:after])}"


def answers_of(texts):
    """The answer for each of several bytes."""
    answers = yield [call("perf", data) for data in texts]
    lines = [calls_of_kept(data, answer) for data, answer in zip(texts, answers)]
    rest = iter((yield [line for some in lines for line in some]))
    return [answer_of(data, answer, [next(rest) for _ in some]) for data, answer, some in zip(texts, answers, lines)]


def read(words):
    (text,) = yield from answers_of([bytes_of(words)])
    return text


def cuts(words):
    """Of each shorter length the answer, where it isn't cut off at its length."""
    data = bytes_of(words)
    *shorter, text = yield from answers_of([data[:count] for count in range(len(data) + 1)])
    text += " | cuts"
    for count, found in enumerate(shorter):
        if found != f"Value(At {{ fault: Cut, at: {count} }})":
            text += f", at {count}: {found}"
    return text


def settled(words):
    """What settles as sender, and whether more of the room was written."""
    numbers = words.split(" ")
    if not 2 <= len(numbers) <= 3:
        raise NoCase(words)
    channel = number_of(numbers[0], 16)
    first, *last = [number_of(number, 32) for number in numbers[1:]]
    (answer,) = yield [call("settled", b"", channel, first, len(last), *last)]
    size, room = debug.read(answer)
    more = "" if room[size:] == [FILLED] * (ROOM - size) else " | more was written"
    return f"{size} |{told_bytes(bytes(room[:size]))}{more}"


VERBS = {"read": read, "cuts": cuts, "settled": settled}
