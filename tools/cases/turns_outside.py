"""Cases of the outside: that calls of it can succeed, and what each answers.

| Line | What is done |
|---|---|
| `values` | texts grow and are cut, a list is filled, numbers are put and taken |
| `streams` | a source and a sink in memory give and take bytes, and fail at one call |
| `full log` | a log takes what it has room for |
"""

from cases import calls_091, debug
from cases.told_bytes import told_bytes, told_text
from cases.scripted_calls import call, rooms

# Where a number of each size stands, where each is cut, and a place far away.
PLACES = (0, 1, 3, 7)
CUT_PLACES = (15, 14, 12, 8)
FAR_AWAY = (1 << 64) - 1


def lines_of(pairs):
    """Lines of names and values."""
    return "\n".join(f"{name}: {value if isinstance(value, str) else debug.shown(value)}" for name, value in pairs)


def fine(answers, value):
    """A value, where each of the answers that led to it had memory."""
    failed = next((answer for answer in answers if answer.name != "Ok"), None)
    return failed or debug.Value("Ok", (value,))


def values():
    answer, cut, listed = yield [call("values"), calls_091.call("discard", 7, data=b"connection"), call("list-of-two")]
    (empty, grown, text, copied), put, numbers = debug.read(answer)
    pushed, items = debug.read(listed)
    places = (*PLACES, *CUT_PLACES, FAR_AWAY)
    taken = list(map(debug.read, (yield [call("take", at, data=numbers) for at in places])))
    sizes = range(len(PLACES))
    told = [("empty", empty), ("grown", fine(grown, text)), ("copied", copied)]
    told += [("front dropped", fine([], debug.read(cut))), ("list", fine(pushed, items)), ("numbers", fine(put, ()))]
    read = [
        ("taken", tuple(taken[k][k] for k in sizes)),
        ("cut", tuple(taken[len(PLACES) + k][k] for k in sizes)),
        ("far away", taken[-1][-1]),
    ]
    return f"{lines_of(told)}\n{told_bytes(numbers)}\n{lines_of(read)}"


def streams():
    sinks = [line for steps in range(3) for line in (rooms(report=6), call("out", 1), call("memory-sink", steps))]
    answers = yield [call("in", 1), call("memory-source", data=b"amqp"), *sinks]
    (_, before), (written, between), (filled, after) = map(debug.read, answers[4::3])
    lines = [f"read: Ok({answers[1]})", f"held{told_text(bytes(before))}"]
    lines += [f"written: {debug.shown(written[0][0])}", f"held{told_text(bytes(between))}"]
    lines += [f"filled: {debug.shown(filled[1][0])}", f"held{told_text(bytes(after))}"]
    return "\n".join(lines)


def full_log():
    (answer,) = yield [call("log")]
    added, copied, entries, behind = debug.read(answer)
    told = [("added", added)] + [("entry", f"Ok(Some({debug.shown(entry)}))") for entry in entries]
    return lines_of([*told, ("behind it", behind)] if copied.name == "Ok" else [("copied", copied)])


CASES = {"values": values, "streams": streams, "full log": full_log}


def outside_case(line):
    """The case that a line tells, or None."""
    return CASES[line]() if line in CASES else None
