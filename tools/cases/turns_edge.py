"""Cases of the edge: sources, sinks, the report, and ends over streams of the tests' own.

The streams are interrupted N times, and then answer as THEN says: `moves COUNT` bytes at most, of which each that is
given is a 7, `waits` or `fails`.

| Line | Answer |
|---|---|
| `source N THEN` | a source is read into four bytes, each a 1 before |
| `sink N THEN` | a sink takes four bytes |
| `reads N THEN` | an end is read three times |
| `sends N THEN` | an end takes `four`, sends once, and takes `go`; what was left between |
| `overfills N THEN` | an end with room for four bytes takes six, and then two |
| `passes N THEN` | an end with room for eight bytes takes `four`, and then 40,000; how many wait |
| `reports N THEN` | the report takes N lines of 1,024 bytes: how many, the last, and whether all goes |
| `parts N THEN` | an end that takes four bytes is shut at 5: whether that is over at N |
| `reads when told` | an end is read before and after the system says that it may be |
| `finds ends` | 256 ends are open, and the oldest but one is closed 2,999 times |
| `has room` | five buffers serve clients and the ends upstream |
| `pace` | the moments at which a line is told |
| `tries COUNT FAILS TOOK MOMENT` | what is known of a server with so many addresses that was reached, once so many tries failed |

An end that was shut is asked three times: at first, once another end may be written, and once it may be. Where it would
have waited it takes bytes from then on.
"""

from cases import debug
from cases.told_bytes import NoCase
from cases.scripted_calls import call, number

MOVES, WAITS, FAILS = range(3)
FLUSH = call("end-flush")
READ = call("end-read")
# The most ends of clients that are open at once.
MOST_CLIENTS = 256
LAST_PAIR = 2_999


def stream_of(text):
    """What a stream answers: its kind, and how many bytes it moves."""
    verb, _, count = text.partition(" ")
    if verb == "moves":
        return MOVES, number(count)
    if text not in ("waits", "fails"):
        raise NoCase(text)
    return (WAITS if text == "waits" else FAILS), 0


def write(data):
    return call("end-write", data=data)


def source(times, stream):
    (answer,) = yield [call("reader", times, *stream)]
    return f"Ok({answer})"


def sink(times, stream):
    (answer,) = yield [call("writer", times, *stream, data=b"four")]
    return answer


def reads(times, stream):
    answers = yield [call("end", times, *stream, 8), READ, READ, READ]
    return f"Ok([{', '.join(answers[1:])}])"


def sends(times, stream):
    _, four, _, left, more = yield [
        call("end", times, *stream, 6),
        write(b"four"),
        FLUSH,
        call("end-left"),
        write(b"go"),
    ]
    waits, failed = debug.read(left)
    left = debug.shown(bytes(waits))
    return f"Ok(Sent {{ four: {four}, left: Ok({left}), failed: {debug.shown(failed)}, more: {more} }})"


def overfills(times, stream):
    _, first, second = yield [call("end", times, *stream, 4), write(b"sevens"), write(b"go")]
    return f"Ok(({first}, {second}))"


def passes(times, stream):
    opened = call("end", times, *stream, 8)
    _, four, many, left = yield [opened, write(b"four"), write(b"\7" * 40_000), call("end-left")]
    waits, _ = debug.read(left)
    return f"Ok(({four}, {many}, {len(waits)}))"


def reports(lines, stream):
    (answer,) = yield [call("report", lines, *stream, data=b"-" * 1_023 + b"\n")]
    return f"Ok({answer})"


def parts(moment, stream):
    over = call("end-over", moment)
    answers = yield [
        call("end", 0, *stream, 8),
        write(b"four"),
        *(FLUSH, over),
        call("end-stream", 0, MOVES, 9),
        *(call("end-note", 4), FLUSH, over),
        *(call("end-note", 3), FLUSH, over),
    ]
    return f"Ok(({answers[1]}, [{answers[3]}, {answers[7]}, {answers[10]}]))"


def reads_when_told():
    answers = yield [
        call("end", 0, WAITS, 0, 8),
        *(READ, READ),
        call("end-stream", 0, MOVES, 3),
        READ,
        call("end-ready"),
        READ,
    ]
    return f"Ok([{answers[1]}, {answers[2]}, {answers[4]}, {answers[6]}])"


def replacing(pair):
    """The calls by which a client's end is closed, so that the next one takes its place."""
    return [
        call("pairs-close", pair),
        call("pairs-back"),
        call("pairs-find", pair),
        call("pairs-find", 0),
        call("pairs-accept", pair + MOST_CLIENTS),
        call("pairs-find", pair + MOST_CLIENTS - 1),
    ]


def is_replaced(pair, answers):
    """Whether each end is found as it should be."""
    was_open, is_back, gone, first, _, last = map(debug.read, answers)
    stays = debug.some(gone[1]) is None and debug.some(first[1]) == 0 and first[2]
    is_last = last[0] == pair + MOST_CLIENTS and debug.some(last[1]) == MOST_CLIENTS - 1
    return was_open and is_back and stays and is_last


def finds_ends():
    """How many of 300 pairs are accepted at first, where the next would stand, and the first pair that is lost.

    Pair 0 stays while others take the places beside it in the table, and its own.
    """
    calls = [call("pairs", 512)] + [call("pairs-accept", 300)] * 300 + [call("pairs-find", MOST_CLIENTS)]
    start = len(calls)
    size = len(replacing(0))
    for pair in range(1, LAST_PAIR + 1):
        calls += replacing(pair)
    answers = yield calls
    pairs, place, _ = debug.read(answers[start - 1])
    groups = (answers[at : at + size] for at in range(start, len(answers), size))
    lost = next((pair for pair, group in enumerate(groups, 1) if not is_replaced(pair, group)), None)
    return f"Ok(({pairs}, {debug.shown(place)}, {'None' if lost is None else f'Some({lost})'}))"


def has_room():
    """Clients come, two upstream ends are opened, and two clients leave.

    The client's end of pair 0 keeps a buffer for its upstream end, and that of pair 1 too. Pair 2 leaves before its
    upstream end is opened, and gives both back.
    """
    accepts = [call("pairs-accept", 9)] * 9
    find = call("pairs-find", 0)
    answers = yield [
        call("pairs", 5),
        *(*accepts, call("pairs-link", 0), call("pairs-close", 0), find),
        *(call("pairs-link", 1), call("pairs-back"), find),
        *(*accepts, call("pairs-close", 2), call("pairs-back"), find),
    ]
    pairs, linked, was_open, one, next_linked, _, two = map(debug.read, answers[9:16])
    then, again = debug.read(answers[24]), debug.read(answers[27])
    told = {
        "pairs": pairs,
        "is_linked": linked,
        "was_open": was_open,
        "is_room_for_one": one[2],
        "is_next_linked": next_linked,
        "is_room_for_two": two[2],
        "pairs_then": then,
        "is_room_again": again[2],
    }
    return f"Ok({debug.shown(debug.Value('Rooms', told))})"


def pace():
    """Whether a line is told at moments 0, 0, 999, 1,000 and 1,999."""
    (answer,) = yield [call("pace", 0, 0, 999, 1_000)]
    return answer


def tries(*numbers):
    """The look-ups of the rounds took TOOK milliseconds each."""
    (answer,) = yield [call("tries", *numbers)]
    return answer


WITH_STREAM = {case.__name__: case for case in (source, sink, reads, sends, overfills, passes, reports, parts)}
ALONE = {"reads when told": reads_when_told, "finds ends": finds_ends, "has room": has_room, "pace": pace}


def edge_case(line):
    """The case that a line tells, or None."""
    if line in ALONE:
        return ALONE[line]()
    if line.startswith("tries "):
        return tries(*map(number, line.split()[1:]))
    words = line.split(" ", 2)
    if len(words) == 3 and words[0] in WITH_STREAM:
        return WITH_STREAM[words[0]](number(words[1]), stream_of(words[2]))
    return None
