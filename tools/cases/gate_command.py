"""Cases of the command line, and of what the gateway does for one."""

from cases import debug
from cases.gate_runs import LIST, Run, bytes_in, is_front_part, made
from cases.gate_scenario import word_lines
from cases.gate_telling import text_in, told_report
from cases.told_bytes import NoCase, bytes_of, told_bytes, told_text
from cases.scripted_calls import call as call_of


def words_of(text):
    """The words between bars; one that begins with a quote is told in bytes."""
    words = [bytes_of(part) if part.startswith('"') else part.encode() for part in text.split("|")] if text else []
    if any(text_in(word) is None for word in words):
        raise NoCase(text)
    return words


def told_other(title, data, plain):
    """A text behind a title, where it is another one than where no word says it."""
    return "" if data == plain else f"{title}{told_text(data)}"


def told_asked(asked):
    """What words ask for: a command without options, or a service by its parts."""
    if isinstance(asked, bytes):
        return asked.decode()
    limits, (name, host, vhost), routes, listen, upstream, capture = asked
    pairs = debug.some(limits["pairs"])
    out = [f"serve {'any' if pairs is None else pairs} pairs, {limits['turns']} turns, at{told_text(listen)}"]
    out.append(told_other(", upstream", upstream, b"127.0.0.1:5673"))
    out.append(told_other(", named", name, b"amqp-gate"))
    out.append(told_other(", to the host", debug.some(host), None))
    out.append(told_other(", virtual host", vhost, b"/"))
    out += [f", exchange{told_text(route['exchange'])} at{told_text(route['address'])}" for route in routes]
    out.append(told_other(", captured at", debug.some(capture), None))
    return "".join(out)


def told_words(words):
    """What words ask for, or where they cease to be a command line."""
    (text,) = yield from made([[*word_lines(words), call_of("asked")]])
    answer = debug.read(text)
    if isinstance(answer, debug.Value):
        return f"usage at word {answer[0]}" if answer.name == "Word" else "usage at end"
    return told_asked(answer)


def told_statuses():
    """The number of each status."""
    (text,) = yield [call_of("statuses")]
    return "statuses" + "".join(f" {status.name} {number}" for status, number in zip(*debug.read(text)))


def told_called(call):
    """The gateway's status, how many calls it made, the report and the capture."""
    capture = f" / capture{told_bytes(call.capture)}" if call.capture else ""
    return f"status {call.number}, {call.call_count} calls{told_report(call.report)}{capture}"


def told_gateway(scenario, words):
    """What the gateway does for words."""
    (text,) = yield from made([scenario.gateway(words, scenario.numbers["capture"], scenario.numbers["lost"])])
    return told_called(Run(text))


def told_again(scenario, words):
    """What the gateway does for words that ask for a capture, and then to replay it."""
    room = scenario.numbers["capture"]
    (text,) = yield from made([scenario.gateway(words, room)])
    first = Run(text)
    (text,) = yield from made([scenario.gateway([b"replay"], room, data=first.capture)])
    return f"{first.call_count} calls, again: {told_called(Run(text))}"


def rest_in(answer):
    """What stands behind what was read of a capture, or None where nothing could be."""
    return bytes_in(LIST.findall(answer)[-1]) if answer.startswith("Ok(") else None


def whole_entries(captures):
    """For each capture how many entries stand whole in its front; None where its start doesn't."""
    starts = yield [call_of("start", data=capture) for capture in captures]
    rests = {k: rest for k, rest in enumerate(map(rest_in, starts)) if rest is not None}
    counts = [0 if k in rests else None for k in range(len(captures))]
    while rests:
        places = {k: len(captures[k]) - len(rest) for k, rest in rests.items()}
        answers = yield [call_of("next", at, data=captures[k]) for k, at in places.items()]
        found = zip(rests, map(rest_in, answers))
        rests = {k: rest for k, rest in found if rest is not None}
        for k in rests:
            counts[k] += 1
    return counts


def stops_there(call, count):
    """The call whose entry was lost is the last but for shuts; where the start was lost, none is made."""
    return not call.calls if count is None else call.only_shuts_from(count)


def are_fronts(calls, whole):
    """For each call whether its capture is a front part of the whole one, and the service ended for that."""
    counts = yield from whole_entries([call.capture for call in calls])
    return [
        call.status == "Outside"
        and is_front_part(call.capture, whole.capture)
        and call.report.endswith(b"fault: capture\n")
        and stops_there(call, count)
        for call, count in zip(calls, counts)
    ]


def told_uncaptured(scenario, words):
    """The capture fails at each of its writes, and has room for fewer bytes than it needs.

    It is told how many bytes and writes the capture has, and what broke a rule.
    """
    room = scenario.numbers["capture"]
    (text,) = yield from made([scenario.gateway(words, room)])
    whole = Run(text)
    places = range(len(whole.capture))
    answers = yield from made(
        [scenario.gateway(words, at) for at in places] + [scenario.gateway(words, room, at) for at in places]
    )
    calls = [Run(text) for text in answers]
    are_front = yield from are_fronts(calls, whole)
    out = [f"uncaptured: {len(whole.capture)} bytes"]
    writes = 0
    for at in places:
        lost = len(places) + at
        if len(calls[at].capture) != at or not are_front[at]:
            out.append(f", not room {at}")
        # There is such a write where the call ends otherwise; each is there up to the last.
        is_there = calls[lost].status != whole.status
        if is_there and not (are_front[lost] and writes == at):
            out.append(f", not write {at}")
        writes += is_there
    return f"{''.join(out)}, {writes} writes"
