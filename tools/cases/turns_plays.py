"""What is printed of plays: their calls, their counts, and whether they keep to rules where a sink fails."""

import itertools

from cases.debug import shown
from cases.told_bytes import told_text
from cases.turns_runs import play, play_as_told, record_sizes


def told_call(entry):
    """A call with its answer."""
    parts = entry.parts
    if entry.name == "Read":
        came = told_text(parts["bytes"]) if parts["bytes"] else ""
        return f"read {parts['pair']} {parts['end'].name} {shown(parts['answer'])}{came}"
    if entry.name == "Write":
        return f"write {parts['pair']} {parts['end'].name}{told_text(parts['bytes'])} {shown(parts['answer'])}"
    return " ".join([entry.name.lower(), *map(shown, parts.values())])


def told_report(report):
    """A report, with its lines in one."""
    lines = report.decode().removesuffix("\n").split("\n") if report else []
    return "".join(f" / {line}" for line in lines)


def told_turns(calls):
    """Calls, a line for each turn and one for the end."""
    return "\n".join("; ".join(map(told_call, turn)) for turn in turns_of(calls) if turn)


def listing(scenario):
    """A play, how the service ended, and how many pairs ran out of memory."""
    run = yield from play_as_told(scenario)
    ended = f"ended {shown(run.served)}, {run.out_of_memory} out of memory"
    return f"{told_turns(run.calls)}\nreport{told_report(run.report)}\n{ended}"


def turns_of(calls):
    """The calls of each turn, behind those that stand before the first one."""
    turns = [[]]
    for entry in calls:
        if entry.name == "Now":
            turns.append([])
        turns[-1].append(entry)
    return turns


def told_writes(turn, calls):
    """The writes of a turn, if there is more than one, and how many bytes they took."""
    answers = [entry["answer"] for entry in calls if entry.name == "Write"]
    taken = sum(answer[0] for answer in answers if answer.name == "Took")
    return f"turn {turn}: {len(answers)} writes took {taken}; " if len(answers) > 1 else ""


def most_live(calls):
    """How many pairs lived at most: those of which the client's end is open."""
    live = most = 0
    for entry in calls:
        if entry.name == "Accept" and entry["answer"].name == "Pair":
            live += 1
            most = max(most, live)
        elif entry.name == "Shut" and entry["end"].name == "Client":
            live -= 1
    return most


def counts(scenario):
    """The turns, the writes of those with several, the accepts and the pairs, where neither sink fails."""
    run = yield from play(scenario)
    turns = turns_of(run.calls)
    accepts = [entry["answer"].name for entry in run.calls if entry.name == "Accept"]
    writes = "".join(told_writes(turn, calls) for turn, calls in enumerate(turns))
    pairs = f"{accepts.count('Pair')} pairs, {most_live(run.calls)} live at most"
    return f"{writes}{len(turns) - 1} turns, {len(accepts)} accepts, {pairs}"


def end_number(pair, end):
    """The number of an end, in the order in which ends are to be shut: by pairs, and upstream first."""
    return 2 * pair + (end == "Client")


def open_ends(calls):
    """The ends that are open behind calls."""
    ends = []
    for entry in calls:
        if entry.name == "Accept" and entry["answer"].name == "Pair":
            ends.append(end_number(entry["answer"][0], "Client"))
        elif entry.name == "Connect" and entry["answer"].name == "Ok":
            ends.append(end_number(entry["pair"], "Up"))
        elif entry.name == "Shut":
            shut = end_number(entry["pair"], entry["end"].name)
            ends = [end for end in ends if end != shut]
    return ends


def begins_as(run, plain, count):
    """Whether the first calls of both runs are the same, with their answers."""
    return min(len(run.calls), len(plain.calls)) >= count and run.calls[:count] == plain.calls[:count]


def are_shuts(calls):
    """Whether calls only shut ends, in order."""
    if any(entry.name != "Shut" for entry in calls):
        return False
    shuts = [end_number(entry["pair"], entry["end"].name) for entry in calls]
    return all(before < after for before, after in zip(shuts, shuts[1:]))


def all_are_shut(run, count):
    """Whether all ends that are open behind the first calls are shut by the others."""
    return not open_ends(run.calls) and len(open_ends(run.calls[:count])) == len(run.calls) - count


def is_right_unrecorded(run, plain, at, size):
    """Whether the rules hold of a play whose recorder fails at a call, before which it kept so many bytes.

    The service ends with that failure, the record holds the calls before it, and the last line tells it. The calls go
    on as they were up to that one, and then the open ends are shut.
    """
    is_told = shown(run.served) == "Fault(Capture)" and run.report.endswith(b"fault: capture\n")
    is_kept = run.record == plain.record[:size]
    goes_on = begins_as(run, plain, at + 1) and are_shuts(run.calls[at + 1 :])
    return is_told and is_kept and goes_on and all_are_shut(run, at + 1)


def unrecorded(scenario):
    """The recorder fails at each call in turn: how many calls there are, and those after which a rule was broken."""
    plain = yield from play(scenario)
    text = f"unrecorded: {len(plain.calls)} calls"
    sizes = yield from record_sizes(plain.record, len(plain.calls) - 1)
    for at, size in enumerate(sizes):
        run = yield from play(scenario, room=size)
        if not is_right_unrecorded(run, plain, at, size):
            text += f", not call {at}"
    return text


def count_before_shuts(calls):
    """How many calls stand before the last of those that only shut."""
    return max((at + 1 for at, entry in enumerate(calls) if entry.name != "Shut"), default=0)


def is_right_unreported(run, plain):
    """Whether the rules hold of a play whose report failed.

    It is a front part of the whole one, and the service ended with its failure. The calls go on as they were up to it,
    and then the open ends are shut.
    """
    is_front = len(run.report) < len(plain.report) and plain.report.startswith(run.report)
    goes_on = not open_ends(run.calls) and begins_as(run, plain, count_before_shuts(run.calls))
    return shown(run.served) == "Fault(Out)" and is_front and goes_on


def unreported(scenario):
    """The report fails at each of its writes: how many it has, and those after which a rule was broken."""
    plain = yield from play(scenario)
    text = "unreported:"
    for at in range(len(plain.report)):
        run = yield from play(scenario, out=at)
        if (run.served, run.report) == (plain.served, plain.report):
            return f"{text} {at} writes"
        if not is_right_unreported(run, plain):
            text += f" not write {at},"
    return f"{text} a write of each byte"


def byte_count(entry):
    """How many bytes came or were offered in a call."""
    return len(entry.parts["bytes"]) if entry.name in ("Read", "Write") else 0


def front_within(calls, size):
    """The calls before the first that takes more than so many bytes in all."""
    sums = itertools.accumulate(map(byte_count, calls))
    return [entry for entry, total in zip(calls, sums) if total <= size]


def logs(scenario):
    """The log has room for fewer calls, and for fewer bytes: how many there are, and where it isn't a front of them."""
    plain = yield from play(scenario)
    size = sum(map(byte_count, plain.calls))
    text = f"logs: {len(plain.calls)} calls, {size} bytes"
    for count in range(len(plain.calls)):
        run = yield from play(scenario, entries=count)
        text += "" if run.calls == plain.calls[:count] else f", not {count} calls"
    for count in range(size):
        run = yield from play(scenario, log=count)
        text += "" if run.calls == front_within(plain.calls, count) else f", not {count} bytes"
    return text


PLAYS = {"list": listing, "logs": logs, "counts": counts, "unreported": unreported, "unrecorded": unrecorded}
