"""Runs in which a call fails, or a write of the report: what must hold of each, whichever it is."""

from cases.gate_runs import KINDS, Run, is_front_part, made
from cases.gate_telling import told_report, text_in


def tells_of_life(report):
    """Whether a report has a line of a publish or a delivery."""
    return " life " in (text_in(report) or "")


def is_report(run, last):
    """The report has a line for each pair that closed, in order, and this last one.

    One that tells of publishes or deliveries is printed, and compared there.
    """
    lines = "".join(f"pair {pair} closed\n" for pair in run.closed_pairs)
    return run.report == f"{lines}{last}\n".encode() or tells_of_life(run.report)


def only_its_shut_follows(run, at, peer):
    """Behind a place an end is shut, before anything is called for another pair, and nothing else is called for it."""
    is_shut = False
    for call in run.calls[at + 1 :]:
        is_its = call.peer == peer
        if is_its and (is_shut or call.kind != "Shut"):
            return False
        if not is_shut and call.pair != peer[0]:
            return False
        is_shut = is_shut or is_its
    return is_shut


def nothing_of_it_follows(run, at, peer):
    """Behind a place nothing is called for an end."""
    return all(call.peer != peer for call in run.calls[at + 1 :])


def accept_failed(run, at):
    """After a failed accept each live pair is shut, and nothing else is called."""
    return run.status == "Outside" and run.only_shuts_from(at) and is_report(run, "fault: accept")


def goes_on(run):
    """The service goes on after what failed of a pair, until it is stopped."""
    return is_report(run, f"stopped: {len(run.accepted)} pairs") and run.status == "Ok"


def nothing_failed(run, plain):
    """A call of a kind that cannot fail: the run goes as if none were to."""
    return (run.status, run.report, len(run.calls)) == (plain.status, plain.report, len(plain.calls))


def keeps_rule(run, plain, at):
    """Whether what follows the call at a place is as it must be, where that call was to fail."""
    if at >= len(run.calls):
        return False
    call = run.calls[at]
    if call.kind in ("Shut", "Idle", "Now"):
        return nothing_failed(run, plain)
    if call.answer != "Failed":
        return False
    if call.kind == "Accept":
        return accept_failed(run, at)
    follows = nothing_of_it_follows if call.kind == "Connect" else only_its_shut_follows
    return follows(run, at, call.peer) and goes_on(run)


def told_places(texts):
    """Each text that says something once, behind its places."""
    places = {}
    for k, text in enumerate(texts):
        if text:
            places.setdefault(text, []).append(k)
    return "".join(f"; at{''.join(f' {k}' for k in at)}{text}" for text, at in places.items())


def told_fails(scenario):
    """Each call fails in turn: the kinds of the calls, and those after whose fault a rule was broken.

    Behind them stand the reports that tell of publishes or deliveries, each behind the calls whose fault gave it.
    """
    (text,) = yield from made([scenario.play()])
    plain = Run(text)
    answers = yield from made([scenario.service(scenario.sent, call) for call in range(len(plain.calls))])
    runs = [Run(text) for text in answers]
    kinds = "".join(f" {kind}" for kind in KINDS if plain.count_of(kind) > 0)
    are_right = [run.is_all_shut() and keeps_rule(run, plain, at) for at, run in enumerate(runs)]
    broken = "".join(f", not call {at}" for at, is_right in enumerate(are_right) if not is_right)
    texts = [told_report(run.report) if tells_of_life(run.report) else "" for run in runs]
    return f"fails:{kinds}{broken}{told_places(texts)}"


def stops_at_once(run, lines):
    """After the shut whose line the report refused, ends are shut and nothing else is called."""
    told = run.report.count(b"\n")
    closed = 0
    for call, pair in zip(run.calls, run.closed):
        if call.kind != "Shut" and closed > told:
            return False
        closed += pair is not None
    return closed > told or told + 1 == lines


def is_front(run, plain):
    """What a report that failed holds is a front part of the whole report, and the service ended with its failure."""
    is_part = is_front_part(run.report, plain.report) and run.status == "Outside"
    return is_part and stops_at_once(run, plain.report.count(b"\n")) and run.is_all_shut()


def told_unreported(scenario):
    """How many of the first writes of a report failed at least, as many as it has lines, and what broke a rule."""
    (text,) = yield from made([scenario.play()])
    plain = Run(text)
    lines = plain.report.count(b"\n")
    out = [f"unreported: {lines} lines"]
    places = range(len(plain.report))
    unwritten = yield from made([scenario.service(scenario.sent, None, unwritten=at) for at in places])
    unroomed = yield from made([scenario.service(scenario.sent, None, room=at) for at in places])
    comes = True
    for at in places:
        run = Run(unwritten[at])
        stopped = run.status != plain.status
        # Each line is written, and where one write comes no more, no later one does.
        is_right = comes and is_front(run, plain) if stopped else at >= lines and nothing_failed(run, plain)
        out += [] if is_right else [f", not write {at}"]
        run = Run(unroomed[at])
        out += [] if len(run.report) == at and is_front(run, plain) else [f", not room {at}"]
        comes = stopped
    return "".join(out + ([", a write without a byte"] if comes else []))
