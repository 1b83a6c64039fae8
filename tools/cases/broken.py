"""Cases of what breaks a run: units that are out of order or malformed, streams that end anywhere, and calls that fail.

| Line | Meaning |
|---|---|
| `set-up` | the lines up to channel 1: a client logs in and opens its connection and channel 1, and the container agrees |

All other lines that prepare a run are those of `gateway.py`. A line that plays ends the scenario:

| Line | Answer |
|---|---|
| `closes` | the status, what closes the client's end and the container's, and the report |
| `ends client`, `ends up` | all that this end sends is cut behind each of its bytes, and its stream ends there |
| `fails` | each call of the ports fails in turn |

The last three tell how many runs there were, and each report but the plain one behind the cuts, or the calls, that it comes of. A run
in which the status isn't the one that is due, or the report isn't that which `gate_reports.py` works out from the calls, is told as
wrong. The status that is due is 4 where a call of accept failed, and else 0.
"""

from cases import gateway
from cases.gate_reports import closes_of, report_of
from cases.gate_runs import CLIENT, UP, Run, made
from cases.gate_telling import told_report

ENDS = {"client": CLIENT, "up": UP}
SET_UP = (
    "0 sends header",
    "0 after 153 start-ok",
    "0 after 173 tune-ok, open",
    "0 after 186 channel-open",
    "0 up after 8 sasl, mechanisms",
    "0 up after 43 outcome",
    "0 up after 51 amqp",
    "0 up after 92 opened",
    "0 up after 120 begun",
)


def told_closes(scenario):
    """What closes each end of a run."""
    (text,) = yield from made([scenario.play()])
    run = Run(text)
    return f"status {run.number}; {closes_of(run)}; report{told_report(run.report)}"


def cut_behind(scenario, end, count):
    """What is sent, where an end's stream ends behind so many bytes."""
    sent, left = [], count
    for piece in scenario.sent:
        if piece.end != end:
            sent.append(piece)
        elif left is not None:
            is_last = len(piece.data) >= left
            sent.append(piece._replace(data=piece.data[:left], ends=is_last))
            left = None if is_last else left - len(piece.data)
    return sent


def is_due(run, limit):
    """Whether a run has the status and the report that follow from its calls."""
    has_failed = any(call.kind == "Accept" and call.answer == "Failed" for call in run.calls)
    return run.number == (4 if has_failed else 0) and run.report == report_of(run, limit)


def ranges(places):
    """Numbers in rising order, with the first and the last of each row of them."""
    rows = []
    for place in places:
        if rows and rows[-1][1] == place - 1:
            rows[-1][1] = place
        else:
            rows.append([place, place])
    return ", ".join(f"{first}" if first == last else f"{first} to {last}" for first, last in rows)


def told_runs(what, plain, texts, limit):
    """Runs that go otherwise than the plain one: each other report behind its places, and the places that are wrong."""
    runs = {place: Run(text) for place, text in texts.items()}
    wrong = [place for place, run in runs.items() if not is_due(run, limit)]
    places = {}
    for place, run in runs.items():
        if run.report != plain.report:
            places.setdefault(run.report, []).append(place)
    others = "".join(f"; at {ranges(at)}:{told_report(report)}" for report, at in places.items())
    return f"{what}: {len(runs)} runs{others}" + (f"; wrong at {ranges(wrong)}" if wrong else "")


def told_ends(scenario, end):
    """What comes of cuts behind each byte of an end's stream."""
    size = sum(len(piece.data) for piece in scenario.sent if piece.end == end)
    counts = range(1, size + 1)
    plain, *texts = yield from made([scenario.play(), *(scenario.play(cut_behind(scenario, end, count)) for count in counts)])
    return told_runs("ends", Run(plain), dict(zip(counts, texts)), scenario.numbers["limit"])


def told_fails(scenario):
    """What comes of each call's failure."""
    (text,) = yield from made([scenario.play()])
    plain = Run(text)
    places = range(plain.call_count)
    texts = yield from made([scenario.service(scenario.sent, place) for place in places])
    return told_runs("fails", plain, dict(zip(places, texts)), scenario.numbers["limit"])


class Cases(gateway.Cases):
    """The names so far, and the scenario that the next play ends."""

    def answer(self, line):
        if line == "set-up":
            for prepared in SET_UP:
                self.take(prepared)
            return ""
        told = {"closes": told_closes, "fails": told_fails}.get(line)
        if told is None and line.startswith("ends "):
            told = lambda scenario: told_ends(scenario, ENDS[line.removeprefix("ends ")])
        if told is None:
            return (yield from super().answer(line))
        told = told(self.scenario)
        self.scenario = gateway.Scenario()
        return (yield from told)
