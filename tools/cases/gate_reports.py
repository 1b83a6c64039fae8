"""What the report of a run must be, worked out from the calls of its ports alone, and how each end was closed.

This knows runs of one pair with one channel, whose client publishes and consumes. It reads the streams by `tools/wire.py`, and none
of the gateway's own code.
"""

from cases.gate_runs import CLIENT, UP
from wire import ACCEPTED, BEGIN, BODY, CLOSE, CONTENT, DETACH, DISPOSITION, END, OPEN, TRANSFER
from wire import Bad, Stream, frame_10, method_of, plain
from wire import CLIENT as CLIENT_STREAM
from wire import UP as UP_STREAM

PUBLISH = (60, 40)
OUTCOMES = range(ACCEPTED, ACCEPTED + 4)


def covered(fields):
    """The ids that a disposition covers."""
    first, last = fields[1], fields[1] if fields[2] is None else fields[2]
    return [(first + k) % 2**32 for k in range((last - first) % 2**32 + 1)]


class Life:
    """What a run's calls say of its publishes and deliveries, and of the loss of its ends."""

    def __init__(self):
        self.came = {CLIENT: Stream(CLIENT_STREAM), UP: Stream(UP_STREAM)}
        self.went = {CLIENT: b"", UP: b""}
        # Publishes that were taken up; those whose transfer began, by their ids; those that have an outcome.
        self.publishes, self.begun, self.settled = 0, {}, set()
        # Deliveries that came whole; those whose disposition began.
        self.deliveries, self.given_back = [], set()
        self.is_closing = self.is_lost = self.has_ended = False
        self.left = None

    def read(self, call, data):
        if call.answer in ("Ended", "Failed"):
            self.lose(call.end)
        elif call.answer != "NotYet":
            takes = self.client_sent if call.end == CLIENT else self.up_sent
            for unit in self.came[call.end].units(data):
                takes(unit)

    def lose(self, end):
        """An end is lost. From then on nothing more is taken up; with the container's end go the outcomes too."""
        self.is_closing = True
        self.is_lost = self.is_lost or end == UP

    def client_sent(self, unit):
        """A unit of the client, of which only contents of publishes count here."""
        if method_of(unit) == PUBLISH:
            self.left = None
        elif unit[0] == CONTENT:
            self.left = int.from_bytes(unit[11:19], "big")
        elif unit[0] == BODY and self.left is not None:
            self.left -= len(unit) - 8
        if self.left == 0:
            self.left = None
            self.publishes += not self.is_closing

    def up_sent(self, unit):
        """A unit of the container. Behind the gateway's end of the session, or its close, it is passed over."""
        if unit[:4] == b"AMQP" or self.has_ended:
            return
        frame = frame_10(unit)
        fields = plain(frame)
        if frame.kind == 0 and frame.code == TRANSFER and fields[1] is not None:
            self.deliveries.append(fields[1])
        elif frame.code == DISPOSITION and fields[0] and fields[4] is not None:
            self.settled |= {self.begun[n] for n in covered(fields) if n in self.begun}
        elif frame.kind == 0 and frame.code in (END, CLOSE):
            self.lose(UP)

    def write(self, call, data):
        if call.answer == "Failed":
            self.lose(call.end)
        elif call.answer != "NotYet":
            begins = not self.went[call.end]
            if begins and call.end == UP:
                self.up_gets(data)
            self.went[call.end] = data[call.number :]

    def up_gets(self, unit):
        """The first byte of a unit goes to the container."""
        if unit[:4] == b"AMQP":
            return
        frame = frame_10(unit)
        fields = plain(frame)
        if frame.kind == 0 and frame.code == TRANSFER and fields[1] is not None:
            self.begun[fields[1]] = int.from_bytes(fields[2], "big")
        elif frame.code == DISPOSITION and fields[0]:
            self.given_back |= set(covered(fields))
        elif frame.kind == 0 and frame.code in (END, CLOSE):
            self.has_ended = True

    def lines(self):
        """Its lines: publishes without an outcome, then deliveries that weren't given back."""
        numbers = [number for number in range(1, self.publishes + 1) if number not in self.settled]
        fates = [(n, "unknown" if n in self.begun.values() else "lost") for n in numbers]
        left = [n for n in self.deliveries if n not in self.given_back]
        return [f"life 1 publish {n} {fate}" for n, fate in fates] + [f"life 1 delivery {n} left" for n in left]


def last_line(run, limit):
    """The last line of the report: a failed accept, all pairs that were asked for, or the stop."""
    if any(call.kind == "Accept" and call.answer == "Failed" for call in run.calls):
        return "fault: accept"
    is_done = len(run.accepted) == limit and len(run.closed_pairs) == limit
    return f"{'done' if is_done else 'stopped'}: {len(run.accepted)} pairs"


def report_of(run, limit):
    """The report of a run whose service wants so many pairs."""
    life = Life()
    for call, data in run.entries:
        if call.kind == "Read":
            life.read(call, data)
        elif call.kind == "Write":
            life.write(call, data)
        elif call.kind == "Connect" and call.answer == "Failed":
            life.lose(UP)
    lines = [*life.lines(), "closed"] if run.accepted else []
    return "".join(f"{line}\n" for line in [*(f"pair 0 {line}" for line in lines), last_line(run, limit)]).encode()


# ---- closes


def closes_of(run):
    """What closes each end: a close of the client by its reply code; a detach, an end and a close of the container by its condition."""
    client, up = Stream(CLIENT_STREAM), Stream(UP_STREAM)
    codes, ends = [], []
    for call, data in run.entries:
        if call.kind == "Write" and call.number:
            taken = data[: call.number]
            if call.end == CLIENT:
                codes += filter(None, map(told_code, client.units(taken)))
            else:
                ends += filter(None, map(told_end, up.units(taken)))
    return f"client {', '.join(codes) or 'nothing'}; up {', '.join(ends) or 'nothing'}"


def told_code(unit):
    """A close of a connection or a channel, with its reply code."""
    names = {(10, 50): "connection", (20, 40): "channel"}
    method = method_of(unit)
    return f"{names[method]} {int.from_bytes(unit[11:13], 'big')}" if method in names else None


def told_end(unit):
    """A detach, an end or a close, with its condition."""
    frame = None if unit[:4] == b"AMQP" else frame_10(unit)
    if frame is None or frame.kind != 0 or frame.code not in (DETACH, END, CLOSE):
        return None
    error = plain(frame)[2 if frame.code == DETACH else 0]
    name = {DETACH: "detach", END: "end", CLOSE: "close"}[frame.code]
    return name if error is None else f"{name} {error.value[0].value.decode()}"
