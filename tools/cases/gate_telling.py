"""What is printed of a run: what each client and each container got, unit by unit, or each call.

The closes of both standards are told by their parts, apart from the gateway's own writing of them (AMQP 0-9-1 4.2.3;
AMQP 1.0 2.7.9).
"""

from cases.gate_runs import CLIENT, UP
from cases.told_bytes import told_bytes

PLAIN_UP_CLOSE = bytes([0, 0, 0, 12, 2, 0, 0, 0, 0x00, 0x53, 0x18, 0x45])
WORDS = {CLIENT: "", UP: "up "}


def text_in(data):
    """The text that bytes are, or None."""
    try:
        return data.decode()
    except UnicodeDecodeError:
        return None


def told_close(data):
    """connection.close on channel 0 by its reply code, class id, method id and text; None where the bytes are none."""
    ids = max(len(data) - 5, 0)
    text = data[14:ids]
    code, method = data[11:13], data[ids : ids + 4]
    size = len(text) + 11
    if len(text) > 255 or text_in(text) is None:
        return None
    head = b"\1\0\0" + size.to_bytes(4, "big") + b"\0\x0A\0\x32"
    if data != head + code + bytes([len(text)]) + text + method + b"\xCE":
        return None
    numbers = [int.from_bytes(number, "big") for number in (code, method[:2], method[2:])]
    return f" close {numbers[0]} {numbers[1]} {numbers[2]} {text.decode()}"


def told_up_close(data):
    """The close of a container's connection by its condition; None where the bytes are none.

    Its lists are in their short form (AMQP 1.0 1.6.22).
    """
    if data == PLAIN_UP_CLOSE:
        return " close"
    condition = data[22:]
    count = len(condition)
    if count > 255 - 9 or text_in(condition) is None:
        return None
    head = (count + 22).to_bytes(4, "big") + bytes([2, 0, 0, 0, 0x00, 0x53, 0x18])
    error = bytes([0xC0, count + 9, 1, 0x00, 0x53, 0x1D, 0xC0, count + 3, 1, 0xA3, count])
    return f" close {condition.decode()}" if data == head + error + condition else None


def told_unit(names, data):
    """A unit: by its name, as a close, or its bytes."""
    if data in names:
        return f" {names[data]}"
    return told_close(data) or told_up_close(data) or told_bytes(data)


def told_report(report):
    """The report, with its lines in one."""
    text = text_in(report)
    if text is None:
        return " no text"
    lines = text.removesuffix("\n").split("\n") if text else []
    return "".join(f" / {line}" for line in lines)


class Talk:
    """How far the talk with a client or a container has come, and what was told of it."""

    def __init__(self, names, is_timed):
        self.names = names
        self.is_timed = is_timed
        self.out = []
        # The unit that is going, and how much of it went.
        self.unit = b""
        self.gone = 0
        # The moment, and the turns that began since a byte last came or went, or an end was met.
        self.moment = 0
        self.turns = 0

    def at(self):
        """The moment, where it is asked for."""
        return f"@{self.moment}" if self.is_timed else ""

    def write(self, call, data):
        """Bytes that don't go on with a begun unit are told at once."""
        if call.answer != "NotYet":
            self.turns = 0
        count = call.number or 0
        if self.gone == 0:
            if count == 0:
                return
            self.unit = data
        if data != self.unit[self.gone :]:
            self.out.append(" other bytes")
        self.gone += count
        if self.gone == len(self.unit):
            self.gone = 0
            self.out.append(f"{told_unit(self.names, self.unit)}{self.at()},")

    def connect(self, call, _data):
        """The answer to the asking for the connection upstream: told where it failed, or with its moment."""
        self.turns = 0
        if call.answer == "Failed":
            self.out.append(f" refused{self.at()}")
        elif self.is_timed:
            self.out.append(f" joined{self.at()},")

    def read(self, call, _data):
        if call.answer != "NotYet":
            self.turns = 0

    def shut(self, _call, _data):
        if self.gone > 0:
            self.out.append(f" {self.gone} more,")
        when = self.at() if self.is_timed else " later" if self.turns > 0 else " at once"
        self.out.append(f" shut{when}")

    TELLS = {"Connect": connect, "Read": read, "Write": write, "Shut": shut}

    def tell(self, run, peer):
        """Tells the calls about a client or a container."""
        begun = 0
        for turn, moment, call, data in run.talks.get(peer, ()):
            self.turns += turn - begun
            begun = turn
            self.moment = moment
            self.TELLS[call.kind](self, call, data)
        return f"{WORDS[peer[1]]}{peer[0]}:{''.join(self.out)}; "


def told_run(names, run, is_timed=False):
    """A run in one line: what each client and container got, and the report."""
    out = []
    for pair in run.accepted:
        for end in (CLIENT, UP) if pair in run.linked else (CLIENT,):
            out.append(Talk(names, is_timed).tell(run, (pair, end)))
    return f"{''.join(out)}report{told_report(run.report)}"


def told_call(names, call, data):
    """A call in the listing."""
    verb = call.kind.lower()
    if call.kind == "Now":
        return f"now {call.moment}"
    if call.kind in ("Accept", "Idle"):
        return f"{verb} {call.shown}"
    if call.kind == "Connect":
        return f"connect {call.pair} {call.shown}"
    of_end = f"{verb} {WORDS[call.end]}{call.pair}"
    if call.kind == "Shut":
        return of_end
    room = f" {call.room}" if call.kind == "Read" else ""
    return f"{of_end}{room} {call.shown}{told_unit(names, data)}"


def told_listing(names, run):
    """A run call by call, a line each, and the report."""
    lines = [told_call(names, call, data) for call, data in run.entries]
    return "\n".join([*lines, f"report{told_report(run.report)}"])
