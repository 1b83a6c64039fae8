"""What clients and containers do in a scenario, and the lines that tell the test program a run of it."""

from collections import namedtuple

from cases.gate_runs import CLIENT
from cases.told_bytes import NoCase
from cases.scripted_calls import call, rooms

# What an end of a pair sends once it took so many bytes, and whether it ends after it.
Sent = namedtuple("Sent", "pair end after ends data")
# How much a write to an end takes.
Taken = namedtuple("Taken", "pair end most")

NUMBERS = {
    "pairs": 1,
    "idles": 9,
    "step": 1,
    "turns": 20_000,
    "limit": 1,
    "log": 1_048_576,
    "report": 65_536,
    "fault": None,
    "capture": 65_536,
    "lost": None,
    "unread": None,
}
MOST_TURNS = 65_535


def fail_lines(verb, place):
    """Tells that a call of the ports (`fault`), the source (`in`), the report (`out`) or the capture (`lost`) fails, if any."""
    return [] if place is None else [call(verb, place)]


def word_lines(words):
    return [call("word", data=word) for word in words]


def number_of(text, most=2**32 - 1):
    """A number that stands in a line."""
    if not text.isdecimal() or int(text) > most:
        raise NoCase(text)
    return int(text)


class Scenario:
    """One client that does nothing, and what lines add to it."""

    def __init__(self):
        self.numbers = dict(NUMBERS)
        self.setup = []
        self.sent = []
        self.taken = []
        self.input = b""

    def at_once(self, end):
        """All bytes that are sent at an end without waiting."""
        return b"".join(sent.data for sent in self.sent if is_at_once(sent, end))

    def cut(self, end, *places):
        """What is sent, where all that an end sends without waiting comes from pair 0, cut at these places."""
        data = self.at_once(end)
        bounds = [0, *places, len(data)]
        pieces = [data[first:last] for first, last in zip(bounds, bounds[1:])]
        return self.with_pieces(end, pieces)

    def singly(self, end):
        """The same, where each byte comes in a piece."""
        return self.with_pieces(end, [bytes([byte]) for byte in self.at_once(end)])

    def with_pieces(self, end, pieces):
        first = [Sent(0, end, 0, False, piece) for piece in pieces]
        return first + [sent for sent in self.sent if not is_at_once(sent, end)]

    def script_lines(self, sent):
        """Tells the script of the ports, in which this is sent."""
        numbers = self.numbers
        lines = [call("run", numbers["pairs"], numbers["idles"], numbers["step"])]
        lines += [call("piece", s.pair, int(s.end != CLIENT), s.after, int(s.ends), data=s.data) for s in sent]
        return lines + [call("room", t.pair, int(t.end != CLIENT), t.most) for t in self.taken]

    def service_words(self):
        """The words that ask for the service."""
        numbers = self.numbers
        limit = [b"--pairs", b"%d" % numbers["limit"]] if numbers["limit"] else []
        turns = max(min(numbers["turns"], MOST_TURNS), 1)
        return [b"serve", *self.setup, *limit, b"--turns", b"%d" % turns]

    def service(self, sent, fault, room=None, unwritten=None):
        """A run of the service in which a call fails, and whose report has so much room, or a write of it fails."""
        most = self.numbers["report"]
        lines = self.script_lines(sent) + word_lines(self.service_words())
        lines += fail_lines("out", unwritten) + fail_lines("fault", fault)
        return lines + [rooms(log=self.numbers["log"], report=most if room is None else min(room, most)), call("gateway")]

    def play(self, sent=None):
        """A run of the service, in which another thing may be sent than in the scenario."""
        return self.service(self.sent if sent is None else sent, self.numbers["fault"])

    def gateway(self, words, room, lost=None, data=None):
        """A call of the gateway, whose capture has so much room, or a write of it fails.

        Its input is that of the scenario, or other bytes.
        """
        numbers = self.numbers
        lines = self.script_lines(self.sent) + word_lines(words)
        lines += fail_lines("in", numbers["unread"]) + fail_lines("lost", lost) + fail_lines("fault", numbers["fault"])
        data = self.input if data is None else data
        sinks = rooms(log=numbers["log"], report=numbers["report"], capture=room)
        return [*lines, sinks, call("gateway", data=data)]


def is_at_once(sent, end):
    return sent.after == 0 and not sent.ends and sent.end == end
