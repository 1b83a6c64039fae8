"""Runs of the gateway, as the test program tells them: the calls on ports with their answers, and what else was left.

It reads what derived `Debug`s of `LogEntry` and `Status` print.
"""

import collections
import functools
import re

from cases import debug

KINDS = ("Accept", "Connect", "Read", "Write", "Shut", "Idle", "Now")
CLIENT = "Client"
UP = "Up"
OTHER = {CLIENT: UP, UP: CLIENT}
RUN = re.compile(
    r"\(\(\((?P<status>\w+), (?P<number>\d+)\), \(\[(?P<report>[^\]]*)\], \[(?P<capture>[^\]]*)\]\)\), "
    r"Ok\(\(\)\), \[(?P<calls>.*)\], Ok\(None\)\)",
    re.S,
)
# A call of the log: its name, what stands before its bytes, they, and what stands behind them.
ENTRY = re.compile(r'([A-Z][a-z]+) \{ ([^"{}]*)(?:"([^"\\]*(?:\\.[^"\\]*)*)"([^"{}]*))?\}(?:, |$)', re.S)
LIST = re.compile(r"\[([^\]]*)\]")


class Call:
    """A call with its answer, without the bytes that came or were offered. Many calls of many runs share one."""

    def __init__(self, name, before, behind):
        value = debug.read(f'{name} {{ {before}""{behind} }}' if before.endswith("bytes: ") else f"{name} {{ {before} }}")
        self.kind = value.name
        self.pair = value.parts.get("pair")
        self.end = UP if self.kind == "Connect" else getattr(value.parts.get("end"), "name", None)
        self.room = value.parts.get("room")
        self.moment = value.parts.get("ms")
        answer = value.parts.get("answer")
        self.answer = answer and answer.name
        self.number = answer.parts[0] if answer and answer.parts else None
        self.shown = self.answer if self.number is None else f"{self.answer}({self.number})"

    @functools.cached_property
    def peer(self):
        """The end of a pair that the call is about: the pair's number and the end, or None."""
        return None if self.pair is None else (self.pair, self.end)

    @functools.cached_property
    def accepts(self):
        """The pair that the call accepted, or None."""
        return self.number if self.kind == "Accept" and self.answer == "Pair" else None

    @functools.cached_property
    def opens(self):
        """The end that the call opened, or None."""
        if self.accepts is not None:
            return (self.accepts, CLIENT)
        return self.peer if self.kind == "Connect" and self.answer == "Ok" else None


call_of = functools.lru_cache(maxsize=None)(Call)


data_of = functools.lru_cache(maxsize=4096)(debug.text_of)


def bytes_in(numbers):
    """The bytes that stand as numbers between the brackets of a list."""
    return bytes(map(int, numbers.split(", "))) if numbers else b""


class Run:
    """What a call of the gateway did: its status, the number of that, the calls of the ports, the report and the capture.

    What is asked of it is worked out from the calls alone.
    """

    def __init__(self, text):
        parts = RUN.fullmatch(text)
        if parts is None:
            raise ValueError(f"no run: {text[:200]}")
        self.status = parts["status"]
        self.number = int(parts["number"])
        self.report = bytes_in(parts["report"])
        self.capture = bytes_in(parts["capture"])
        self.told_calls = ENTRY.findall(parts["calls"])

    @functools.cached_property
    def entries(self):
        """The calls, each with its bytes."""
        return [(call_of(name, before, behind), data_of(data)) for name, before, data, behind in self.told_calls]

    @functools.cached_property
    def calls(self):
        return [call for call, _ in self.entries]

    @property
    def call_count(self):
        """How many calls there were, which takes no reading of each."""
        return len(self.told_calls)

    @functools.cached_property
    def talks(self):
        """For each end the calls about it, each behind the number of turns that began before it, and the moment."""
        talks = collections.defaultdict(list)
        turn = moment = 0
        for call, data in self.entries:
            if call.kind == "Now":
                turn += 1
                moment = call.moment
            elif call.peer is not None:
                talks[call.peer].append((turn, moment, call, data))
        return talks

    @functools.cached_property
    def closed(self):
        """For each call the pair of which it shut the last open end, or None."""
        is_open = set()
        closed = []
        for call in self.calls:
            shuts = call.kind == "Shut"
            closed.append(call.pair if shuts and (call.pair, OTHER[call.end]) not in is_open else None)
            if shuts:
                is_open.discard(call.peer)
            elif call.opens is not None:
                is_open.add(call.opens)
        return closed

    @functools.cached_property
    def closed_pairs(self):
        """The pairs of which all ends were shut, in order."""
        return [pair for pair in self.closed if pair is not None]

    @functools.cached_property
    def accepted(self):
        """The pairs that were accepted, in order."""
        return [call.accepts for call in self.calls if call.accepts is not None]

    @functools.cached_property
    def linked(self):
        """The pairs whose connection upstream was asked for."""
        return {call.pair for call in self.calls if call.kind == "Connect"}

    def count_of(self, kind):
        return sum(call.kind == kind for call in self.calls)

    def read_count(self):
        """How many bytes were read, of all pairs."""
        return sum(len(data) for call, data in self.entries if call.kind == "Read")

    def most_live(self):
        """The most pairs that lived at once."""
        live = most = 0
        for call, closed in zip(self.calls, self.closed):
            live = max(live + (call.accepts is not None) - (closed is not None), 0)
            most = max(live, most)
        return most

    def is_all_shut(self):
        """As many ends were shut as opened, and each pair that was accepted was closed once, and no other."""
        opened = sum(call.opens is not None for call in self.calls)
        are_closed = set(self.accepted) <= set(self.closed_pairs) and len(self.closed_pairs) == len(self.accepted)
        return self.count_of("Shut") == opened and are_closed

    def only_shuts_from(self, at):
        """Behind a place ends are shut and nothing else is called; the first is made there, whatever it is."""
        return len(self.calls) > at and all(call.kind == "Shut" for call in self.calls[at + 1 :])


def is_front_part(held, whole):
    """What was held is a front part of the whole, and not all of it."""
    return len(held) < len(whole) and whole.startswith(held)


def made(runs):
    """Makes runs, each told in lines: the answers to their last lines."""
    answers = yield [line for run in runs for line in run]
    ends = []
    end = 0
    for run in runs:
        end += len(run)
        ends.append(answers[end - 1])
    return ends
