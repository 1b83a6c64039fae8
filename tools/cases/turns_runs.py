"""Scenarios, and the runs of the service that play them."""

import functools
import re

from cases import debug
from cases.told_bytes import NoCase, bytes_of
from cases.scripted_calls import ENDS, call, number, rooms

# The rooms of the log, and of sinks that don't fail.
ENTRY_ROOM = 65_536
WHOLE_ROOM = 1_048_576
# A number that no pair has.
NO_PAIR = 1 << 32
NUMBERS = {
    "pairs": 1,
    "idles": 0,
    "step": 1,
    "limit": 0,
    "turns": 20_000,
    "refused": NO_PAIR,
    "out": None,
    "kept": None,
}
RUN = re.compile(
    r"\(\((?P<ended>\(.*?\)), \(\[(?P<report>[^\]]*)\], \[(?P<record>[^\]]*)\]\)\), "
    r"Ok\(\(\)\), \[(?P<calls>.*)\], Ok\(None\)\)"
)
ENTRY = re.compile(r'[A-Z][a-z]+ \{ (?:[^"{}]|"(?:[^"\\]|\\.)*")* \}')


class Scenario:
    """What both ends of the pairs do, and what is asked of the service."""

    def __init__(self):
        self.numbers = dict(NUMBERS)
        self.calls = []

    def take(self, line):
        """Takes a line that prepares the next play."""
        words = line.split(" ", 1)
        if len(words) < 2:
            raise NoCase(line)
        if words[0].isdigit():
            self.take_deed(number(words[0]), words[1])
        elif words[0] == "fault":
            self.calls.append(call("fault", number(words[1])))
        elif words[0] in self.numbers:
            self.numbers[words[0]] = number(words[1])
        else:
            raise NoCase(line)

    def take_deed(self, pair, text):
        """Takes what an end of a pair does, such as `client sends 05`."""
        whose, _, text = text.partition(" ")
        verb, _, text = text.partition(" ")
        if whose not in ENDS:
            raise NoCase(whose)
        end = ENDS[whose]
        if verb in ("sends", "ends"):
            self.calls.append(call("piece", pair, end, 0, int(verb == "ends"), data=bytes_of(text)))
        elif verb == "after":
            after, _, text = text.partition(" ")
            self.calls.append(call("piece", pair, end, number(after), data=bytes_of(text)))
        elif verb == "takes":
            self.calls += [call("room", pair, end, number(most)) for most in text.split(" ")]
        else:
            raise NoCase(verb)

    def play(self, out=None, room=WHOLE_ROOM, entries=ENTRY_ROOM, log=WHOLE_ROOM):
        """The calls of a play. The report fails at a write, if one is told, and the recorder has so much room.

        The log has room for so many entries and bytes.
        """
        numbers = self.numbers
        calls = self.calls + [call("run", numbers["pairs"], numbers["idles"], numbers["step"])]
        calls.append(rooms(entries, log, WHOLE_ROOM, room))
        if out is not None:
            calls.append(call("out", out))
        return calls + [call("play", numbers["limit"], numbers["turns"], numbers["refused"])]


@functools.cache
def entry_of(text):
    """A call with its answer. A run has many that are the same."""
    return debug.read(text)


class Run:
    """What a run did: how it ended, its report, what the recorder kept, and the calls with their answers.

    Its text is long, and so patterns read it where it has only bytes or calls.
    """

    def __init__(self, text):
        parts = RUN.fullmatch(text)
        self.served, self.out_of_memory = debug.read(parts["ended"])
        self.report = bytes_in(parts["report"])
        self.record = bytes_in(parts["record"])
        entries = ENTRY.findall(parts["calls"])
        if ", ".join(entries) != parts["calls"]:
            raise ValueError(f"no calls: {parts['calls'][:200]}")
        self.calls = [entry_of(entry) for entry in entries]


def bytes_in(numbers):
    """Bytes that are told as numbers with commas between them."""
    return bytes(map(int, numbers.split(", "))) if numbers else b""


def play(scenario, **where):
    """Plays a scenario once."""
    answers = yield scenario.play(**where)
    return Run(answers[-1])


def place_behind(record, at):
    """The place behind the entry at a place of a record; the same, where there is none."""
    (answer,) = yield [call("next", at, data=record)]
    found = debug.read(answer)
    return len(record) - len(found[0][1]) if found.name == "Ok" else at


def record_sizes(record, count):
    """How many bytes a recorder kept of no call, of the first one, and so on up to so many."""
    sizes = [0]
    for _ in range(count):
        sizes.append((yield from place_behind(record, sizes[-1])))
    return sizes


def play_as_told(scenario):
    """A play in which the sinks fail as the scenario says."""
    room = WHOLE_ROOM
    if scenario.numbers["kept"] is not None:
        plain = yield from play(scenario)
        *_, room = yield from record_sizes(plain.record, scenario.numbers["kept"])
    return (yield from play(scenario, out=scenario.numbers["out"], room=room))
