"""Cases of the loop with both ends, and of what stands around it.

| Lines | Of | In |
|---|---|---|
| what both ends do, and plays | the loop, over scripted ports | this module |
| `values`, `streams`, `full log` | numbers, texts, streams in memory, and the log | `turns_outside.py` |
| `source N THEN`, `pace` and so on | sources, sinks and ends over streams | `turns_edge.py` |
| `read BYTES`, `cuts BYTES`, `list BYTES` | captures | `turns_captures.py` |

A scenario is played over scripted ports, and the calls are printed. The pairs are ferries (`ferry.rt`): what comes from
one end is offered to the other, at most 8 bytes at once.

| Line | Meaning |
|---|---|
| `P client sends BYTES`, `P up sends BYTES` | an end of pair P sends a piece |
| `P client ends BYTES`, `P up ends BYTES` | it ends after it |
| `P client after N BYTES`, and for `up` | it sends a piece once it took N bytes |
| `P client takes N N ..`, and for `up` | its next writes take at most so many bytes |
| `pairs N`, `idles N` | how many clients come (1), how often `idle` answers Go (0) |
| `step N` | the milliseconds of a turn (1) |
| `limit N`, `turns N` | the pairs asked for (0: no limit), the turns (20,000) |
| `fault N` | call N of the run fails, counted from 0 |
| `refused N` | there is no memory for pair N at its accept |
| `out N` | write N of the report fails |
| `kept N` | the recorder keeps N calls, and fails at the next |

The first byte of a read is an order. `M`, `S`, `U`, `C` run out of memory: in the read, where it is taken up, and
before the next write upstream or to the client. `Q` has both ends shut, `P` the one upstream.

A line that plays ends the scenario:

| Line | Answer |
|---|---|
| `list` | the calls with their answers, a line a turn, the report, and how the service ended |
| `logs` | the log has room for fewer calls and bytes: how many there are, and where it isn't a front of them |
| `counts` | the turns with several writes, the accepts, and the most pairs that lived |
| `unreported` | the report fails at each write in turn: how many, and which broke a rule |
| `unrecorded` | the recorder fails at each call in turn: the same |
"""

from cases.turns_captures import capture_case
from cases.turns_edge import edge_case
from cases.turns_outside import outside_case
from cases.turns_plays import PLAYS
from cases.turns_runs import Scenario


class Cases:
    def __init__(self):
        self.scenario = Scenario()

    def answer(self, line):
        """Tells the calls of a case, and what is printed of their answers."""
        if line in PLAYS:
            scenario, self.scenario = self.scenario, Scenario()
            return (yield from PLAYS[line](scenario))
        case = outside_case(line) or edge_case(line) or capture_case(line)
        if case is not None:
            return (yield from case)
        self.scenario.take(line)
        return ""
