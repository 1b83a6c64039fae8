"""Cases of the gateway: scenarios told line by line, and what each client and each container got over scripted ports.

| Line | Meaning |
|---|---|
| `name N BYTES` | these bytes have a name from now on |
| `P sends BYTES`, `P ends BYTES` | the client of pair P sends a piece, and ends after it |
| `P after N BYTES` | it sends a piece once it took N bytes |
| `P takes N N ..`, `P often K N N ..` | its next writes take at most so many bytes, K times over |
| `P up sends BYTES`, and so on | the same of the container of pair P |
| `setup W|W` | the words between bars, behind `serve`, say what the pairs share: their name, hosts and exchanges |
| `pairs N`, `idles N` | how many clients come (1), how often `idle` answers (9) |
| `step N` | the milliseconds of a turn (1) |
| `limit N`, `turns N` | the pairs asked for (1; 0 for no limit), the turns (20,000) |
| `report N` | the bytes that the report may have |
| `log N` | the bytes that the log of the calls may have (1,048,576), from which the answer is told |
| `fault N` | call N of the run fails |
| `capture N`, `lost N` | the bytes that the capture may have, and the one of its writes that fails |
| `input ..`, `unread N` | bytes of the input, and the one of its reads that fails |

A line that plays ends the scenario:

| Line | Answer |
|---|---|
| `play` | what each client got, each container (`up P`), and the report |
| `times` | the same with the moment of each unit |
| `ways` | also in one piece and byte by byte; what differs is printed |
| `cuts`, `pieces` | cut at each place, and in each way into three pieces; what differs from the one before is printed |
| `up ways`, `up cuts`, `up pieces` | the same of what the container of pair 0 sends |
| `list` | each call with its answer, and the report |
| `counts` | how many accepts were tried, and how many pairs lived at most |
| `reads` | how many bytes were read of those that came byte by byte |
| `fails` | each call fails in turn: the kinds of calls, and the calls after whose fault a rule was broken |
| `unreported` | the report fails at each of its writes, or has no room: the same |
| `gateway W|W` | the words between bars are called: the status, how many calls there were, the report, the capture |
| `again W|W` | the words between bars are called, and then `replay` over their capture |
| `uncaptured W|W` | the same, and the capture fails at each of its writes, or has no room: what broke a rule |

`words W|W` answers what the words ask for, or where they cease to be a command line, and `statuses` the number of each
status. A word that begins with a quote is told in bytes.

`fails` also prints each report that tells of publishes or deliveries, behind the calls whose fault gave it.

Bytes are digits, texts and names with commas between them. What is sent without waiting is what `ways`, `cuts` and
`pieces` change.
"""

from cases.gate_checks import told_fails, told_unreported
from cases.gate_command import told_again, told_gateway, told_statuses, told_uncaptured, told_words, words_of
from cases.gate_runs import CLIENT, UP, Run, made
from cases.gate_scenario import NUMBERS, Scenario, Sent, Taken, number_of
from cases.gate_telling import told_listing, told_run
from cases.told_bytes import Names, NoCase


def told_line(scenario, names, is_timed):
    """A scenario in one line."""
    (text,) = yield from made([scenario.play()])
    return told_run(names, Run(text), is_timed)


def told_changes(scenario, names, titled):
    """A scenario in several ways: each, behind its title, whose line is another than the one before."""
    answers = yield from made([scenario.play(sent) for _, sent in titled])
    out = []
    last = None
    for (title, _), text in zip(titled, answers):
        line = told_run(names, Run(text))
        if line != last:
            out.append(f"{title}{line}")
        last = line
    return "\n".join(out)


def ways(scenario, end):
    """The scenario itself, in one piece, and byte by byte."""
    return [("", scenario.sent), ("in one piece: ", scenario.cut(end)), ("byte by byte: ", scenario.singly(end))]


def cuts(scenario, end):
    """The scenario cut at each place."""
    size = len(scenario.at_once(end))
    return [(f"from {at}: ", scenario.cut(end, at, size)) for at in range(size)]


def pieces(scenario, end):
    """The scenario cut into three pieces in each way."""
    places = range(len(scenario.at_once(end)) + 1)
    return [(f"from {a} and {b}: ", scenario.cut(end, a, b)) for a in places for b in places[a:]]


def told_list(scenario, names):
    """The calls of a scenario, a line each."""
    (text,) = yield from made([scenario.play()])
    return told_listing(names, Run(text))


def told_counts(scenario):
    """How many accepts were tried, how many pairs were accepted, and how many lived at most."""
    (text,) = yield from made([scenario.play()])
    run = Run(text)
    return f"{run.count_of('Accept')} accepts, {len(run.accepted)} pairs, {run.most_live()} live at most"


def told_reads(scenario, end):
    """How many bytes were read of those that came byte by byte."""
    (text,) = yield from made([scenario.play(scenario.singly(end))])
    return f"{Run(text).read_count()} bytes read"


CHANGES = {"ways": ways, "cuts": cuts, "pieces": pieces}
CALLED = {"gateway": told_gateway, "again": told_again, "uncaptured": told_uncaptured}


def end_first(words):
    """The end that words speak of, and the words behind it: the container's where they begin with `up`."""
    return (UP, words.removeprefix("up ")) if words.startswith("up ") else (CLIENT, words)


def played(scenario, names, line):
    """What a line that plays the scenario is answered; None where there is no such verb."""
    end, verb = end_first(line)
    if verb in ("play", "times"):
        return told_line(scenario, names, verb == "times")
    if verb in CHANGES:
        return told_changes(scenario, names, CHANGES[verb](scenario, end))
    if verb == "list":
        return told_list(scenario, names)
    if verb == "reads":
        return told_reads(scenario, end)
    tells = {"counts": told_counts, "fails": told_fails, "unreported": told_unreported}.get(verb)
    return tells and tells(scenario)


def called(scenario, line):
    """What a case of the command line is answered; None where the line is none."""
    verb, _, text = line.partition(" ")
    if line == "statuses":
        return told_statuses()
    if verb == "words":
        return told_words(words_of(text))
    return CALLED[verb](scenario, words_of(text)) if verb in CALLED else None


class Cases:
    """The names so far, and the scenario that the next play ends."""

    def __init__(self):
        self.names = Names()
        self.scenario = Scenario()

    def answer(self, line):
        """Answers a line. A play knows the names that were given before it, and ends its scenario, before any call."""
        told = played(self.scenario, dict(self.names.names), line) or called(self.scenario, line)
        if told is None:
            self.take(line)
            return ""
        self.scenario = Scenario()
        return (yield from told)

    def take(self, line):
        """Takes a line that only prepares a play."""
        first, _, rest = line.partition(" ")
        if first == "name":
            self.names.add(rest)
        elif first == "input":
            self.scenario.input += self.names.joined(rest)
        elif first == "setup":
            self.scenario.setup = words_of(rest)
        elif first in NUMBERS:
            self.scenario.numbers[first] = number_of(rest)
        else:
            self.take_deed(number_of(first), *end_first(rest))

    def take_deed(self, pair, end, deed):
        """Takes what a client or a container does."""
        verb, _, text = deed.partition(" ")
        if verb in ("sends", "ends"):
            self.scenario.sent.append(Sent(pair, end, 0, verb == "ends", self.names.joined(text)))
        elif verb == "after":
            after, _, text = text.partition(" ")
            self.scenario.sent.append(Sent(pair, end, number_of(after, 2**64 - 1), False, self.names.joined(text)))
        elif verb in ("takes", "often"):
            count, text = text.split(" ", 1) if verb == "often" else ("1", text)
            taken = [Taken(pair, end, number_of(word)) for word in text.split(" ")]
            self.scenario.taken += taken * number_of(count)
        else:
            raise NoCase(deed)
