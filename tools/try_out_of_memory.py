#!/usr/bin/env python3
"""Makes each allocation of whole runs of the gateway fail, one in each run, and checks what follows.

    python3 tools/try_out_of_memory.py [--program FILE] [--pairs COUNT] [--minutes COUNT] [--list] [WORD..]
    python3 tools/try_out_of_memory.py --show NUMBER [--program FILE] [--pairs COUNT] WORD

The program is that of tests_gate, as `rt run` or `rt ci` leaves it in crates/tests_gate/out. It calls the gateway over scripted
ports, and prints its status, the ports' log, its report and its capture. A library that is put before it counts the calls of malloc and realloc. At
each call it makes a copy of the process, in which that call fails, and another one in which the next call fails too. So every
allocation of the gateway in a scenario fails once. The scenarios are

- the captures of tools/captures: what their clients and containers sent, and how much their writes took, but not their times;
- those of tools/cases/gateway.txt that play a run;
- the replay of each capture, and the listings of it and of what came of each end.

Those with one pair and no call that fails are also played with COUNT such pairs at once, 2 if nothing else is said. With words only those are tried whose
names have one of them, or `--show` that of one; `--list` prints the names. The shortest come first, and none begins behind the minutes that are given.

What must hold of each run:

- The program answers. It has run out itself only before the gateway is called, and behind that. So where there is one pair, nothing
  is allocated between the failure and the end of the service: the next call is the program's own.
- Either status 5 is answered and no call was made, or some pair ran out and the service goes on to its end.
- Every other pair does what it does with ample memory, call by call, and has the same lines in the report.
- A replay says nothing, with status 5, or what it says with ample memory. A listing says a front part, with status 5.

And of a pair that ran out:

- Its calls begin as with ample memory. Behind these it is written and shut alone: each end once, in that turn where all is taken.
- `pair N memory` is told once, behind lines that it has with ample memory, and `pair N closed` once, as the last.
- A client whose header was read before gets its close, unless one went. It is connection.close 506 NO_MEMORY, byte by byte; or close-ok
  where the client closed; or the close that it gets with ample memory. Before it only confirms go, where the container was the
  cause of the closing, and only those that go with ample memory.
- A container whose connection is open gets dispositions, then detaches, then the end of each session, then the close, each once. The
  close has amqp:resource-limit-exceeded, byte by byte, where the client is told 506.
- Each unsettled delivery that came in an earlier read has its disposition, once. It is accepted or rejected only where it is with ample
  memory, and else released. Each detach of the container in an earlier read is answered, and each outcome that it left unsettled is settled.
- A publish of which some went has an outcome, or its line `unknown`. One that is told as lost didn't go. Each line of a
  delivery is of one that came, and that had no disposition or came settled. Where the container is lost each open one has a line.
- A frame goes whole once it began, as far as its peer takes it.

What is wrong is printed with the scenario and the numbers of allocations, and `--show NUMBER` prints what went then. The status is 1
where something is wrong. It needs cc, glibc and Linux. `.ci/run` tries four captures so, behind the gate's proofs.
"""

import argparse
import collections
import math
import os
import re
import shutil
import subprocess
import sys
import tempfile
import time
from pathlib import Path

from cases.gate_command import told_called
from cases.gate_runs import Run
from cases.gateway import Cases

TOOLS = Path(__file__).resolve().parent
CRATES = TOOLS.parent / "crates"
CAPTURES = TOOLS / "captures"
CLIENT, UP = 0, 1
ALL = 4_294_967_295

# The closes, worked out by hand (AMQP 0-9-1 1.4.2.9, 4.2.3; AMQP 1.0 2.3.1, 2.7.9, 2.8.14).
NO_MEMORY = bytes.fromhex(
    "01 0000 00000014"  # a method frame on channel 0, with 20 bytes
    "000A 0032 01FA"  # connection.close, and the reply code 506
    "09 4E4F5F4D454D4F5259"  # the reply text, NO_MEMORY
    "0000 0000 CE"  # no method is at fault; the end of the frame
)
CLOSE_OK = bytes.fromhex("01 0000 00000004 000A 0033 CE")
LIMIT_EXCEEDED = bytes.fromhex(
    "00000032 02 00 0000"  # a frame of 50 bytes on channel 0
    "00 53 18 C0 25 01"  # close: a list of one field
    "00 53 1D C0 1F 01"  # its error: a list of one field
    "A3 1C 616D71703A7265736F757263652D6C696D69742D6578636565646564"  # amqp:resource-limit-exceeded
)
PLAIN_CLOSE = bytes.fromhex("0000000C 02 00 0000 00 53 18 45")
OPEN, BEGIN, ATTACH, FLOW, TRANSFER, DISPOSITION, DETACH, END, CLOSE = range(0x10, 0x19)
NAMES = "open begin attach flow transfer disposition detach end close".split()
# Accepted, rejected, released and modified.
OUTCOMES = range(0x24, 0x28)
ACCEPTED, REJECTED, RELEASED = OUTCOMES[:3]
# What goes to a container where its connection closes, in this order.
BYES = [DISPOSITION, DETACH, END, CLOSE]


# ---- the program, with calls that fail

LIBRARY = r"""
#define _GNU_SOURCE
#include <fcntl.h>
#include <stdio.h>
#include <stdlib.h>
#include <string.h>
#include <sys/mman.h>
#include <sys/stat.h>
#include <sys/wait.h>
#include <unistd.h>
extern void *__libc_malloc(size_t), *__libc_realloc(void *, size_t);
// The calls that fail are those from `first` on, so many. From `from` on copies of the process are made at each call, in which it fails.
static unsigned long first, many, count, from, most;
static int results = -1, out = -1, words = -1, was_answered, is_behind;
static char *last;
static size_t size;

__attribute__((constructor)) static void begin(void) {
    const char *text = getenv("FAILING"), *path = getenv("RESULTS");
    if (text) sscanf(text, "%lu %lu %lu %lu", &first, &many, &from, &most);
    if (path) {
        results = open(path, O_WRONLY | O_CREAT | O_TRUNC, 0600);
        out = memfd_create("out", 0);
        words = memfd_create("words", 0);
    }
    count = 0;
}
__attribute__((destructor)) static void end(void) {
    char text[32];
    int length = snprintf(text, sizeof text, "%lu\n", count);
    if (write(2, text, length) != length) _exit(99);
}
static void empty(int file) {
    if (ftruncate(file, 0) || lseek(file, 0, SEEK_SET)) _exit(98);
}
static char *whole(int file, size_t *length) {
    struct stat it;
    if (fstat(file, &it)) _exit(97);
    char *bytes = __libc_malloc(it.st_size + 1);
    *length = it.st_size;
    if (!bytes || pread(file, bytes, *length, 0) != (ssize_t)*length) _exit(96);
    return bytes;
}
static void put(const void *bytes, size_t length) {
    for (const char *at = bytes; length;) {
        ssize_t done = write(results, at, length);
        if (done < 1) _exit(95);
        at += done;
        length -= done;
    }
}
// What the copy did: its number and status, then what it printed, unless that is what the one before did, and its words.
static void tell(unsigned long fails, int status) {
    char head[96];
    size_t length, spoken;
    char *bytes = whole(out, &length), *said = whole(words, &spoken);
    int is_same = last && length == size && !memcmp(last, bytes, size);
    put(head, snprintf(head, sizeof head, "%lu %lu %d %ld %zu\n", count, fails, status, is_same ? -1 : (long)length, spoken));
    if (!is_same) put(bytes, length);
    put(said, spoken);
    is_behind |= fails == 1 && was_answered && status;
    was_answered |= !status;
    free(last);
    free(said);
    last = bytes;
    size = length;
}
// Whether this call fails. Behind the gateway's calls only some are tried.
static int fails(void) {
    count++;
    if (results < 0 || count < from || (is_behind && count % 64)) return count - first < many;
    for (unsigned long k = 1; k <= most; k++) {
        empty(out);
        empty(words);
        pid_t child = fork();
        if (!child) {
            dup2(out, 1);
            dup2(words, 2);
            results = -1;
            first = count;
            many = k;
            alarm(100);
            return 1;
        }
        int status = 0;
        if (child < 0 || waitpid(child, &status, 0) != child) _exit(94);
        tell(k, WIFEXITED(status) ? WEXITSTATUS(status) : 256 + status);
    }
    return 0;
}
void *malloc(size_t length) { return fails() ? NULL : __libc_malloc(length); }
void *realloc(void *old, size_t length) { return fails() ? NULL : __libc_realloc(old, length); }
"""


class Program:
    """The test program, of which some allocations fail."""

    def __init__(self, path, folder):
        # `rt ci` leaves what an earlier run built as a file that can't be run.
        self.path, self.runs, self.results = folder / "program", 0, folder / "results"
        shutil.copyfile(path, self.path)
        self.path.chmod(0o755)
        source, self.library = folder / "failing.c", folder / "failing.so"
        source.write_text(LIBRARY)
        compiler = os.environ.get("CC", "cc")
        subprocess.run([compiler, "-O1", "-Wall", "-shared", "-fPIC", "-o", self.library, source], check=True)

    def answer(self, text, failing="0 0", **more):
        """What it prints, its status, its words on the standard error, and how many allocations it made."""
        self.runs += 1
        env = {"LD_PRELOAD": str(self.library), "FAILING": failing, **more}
        done = subprocess.run([self.path], input=text, env=env, stdout=-1, stderr=-1, close_fds=False)
        words, _, count = done.stderr.rstrip(b"\n").rpartition(b"\n")
        return done.stdout, done.returncode, words, int(count) if count.isdigit() else None

    def answers(self, text, start, most):
        """The same where each allocation from a number on fails: that one, and with so many behind it."""
        answer, status, words, _ = self.answer(text, f"0 0 {start} {most}", RESULTS=str(self.results))
        if status:
            raise Wrong(f"the program ends with status {status}: {words[-200:]!r}")
        last = b""
        with self.results.open("rb") as told:
            for head in told:
                number, many, status, size, spoken = map(int, head.split())
                last = told.read(size) if size >= 0 else last
                self.runs += 1
                yield number, many, last, status, told.read(spoken)


# ---- the scenarios


def entries_of(capture):
    """The calls that a capture holds."""
    at = 8 + int.from_bytes(capture[4:8], "big")

    def number(size):
        nonlocal at
        at += size
        return int.from_bytes(capture[at - size : at], "big")

    def part():
        nonlocal at
        size = number(4)
        at += size
        return capture[at - size : at]

    while at < len(capture):
        kind = number(1)
        if kind == 1:
            yield ("accept", number(4) if number(1) == 1 else None)
        elif kind == 2:
            yield ("connect", number(4), number(1) == 1)
        elif kind == 3:
            pair, end, _, answer = number(4), number(1), number(4), number(1)
            yield ("read", pair, end, part() if answer == 1 else answer)
        elif kind == 4:
            pair, end, offered, answer = number(4), number(1), part(), number(1)
            yield ("write", pair, end, offered, number(4) if answer == 1 else 0)
        elif kind == 5:
            yield ("shut", number(4), number(1))
        else:
            yield ("idle", number(1)) if kind == 6 else ("now", number(8))


def calls_of(lines):
    """The lines for the program that lines of cases stand for, of which the last one calls the gateway."""
    cases, calls = Cases(), []
    for line in lines:
        try:
            calls += next(cases.answer(line))
        except StopIteration:
            pass
    return "".join(f"{call}\n" for call in calls).encode()


def called(answer):
    """The call of the gateway, which is what the program answers last."""
    return Run(answer.decode().rstrip("\n").rpartition("\n")[2])


# What stands in the program's answer where it ran out of memory itself, as it took a line or copied the log.
UNTOLD = b"Err(Memory)"


class Reading:
    """A command of the gateway that reads its input."""

    pairs = 1

    def __init__(self, words, given):
        self.words, self.given = words, given

    def text(self, _):
        return calls_of([f"input {digits(self.given)}", "report 4000000", f"gateway {self.words}"])

    def judged(self, answer, ample):
        """What it said stands in front of what it says with ample memory, and a replay says nothing, or the same."""
        answer, ample = told_called(answer), told_called(ample)
        if answer == ample and self.words == "replay":
            return "a replay that is the same, since no call changed"
        status, _, said = answer.partition(" / ")
        _, _, whole = ample.partition(" / ")
        is_front = whole.startswith(said) and (not said or self.words != "replay")
        is_so = status == "status 5, 0 calls" and is_front
        return "status 5 of a command that reads" if is_so else f"WRONG: it says {answer[:80]!r}"


class Scenario:
    """Lines for the program, by the pair that they are about; those of all pairs, and the gateway's words."""

    def __init__(self, lines, pairs, common, words):
        self.lines, self.pairs, self.common, self.words = lines, pairs, common, words

    def has_fault(self):
        """A call of it fails, by its number, which other pairs would change."""
        return any(line.startswith("fault") for line in self.common)

    def judged(self, answer, ample):
        return judged(Play(answer), Play(ample))

    def text(self, copies):
        """The lines of so many copies beside each other."""
        pairs = self.pairs * copies
        lines = [f"pairs {pairs}", *self.common, "capture 4000000"]
        for copy in range(copies):
            lines += [f"{pair + copy * self.pairs} {deed}" for pair, deed in self.lines]
        words = ["serve", f"--pairs={pairs}", *self.words, "--capture=c"]
        return calls_of([*lines, "gateway " + "|".join(words)])


def digits(data):
    return data.hex(" ").upper()


def of_capture(capture):
    """What the peers of a capture do; none where a connect failed, or no pair came."""
    entries = list(entries_of(capture))
    pairs = sum(entry[0] == "accept" and entry[1] is not None for entry in entries)
    if not pairs or any(entry[0] == "connect" and not entry[2] for entry in entries):
        return None
    lines, taken, rooms = [], collections.Counter(), collections.defaultdict(list)
    for kind, *rest in entries:
        who = (rest[0], "up " * rest[1]) if kind in ("read", "write") else None
        if kind == "read" and isinstance(rest[2], bytes):
            verb = f"after {taken[who]}" if taken[who] else "sends"
            lines.append((rest[0], f"{who[1]}{verb} {digits(rest[2])}"))
        elif kind == "read" and rest[2]:
            lines.append((rest[0], f"{who[1]}ends "))
        elif kind == "write":
            taken[who] += rest[3]
            rooms[who].append(rest[3] if rest[3] < len(rest[2]) else ALL)
    for (pair, end), numbers in rooms.items():
        if any(number != ALL for number in numbers):
            lines.append((pair, f"{end}takes {' '.join(map(str, numbers))}"))
    words = re.sub(r"(--\w+)\n", r"\1=", capture[8 : 8 + int.from_bytes(capture[4:8], "big")].decode()).split("\n")
    words = [word for word in words if word and not re.match("--(capture|pairs|turns)=", word)]
    return Scenario(lines, pairs, ["idles 60"], words)


def bytes_of(text, names):
    """The bytes that names, digits and texts with commas between them tell."""
    out = b""
    for part in text.split(","):
        if part.strip() in names:
            out += names[part.strip()]
            continue
        for word in re.findall(r'"[^"]*"|\*\d+|\S\S', part):
            if word[0] == '"':
                out += word[1:-1].encode()
            elif word[0] == "*":
                out += out[-1:] * (int(word[1:]) - 1)
            else:
                out += bytes.fromhex(word)
    return out


def readings(name, capture):
    """The replay and the listings of a capture, and those of what came of each end in it."""
    came = [b"", b""]
    for kind, *rest in entries_of(capture):
        if kind == "read" and isinstance(rest[2], bytes) and rest[0] == 0:
            came[rest[1]] += rest[2]
    commands = {"replay": capture, "show|capture": capture, "show|091": came[CLIENT], "show|10": came[UP]}
    return {f"{words.replace('|', ' ')} of {name}": Reading(words, given) for words, given in commands.items() if given}


PLAYS = "play times ways cuts pieces list counts reads fails unreported".split()


def of_cases(cases):
    """The scenarios of a file of cases that play a run, with their remarks and the number of each behind its remark."""
    names, remark, count, lines, numbers, words = {}, "", 0, [], {}, []
    for line in cases.split("\n"):
        first, _, rest = line.partition(" ")
        deed = re.fullmatch(r"(\d+) ((?:up )?(?:sends|ends|after \d+)) ?(.*)", line)
        if first == "#":
            remark, count = rest, 0
        elif first == "name":
            name, _, text = rest.partition(" ")
            names[name] = bytes_of(text, names)
        elif deed:
            lines.append((int(deed[1]), f"{deed[2]} {digits(bytes_of(deed[3], names))}"))
        elif first.isdigit():
            lines.append((int(first), rest))
        elif first == "setup":
            words = rest.split("|")
        elif first in PLAYS or line.removeprefix("up ") in PLAYS:
            count += 1
            pairs = max([int(numbers.pop("pairs", 1)), 1, *(pair + 1 for pair, _ in lines)])
            turns = numbers.pop("turns", 20000)
            numbers["idles"] = max(60, numbers.get("idles", 0))
            common = [f"{name} {number}" for name, number in numbers.items() if name in ("idles", "step", "fault")]
            yield f"{remark}, {count}", Scenario(lines, pairs, common, [*words, f"--turns={turns}"])
            lines, numbers, words = [], {}, []
        elif rest.isdigit():
            numbers[first] = int(rest)
        else:
            lines, numbers, words = [], {}, []


def scenarios(words):
    """All scenarios, by their names, each text once, and the shortest first."""
    named = dict(of_cases((TOOLS / "cases" / "gateway.txt").read_text()))
    for path in sorted(CAPTURES.glob("*.agc")):
        may_be_meant = [f"{what} of {path.stem}" for what in ("replay", "show capture", "show 091", "show 10")]
        if any(word in name for word in words or [""] for name in may_be_meant):
            capture = path.read_bytes()
            named |= {path.stem: of_capture(capture), **readings(path.stem, capture)}
    found, texts = {}, set()
    meant = {name: scenario for name, scenario in named.items() if any(word in name for word in words or [""])}
    for name, scenario in meant.items():
        text = scenario and scenario.text(1)
        if text and text not in texts:
            texts.add(text)
            found[name] = scenario
    return dict(sorted(found.items(), key=lambda named: (named[1].pairs, len(named[1].text(1)))))


# ---- what a run did


class Play:
    """The status, the lines of the report, and the calls of each pair with their turns."""

    def __init__(self, call):
        self.status = f"{call.number}, {call.call_count} calls"
        self.report = call.report.decode().split("\n")[:-1]
        self.calls, turn = collections.defaultdict(list), 0
        for kind, *rest in entries_of(call.capture):
            turn += kind == "now"
            if kind in ("connect", "read", "write", "shut"):
                self.calls[rest[0]].append((turn, kind, *rest[1:]))
            elif kind == "accept" and rest[0] is not None:
                self.calls[rest[0]].append((turn, kind))

    def lines(self, pair):
        return [line for line in self.report if line.startswith(f"pair {pair} ")]


def size_of(end, stream):
    """The bytes of the unit with which a stream begins; none where none does."""
    if stream[:4] == b"AMQP":
        return 8
    if end == UP:
        size = int.from_bytes(stream[:4], "big")
        return size if 8 <= size <= 200_000 else None
    size = int.from_bytes(stream[3:7], "big") + 8
    is_whole = len(stream) >= size
    return size if stream[0] in (1, 2, 3, 8) and size < 200_000 and (not is_whole or stream[size - 1] == 0xCE) else None


def units_of(end, stream):
    """The whole units of a stream, and the bytes behind them; none of these where no unit begins there."""
    units = []
    while len(stream) >= 8:
        size = size_of(end, stream)
        if size is None:
            return units, None
        if size > len(stream):
            break
        units.append(stream[:size])
        stream = stream[size:]
    return units, stream


def value_of(body, at):
    """A value of AMQP 1.0, and the place behind it (AMQP 1.0 1.2)."""
    code = body[at]
    if code == 0:
        descriptor, at = value_of(body, at + 1)
        value, at = value_of(body, at)
        return (descriptor, value), at
    if code >> 4 in (4, 5, 6, 7, 8, 9):
        width = (0, 1, 2, 4, 8, 16)[(code >> 4) - 4]
        number = int.from_bytes(body[at + 1 : at + 1 + width], "big")
        return {0x40: None, 0x41: True, 0x42: False, 0x45: [], 0x56: number == 1}.get(code, number), at + 1 + width
    wide = 4 if code & 0x10 else 1
    start = at + 1 + wide
    end = start + int.from_bytes(body[at + 1 : start], "big")
    if code >> 4 not in (0xC, 0xD) or end > len(body):
        return body[start:end], end
    items, inner = [], start + wide
    while inner < end:
        value, inner = value_of(body, inner)
        items.append(value)
    return items, end


def performative(unit):
    """The code, the channel, the fields and the payload of a frame; no code where it has none that can be read."""
    if unit[:4] == b"AMQP" or unit[5] != 0 or len(unit) <= 4 * unit[4]:
        return None, 0, [], b""
    try:
        (code, fields), at = value_of(unit, 4 * unit[4])
        return code, int.from_bytes(unit[6:8], "big"), fields + [None] * (14 - len(fields)), unit[at:]
    except (IndexError, TypeError, ValueError):
        return None, 0, [], b""


class Wrong(Exception):
    pass


def must(fact, law):
    if not fact:
        raise Wrong(law)


def events_of(calls):
    """What came and went by a pair's calls, in order: what it is, the unit, and the place of its call."""
    rests, units, lefts, stuck = [b"", b""], [b"", b""], [b"", b""], [False, False]
    for place, (_, kind, *more) in enumerate(calls):
        if kind == "read" and isinstance(more[1], bytes) and rests[more[0]] is not None:
            end, came = more
            whole, rests[end] = units_of(end, rests[end] + came)
            yield from ((("client sent", "up sent")[end], unit, place) for unit in whole)
            if rests[end] is None:
                yield (("client bad", "up bad")[end], b"", place)
        elif kind == "read" and more[1] in (2, 3):
            yield (("client ended", "up ended")[more[0]], b"", place)
            stuck[more[0]] = True
        elif kind == "write":
            end, offered, count = more
            stuck[end] = not count
            if lefts[end]:
                must(offered == lefts[end], "a write goes on with the unit in progress")
            elif count:
                must(units_of(end, offered) == ([offered], b""), "a write offers one unit")
                yield (("client got", "up got")[end], offered, place)
                units[end] = lefts[end] = offered
            lefts[end] = lefts[end][count:]
            if count and not lefts[end]:
                yield (("client has", "up has")[end], units[end], place)
        elif kind == "shut":
            must(not lefts[more[0]] or stuck[more[0]], "an end is shut behind a whole unit")


def ids_of(fields):
    """The ids that a disposition covers; they go on from 0 behind the last."""
    first, last = fields[1], fields[1] if fields[2] is None else fields[2]
    return [(first + k) % 2**32 for k in range(min((last - first) % 2**32, 5000) + 1)]


class Session:
    def __init__(self, number, channel):
        self.number, self.channel, self.ended, self.over = number, channel, False, False
        # The gateway's links by handle, those of them by the container's handle.
        self.links, self.peers = {}, {}
        # Deliveries that came whole and in part; the states of dispositions that went, and the ids that wait for one.
        self.deliveries, self.partial, self.covered, self.unsettled = {}, {}, {}, []
        # The publishes by their ids, their links, and the places at which their outcomes came; those that lost their links have none.
        self.publishes, self.carriers, self.outcomes = {}, {}, {}


class Upstream:
    """What a container and the gateway told each other."""

    def __init__(self, events=()):
        self.opened = self.closed = self.was_closed = False
        self.sessions, self.ours, self.theirs = [], {}, {}
        for what, unit, place in events:
            if what == "up got":
                self.went(unit)
            elif what == "up sent":
                self.came(unit, place)

    def count(self, channel, state):
        """How many deliveries of a channel had dispositions with a state."""
        return sum(list(session.covered.values()).count(state) for session in self.sessions if session.channel == channel)

    def went(self, unit):
        code, channel, fields, _ = performative(unit)
        session = self.ours.get(channel)
        if code == OPEN:
            self.opened = True
        elif code == BEGIN:
            self.sessions.append(Session(len(self.sessions), channel))
            self.ours[channel] = self.sessions[-1]
        elif code == ATTACH:
            session.links[fields[1]] = {"name": fields[0], "detached": False, "lost": None}
        elif code == DETACH:
            session.links[fields[0]]["detached"] = True
        elif code == TRANSFER and fields[1] is not None:
            session.publishes[fields[1]] = int.from_bytes(fields[2], "big")
            session.carriers[fields[1]] = session.links[fields[0]]
        elif code == DISPOSITION and fields[0]:
            for number in ids_of(fields):
                must(number not in session.covered, "a delivery has one disposition")
                session.covered[number] = fields[4][0]
        elif code == DISPOSITION:
            session.unsettled = [number for number in session.unsettled if number not in ids_of(fields)]
        elif code == END:
            session.ended = True
        elif code == CLOSE:
            self.closed = True

    def came(self, unit, place):
        code, channel, fields, payload = performative(unit)
        if code == BEGIN and fields[0] in self.ours:
            self.theirs[channel] = self.ours[fields[0]]
        session = self.theirs.get(channel)
        if code == CLOSE:
            self.was_closed = True
        if session is None or session.over:
            return
        if code == ATTACH:
            named = [link for link in session.links.values() if link["name"] == fields[0] and not link["detached"]]
            session.peers.update({fields[1]: link for link in named})
        elif code == DETACH and fields[0] in session.peers:
            session.peers.pop(fields[0])["lost"] = place
        elif code == TRANSFER:
            self.arrived(session, fields, place)
        elif code == DISPOSITION and fields[0] and (fields[3] or fields[4]):
            # A state that is no outcome may be at fault, so that it settles nothing.
            is_plain = not fields[4] or fields[4][0] in OUTCOMES
            for number in set(ids_of(fields)) & set(session.publishes):
                if number in session.outcomes or session.carriers[number]["lost"] is None:
                    session.outcomes.setdefault(number, place if is_plain else math.inf)
                    session.unsettled += [] if fields[3] or not is_plain else [number]
        elif code == END:
            session.over = True

    def arrived(self, session, fields, place):
        first = {"id": fields[1], "settled": False}
        delivery = session.partial.setdefault(fields[0], first)
        delivery["settled"] |= bool(fields[4])
        delivery["place"] = place
        if fields[9] or not fields[5]:
            session.partial.pop(fields[0])
        if not fields[9] and not fields[5] and delivery["id"] is not None:
            session.deliveries.setdefault(delivery["id"], delivery)


# The methods that wait for the container, with what stands behind them on their channel, and their answers.
WAITS = "0014000a 003c0014 0032000a 003c0046".split()
ANSWERS = "0014000b 003c0015 0032000b 003c0047 003c0048".split()


class Asked:
    """How many deliveries of each channel its client settled, and took without acks, and which of its publishes were surely taken up."""

    def __init__(self, events):
        self.counts, self.delivered, self.consumers = collections.Counter(), collections.defaultdict(dict), {}
        self.requests, self.gets = collections.defaultdict(list), collections.defaultdict(list)
        # The contents that go and come, how many openings each channel had and how much of it waits for an answer.
        self.contents, self.uploads, self.lives, self.waiting = {}, {}, collections.Counter(), collections.Counter()
        self.published, self.is_leaving = collections.Counter(), False
        for what, unit, _ in events:
            channel = int.from_bytes(unit[1:3], "big")
            if what == "client sent" and unit[0] == 1:
                self.said(channel, method_of(unit), unit[11:])
            elif what == "client sent" and channel in self.uploads:
                self.uploaded(channel, unit)
            elif what == "client has":
                self.took(channel, unit)
            elif what == "client got" and method_of(unit) in ANSWERS:
                self.waiting[channel] -= 1

    def uploaded(self, channel, unit):
        """A frame of the content of a publish, which is surely taken up where it is whole and nothing waits."""
        size = int.from_bytes(unit[11:19], "big") if unit[0] == 2 else self.uploads[channel] - len(unit) + 8
        self.uploads[channel] = size
        if size <= 0:
            self.uploads.pop(channel)
            is_sure = not self.waiting[channel] and not self.is_leaving and sum(self.published.values()) < 250
            self.published[channel, self.lives[channel]] += is_sure
            self.is_leaving |= not is_sure

    def said(self, channel, method, rest):
        """A method of the client (AMQP 0-9-1 1.5, 1.8)."""
        self.waiting[channel] += method in WAITS
        self.is_leaving |= method in ("000a0032", "00140028")
        if method == "0014000a":
            self.delivered[channel] = {}
            self.lives[channel] += 1
        elif method == "003c0028":
            self.uploads[channel] = 0
        elif method == "003c0014":
            queue = rest[3 + rest[2] :]
            self.requests[channel].append(bool(queue[1 + queue[0]] & 2))
        elif method == "003c0046":
            self.gets[channel].append(bool(rest[3 + rest[2]] & 1))
        elif method in ("003c0050", "003c005a", "003c0078"):
            bits = rest[8]
            is_back = method != "003c0050" and bits & (1 if method == "003c005a" else 2)
            state = ACCEPTED if method == "003c0050" else RELEASED if is_back else REJECTED
            self.settled(channel, int.from_bytes(rest[:8], "big"), method != "003c005a" and bits & 1, state)
        elif method in ("003c006e", "003c0064"):
            self.settled(channel, 0, True, RELEASED)

    def settled(self, channel, tag, multiple, state):
        tags = [t for t in self.delivered[channel] if t == tag or (multiple and (tag == 0 or t < tag))]
        for t in tags:
            self.delivered[channel].pop(t)
            self.counts[channel, state] += 1

    def took(self, channel, unit):
        """A frame that the client has whole."""
        method, rest = method_of(unit), unit[11:]
        if method == "003c0015" and self.requests[channel]:
            self.consumers[channel, rest[1 : 1 + rest[0]]] = self.requests[channel].pop(0)
        elif method == "003c003c":
            tag = rest[1 + rest[0] : 9 + rest[0]]
            self.begins(channel, tag, self.consumers.get((channel, rest[1 : 1 + rest[0]]), True))
        elif method in ("003c0047", "003c0048"):
            is_free = self.gets[channel].pop(0) if self.gets[channel] else True
            if method == "003c0047":
                self.begins(channel, rest[:8], is_free)
        elif unit[0] in (2, 3) and channel in self.contents:
            size = int.from_bytes(unit[11:19], "big") if unit[0] == 2 else self.contents[channel][0] - len(unit) + 8
            self.contents[channel][0] = size
            if size <= 0 and self.contents.pop(channel)[1]:
                self.counts[channel, ACCEPTED] += 1

    def begins(self, channel, tag, is_free):
        """A content begins; one without acks is accepted once it went whole."""
        self.contents[channel] = [0, is_free]
        if not is_free:
            self.delivered[channel][int.from_bytes(tag, "big")] = True


# ---- what must hold


def method_of(unit):
    return unit[7:11].hex() if unit[0] == 1 else None


def is_close(unit):
    return method_of(unit) in ("000a0032", "000a0033")


def is_confirm(unit):
    return method_of(unit) in ("003c0050", "003c0078")


def takes_memory(what, unit):
    """What goes only while the pair hasn't run out."""
    if what == "up got":
        return unit[:4] != b"AMQP" and performative(unit)[0] in (OPEN, BEGIN, ATTACH, FLOW, TRANSFER)
    return what == "client got" and not is_close(unit) and not is_confirm(unit) and unit[0] == 1 and unit[7:9] != b"\0\x14"


class Pair:
    """A pair that ran out of memory, and what it does with ample memory."""

    def __init__(self, number, play, ample):
        self.number, self.lines, self.usual_lines = number, play.lines(number), ample.lines(number)
        self.calls, self.usual = play.calls[number], ample.calls[number]
        both = enumerate(zip(self.calls, self.usual))
        least = min(len(self.calls), len(self.usual))
        self.same = next((k for k, (one, other) in both if one[1:] != other[1:]), least)
        self.events, self.usual_events = list(events_of(self.calls)), list(events_of(self.usual))

    def passed(self):
        """The place of the last call that shows that the pair hadn't run out: a read, a connect, or the first write of what takes memory."""
        places = [k for k, call in enumerate(self.calls[: self.same]) if call[1] in ("read", "connect")]
        took = [place for what, unit, place in self.events if place < self.same and takes_memory(what, unit)]
        return max(places + took, default=-1)

    def units(self, what, behind=False):
        return [unit for name, unit, place in self.events if name == what and (place >= self.same) == behind]

    def usual_units(self, what):
        return [unit for name, unit, _ in self.usual_events if name == what]

    def has(self, what):
        return any(name == what for name, _, _ in self.events)

    def is_cut_off(self, end):
        """The last write to an end took nothing, or its stream ended."""
        counts = [call[4] for call in self.calls if call[1] == "write" and call[2] == end]
        return counts[-1:] == [0] or self.has(("client ended", "up ended")[end])

    def check_calls(self):
        behind = self.calls[self.same :]
        must(all(call[1] in ("write", "shut") for call in behind), "the pair is written and shut alone")
        linked = any(call[1] == "connect" and call[2] for call in self.calls)
        shuts = collections.Counter(call[2] for call in self.calls if call[1] == "shut")
        must(shuts == ({CLIENT: 1, UP: 1} if linked else {CLIENT: 1}), "each end is shut once")
        writes = [call for call in self.calls + self.usual if call[1] == "write"]
        is_taken = all(call[4] == len(call[3]) for call in writes)
        must(not is_taken or len({call[0] for call in behind}) <= 1, "both ends are shut in that turn")

    def check_client(self):
        """What goes to the client: how it is closed."""
        units, usual = self.units("client got", True), self.usual_units("client got")
        confirms, closes = [unit for unit in units if not is_close(unit)], [unit for unit in units if is_close(unit)]
        must(all(is_confirm(unit) and unit in usual for unit in confirms), "only confirms go before the close")
        came = [performative(unit)[0] for unit in self.units("up sent")]
        is_cause = CLOSE in came or self.has("up bad") or self.has("up ended")
        must(not confirms or is_cause, "confirms go only where the container is the cause")
        went = any(map(is_close, self.units("client got")))
        if not closes:
            first = min((place for what, _, place in self.events if what == "client sent"), default=None)
            had_header = first is not None and first < self.passed()
            # Where a limit of time ends the opening no close goes, nor does it with ample memory.
            is_usual = self.same == len(self.calls) == len(self.usual)
            must(went or not had_header or is_usual or self.is_cut_off(CLIENT), "the client gets its close")
            return "no close"
        must(not went and units[-1:] == closes, "one close ends what the client gets")
        if closes == [NO_MEMORY]:
            return "506"
        must(closes != [CLOSE_OK] or "000a0032" in map(method_of, self.units("client sent")), "close-ok answers a close")
        # With ample memory such a close may be due no more, since the client closed or ended in between.
        has_left = CLOSE_OK in usual or any(what == "client ended" for what, _, _ in self.usual_events)
        is_caused = is_cause or has_left or CLOSE in [performative(unit)[0] for unit in self.units("up got")]
        must(closes == [CLOSE_OK] or is_caused or closes[0] in usual, "another close is that of the run with ample memory")
        return "close-ok" if closes == [CLOSE_OK] else "its own close"

    def check_container(self, how):
        """What goes to its container, where the client is closed so."""
        upstream = Upstream(event for event in self.events if event[2] < self.same)
        usual, usual_units = Upstream(self.usual_events), self.usual_units("up got")
        units = self.units("up got", True)
        codes = [performative(unit)[0] for unit in units]
        must(all(code in BYES for code in codes), "only dispositions, detaches, ends and the close go")
        must(codes == sorted(codes), "they go in this order")
        must(not units or upstream.opened, "none goes without an open")
        before = [unit for unit in self.units("up got") if performative(unit)[0] == CLOSE]
        must(how != "506" or before in ([], [LIMIT_EXCEEDED]), "506 isn't told once the container is closed for something else")
        alive = [session for session in upstream.sessions if not session.ended]
        open_ones = {session.number: self.open_deliveries(session) for session in alive}
        for unit in units:
            must(not upstream.closed, "nothing goes behind the close")
            self.check_unit(unit, upstream, usual, usual_units, open_ones, how)
            upstream.went(unit)
        self.check_settled(upstream, usual)
        if upstream.opened and not self.is_cut_off(UP):
            must(upstream.closed, "the container gets its close")
            for session in alive:
                self.check_ended(session, usual, open_ones[session.number])
        return upstream

    def open_deliveries(self, session):
        return {n for n, d in session.deliveries.items() if not d["settled"] and n not in session.covered}

    def check_unit(self, unit, upstream, usual, usual_units, open_ones, how):
        code, channel, fields, _ = performative(unit)
        if code == CLOSE:
            must(how != "506" or unit == LIMIT_EXCEEDED, "506 goes with amqp:resource-limit-exceeded")
            is_other = unit != LIMIT_EXCEEDED or unit in usual_units
            must(how in ("506", "no close") or is_other, "amqp:resource-limit-exceeded goes with 506")
            must(unit in (LIMIT_EXCEEDED, PLAIN_CLOSE) or unit in usual_units, "another close is that of the run with ample memory")
            return
        session = upstream.ours.get(channel)
        must(session and not session.ended, "it is on a session that is there")
        if code == END:
            must(fields[0] is None or unit in usual_units, "the end has an error only where it has with ample memory")
        elif code == DETACH:
            link = session.links.get(fields[0])
            must(link and not link["detached"] and fields[1] is True, "a link is detached once")
            must(fields[2] is None or unit in usual_units, "a detach has an error only where it has with ample memory")
        elif not fields[0]:
            must(fields[3] is True and set(ids_of(fields)) <= set(session.unsettled), "it settles outcomes that wait for that")
        else:
            must(fields[3] is True and set(ids_of(fields)) <= open_ones[session.number], "it settles deliveries that are open")
            state, fates = fields[4][0], usual.sessions[session.number].covered
            is_so = state == RELEASED or (state in (ACCEPTED, REJECTED) and all(fates.get(n) == state for n in ids_of(fields)))
            must(is_so, "a delivery is accepted or rejected only where it is with ample memory")

    def check_settled(self, upstream, usual):
        """No more is accepted or rejected than the client asked for, but for what has no image."""
        asked = Asked(event for event in self.events if event[2] < self.same)
        wholly = Asked(self.usual_events)
        for channel in {session.channel for session in upstream.sessions}:
            accepted = upstream.count(channel, ACCEPTED)
            must(accepted <= asked.counts[channel, ACCEPTED], "no more is accepted than the client acked, or took without acks")
            others = max(usual.count(channel, REJECTED) - wholly.counts[channel, REJECTED], 0)
            rejected = upstream.count(channel, REJECTED)
            must(rejected <= asked.counts[channel, REJECTED] + others, "no more is rejected than the client rejected, or has no image")

    def check_ended(self, session, usual, open_ones):
        """A session that was there has ended, with all that it owed by what came in earlier reads."""
        must(session.ended, "each session is ended")
        last = self.passed()
        must(open_ones & self.fated(session, usual) <= set(session.covered), "each delivery has its disposition")
        late = [link for link in session.links.values() if link["lost"] is not None and link["lost"] < last]
        must(all(link["detached"] for link in late), "each detach is answered")
        ids = [n for n in session.unsettled if session.outcomes[n] < last]
        must(not ids, "each outcome that the container left unsettled is settled")

    def fated(self, session, usual, life=None):
        """The deliveries that came in an earlier read, and that have a disposition or are left with ample memory."""
        left = {int(line.split()[5]) for line in self.usual_lines if life and f"life {life} delivery" in line}
        known, last = set(usual.sessions[session.number].covered) | left, self.passed()
        return {n for n, delivery in session.deliveries.items() if n in known and delivery["place"] < last}

    def check_report(self, upstream, usual):
        memory, closed = f"pair {self.number} memory", f"pair {self.number} closed"
        must(self.lines.count(memory) == 1 and self.lines.count(closed) == 1, "memory and closed are told once")
        must(self.lines[-1] == closed and len(set(self.lines)) == len(self.lines), "closed is the last, and no line comes twice")
        before = self.lines[: self.lines.index(memory)]
        must(before == self.usual_lines[: len(before)], "the lines before are those with ample memory")
        told = [line.split() for line in self.lines if " life " in line]
        fault = None
        for lives in self.numberings(upstream):
            try:
                for session in upstream.sessions:
                    life = lives[session.number]
                    own = {kind: {int(w[5]): w[6] for w in told if w[3:5] == [life, kind]} for kind in ("publish", "delivery")}
                    self.check_publishes(session, own["publish"])
                    self.check_lost(upstream, session, own["publish"], usual, life)
                    self.check_deliveries(session, own["delivery"], usual, life)
                return
            except Wrong as wrong:
                fault = fault or wrong
        if fault:
            raise fault

    def numberings(self, upstream):
        """The numbers that the lives of its sessions may have: in the order of the begins, or of the requests that they are for."""
        yield [str(session.number + 1) for session in upstream.sessions]
        asked = [int.from_bytes(unit[1:3], "big") for unit in self.units("client sent") if method_of(unit) == "0014000a"]
        places = collections.defaultdict(list)
        for number, channel in enumerate(asked, 1):
            places[channel].append(str(number))
        channels = [session.channel for session in upstream.sessions]
        if all(channels.count(channel) <= len(places[channel]) for channel in channels):
            yield [places[channel].pop(0) for channel in channels]

    def check_deliveries(self, session, told, usual, life):
        for number, fate in told.items():
            delivery = session.deliveries[number]
            is_left = not delivery["settled"] and number not in session.covered
            must(is_left if fate == "left" else delivery["settled"], "a delivery was left, or came settled and was lost")
        owed = self.open_deliveries(session) & self.fated(session, usual, life)
        must(owed <= set(told), "a delivery that was read before and has no disposition has its line")

    def check_lost(self, upstream, session, told, usual, life):
        """A publish that was surely taken up, and didn't go, has its line."""
        asked = Asked(event for event in self.events if event[2] < self.passed())
        before = [it for it in upstream.sessions[: session.number] if it.channel == session.channel]
        count = asked.published[session.channel, len(before) + 1]
        known = set(usual.sessions[session.number].publishes.values())
        known |= {int(line.split()[5]) for line in self.usual_lines if f"life {life} publish" in line}
        owed = {number for number in known if number <= count} - set(session.publishes.values())
        must(owed <= set(told), "a publish that was taken up and didn't go has its line")

    def check_publishes(self, session, told):
        begun = set(session.publishes.values())
        for number, fate in told.items():
            must((fate == "unknown") == (number in begun), "a publish is unknown where some of it went, and else lost")
        for at, number in session.publishes.items():
            outcome = session.outcomes.get(at)
            must(outcome is not None or number in told, "a publish that went and has no outcome has its line")
            must(outcome is None or outcome >= self.passed() or number not in told, "one with an outcome has none")
        passed = set(range(1, max(begun, default=0))) - begun
        must(passed <= set(told), "a publish that didn't go has its line, where a later one went")


def deeds_of(calls):
    """The calls of a pair without their turns, and without the reads for which there was nothing."""
    return [call[1:] for call in calls if call[1] != "read" or call[3]]


def judged(play, ample):
    """What came of a run; of a wrong one it begins with WRONG."""
    if play.status.startswith("5,"):
        is_so = play.status.startswith("5, 0 calls") and play.report in ([], ["memory"])
        return "status 5 before any call" if is_so else "WRONG: status 5 behind a call"
    try:
        must(play.status.split(",")[0] in ("0", ample.status.split(",")[0]), "the service goes on to its end")
        must(play.report[-1].split(":")[1] == ample.report[-1].split(":")[1], "as many pairs came")
        short = [pair for pair in ample.calls if f"pair {pair} memory" in play.report]
        must(short, "no pair ran out of memory")
        how = []
        for pair in ample.calls:
            if pair in short:
                one = Pair(pair, play, ample)
                one.check_calls()
                how.append(one.check_client())
                one.check_report(one.check_container(how[-1]), Upstream(one.usual_events))
            else:
                is_same = deeds_of(play.calls[pair]) == deeds_of(ample.calls[pair]) and play.lines(pair) == ample.lines(pair)
                must(is_same, "another pair does what it does with ample memory")
        return f"a pair ran out, and its client got {' and '.join(how)}".replace("got no close", "gets no close")
    except Wrong as wrong:
        return f"WRONG: {wrong}"


# ---- the runs


class Sweep:
    """A scenario, of which each allocation fails in turn."""

    def __init__(self, program, scenario, copies):
        self.program, self.scenario, self.copies = program, scenario, copies
        self.text, self.known = scenario.text(copies), {}
        self.ample, status, words, _ = program.answer(self.text)
        if status or not self.ample:
            raise Wrong(f"the program ends with status {status}: {words[-200:]!r}")

    def outcome(self, answer):
        if answer not in self.known:
            self.known[answer] = self.scenario.judged(called(answer), called(self.ample))
        return self.known[answer]

    def outcomes(self):
        """The number of each allocation of the gateway with what came of its failure, and of that of the next one too."""
        is_alone = self.copies * self.scenario.pairs == 1 and isinstance(self.scenario, Scenario)
        *lines, _, _ = self.text.split(b"\n")
        start = self.program.answer(b"\n".join([*lines, b""]))[3]
        was_answered = is_behind = False
        for number, many, answer, status, words in self.program.answers(self.text, start, 2):
            ran_out = status == 1 and b"OutOfMemory" in words and not answer or UNTOLD in answer
            if status and not ran_out:
                yield number, f"WRONG: the program ends with status {status}: {words[-200:]!r}"
            elif is_behind and not ran_out:
                yield number, "WRONG: the program answers behind an allocation of its own that failed"
            elif is_alone and many == 2 and not ran_out:
                yield number, "WRONG: there is an allocation behind the one that failed"
            elif not ran_out:
                yield number, self.outcome(answer)
                was_answered = True
            is_behind |= many == 1 and was_answered and ran_out
        if not was_answered:
            yield start, "WRONG: the gateway has no allocation"


def shown(program, scenario, copies, number):
    """What came and went of each pair, from a little before its calls differ."""
    text = scenario.text(copies)
    play, ample = Play(called(program.answer(text, f"{number} 1")[0])), Play(called(program.answer(text)[0]))
    print(f"status {play.status}", *play.report, sep=" / ")
    print(f"ample: status {ample.status}", *ample.report, sep=" / ")
    for number in ample.calls:
        pair = Pair(number, play, ample)
        print(f"pair {number}: {len(pair.calls)} calls; from {pair.same} on they differ")
        for what, unit, place in pair.events:
            code, channel, fields, payload = performative(unit) if what.startswith("up") and unit else (None, 0, [], b"")
            said = f"{NAMES[code - OPEN]} {channel} {fields} {payload[:20]}" if code in range(OPEN, CLOSE + 1) else digits(unit)
            print(f"{'*' if place >= pair.same else ' '} {place} {what} {said}")


def parsed():
    parser = argparse.ArgumentParser(description=__doc__, formatter_class=argparse.RawDescriptionHelpFormatter)
    parser.add_argument("--program", type=Path, default=CRATES / "tests_gate" / "out" / "tests_gate")
    parser.add_argument("--pairs", type=int, default=2)
    parser.add_argument("--minutes", type=float, default=1e6)
    parser.add_argument("--list", action="store_true")
    parser.add_argument("--show", type=int)
    parser.add_argument("words", nargs="*")
    return parser.parse_args()


def tried(program, scenario, copies):
    """What came of each allocation of a scenario that failed, with its number."""
    try:
        yield from Sweep(program, scenario, copies).outcomes()
    except Wrong as why:
        yield 0, f"WRONG: {why}"


def main():
    options = parsed()
    found = scenarios(options.words)
    if options.list:
        print(*found, sep="\n")
        return
    if not options.program.exists():
        sys.exit(f"{options.program} isn't there: make it by `rt run` in {CRATES / 'tests_gate'}")
    counts, done, end = collections.Counter(), 0, time.monotonic() + 60 * options.minutes
    with tempfile.TemporaryDirectory() as made:
        program = Program(options.program, Path(made))
        if options.show:
            shown(program, found[options.words[0]], options.pairs, options.show)
            return
        for name, scenario in found.items():
            if time.monotonic() > end:
                break
            done += 1
            is_alone = scenario.pairs == 1 and isinstance(scenario, Scenario) and not scenario.has_fault()
            for copies in sorted({1, options.pairs}) if is_alone else [1]:
                found_wrong = collections.defaultdict(list)
                for number, outcome in tried(program, scenario, copies):
                    counts[outcome.partition(":")[0]] += 1
                    if outcome.startswith("WRONG"):
                        found_wrong[outcome].append(number)
                for outcome, numbers in found_wrong.items():
                    print(f"{name}, {copies} at once: {outcome}: {len(numbers)} allocations, the first {numbers[0]}", flush=True)
    print(f"{done} scenarios of {len(found)}, {program.runs} runs of the program")
    for outcome, count in counts.most_common():
        print(f"{count:8} {outcome}")
    sys.exit(counts["WRONG"] > 0)


if __name__ == "__main__":
    main()
