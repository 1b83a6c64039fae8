#!/usr/bin/env python3
"""Publishes through the gateway to a container that is silent, stingy or dies, with client libraries, over loopback.

    python3 tools/try_awkward.py --container 'COMMAND' [--gateway 'COMMAND'] [--client NAME,NAME..] [--case NAME,NAME..]
                                 [--count COUNT] [--kills COUNT] [--seed SEED]

It starts the container as `COMMAND --port P` and the gateway as `COMMAND serve ..` on a free port; the gateway is
crates/amqp_gate/out/amqp_gate if no command names another. COMMAND is tools/watched_container.py over a container with the rules of
`container.py`. Each client (`pika`, `amqp`, `go`, `php`, `bunny`, `java`) then publishes COUNT messages with confirms in each case:

| Case | The container |
|---|---|
| silent | takes each and never settles one; likewise silent-mandatory, with mandatory messages |
| dry | never grants credit |
| one, late | grants credit one by one; 20 ms late each |
| trickle | grants 7 credits, and no more |
| release | releases each; they are mandatory |
| missing | refuses the link by amqp:not-found; they are mandatory |
| drop, kick, forced, cut | detaches the link, ends the session, closes, or cuts the connection behind the tenth |
| client-killed | is silent, and the client is killed |
| silent-killed, dry-killed | is silent, and is killed once it has all; grants no credit, and is killed after 2 s |
| dying | is killed at a random moment while messages of a random size go, KILLS times |

What each client was told is held against what the container told and the gateway reported: an ack comes only after the
container's accepted; a nack comes where there was another outcome, or none, and then the report has the publish; it has each other
publish without an outcome too; `lost` is none that the container saw; and what comes back was mandatory, and released or refused. Where a
case has only one answer, the counts are compared too. What doesn't hold is printed, and the status is then 1. No part of the build runs this.
"""

import argparse
import collections
import os
import random
import shlex
import subprocess
import sys
import tempfile
import time

from try_container import BUILT, CLIENTS, GO_PATH, JARS, end, free_port, wait_for

# what is published where, and how often it is acked, nacked, returned, told as lost and as unknown, in parts of COUNT
Case = collections.namedtuple("Case", "address wait flags counts count", defaults=((), None, 0))
CASES = {
    "silent": Case("mute.3", 1, (), (0, 0, 0, 0, 1)),
    "silent-mandatory": Case("mute.3", 1, ("mandatory",), (0, 0, 0, 0, 1)),
    "dry": Case("nocredit.3", 1, (), (0, 0, 0, 1, 0)),
    "one": Case("one.3", 60, (), (1, 0, 0, 0, 0)),
    "late": Case("late.20", 60, (), (1, 0, 0, 0, 0)),
    "trickle": Case("trickle.7", 5),
    "release": Case("release.3", 60, ("mandatory",), (0, 1, 1, 0, 0)),
    "missing": Case("missing.3", 60, ("mandatory",), (0, 1, 1, 1, 0)),
    "drop": Case("drop.10", 60),
    "kick": Case("kick.10", 60),
    "forced": Case("forced.10", 60),
    "cut": Case("cut.10", 60),
    "client-killed": Case("mute.3", 60, (), (0, 0, 0, 0, 1)),
    "silent-killed": Case("mute.3", 60, (), (0, 1, 0, 0, 1)),
    "dry-killed": Case("nocredit.3", 60),
    "dying": Case("sent.3", 60),
}


def commands(folder):
    """The program of each client, built in a folder."""
    at = lambda name: os.path.join(CLIENTS, name)
    go = os.path.join(folder, "pend")
    settings = {**os.environ, "GOPATH": GO_PATH, "GO111MODULE": "off", "GOCACHE": "/tmp/go-cache"}
    builds = {"go": ["go", "build", "-o", go, at("pend.go")], "java": ["javac", "-cp", JARS, "-d", folder, at("Pend.java")]}
    commands = {
        "pika": [sys.executable, at("pend_pika.py")],
        "amqp": [sys.executable, at("pend_amqp.py")],
        "go": [go],
        "php": ["php", at("pend.php")],
        "bunny": ["ruby", at("pend.rb")],
        "java": ["java", "-cp", f"{folder}:{JARS}", "Pend"],
    }
    return lambda name: (name in builds and subprocess.run(builds.pop(name), check=True, env=settings), commands[name])[1]


class Tail:
    """The whole lines of a file that grows."""

    def __init__(self, path):
        self.file, self.rest = open(path), ""

    def lines(self):
        *whole, self.rest = (self.rest + self.file.read()).split("\n")
        return [line.split() for line in whole]


class Rig:
    """A container, which can be killed and started again, and the gateway in front of it."""

    def __init__(self, options, folder):
        self.options, self.folder = options, folder
        self.up_port, self.port, self.pairs = free_port(), free_port(), 0
        self.container = self.gateway = None
        self.start()
        words = ["serve", "--listen", f"127.0.0.1:{self.port}", "--upstream", f"127.0.0.1:{self.up_port}"]
        with open(self.at("report"), "w") as out, open(self.at("errors"), "w") as errors:
            self.gateway = subprocess.Popen([*shlex.split(options.gateway), *words], stdout=out, stderr=errors)
        wait_for(self.port, self.gateway)
        self.report, self.told = Tail(self.at("report")), []

    def at(self, name):
        return os.path.join(self.folder, name)

    def start(self):
        if self.container and self.container.poll() is None:
            return
        with open(self.at("container"), "w") as said:
            command = [*shlex.split(self.options.container), "--port", str(self.up_port)]
            self.container = subprocess.Popen(command, stdout=said)
        wait_for(self.up_port, self.container)
        if self.gateway:
            # It listens again once it has reached the container.
            wait_for(self.port, self.gateway)
        self.log = Tail(self.at("container"))

    def kill(self):
        self.container.kill()
        self.container.wait()

    def stop(self):
        for program in (self.gateway, self.container):
            if program:
                end(program)

    def taken(self):
        """What the container told since it was asked last: the outcome and the moment of each message."""
        return {int(row[2][1:]): (row[4], int(row[5])) for row in self.log.lines() if row[0] == "told"}

    def lines(self):
        """The report's lines of the next pair, once it is closed: what each publish without an outcome is told as."""
        until, ends = time.monotonic() + 30, ["pair", str(self.pairs), "closed"]
        while ends not in self.told and time.monotonic() < until:
            time.sleep(0.01)
            self.told += self.report.lines()
        if ends not in self.told:
            sys.exit(f"pair {self.pairs} isn't closed")
        place = self.told.index(ends)
        found, self.told = self.told[:place], self.told[place + 1 :]
        wrong = [row for row in found if row[:5] != [*ends[:2], "life", "1", "publish"]]
        assert not wrong and len({row[5] for row in found}) == len(found), found
        self.pairs += 1
        return {int(row[5]): row[6] for row in found}


def judge(case, said, taken, lines):
    """What was told of each message, and what doesn't hold of it."""
    confirms, returns, ends, faults = {}, collections.Counter(), "killed", []
    for line in said:
        word, *rest = line.split()
        if word in ("ack", "nack"):
            faults += [f"confirmed twice: {line}"] if int(rest[0]) in confirms else []
            confirms[int(rest[0])] = word, int(rest[1])
        elif word == "return":
            returns[int(rest[0])] += 1
        else:
            ends = line
    for number in {*confirms, *taken, *lines, *(range(1, case.count + 1) if ends.startswith("closed") else ())}:
        word, moment = confirms.get(number, ("none", 0))
        outcome, told = taken.get(number, ("nothing", 0))
        fine = {
            "ack": outcome == "accepted" and told < moment and number not in lines,
            "nack": number in lines or outcome not in ("accepted", "none", "nothing"),
            "none": number in lines,
        }
        seen = f"message {number}: {word}, the container told {outcome}, the report {lines.get(number)}"
        faults += [] if fine[word] else [seen]
        faults += [f"{seen}: lost"] if lines.get(number) == "lost" and number in taken else []
        back = "mandatory" in case.flags and (outcome == "released" or case.address.startswith("missing"))
        faults += [] if returns[number] == back else [f"{seen}: returned {returns[number]} times"]
    words = collections.Counter(word for word, _ in confirms.values())
    of = collections.Counter(lines.values())
    counts = words["ack"], words["nack"], sum(returns.values()), of["lost"], of["unknown"]
    if case.counts and counts != tuple(part * case.count for part in case.counts):
        faults.append(f"the counts aren't {case.counts} times {case.count}")
    return counts, ends, faults


def go(rig, command, title, case, size):
    """One run of a client in a case: what it was told, and how long it took."""
    rig.start()
    rig.taken()
    words = [*command, rig.port, f"{case.address}.{rig.pairs}", case.count, size, case.wait, *case.flags]
    path = rig.at("client")
    began = time.monotonic()
    with open(path, "w") as out, open(rig.at("client-errors"), "w") as errors:
        client = subprocess.Popen([str(word) for word in words], stdout=out, stderr=errors)
    taken = {}
    try:
        if title in ("dying", "client-killed", "silent-killed"):
            wanted = 1 if title == "dying" else case.count
            while len(taken) < wanted and client.poll() is None:
                time.sleep(0.002)
                taken.update(rig.taken())
        elif title == "dry-killed":
            time.sleep(2)
        if title == "dying":
            time.sleep(random.uniform(0, 0.3))
        if title == "client-killed":
            client.kill()
        elif title.endswith("killed") or title == "dying":
            rig.kill()
        client.wait(120)
    except subprocess.TimeoutExpired:
        print(f"  FAULT: {title}: the client goes on", flush=True)
    finally:
        client.kill()
        client.wait()
    took = time.monotonic() - began
    lines = rig.lines()
    taken.update(rig.taken())
    with open(path) as said:
        return judge(case, said.read().splitlines(), taken, lines), took


def tell(name, title, counts, ends, took, faults):
    acks, nacks, returns, lost, unknown = counts
    report = f"{lost} lost, {unknown} unknown"
    print(f"{name} {title}: {acks} acks, {nacks} nacks, {returns} returns; {report}; {ends}; {took:.1f} s", flush=True)
    for fault in faults[:5]:
        print(f"  FAULT: {fault}", flush=True)
    return len(faults)


def dying(rig, name, command, options):
    """Kills the container again and again while messages go."""
    sums, words, faults, cut = [0] * 5, collections.Counter(), [], 0
    began = time.monotonic()
    for _ in range(options.kills):
        case = CASES["dying"]._replace(count=5000)
        size = random.choice((100, 10_000, 100_000))
        (counts, ends, some), _ = go(rig, command, "dying", case, size)
        sums = [a + b for a, b in zip(sums, counts)]
        words[ends.split(" (")[0][:150]] += 1
        faults += some
    return tell(name, f"dying, {options.kills} times", sums, dict(words), time.monotonic() - began, faults)


def main():
    parser = argparse.ArgumentParser(description=__doc__, formatter_class=argparse.RawDescriptionHelpFormatter)
    parser.add_argument("--container", required=True)
    parser.add_argument("--gateway", default=BUILT)
    parser.add_argument("--client", default="pika,amqp,go,php,bunny,java")
    parser.add_argument("--case", default=",".join(CASES))
    parser.add_argument("--count", type=int, default=100)
    parser.add_argument("--kills", type=int, default=20)
    parser.add_argument("--seed", type=int, default=1)
    options = parser.parse_args()
    random.seed(options.seed)
    faults = 0
    with tempfile.TemporaryDirectory() as folder:
        command = commands(folder)
        rig = Rig(options, folder)
        try:
            for name in options.client.split(","):
                for title in options.case.split(","):
                    if title == "dying":
                        faults += dying(rig, name, command(name), options)
                        continue
                    (counts, ends, some), took = go(rig, command(name), title, CASES[title]._replace(count=options.count), 1000)
                    faults += tell(name, title, counts, ends, took, some)
        finally:
            rig.stop()
        with open(rig.at("errors")) as errors:
            print(f"the gateway's standard error: {collections.Counter(line.strip() for line in errors)}")
    print(f"{faults} faults")
    sys.exit(1 if faults else 0)


if __name__ == "__main__":
    main()
