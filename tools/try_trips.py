#!/usr/bin/env python3
"""Lets client libraries send, take and show many messages through the gateway, and compares what each end tells, over loopback.

    python3 tools/try_trips.py --container 'COMMAND' [--gateway 'COMMAND'] [--client NAME,NAME..] [--words 'WORD ..']
                               [--seed SEED] take [--count COUNT] [--how WORD,WORD..] [--prefetch COUNT] [--most BYTES] [--quorum PORT]
                             | send [--count COUNT] [--most BYTES] [--total BYTES] [--key NAME,NAME..] [--broker PORT]
                             | show [--port PORT]

It starts the container as `COMMAND --port P` and the gateway as `COMMAND serve ..` on a free port; the gateway is
crates/amqp_gate/out/amqp_gate if no command names another. COMMAND is tools/watched_container.py over a container's file.
The clients are `pika`, `amqp`, `go`, `php`, `bunny` and `java`, by the programs `trip` of tools/clients.

- take: COUNT messages of 0 to MOST bytes are published, and each client takes them as each word says: it acks each, ten at a time, rejects
  each, sends each back once and then acks it, consumes without acks, or gets each and acks it (`ack`, `multiple`, `reject`,
  `requeue`, `none`, `get`).
  Each delivery must have its body, and the container must have seen exactly these outcomes, each of its message.
  With `--quorum` COMMAND is tools/watched_broker.py before a RabbitMQ whose port for AMQP 0-9-1 is PORT. Each queue is declared there
  as a durable quorum queue, whose address is /amq/queue/NAME. Behind its consumer it must be empty, and is deleted. What is
  rejected goes to a second such queue, which must have each of these messages once.
- send: each client publishes COUNT bodies of 0 to MOST bytes, TOTAL together or so, with confirms, and with twelve properties
  and four headers that are each message's own. Each must be in the container once with an equal body, properties and headers,
  where it was acked with the outcome accepted, told before the ack; and where it was nacked with another outcome, or none.
  With `--broker` COMMAND is tools/watched_broker.py before a broker whose port for AMQP 1.0 is PORT. Each queue is read there behind its
  publishes, without the gateway.
- show: each client publishes a message with all fourteen properties, as far as its library knows them, and a header of each
  kind that it can write. Each client shows each of these. With `--port` the same goes through the broker of AMQP 0-9-1 at
  PORT, which must have the queues `trip-WORD-NAME-NAME`, and what differs is printed.

What doesn't hold is printed, and the status is then 1. No part of the build runs this.
"""

import argparse
import collections
import hashlib
import json
import os
import random
import shlex
import subprocess
import sys
import tempfile
import time

from quorum_queue import QuorumQueue
from try_container import BUILT, CLIENTS, GO_PATH, JARS, end, free_port, wait_for
from watched_broker import fetched
from watched_container import hashed

FINE = {"ack": ["accepted"], "multiple": ["accepted"], "reject": ["rejected"], "requeue": ["released", "accepted"],
        "none": ["accepted"], "get": ["accepted"]}


class Programs:
    """The programs of the client libraries, built in a folder."""

    def __init__(self, folder):
        at = lambda name: os.path.join(CLIENTS, name)
        go = os.path.join(folder, "trip")
        self.environment = {**os.environ, "GOPATH": GO_PATH, "GO111MODULE": "off", "GOCACHE": "/tmp/go-cache"}
        self.builds = {"go": ["go", "build", "-o", go, at("trip.go")],
                       "java": ["javac", "-cp", JARS, "-d", folder, at("Trip.java")]}
        self.commands = {
            "pika": [sys.executable, at("trip_pika.py")],
            "amqp": [sys.executable, at("trip_amqp.py")],
            "go": [go],
            "php": ["php", at("trip.php")],
            "bunny": ["ruby", at("trip.rb")],
            "java": ["java", "-cp", f"{folder}:{JARS}", "Trip"],
        }

    def build(self, name):
        if name in self.builds:
            subprocess.run(self.builds.pop(name), check=True, env=self.environment)

    def run(self, name, *words):
        """The lines that a program tells."""
        self.build(name)
        words = [*self.commands[name], *map(str, words)]
        ran = subprocess.run(words, stdout=subprocess.PIPE, stderr=subprocess.PIPE, text=True)
        if ran.returncode or ran.stderr:
            print(f"  {name}: status {ran.returncode}: {ran.stderr.strip()[-500:]}")
        return ran.stdout.splitlines()


class Log:
    """What the container told, read as it grows."""

    def __init__(self, path):
        self.file = open(path)

    def lines(self):
        return [line.split() for line in self.file if line.startswith(("told ", "gave ", "requeued ", "outcome "))]


class Bodies:
    """Bodies of given sizes, each a part of one random text that begins at its number."""

    def __init__(self, folder, sizes):
        self.sizes, self.pool = os.path.join(folder, "sizes"), os.path.join(folder, "pool")
        pool = random.randbytes(max(sizes) + len(sizes))
        with open(self.sizes, "w") as numbers, open(self.pool, "wb") as text:
            numbers.write(" ".join(map(str, sizes)))
            text.write(pool)
        self.hashes = {f"m{i}": hashlib.sha1(pool[i : i + size]).hexdigest() for i, size in enumerate(sizes)}


class Faults:
    """What doesn't hold, by its kind; the first three of each kind are shown."""

    def __init__(self):
        self.count, self.found = 0, collections.defaultdict(list)

    def note(self, what, some):
        self.found[what].extend(some)

    def tell(self):
        for what, some in self.found.items():
            if some:
                self.count += len(some)
                print(f"  FAULT: {what}: {len(some)}, as {some[:3]}", flush=True)
        self.found.clear()


def judge_take(faults, how, bodies, said, told):
    """What a client told of its deliveries, and the container of their outcomes."""
    lines = [line.split() for line in said if line[:2] in ("0 ", "1 ")]
    faults.note("other lines of the client", [line for line in said if line[:2] not in ("0 ", "1 ")])
    got, outcomes = collections.defaultdict(list), collections.defaultdict(list)
    for redelivered, name, hashed in lines:
        got[name].append((redelivered, hashed))
    for word, _, *rest in told:
        faults.note("sent back by the container", [rest] if word == "requeued" else [])
        if word == "gave":
            outcomes[rest[0]].append((rest[2], rest[1]))
    for name, hashed in bodies.hashes.items():
        times = len(FINE[how])
        flags = [str(k) if COUNTED else "0" for k in range(times)]
        if got[name] != [(flags[k], hashed) for k in range(times)]:
            faults.note("came otherwise", [(name, got[name])])
        if outcomes[name] != [(word, hashed) for word in FINE[how]]:
            faults.note("was settled otherwise", [(name, outcomes[name])])
    first = [name for k, (_, name, _) in enumerate(lines) if how != "requeue"]
    faults.note("deliveries out of order", [] if how == "requeue" or first == list(bodies.hashes) else ["order"])
    counts = collections.Counter(word for words in outcomes.values() for word, _ in words)
    again = sum(redelivered == "1" for redelivered, _, _ in lines)
    return f"{len(lines)} came, {again} as redelivered; the container saw {dict(counts)}"


def judge_dead(faults, bodies, letters):
    """What was rejected, as the broker's queue of dead letters has it."""
    counts = collections.Counter(hashlib.sha1(body).hexdigest() for body in letters)
    wanted = collections.Counter(bodies.hashes.values())
    faults.note("aren't dead letters, each once", sorted((wanted - counts).elements()))
    faults.note("are dead letters that weren't rejected", sorted((counts - wanted).elements()))
    print(f"  {len(letters)} dead letters", flush=True)


def take(options, programs, port, log, folder, faults):
    bodies = Bodies(folder, [random.randrange(options.most + 1) for _ in range(options.count)])
    for name in options.client.split(","):
        for how in options.how.split(","):
            queue, dead, quorum = f"take-{name}-{how}", None, None
            if options.quorum:
                dead = QuorumQueue(options.quorum, f"{queue}-dead") if how == "reject" else None
                quorum = QuorumQueue(options.quorum, queue, dead=dead)
                queue = quorum.address
            acks = sum(line.startswith("ack ") for line in programs.run("go", port, "send", queue, bodies.sizes, bodies.pool))
            faults.note("not published", range(options.count - acks))
            log.lines()
            began = time.monotonic()
            prefetch = 0 if how == "none" else options.prefetch
            words = [how, queue] if how == "get" else ["take", queue, how]
            said = programs.run(name, port, *words, options.count, *[prefetch] * (how != "get"))
            took = time.monotonic() - began
            print(f"{name} {how}: {judge_take(faults, how, bodies, said, log.lines())}; {took:.1f} s", flush=True)
            if quorum:
                faults.note("are left in the queue", [f"{queue} {k}" for k in range(quorum.length())])
                quorum.delete()
            if dead:
                judge_dead(faults, bodies, dead.taken())
                dead.delete()
            faults.tell()


def sizes_of(options):
    """Sizes of 0 to MOST, small ones more often, so that they are TOTAL together or so; and the edges of frames."""
    power = options.most * options.count / options.total - 1
    edges = [size for size in (0, 1, 4088, 65536, 131063, 131064, 131065, options.most) if size <= options.most]
    sizes = [int(options.most * random.random() ** power) for _ in range(options.count - len(edges))] + edges
    random.shuffle(sizes)
    return sizes


def rest_of_number(key, i):
    """What `rest_of` makes of the properties and headers that each library's program gives message i."""
    return hashed([
        i % 2 == 1, 1 + i % 9, (86400000 + i) / 1000, f"m{i}", b"guest".hex(), None, key, "answers", f"c{i}", "text/plain", "utf-8",
        1700000000.0 + i, {"number": i, "text": f"größe {i}", "even": i % 2 == 0},
        {"x-opt-091-type": f"t{i}", "x-opt-091-app-id": "shop", "x-opt-091-headers": {"inner": {"number": i}}},
    ])


def told_by_broker(port, key, count, outcomes):
    """What a broker's queue has, each with its outcome: the n-th publish of a connection has the delivery-id n."""
    of = {}
    for _, first, last, word, moment in outcomes:
        of.update((f"m{i}", (word, moment)) for i in range(int(first), int(last) + 1))
    return [["told", key, name, hashed, *of.get(name, ("none", "0")), rest] for name, hashed, rest in fetched(port, key, count)]


def judge_send(faults, key, bodies, said, told):
    """What a client told of its confirms, and the container of what it took."""
    confirms = {}
    for line in said:
        word, *rest = line.split()
        if word not in ("ack", "nack"):
            faults.note("other lines of the client", [line])
        else:
            faults.note("confirmed twice", [rest[0]] if rest[0] in confirms else [])
            confirms["m" + rest[0]] = (word, int(rest[1]))
    taken = collections.defaultdict(list)
    for word, _, *rest in told:
        if word == "told":
            taken[rest[0]].append((rest[1], rest[2], int(rest[3]), rest[4]))
    waits = []
    for name, hashed in bodies.hashes.items():
        found = taken[name]
        word, moment = confirms.get(name, ("none", 0))
        if len(found) != 1 or found[0][0] != hashed:
            faults.note("isn't there once with its body", [(name, word, found)])
        elif found[0][3] != rest_of_number(key, int(name[1:])):
            faults.note("has other properties or headers", [name])
        elif word == "ack" and (found[0][1] != "accepted" or moment < found[0][2]):
            faults.note("was acked, and not accepted before", [(name, moment, found)])
        elif word != "ack" and found[0][1] == "accepted":
            faults.note("was accepted, and not acked", [(name, word)])
        elif word in ("ack", "nack") and found[0][1] != "none":
            waits.append(moment - found[0][2])
    counts = collections.Counter(word for word, _ in confirms.values())
    outcomes = collections.Counter(one[1] for found in taken.values() for one in found)
    least = f", no confirm before {min(waits) / 1e6:.3f} ms behind the outcome" if waits else ""
    return f"{dict(counts)}; the container told {dict(outcomes)}{least}"


def send(options, programs, port, log, folder, faults):
    bodies = Bodies(folder, sizes_of(options))
    total = sum(map(int, open(bodies.sizes).read().split()))
    print(f"{options.count} bodies, {total:,} bytes")
    for name in options.client.split(","):
        for key in options.key.split(","):
            log.lines()
            began = time.monotonic()
            said = programs.run(name, port, "send", key, bodies.sizes, bodies.pool)
            took = time.monotonic() - began
            told = log.lines()
            if options.broker:
                told = told_by_broker(options.broker, key, options.count, told)
            print(f"{name} to {key}: {judge_send(faults, key, bodies, said, told)}; {took:.1f} s", flush=True)
            faults.tell()


def differences(path, one, two):
    """Where two values of JSON differ."""
    if isinstance(one, dict) and isinstance(two, dict):
        for name in sorted({*one, *two}):
            yield from differences(f"{path}.{name}" if path else name, one.get(name), two.get(name))
    elif one != two or type(one) is not type(two):
        yield f"{path}: {json.dumps(one, ensure_ascii=False)} and {json.dumps(two, ensure_ascii=False)}"


def shown(programs, names, port):
    """What each client shows of the messages of each."""
    found = {}
    for sender in names:
        for verb in ("rich", "rare") if sender in ("go", "php", "java") else ("rich",):
            for taker in names:
                queue = f"trip-{verb}-{sender}-{taker}"
                said = programs.run(sender, port, verb, queue)
                if not said[:1] or said[0].startswith(("nack", "error")) or said[0] == "confirmed false":
                    print(f"  {sender} {verb}: {said}")
                lines = programs.run(taker, port, "show", queue, 1)
                found[sender, verb, taker] = json.loads(lines[0]) if lines[:1] and lines[0][:1] == "{" else {"error": lines}
    return found


def show(options, programs, port, log, folder, faults):
    names = options.client.split(",")
    found = shown(programs, names, port)
    for sender, verb, taker in found:
        if sender == taker:
            said = json.dumps(found[sender, verb, taker], ensure_ascii=False, sort_keys=True)
            print(f"{sender} shows its own, {verb}: {said}")
    if options.port:
        straight = shown(programs, names, options.port)
        for key, said in found.items():
            differ = list(differences("", straight[key], said))
            print(f"{key[0]} to {key[2]}, {key[1]}: {'; '.join(differ) or 'equal'}")
    for name in names:
        print(f"{name} sends a decimal: {programs.run(name, port, 'decimal', 'decimals')}")


def main():
    parser = argparse.ArgumentParser(description=__doc__, formatter_class=argparse.RawDescriptionHelpFormatter)
    parser.add_argument("--container", required=True)
    parser.add_argument("--gateway", default=BUILT)
    parser.add_argument("--client", default="pika,amqp,go,php,bunny,java")
    parser.add_argument("--words", default="")
    parser.add_argument("--seed", type=int, default=1)
    verbs = parser.add_subparsers(dest="verb", required=True)
    of_take, of_send, of_show = verbs.add_parser("take"), verbs.add_parser("send"), verbs.add_parser("show")
    for verb in (of_take, of_send):
        verb.add_argument("--count", type=int, default=10000)
    of_take.add_argument("--how", default=",".join(FINE))
    of_take.add_argument("--prefetch", type=int, default=50)
    of_take.add_argument("--most", type=int, default=300)
    of_take.add_argument("--quorum", type=int)
    of_send.add_argument("--most", type=int, default=1 << 20)
    of_send.add_argument("--total", type=int, default=500_000_000)
    of_send.add_argument("--key", default="sent")
    of_send.add_argument("--broker", type=int)
    of_show.add_argument("--port", type=int)
    options = parser.parse_args()
    global COUNTED
    COUNTED = "--count-redelivery" in options.container
    random.seed(options.seed)
    faults = Faults()
    with tempfile.TemporaryDirectory() as folder:
        at = lambda name: os.path.join(folder, name)
        up_port, port = free_port(), free_port()
        with open(at("container"), "w") as said, open(at("report"), "w") as out, open(at("errors"), "w") as errors:
            container = subprocess.Popen([*shlex.split(options.container), "--port", str(up_port)], stdout=said)
            words = ["serve", "--listen", f"127.0.0.1:{port}", "--upstream", f"127.0.0.1:{up_port}"]
            gateway = None
            try:
                wait_for(up_port, container)
                gateway = subprocess.Popen(
                    [*shlex.split(options.gateway), *words, *shlex.split(options.words)], stdout=out, stderr=errors
                )
                wait_for(port, gateway)
                {"take": take, "send": send, "show": show}[options.verb](
                    options, Programs(folder), port, Log(at("container")), folder, faults
                )
            finally:
                for program in (gateway, container):
                    if program:
                        end(program)
        for name in ("report", "errors"):
            lines = [line for line in open(at(name)).read().splitlines() if not line.endswith(" closed")]
            print(f"{name}: {lines[:20]}")
    print(f"{faults.count} faults")
    sys.exit(1 if faults.count else 0)


if __name__ == "__main__":
    main()
