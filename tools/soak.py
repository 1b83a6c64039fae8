#!/usr/bin/env python3
"""Lets clients publish and consume through the gateway for hours, while clients, the container and the gateway are killed.

    python3 tools/soak.py HOURS [--program FILE] [--clients COUNT] [--epoch SECONDS] [--seed SEED] [--keep FOLDER]

It starts the gateway (crates/amqp_gate/out/amqp_gate) and a container of its own on free ports of 127.0.0.1, epoch by epoch (40 seconds
each). In an epoch COUNT clients (8) connect again and again. Each publishes to the queue of its number with confirms, consumes from it
with a prefetch of 10, and acks, rejects or requeues what comes. Now and then a client is cut off, and the container is killed by SIGKILL
and started anew, without what its queues held. Half of the epochs end in a SIGKILL of the gateway, the others in closes.

Container and clients log what they do before they do it, and what they are told. Behind each epoch the logs are held against one
another and against the report:

- An ack comes only for a publish that the container accepted before, and a nack only for one that it didn't accept.
- What the container accepted 8 seconds before its client closed is acked, where the connection lasted up to its close-ok.
- A publish without an outcome has its line in the report, where its transfer went `unknown`, else `lost`, and no other has one.
- The container is told `accepted` only of a delivery that its client acked, and `rejected` only of one that it rejected.
- Each delivery that came to a client, or came 5 seconds before the session ended, is settled by the gateway, or has its line `left`.
- Nothing comes twice in a life: no confirm, no transfer, no delivery, no settlement, no line.

What the gateway owes once it is killed itself isn't asked for. The last lines have the counts; the status is 1 where something is wrong,
and its epoch's logs are kept in FOLDER. SEED is printed. No part of the build runs this.
"""

import argparse
import collections
import json
import os
import random
import re
import signal
import socket
import struct
import subprocess
import sys
import tempfile
import threading
import time

from try_hostile import LOGIN, free_port
from wire import ACCEPTED, ATTACH, BEGIN, CLIENT, CLOSE, DETACH, DISPOSITION, END, FLOW, HEADER_10, HEADER_SASL, INIT, OPEN
from wire import REJECTED, RELEASED, TRANSFER, UP
from wire import Stream, arguments, described, frame, frame10, frame_10, long, method, method_of, plain, short, symbol, ushort

BUILT = "crates/amqp_gate/out/amqp_gate"
STATES = {ACCEPTED: "accepted", REJECTED: "rejected", RELEASED: "released", 0x27: "modified"}
# What the container accepts so many seconds before a client closes is acked before.
SOON = 8.0
# What the container sends so many seconds before an end comes was read by the gateway before it.
CROSSING = 5.0
LINE = re.compile(r"pair (\d+) life 1 (publish|delivery) (\d+) (\w+)")


class Log:
    """Lines of JSON, each written at once with its moment."""

    def __init__(self, path):
        self.file = os.open(path, os.O_WRONLY | os.O_CREAT | os.O_APPEND, 0o600)

    def put(self, *words):
        os.write(self.file, (json.dumps([time.monotonic(), *words]) + "\n").encode())


def logged(path):
    """The entries of a log. The last line may be cut off by a kill."""
    with open(path) as file:
        return [json.loads(line) for line in file if line.endswith("\n")]


# ---- the container


class Queues:
    """The queues of a container, and who takes from each."""

    def __init__(self):
        self.lock, self.held, self.takers = threading.RLock(), collections.defaultdict(collections.deque), []

    def put(self, queue, body, first=False):
        with self.lock:
            (self.held[queue].appendleft if first else self.held[queue].append)(body)
            for link in [link for link in self.takers if link.queue == queue]:
                link.offer()


class Sender:
    """A link on which a queue's messages go to the gateway."""

    def __init__(self, session, handle, queue):
        self.session, self.handle, self.queue, self.credit, self.count = session, handle, queue, 0, 0

    def offer(self):
        held = self.session.queues.held[self.queue]
        while self.credit and held and self.session.is_open:
            self.credit -= 1
            self.count += 1
            self.session.deliver(self, held.popleft())


class Connection:
    """One connection of the gateway, with one session at a time on each channel."""

    def __init__(self, stream, number, queues, log, rng):
        self.stream, self.number, self.queues, self.log, self.rng = stream, number, queues, log, rng
        self.name, self.is_open, self.parts = None, True, b""
        self.next_id, self.unsettled, self.receivers, self.senders = 0, {}, {}, {}

    def send(self, *units):
        try:
            self.stream.sendall(b"".join(units))
        except OSError:
            self.is_open = False

    def deliver(self, link, body):
        number, self.next_id = self.next_id, self.next_id + 1
        self.unsettled[number] = (link.queue, body)
        self.log.put("sends", self.name, number, body)
        payload = described(0x73, None, None, None, link.queue.encode())[0] + b"\0\x53\x75\xa0" + short(body.encode())
        self.send(frame10(1, TRANSFER, link.handle, number, bytearray(b"%d" % number), 0, False, payload=payload))

    def serve(self):
        stream = Stream(UP)
        try:
            while self.is_open and (data := self.stream.recv(65_536)):
                for unit in stream.units(data):
                    with self.queues.lock:
                        self.hear(unit)
        except OSError:
            pass
        with self.queues.lock:
            self.is_open = False
            self.log.put("ends", self.name)
            self.give_back(list(self.unsettled))
            self.queues.takers = [link for link in self.queues.takers if link.session is not self]
        self.stream.close()

    def give_back(self, numbers):
        for number in reversed(numbers):
            queue, body = self.unsettled.pop(number)
            self.queues.put(queue, body, first=True)

    def hear(self, unit):
        if unit[:4] == b"AMQP":
            mechanisms = frame10(0, 0x40, symbol(b"PLAIN"), kind=1)
            self.send(*([HEADER_SASL, mechanisms] if unit == HEADER_SASL else [HEADER_10]))
            return
        told = frame_10(unit)
        act = {INIT: self.init, OPEN: self.open, BEGIN: self.begin, ATTACH: self.attach, FLOW: self.flow, TRANSFER: self.transfer}
        act |= {DISPOSITION: self.disposition, DETACH: self.detach, END: self.end, CLOSE: self.close}
        if told.code is not None:
            act[told.code](plain(told), told)

    def init(self, *_):
        self.send(frame10(0, 0x44, (b"\x50\0",), kind=1))

    def open(self, fields, _):
        self.name = fields[0].decode()
        self.log.put("opens", self.name)
        self.send(frame10(0, OPEN, b"soak", None, 65_536, ushort(255)))

    def begin(self, *_):
        self.send(frame10(1, BEGIN, ushort(1), 0, 100_000, 100_000, 255))

    def attach(self, fields, _):
        name, handle, is_receiver = fields[0], fields[1], fields[2]
        source, target = described(0x28), described(0x29)
        if is_receiver:
            queue = fields[5].value[0].value.decode()
            link = self.senders[handle] = Sender(self, handle, queue)
            source = described(0x28, queue.encode())
            self.queues.takers.append(link)
        else:
            self.receivers[handle] = fields[6].value[0].value.decode()
            target = described(0x29, self.receivers[handle].encode())
        ends = source, target, None, None, 0 if is_receiver else None
        self.send(frame10(1, ATTACH, bytes(name), handle, not is_receiver, (b"\x50\0",), (b"\x50\0",), *ends))
        if not is_receiver:
            self.send(frame10(1, FLOW, 0, 100_000, 0, 100_000, handle, 0, 100_000))

    def flow(self, fields, _):
        link = self.senders.get(fields[4])
        if link:
            link.credit = (fields[5] or 0) + fields[6] - link.count
            link.offer()
            if fields[8]:
                link.count += link.credit
                link.credit = 0
                self.send(frame10(1, FLOW, 0, 100_000, 0, 100_000, link.handle, link.count, 0, None, True))

    def transfer(self, fields, told):
        self.parts += told.payload
        if fields[1] is not None:
            self.carried = fields[0], fields[1], int.from_bytes(fields[2], "big")
        if fields[5]:
            return
        handle, number, tag = self.carried
        body, self.parts = body_in(self.parts), b""
        state = self.rng.choices((ACCEPTED, REJECTED, RELEASED, 0x27, None), (912, 30, 30, 25, 3))[0]
        self.log.put("takes", self.name, tag, body, STATES.get(state))
        if state is not None:
            self.send(frame10(1, DISPOSITION, True, number, None, True, described(state)))
        if state == ACCEPTED:
            self.queues.put(self.receivers[handle], body)

    def disposition(self, fields, told):
        first, last, state = fields[1], fields[1] if fields[2] is None else fields[2], told.fields[4].kind
        for number in range(first, last + 1) if fields[0] else ():
            self.log.put("settles", self.name, number, STATES.get(state))
            queue, body = self.unsettled.pop(number, (None, None))
            if body is not None and state == RELEASED:
                self.queues.put(queue, body, first=True)

    def detach(self, fields, _):
        self.queues.takers = [link for link in self.queues.takers if (link.session, link.handle) != (self, fields[0])]
        self.senders.pop(fields[0], None)
        self.send(frame10(1, DETACH, fields[0], True))

    def end(self, *_):
        self.queues.takers = [link for link in self.queues.takers if link.session is not self]
        self.give_back(list(self.unsettled))
        self.log.put("ends", self.name)
        self.send(frame10(1, END))

    def close(self, *_):
        self.send(frame10(0, CLOSE))
        self.is_open = False


def body_in(payload):
    """The body of a message that is one data section, its last: what stands behind the section's head."""
    at = payload.rindex(b"\0\x53\x75")
    return payload[at + 5 :].decode() if payload[at + 3] == 0xA0 else payload[at + 8 :].decode()


def contain(port, path, seed):
    """The container, as a process of its own."""
    queues, log, number = Queues(), Log(path), 0
    listener = socket.create_server(("127.0.0.1", port), backlog=512)
    print("ready", flush=True)
    while True:
        stream, _ = listener.accept()
        stream.setsockopt(socket.IPPROTO_TCP, socket.TCP_NODELAY, 1)
        connection = Connection(stream, number, queues, log, random.Random(f"{seed} {number} {time.monotonic()}"))
        threading.Thread(target=connection.serve, daemon=True).start()
        number += 1


# ---- clients


class Client:
    """One connection of a client: it publishes and consumes until a moment, and closes or is cut off."""

    def __init__(self, port, queue, log, rng, name):
        self.port, self.queue, self.log, self.rng, self.name = port, queue.encode(), log, rng, name
        self.stream, self.met, self.content = None, set(), None
        self.published = self.confirmed = 0

    def send(self, *units):
        self.stream.sendall(b"".join(units))

    def hear(self, seconds):
        """Takes what comes within so many seconds; whether the connection lasts."""
        self.stream.settimeout(seconds)
        try:
            data = self.stream.recv(65_536)
        except TimeoutError:
            return True
        for unit in self.parts.units(data):
            self.take(unit)
        return bool(data)

    def take(self, unit):
        found = method_of(unit)
        self.met.add(found)
        if found in ((60, 80), (60, 120)):
            tag, bits = arguments(unit[7:-1], "81")
            self.confirmed += 1
            self.log.put("ack" if found == (60, 80) else "nack", self.name, tag, bits & 1)
        elif found == (60, 60):
            self.content = arguments(unit[7:-1], "s81ss")[1]
        elif unit[0] == 3 and self.content:
            self.delivered(self.content, unit[7:-1].decode())
            self.content = None
        elif found in ((10, 50), (20, 40)):
            self.log.put("closed", self.name, int.from_bytes(unit[11:13], "big"))

    def delivered(self, tag, body):
        """Settles a delivery, mostly by an ack; now and then it keeps it."""
        self.log.put("gets", self.name, tag, body)
        kind = self.rng.choices(("acks", "rejects", "requeues", "keeps"), (90, 4, 3, 3))[0]
        self.log.put(kind, self.name, tag, body)
        if kind != "keeps":
            number = struct.pack(">Q", tag)
            self.send(method(1, 60, 80, number + b"\0") if kind == "acks" else method(1, 60, 90, number + bytes([kind == "requeues"])))

    def wait(self, wanted, seconds=10):
        until = time.monotonic() + seconds
        while wanted not in self.met:
            if time.monotonic() > until or not self.hear(0.2):
                raise ConnectionError(f"{wanted} doesn't come")

    def publish(self):
        self.published += 1
        body = f"{self.name} {self.published} " + "x" * self.rng.choice((0, 10, 200))
        self.log.put("publishes", self.name, self.published, body)
        head = method(1, 60, 40, b"\0\0" + short(b"") + short(self.queue) + b"\0")
        self.send(head, frame(2, 1, struct.pack(">HHQH", 60, 0, len(body), 0)), frame(3, 1, body.encode()))

    def run(self, until):
        try:
            self.stream, self.parts = socket.create_connection(("127.0.0.1", self.port), timeout=5), Stream(CLIENT)
            self.log.put("connects", self.name)
            for said, wanted in zip(LOGIN, ((10, 10), (10, 30), None, (10, 41))):
                self.send(said)
                if wanted:
                    self.wait(wanted)
                if wanted == (10, 10):
                    self.log.put("begins", self.name)
            self.send(method(1, 20, 10, b"\0"), method(1, 85, 10, b"\0"), method(1, 60, 10, bytes(4) + b"\0\x0A\0"))
            self.wait((60, 11))
            self.send(method(1, 60, 20, b"\0\0" + short(self.queue) + short(b"") + b"\0" + long(b"")))
            self.wait((60, 21))
            while time.monotonic() < until:
                self.publish()
                if not self.hear(self.rng.choice((0.001, 0.01, 0.05))) or (20, 40) in self.met or (10, 50) in self.met:
                    return
            self.leave()
        except OSError:
            pass
        finally:
            if self.stream:
                self.stream.close()

    def leave(self):
        """Closes, or is cut off like a client that is killed."""
        if self.rng.random() < 0.4:
            self.stream.setsockopt(socket.SOL_SOCKET, socket.SO_LINGER, struct.pack("ii", 1, 0))
            self.log.put("is cut off", self.name)
            return
        until = time.monotonic() + SOON + 2
        while self.confirmed < self.published and time.monotonic() < until:
            self.hear(0.1)
        self.log.put("closes", self.name)
        self.send(method(0, 10, 50, struct.pack(">H", 200) + short(b"") + bytes(4)))
        self.wait((10, 51), 15)
        self.log.put("close-ok", self.name)


# ---- an epoch


class Epoch:
    """A gateway, its container and its clients, from the gateway's start to its end."""

    def __init__(self, options, number, folder):
        self.options, self.number, self.folder = options, number, folder
        self.rng = random.Random(f"{options.seed} {number}")
        self.port, self.up_port = free_port(), free_port()
        self.counts, self.log = collections.Counter(), Log(self.at("clients"))
        self.container, self.is_killed = None, self.rng.random() < 0.5
        self.start_container()
        words = ["serve", "--listen", f"127.0.0.1:{self.port}", "--upstream", f"127.0.0.1:{self.up_port}", "--name", "soak"]
        self.out = open(self.at("report"), "wb")
        self.gateway = subprocess.Popen([options.program, *words], stdout=self.out, stderr=open(self.at("told"), "wb"))
        for _ in range(500):
            with open(self.at("told")) as told:
                if "listening" in told.read():
                    return
            time.sleep(0.02)
        raise SystemExit("the gateway doesn't listen")

    def at(self, name):
        return os.path.join(self.folder, name)

    def start_container(self):
        words = [sys.executable, os.path.abspath(__file__), "0", "--contain", str(self.up_port), self.at("container"), str(self.options.seed)]
        self.container = subprocess.Popen(words, stdout=subprocess.PIPE)
        self.container.stdout.readline()

    def end(self):
        """Leaves no process behind, whatever came."""
        for process in (self.gateway, self.container):
            if process.poll() is None:
                self.kill(process)

    def kill(self, process):
        process.kill()
        process.wait()

    def clients(self, queue, until):
        """Clients of one queue, one connection after another."""
        number = 0
        while time.monotonic() < until and self.gateway.poll() is None:
            rng = random.Random(f"{self.options.seed} {self.number} {queue} {number}")
            client = Client(self.port, queue, self.log, rng, f"{queue}.{number}")
            client.run(min(until, time.monotonic() + rng.choice((1, 3, 8))))
            number += 1
            time.sleep(0.01)

    def run(self):
        """The epoch; what is wrong with it."""
        end = time.monotonic() + self.options.epoch
        threads = [threading.Thread(target=self.clients, args=(f"q{k}", end)) for k in range(self.options.clients)]
        for thread in threads:
            thread.start()
        while time.monotonic() + 5 < end:
            time.sleep(min(self.rng.uniform(4, 12), max(end - 5 - time.monotonic(), 0)))
            if time.monotonic() + 5 < end:
                self.kill(self.container)
                self.counts["kills of the container"] += 1
                self.start_container()
        if self.is_killed:
            time.sleep(self.rng.uniform(0, 4))
            self.kill(self.gateway)
            self.counts["kills of the gateway"] += 1
        for thread in threads:
            thread.join()
        return self.finish()

    def finish(self):
        wrong = []
        if not self.is_killed:
            whats = collections.Counter(entry[1] for entry in logged(self.at("clients")))
            began, most = whats["begins"], whats["connects"]
            for _ in range(300):
                with open(self.at("report")) as report:
                    closed = report.read().count(" closed\n")
                if closed == most:
                    break
                time.sleep(0.1)
            if not began <= closed <= most:
                wrong.append(f"{began} clients of {most} were greeted, and {closed} pairs closed")
            if self.gateway.poll() is not None:
                wrong.append(f"the gateway ended with status {self.gateway.returncode}")
            self.gateway.terminate()
            self.gateway.wait()
        self.kill(self.container)
        return wrong + Checker(self).wrong()


# ---- what must hold


class Checker:
    """Holds the logs of an epoch against one another."""

    def __init__(self, epoch):
        self.epoch, self.counts, self.faults = epoch, epoch.counts, []
        self.clients = [entry for entry in logged(epoch.at("clients"))]
        self.container = logged(epoch.at("container"))
        with open(epoch.at("report")) as report:
            self.report = report.read()

    def must(self, fact, what):
        if not fact:
            self.faults.append(what)

    def once(self, table, key, value, what):
        self.must(key not in table, f"{what} twice: {key}")
        table.setdefault(key, value)

    def wrong(self):
        self.read()
        self.check_publishes()
        self.check_deliveries()
        self.check_report()
        return self.faults

    def read(self):
        """What each side says, by bodies: the name of a client and the number of its publish."""
        self.published, self.confirmed, self.got, self.settled, self.closes, self.orderly = {}, {}, {}, {}, {}, set()
        self.did, self.leaving, self.gets = {}, set(), collections.Counter()
        open_ones = collections.defaultdict(list)
        for moment, what, name, *rest in self.clients:
            if what == "publishes":
                self.published[name, rest[0]] = rest[1]
                open_ones[name].append(rest[0])
            elif what in ("ack", "nack"):
                tags = [n for n in open_ones[name] if n == rest[0] or (rest[1] and n < rest[0])]
                self.must(tags, f"a confirm of nothing: {name} {rest}")
                for tag in tags:
                    open_ones[name].remove(tag)
                    self.once(self.confirmed, (name, tag), (what, moment), "a confirm")
            elif what == "close-ok":
                self.orderly.add(name)
            elif what == "closes":
                self.closes[name] = moment
            elif what == "gets":
                self.once(self.got, (name, rest[0]), rest[1], "a delivery")
                self.gets[name, rest[1]] += 1
            elif what in ("acks", "rejects", "requeues", "keeps"):
                self.settled.setdefault(rest[1], collections.Counter())[what] += 1
                self.did[name, rest[1]] = what
            if what in ("closes", "is cut off"):
                self.leaving.add(name)
            self.counts[COUNTED.get(what, "other entries")] += 1
        self.taken, self.sent, self.told, self.ends, self.names = {}, {}, {}, {}, {}
        for moment, what, name, *rest in self.container:
            if what == "takes":
                self.once(self.taken, rest[1], (name, rest[0], rest[2], moment), "a transfer")
                self.names[name] = rest[1].split(" ")[0]
            elif what == "sends":
                self.once(self.sent, (name, rest[0]), (rest[1], moment), "a delivery-id")
            elif what == "ends":
                self.ends.setdefault(name, moment)
            elif what == "settles":
                self.once(self.told, (name, rest[0]), rest[1], "a settlement")

    def check_publishes(self):
        for key, (word, moment) in self.confirmed.items():
            state, told = self.taken.get(self.published[key], (None, None, None, 0))[2:]
            fine = state == "accepted" and told < moment if word == "ack" else state != "accepted" or self.epoch.counts["kills of the container"]
            self.must(fine, f"{word} of {key}, which the container told {state}")
        for (name, number), body in self.published.items():
            state, told = self.taken.get(body, (None, None, None, 0))[2:]
            if state == "accepted" and name in self.orderly and told + SOON < self.closes[name]:
                self.must(self.confirmed.get((name, number), ("none",))[0] == "ack", f"accepted and not acked: {name} {number}")

    def check_deliveries(self):
        states = collections.defaultdict(list)
        for key, state in self.told.items():
            self.must(key in self.sent, f"a settlement of nothing: {key}")
            states[self.sent.get(key, (None, 0))[0]].append(state)
        for body, found in states.items():
            did = self.settled.get(body, collections.Counter())
            self.must(found.count("accepted") <= did["acks"], f"accepted, and not acked by its client: {body}")
            self.must(found.count("rejected") <= did["rejects"], f"rejected, and not by its client: {body}")
        for state in self.told.values():
            self.counts[f"deliveries {state}"] += 1

    def check_report(self):
        """The lines of the report, each once, and none of another form."""
        lines = self.report.splitlines()
        repeated = [line for line, count in collections.Counter(lines).items() if count > 1]
        self.must(not repeated, f"lines that come twice: {repeated[:3]}")
        told = collections.defaultdict(dict)
        for line in lines:
            found = LINE.fullmatch(line)
            self.must(found or line.endswith(" closed"), f"a line of another form: {line!r}")
            if found:
                told[found[2]][f"soak-{found[1]}", int(found[3])] = found[4]
                self.counts[f"lines of a {found[2]} {found[4]}"] += 1
        if self.epoch.is_killed:
            return
        seen = collections.Counter()
        for key, (body, moment) in self.sent.items():
            is_settled, is_left = key in self.told, told["delivery"].get(key) == "left"
            self.must(not (is_settled and is_left), f"a delivery is settled and left: {key}")
            # Owed is what its client got, and what came long before the end; what the container sent as that came across isn't.
            client = self.names.get(key[0])
            seen[key[0], body] += 1
            did = self.did.get((client, body)) if seen[key[0], body] <= self.gets[client, body] else None
            is_owed = did or moment + CROSSING < self.ends.get(key[0], 0)
            # A container that was killed has no end in its log. What went to it just before isn't there either.
            if key[0] not in self.ends:
                is_owed = did == "keeps" and client not in self.leaving
            self.must(is_settled or is_left or not is_owed, f"a delivery is neither settled nor left: {key}")
        for body, (name, number, state, _) in self.taken.items():
            line = told["publish"].get((name, number))
            self.must(line in (None, "unknown"), f"a publish that went is told as {line}: {body}")
            self.must(state is not None or line == "unknown", f"a publish that went and has no outcome has no line: {body}")
        lost = sum(state == "lost" for state in told["publish"].values())
        self.must(lost <= len(self.published) - len(self.taken), f"{lost} publishes are told as lost, and fewer didn't come")


COUNTED = {"publishes": "publishes", "ack": "acks", "nack": "nacks", "gets": "delivers", "begins": "connections", "is cut off": "kills of clients"}


def main():
    parser = argparse.ArgumentParser(description=__doc__, formatter_class=argparse.RawDescriptionHelpFormatter)
    parser.add_argument("hours", type=float)
    parser.add_argument("--program", default=BUILT)
    parser.add_argument("--clients", type=int, default=8)
    parser.add_argument("--epoch", type=float, default=40)
    parser.add_argument("--seed", type=int, default=time.time_ns() % 10**9)
    parser.add_argument("--keep", default="soak-logs")
    # The script is its own container, as it starts itself.
    parser.add_argument("--contain", nargs=3, metavar=("PORT", "LOG", "SEED"), help=argparse.SUPPRESS)
    options = parser.parse_args()
    if options.contain:
        contain(int(options.contain[0]), *options.contain[1:])
    signal.signal(signal.SIGTERM, lambda *_: sys.exit(143))
    print(f"seed {options.seed}", flush=True)
    end, counts, number, faults = time.monotonic() + 3600 * options.hours, collections.Counter(), 0, 0
    while time.monotonic() < end:
        with tempfile.TemporaryDirectory() as folder:
            epoch = Epoch(options, number, folder)
            try:
                wrong = epoch.run()
            finally:
                epoch.end()
            counts.update(epoch.counts)
            for what in wrong[:10]:
                print(f"WRONG: epoch {number}: {what}", flush=True)
            if wrong:
                os.makedirs(options.keep, exist_ok=True)
                os.rename(folder, os.path.join(options.keep, f"{options.seed}-{number}"))
                os.makedirs(folder)
        faults += len(wrong)
        number += 1
        counts["epochs"] = number
        print(", ".join(f"{count:,} {what}" for what, count in sorted(counts.items())), flush=True)
    print(f"soak: {faults} wrong")
    sys.exit(1 if faults else 0)


if __name__ == "__main__":
    main()
