#!/usr/bin/env python3
"""Lets hostile clients and a hostile container loose on the running gateway, over loopback sockets.

    python3 tools/try_hostile.py PROGRAM SECONDS [SEED] [--peers COUNT] [--keep FOLDER]

It starts PROGRAM as `PROGRAM serve` on free ports, and for so many seconds COUNT clients at once (16) connect one after another, each
for one round. A container of its own takes what comes upstream. Both say what their standards allow, in any order, and units that are
cut, doubled, left out, swapped, turned into other bytes, or random. Clients send all at once, in pieces, or wait; they close, reset or
fall silent. The container answers, keeps still, or ends. What each round and each upstream connection does follows from SEED and its
number, but for what comes of the times of the other side. SEED is printed; without one it is taken from the clock.

What must hold, whatever comes in:

- Each unit that comes out is one of its standard's, as `tools/wire.py` reads them, within the limit of frames.
- Nothing comes behind a close, but for the close-ok to a client that closes too, and no part of a frame stands at the end of a stream.
- What the gateway sends on a session stands between its begin and its end, and what it says of a link between its attach and detach.
- The program goes on. A peaceful client and container get what `gate_probe live` plays, in the middle and at the end.
- Once all ends are gone each pair has one line `closed`, its last, and the report has no line of another form and none of memory.

The status is 0 where all of it held, and 1 otherwise; then the bytes of the rounds at fault are printed, or all is put into FOLDER with
the program's capture. A stream that breaks something is a case: put it into tools/cases.
"""

import argparse
import collections
import os
import random
import re
import select
import signal
import socket
import struct
import subprocess
import sys
import tempfile
import threading
import time

from wire import ATTACH, BEGIN, CLIENT, CLOSE, DETACH, DISPOSITION, END, FLOW, HEADER_091, HEADER_10, HEADER_SASL, INIT, OPEN, TRANSFER, UP
from wire import Bad, Stream, check, frame_10, method_of, plain
from wire import described, frame, frame10, long, method, short, symbol, ushort

MOST = {CLIENT: 131_072, UP: 65_536}
LINE = re.compile(r"pair (\d+) (closed|life \d+ publish \d+ (lost|unknown)|life \d+ delivery \d+ (left|lost))")
# How long a round lasts at most, how long the last pairs may take to close, and a peaceful client to be served, in seconds.
ROUND, LAST, PEACE = 2.0, 25.0, 30.0


# ---- units of both standards


def publish(rng, channel):
    """A publish with its content, in one body frame or a few."""
    size = rng.choice((0, 2, 2, 100, 5000, 70_000 if rng.random() < 0.1 else 9))
    exchange = rng.choice((b"", b"", b"", b"x"))
    head = method(channel, 60, 40, b"\0\0" + short(exchange) + short(rng.choice(QUEUES)) + bytes([rng.choice((0, 1, 0, 3))]))
    flags, props = rng.choice(((0, b""), (0, b""), (0x8000, short(b"text/plain")), (0x1000, b"\2"), (0x2000, long(b"\1nI\0\0\0\5"))))
    units = [head, frame(2, channel, struct.pack(">HHQH", 60, 0, size, flags) + props)]
    while size > 0:
        part = min(size, rng.choice((1, 4088, 131_064)))
        units.append(frame(3, channel, b"x" * part))
        size -= part
    return b"".join(units)


QUEUES = (b"q", b"r", b"s", b"a long name of a queue", b"")
LOGIN = [
    HEADER_091,
    method(0, 10, 11, long(b"") + short(b"PLAIN") + long(b"\0guest\0guest") + short(b"en_US")),
    method(0, 10, 31, struct.pack(">HIH", 255, 131072, 0)),
    method(0, 10, 40, short(b"/") + short(b"") + b"\0"),
]
CHANNEL_OPEN = method(1, 20, 10, b"\0")
SELECT = method(1, 85, 10, b"\0")
CLOSE_091 = method(0, 10, 50, struct.pack(">H", 200) + short(b"bye") + bytes(4))
CLOSE_OK = method(0, 10, 51)


def orderly(rng, tags):
    """Something that a client says on channel 1, in order."""
    queue, bit = short(rng.choice(QUEUES[:3])), lambda most: bytes([rng.randrange(most)])
    if tags and rng.random() < 0.5:
        tag = struct.pack(">Q", tags.pop(rng.randrange(len(tags))))
        return method(1, 60, rng.choice((80, 90)), tag + bit(1)) if rng.random() < 0.8 else method(1, 60, 120, tag + b"\2")
    return rng.choice(
        (
            lambda: publish(rng, 1),
            lambda: publish(rng, 1),
            lambda: method(1, 60, 20, b"\0\0" + queue + short(b"") + bytes([rng.choice((0, 0, 2))]) + long(b"")),
            lambda: method(1, 60, 70, b"\0\0" + queue + bit(2)),
            lambda: method(1, 60, 10, bytes(4) + struct.pack(">H", rng.choice((0, 1, 10))) + bit(2)),
            lambda: method(1, 60, 110, bit(2)),
            lambda: method(1, 50, 10, b"\0\0" + queue + b"\2" + long(b"")),
            lambda: method(1, 20, 20, b"\1"),
            lambda: frame(8, 0, b""),
        )
    )()


def wild(rng, tags):
    """Something that a client may say on a channel that is open or isn't."""
    channel = rng.choice((1, 1, 1, 1, 2, 2, 3, 255, 300, 0))
    queue, tag = short(rng.choice(QUEUES)), struct.pack(">Q", rng.choice([*tags[-5:], 0, 1, 2, 9]))
    bit = lambda: bytes([rng.choice((0, 0, 1, 2, 3, 8))])
    return rng.choice(
        (
            lambda: method(channel, 20, 10, b"\0"),
            lambda: publish(rng, channel),
            lambda: method(channel, 60, 20, b"\0\0" + queue + short(rng.choice((b"", b"c", b"d"))) + bit() + long(b"")),
            lambda: method(channel, 60, rng.choice((80, 90, 120)), tag + bit()),
            lambda: method(channel, 60, 70, b"\0\0" + queue + bit()),
            lambda: method(channel, 60, 30, short(rng.choice((b"c", b"d", b"e"))) + bit()),
            lambda: method(channel, 50, 10, b"\0\0" + queue + bit() + long(b"")),
            lambda: method(channel, 40, 10, b"\0\0" + short(rng.choice((b"", b"x"))) + short(b"direct") + bit() + long(b"")),
            lambda: method(channel, 85, 10, bit()),
            lambda: method(channel, 20, 40, struct.pack(">H", 200) + short(b"") + bytes(4)),
            lambda: method(channel, 20, 41),
            lambda: frame(rng.choice((2, 3)), channel, rng.randbytes(rng.randrange(30))),
            lambda: method(channel, rng.choice((10, 20, 40, 50, 60, 85, 90)), rng.randrange(130), rng.randbytes(rng.randrange(20))),
            lambda: CLOSE_091,
            lambda: CLOSE_OK,
        )
    )()


def error(rng):
    names = (b"amqp:not-found", b"amqp:internal-error", b"amqp:link:detach-forced", b"amqp:resource-locked", b"other")
    return rng.choice((None, described(0x1D, symbol(rng.choice(names)))))


MECHANISMS = frame10(0, 0x40, symbol(b"PLAIN"), kind=1)
OUTCOME = frame10(0, 0x44, (b"\x50\0",), kind=1)
PEER_OPEN = frame10(0, OPEN, b"c", None, 65_536, ushort(255))
BODY = bytes.fromhex("00 53 73 C0 07 04 40 40 40 A1 01 71 00 53 75 A0 02 68 69")


def mutated(rng, unit):
    """A unit, mostly broken in some way."""
    if not unit:
        return unit
    at, data = rng.randrange(len(unit)), bytearray(unit)
    return rng.choice(
        (
            lambda: unit[:at] + bytes([rng.randrange(256)]) + unit[at + 1 :],
            lambda: unit[:at] + bytes([unit[at] ^ 1 << rng.randrange(8)]) + unit[at + 1 :],
            lambda: unit[:at],
            lambda: unit[at:],
            lambda: unit[:at] + rng.randbytes(rng.randrange(1, 9)) + unit[at:],
            lambda: unit[:at] + unit[at + rng.randrange(1, 5) :],
            lambda: unit + unit,
            lambda: rng.randbytes(rng.randrange(1, 200)),
            lambda: bytes(data[:at] + data[at:][::-1]),
            lambda: unit[:-1] + bytes([rng.randrange(256)]),
            lambda: b"",
        )
    )()


# ---- what comes out

TOLD = {(60, 80): "acks", (60, 120): "nacks", (60, 60): "delivers", (60, 50): "returns", (10, 50): "closes", (20, 40): "channel closes"}


class Heard:
    """What came out at an end, unit by unit, and what it is checked for."""

    def __init__(self, end):
        self.end, self.stream, self.is_over, self.is_answered = end, Stream(end), False, False
        # The gateway's sessions and links that are there, the names of its links, and what there is to answer.
        self.sessions, self.links, self.tags = set(), {}, []
        self.counts = collections.Counter()

    def take(self, data):
        """The units that these bytes make whole. Raises `Bad` where something comes that must not."""
        for unit in self.stream.units(data):
            check(self.end, unit, MOST[self.end])
            if self.is_over and (self.is_answered or method_of(unit) != (10, 51)):
                raise Bad(f"a unit behind the close: {unit.hex()}")
            (self.at_client if self.end == CLIENT else self.at_container)(unit)
            yield unit

    def at_client(self, unit):
        found = method_of(unit)
        self.is_over = self.is_over or found in ((10, 50), (10, 51))
        # (a close of the client that crosses the gateway's is answered behind it)
        self.is_answered = self.is_answered or found == (10, 51)
        self.counts[TOLD.get(found, "other units to clients")] += 1
        if found == (60, 60):
            behind = 12 + unit[11]
            self.tags.append(int.from_bytes(unit[behind : behind + 8], "big"))
        elif found == (60, 71):
            self.tags.append(int.from_bytes(unit[11:19], "big"))

    def at_container(self, unit):
        if unit[:4] == b"AMQP":
            return
        told = frame_10(unit)
        if told.kind == 1 or told.code in (None, OPEN):
            return
        self.counts["transfers" if told.code == TRANSFER else "other frames to the container"] += 1
        if told.code == CLOSE:
            self.is_over = self.is_answered = True
        elif told.code == BEGIN:
            if told.channel in self.sessions:
                raise Bad("a second begin on a session")
            self.sessions.add(told.channel)
        elif told.channel not in self.sessions:
            raise Bad(f"what stands on no session: {unit.hex()}")
        elif told.code == END:
            self.sessions.discard(told.channel)
            self.links = {key: name for key, name in self.links.items() if key[0] != told.channel}
        else:
            self.on_session(told, plain(told), unit)

    def on_session(self, told, fields, unit):
        handle = {ATTACH: 1, FLOW: 4, TRANSFER: 0, DETACH: 0}.get(told.code)
        if handle is None or fields[handle] is None:
            return
        key = (told.channel, fields[handle])
        if (key in self.links) == (told.code == ATTACH):
            raise Bad(f"a handle that isn't the one of a link: {unit.hex()}")
        if told.code == ATTACH:
            self.links[key] = fields[0], fields[2]
        elif told.code == DETACH:
            del self.links[key]

    def ended(self):
        if self.stream.rest:
            raise Bad(f"a stream ends within a frame: {self.stream.rest[:64].hex()}")


class End:
    """A socket of a round, what went over it and came on it."""

    def __init__(self, stream, end, rng):
        self.stream, self.rng, self.heard, self.sent = stream, rng, Heard(end), []
        self.is_open = True
        stream.settimeout(ROUND)

    def send(self, data):
        """Sends bytes, in one piece or a few, as far as they are taken."""
        pieces = [data]
        if self.rng.random() < 0.2 and len(data) > 1:
            at = self.rng.randrange(1, len(data))
            pieces = [data[:at], data[at:]]
        for piece in pieces:
            self.sent.append(piece)
            try:
                self.stream.sendall(piece)
            except OSError:
                self.is_open = False

    def hear(self, seconds):
        """The units that come within so many seconds, up to the first read that gives any."""
        try:
            if not select.select([self.stream], [], [], seconds)[0]:
                return []
            data = self.stream.recv(65_536)
        except OSError:
            # (a reset may cut off what was sent before it)
            self.is_open = False
            return []
        if not data:
            self.is_open = False
            self.heard.ended()
            return []
        return list(self.heard.take(data))

    def close(self):
        if self.rng.random() < 0.3:
            self.stream.setsockopt(socket.SOL_SOCKET, socket.SO_LINGER, struct.pack("ii", 1, 0))
        self.stream.close()


# ---- the peers


def plan_of(rng):
    """What a client means to send, unit by unit."""
    units = [*LOGIN, CHANNEL_OPEN]
    if rng.random() < 0.1:
        return [rng.randbytes(rng.choice((1, 8, 9, 300)))]
    if rng.random() < 0.5:
        units.append(SELECT)
    units += [None] * rng.choice((1, 5, 20, 60))
    return units + rng.choice(([], [CLOSE_091], [CLOSE_091, CLOSE_OK]))


class Client:
    """A client of one round: it sends what it means to, some of it broken, hears what comes, and answers closes."""

    def __init__(self, end, rng):
        self.end, self.rng, self.until = end, rng, time.monotonic() + ROUND
        self.broken, self.wild = rng.choice((0, 0, 0, 0.02, 0.1, 0.5)), rng.choice((0, 0, 0.02, 0.3))
        self.waits, is_patient = rng.choice((0, 0.3, 1)), rng.random() < 0.8
        self.patience = ROUND / 2 if is_patient else 0

    def send(self, unit):
        self.end.send(mutated(self.rng, unit) if self.rng.random() < self.broken else unit)

    def hear(self, seconds):
        """Hears what comes, and answers the closes in it."""
        for unit in self.end.hear(seconds):
            if method_of(unit) == (20, 40):
                self.send(method(1, 20, 41) + CHANNEL_OPEN)
            elif method_of(unit) == (10, 50) and self.rng.random() < 0.9:
                self.send(CLOSE_OK)

    def ask(self, unit):
        """Sends a unit, or something in its place, and hears for a while."""
        is_answered = unit in (LOGIN[0], LOGIN[1], LOGIN[3], CHANNEL_OPEN)
        says = wild if self.rng.random() < self.wild else orderly
        self.send(unit or says(self.rng, self.end.heard.tags))
        if is_answered and self.patience:
            self.hear(self.patience)
        elif self.rng.random() < self.waits:
            self.hear(self.rng.choice((0, 0.001, 0.02)))

    def act(self):
        """The whole round."""
        units = plan_of(self.rng)
        if self.rng.random() < 0.1:
            units = [b"".join(unit or orderly(self.rng, []) for unit in units)]
        if self.rng.random() < self.broken:
            self.rng.shuffle(units)
        for unit in units:
            self.ask(unit)
            if not self.end.is_open or time.monotonic() > self.until:
                return
        self.linger(self.rng.choice((0, 0.05, 0.3, ROUND / 2)))
        if self.rng.random() < 0.2:
            self.end.stream.shutdown(socket.SHUT_WR)
            self.linger(ROUND)

    def linger(self, seconds):
        until = time.monotonic() + seconds
        while self.end.is_open and time.monotonic() < until:
            self.hear(0.02)

    def round(self):
        try:
            self.act()
        except OSError:
            pass
        finally:
            self.end.close()


class Container:
    """The container's side of one connection. It answers as a container does, and breaks some of it."""

    def __init__(self, end, rng, is_calm=False):
        self.end, self.rng, self.is_calm = end, rng, is_calm
        self.broken = 0 if is_calm else rng.choice((0, 0, 0.02, 0.1, 0.5))
        self.silent = 0 if is_calm else rng.choice((0, 0, 0, 0.1))
        self.unasked = 0 if is_calm else rng.choice((0, 0.05, 0.3))
        self.next_id = collections.Counter()
        self.senders, self.receivers = [], []

    def answer(self, unit):
        """What is answered to a unit: other units."""
        if unit == HEADER_SASL:
            return [HEADER_SASL, MECHANISMS]
        if unit == HEADER_10:
            return [HEADER_10]
        told = frame_10(unit)
        fields, channel = plain(told), told.channel
        if told.code in (INIT, OPEN, CLOSE):
            return {INIT: [OUTCOME], OPEN: [PEER_OPEN], CLOSE: [frame10(0, CLOSE)]}[told.code]
        if told.code == BEGIN:
            return [frame10(channel, BEGIN, ushort(channel), 0, 2048, 2048, 255)]
        if told.code == END:
            return [frame10(channel, END)]
        if told.code == ATTACH:
            return self.attached(channel, fields)
        if told.code == FLOW:
            return self.delivers(channel, fields) if fields[4] is not None else []
        if told.code == TRANSFER and fields[1] is not None and not fields[5]:
            return [self.outcome(channel, fields[1])]
        if told.code == DETACH:
            return [frame10(channel, DETACH, fields[0], True)]
        return []

    def attached(self, channel, fields):
        """The answer to an attach; a sender of the gateway is granted credit."""
        name, handle, is_receiver = fields[0], fields[1], fields[2]
        address = described(0x28 if is_receiver else 0x29, b"q")
        ends = (address, described(0x29)) if is_receiver else (described(0x28), address)
        count = 0 if is_receiver else None
        units = [frame10(channel, ATTACH, bytes(name), handle, not is_receiver, (b"\x50\0",), (b"\x50\0",), *ends, None, None, count)]
        if self.rng.random() < 0.1 * (self.broken > 0):
            return [*units, frame10(channel, DETACH, handle, True, error(self.rng))]
        if is_receiver:
            return units
        credit = self.rng.choice((1, 10, 100)) if self.broken else 100
        return [*units, frame10(channel, FLOW, 0, 2048, 0, 2048, handle, 0, credit)]

    def outcome(self, channel, number):
        state = described(self.rng.choice((0x24, 0x24, 0x24, 0x25, 0x26, 0x27)) if self.broken else 0x24)
        return frame10(channel, DISPOSITION, True, number, None, self.rng.random() < 0.9 or not self.broken, state)

    def delivers(self, channel, fields):
        """What goes on a link of which the gateway granted credit, or asks for what there is."""
        handle, credit, drain = fields[4], fields[6] or 0, fields[8]
        if (channel, handle) not in {key for key, link in self.end.heard.links.items() if link[1]}:
            return []
        units = [self.transfer(channel, handle) for _ in range(min(credit, self.rng.choice((0, 1, 3))))]
        if drain:
            units.append(frame10(channel, FLOW, 0, 2048, 0, 2048, handle, credit, 0, None, True))
        return units

    def transfer(self, channel, handle):
        number = self.next_id[channel]
        self.next_id[channel] += 1
        settled, tag = self.rng.random() < 0.2, bytearray(b"%d" % number)
        if self.rng.random() < 0.2:
            first = frame10(channel, TRANSFER, handle, number, tag, 0, settled, True, payload=BODY[:9])
            return first + frame10(channel, TRANSFER, handle, None, None, None, None, False, payload=BODY[9:])
        return frame10(channel, TRANSFER, handle, number, tag, 0, settled, payload=BODY)

    def unasked_for(self):
        """Something that a container may say, or not, of itself."""
        rng, channel, handle = self.rng, self.rng.choice((1, 1, 1, 2, 9)), self.rng.choice((0, 0, 1, 2, 7))
        return rng.choice(
            (
                lambda: frame10(channel, FLOW, 0, rng.choice((0, 1, 2048)), 0, 2048, handle, rng.choice((0, 1, 5)), rng.choice((0, 1, 9))),
                lambda: frame10(channel, FLOW, 0, 2048, 0, 2048, None, None, None, None, None, True),
                lambda: frame10(channel, TRANSFER, handle, rng.randrange(5), bytearray(b"t"), 0, rng.random() < 0.5, payload=BODY),
                lambda: frame10(channel, DISPOSITION, True, rng.randrange(4), rng.choice((None, 3, 9)), True, described(0x24)),
                lambda: frame10(channel, DETACH, handle, True, error(rng)),
                lambda: frame10(channel, END, error(rng)),
                lambda: frame10(0, CLOSE, error(rng)),
                lambda: frame10(channel, BEGIN, ushort(channel), 0, 9, 9),
                lambda: frame10(channel, ATTACH, b"l-0", handle, rng.random() < 0.5),
                lambda: struct.pack(">IBBH", 8, 2, 0, 0),
                lambda: rng.randbytes(rng.randrange(1, 60)),
            )
        )()

    def serve(self, until):
        """Serves the connection up to its end, or a moment, or a whim."""
        whim = time.monotonic() + (1e9 if self.is_calm else self.rng.choice((0.01, 0.3, 9, 9, 99, 99)))
        while self.end.is_open and time.monotonic() < min(until(), whim):
            units = self.end.hear(0.05)
            out = []
            for unit in units:
                if self.rng.random() >= self.silent:
                    out += self.answer(unit)
            if self.rng.random() < self.unasked and self.end.heard.sessions:
                out.append(self.unasked_for())
            for unit in out:
                self.end.send(mutated(self.rng, unit) if self.rng.random() < self.broken else unit)
        self.end.close()


# ---- the run


def free_port():
    """A port that the system gives to no connection by itself."""
    for _ in range(1000):
        port = random.randrange(20_000, 30_000)
        with socket.socket() as probe:
            try:
                probe.bind(("127.0.0.1", port))
                return port
            except OSError:
                pass
    raise SystemExit("no free port")


class Run:
    """The program, the peers, and what was wrong."""

    def __init__(self, program, seed, folder, keeps):
        self.seed, self.folder, self.lock = seed, folder, threading.Lock()
        self.port, self.up_port = free_port(), free_port()
        self.ends = time.monotonic() + 1e9
        self.counts, self.wrong, self.rounds = collections.Counter(), [], 0
        self.listener = socket.create_server(("127.0.0.1", self.up_port), backlog=512)
        words = ["serve", "--listen", f"127.0.0.1:{self.port}", "--upstream", f"127.0.0.1:{self.up_port}"]
        words += ["--capture", os.path.join(folder, "capture.agc")] if keeps else []
        self.report, self.told = (open(os.path.join(folder, name), "w+b") for name in ("report", "told"))
        self.program = subprocess.Popen([program, *words], stdout=self.report, stderr=self.told)
        threading.Thread(target=self.contain, daemon=True).start()
        until = time.monotonic() + 30
        while b"listening" not in self.lines(self.told):
            if self.program.poll() is not None or time.monotonic() > until:
                raise SystemExit(f"the program doesn't listen: {self.lines(self.told)!r}")
            time.sleep(0.02)

    def lines(self, file):
        return os.pread(file.fileno(), 1 << 28, 0)

    def guarded(self, name, act, end=None):
        """Does something of a peer's; what is wrong is noted, with what was sent."""
        try:
            return act()
        except Bad as bad:
            with self.lock:
                self.wrong.append((name, str(bad), b"".join(end.sent) if end else b""))
        except OSError:
            return None

    def contain(self):
        """Takes connections of the gateway. A calm one comes of a peaceful round."""
        number = 0
        while True:
            stream, _ = self.listener.accept()
            stream.setsockopt(socket.IPPROTO_TCP, socket.TCP_NODELAY, 1)
            rng = random.Random(f"{self.seed} up {number}")
            end = End(stream, UP, rng)
            container = Container(end, rng, self.is_calm)
            threading.Thread(target=self.serve, args=(number, container), daemon=True).start()
            self.counts["upstream connections"] += 1
            number += 1

    def serve(self, number, container):
        self.guarded(f"upstream connection {number}", lambda: container.serve(lambda: self.ends), container.end)
        with self.lock:
            self.counts.update(container.end.heard.counts)

    is_calm = False

    def hostile(self):
        """Rounds of one client after another."""
        while time.monotonic() < self.ends and self.program.poll() is None:
            with self.lock:
                number, self.rounds = self.rounds, self.rounds + 1
            rng = random.Random(f"{self.seed} client {number}")
            end = self.connected(rng)
            self.guarded(f"round {number}", Client(end, rng).round, end)
            with self.lock:
                self.counts["bytes of clients"] += sum(map(len, end.sent))
                self.counts["bytes to clients"] += end.heard.stream.count
                self.counts.update(end.heard.counts)

    def connected(self, rng):
        """A client that is connected, which becomes a pair."""
        stream = socket.create_connection(("127.0.0.1", self.port), timeout=10)
        with self.lock:
            self.counts["clients"] += 1
        return End(stream, CLIENT, rng)

    def attack(self, seconds, peers):
        self.ends = time.monotonic() + seconds
        threads = [threading.Thread(target=self.hostile) for _ in range(peers)]
        for thread in threads:
            thread.start()
        for thread in threads:
            thread.join()

    def live(self):
        """Whether a peaceful client gets its confirm and its close."""
        self.is_calm, self.ends = True, time.monotonic() + 1e9
        try:
            return self.guarded("a peaceful round", self.peaceful)
        finally:
            self.is_calm = False

    def peaceful(self):
        end = self.connected(random.Random(0))
        body = method(1, 60, 40, b"\0\0\0" + short(b"q") + b"\0") + frame(2, 1, struct.pack(">HHQH", 60, 0, 2, 0)) + frame(3, 1, b"hi")
        wanted = [(10, 10), (10, 30), None, (10, 41), (20, 11), (85, 11), (60, 80), (10, 51)]
        says = [*LOGIN, CHANNEL_OPEN, SELECT, body, CLOSE_091]
        until, heard = time.monotonic() + PEACE, []
        for unit, method_id in zip(says, wanted):
            end.stream.sendall(unit)
            while method_id and method_id not in heard:
                if time.monotonic() > until or not end.is_open:
                    raise Bad(f"a peaceful client isn't answered by {method_id}, but by {heard}")
                heard += [method_of(unit) for unit in end.hear(0.1)]
        end.stream.close()
        return True

    def rest(self):
        """Waits until each pair has closed, and says what is wrong with the report."""
        self.ends = time.monotonic()
        until = time.monotonic() + LAST
        while len(self.closed()) < self.counts["clients"] and time.monotonic() < until:
            time.sleep(0.1)
        closed = self.closed()
        if sorted(closed) != list(range(self.counts["clients"])):
            gone = sorted(set(range(self.counts["clients"])) - set(closed))
            self.wrong.append(("the report", f"{len(closed)} pairs closed, of {self.counts['clients']}; not {gone[:9]}", b""))
        over = set()
        for line in self.lines(self.report).decode().splitlines():
            told = LINE.fullmatch(line)
            if not told or told[1] in over:
                self.wrong.append(("the report", f"a line of another form, or behind its pair closed: {line!r}", b""))
            elif told[2] == "closed":
                over.add(told[1])
            self.counts["lines of publishes and deliveries"] += bool(told) and told[2] != "closed"

    def closed(self):
        """The pairs that closed."""
        return [int(number) for number in re.findall(rb"^pair (\d+) closed$", self.lines(self.report), re.M)]

    def memory(self):
        with open(f"/proc/{self.program.pid}/status") as file:
            return int(re.search(r"VmRSS:\s+(\d+)", file.read())[1]) // 1024

    def end(self):
        if self.program.poll() is None:
            self.program.terminate()
            self.program.wait()
        else:
            self.wrong.append(("the program", f"ended with status {self.program.returncode}", self.lines(self.told)[-2000:]))


def tell_wrong(run, keep):
    """Prints what is wrong, with the bytes of it, or puts them into a folder."""
    for number, (name, what, sent) in enumerate(run.wrong[:20]):
        print(f"WRONG: {name}: {what}")
        if keep:
            with open(os.path.join(keep, f"sent-{number}"), "wb") as file:
                file.write(sent)
        elif sent:
            print(f"    it sent: {sent[:4000].hex(' ').upper()}")


def main():
    parser = argparse.ArgumentParser(description=__doc__, formatter_class=argparse.RawDescriptionHelpFormatter)
    parser.add_argument("program")
    parser.add_argument("seconds", type=float)
    parser.add_argument("seed", nargs="?", type=int, default=time.time_ns() % 10**9)
    parser.add_argument("--peers", type=int, default=16)
    parser.add_argument("--keep")
    options = parser.parse_args()
    signal.signal(signal.SIGTERM, lambda *_: sys.exit(143))
    print(f"seed {options.seed}", flush=True)
    with tempfile.TemporaryDirectory() as made:
        folder = options.keep or made
        os.makedirs(folder, exist_ok=True)
        run = Run(options.program, options.seed, folder, options.keep)
        try:
            lives = []
            for _ in range(2):
                run.attack(options.seconds / 2, options.peers)
                lives.append(run.live() or False)
            run.rest()
            run.counts["megabytes of memory at the end"] = run.memory() if run.program.poll() is None else 0
        finally:
            run.end()
        if not all(lives):
            run.wrong.append(("a peaceful round", "it didn't come about", b""))
        print(", ".join(f"{count:,} {what}" for what, count in run.counts.items()))
        tell_wrong(run, options.keep)
    print(f"hostile peers: {'all as it must be' if not run.wrong else f'{len(run.wrong)} wrong'}")
    sys.exit(1 if run.wrong else 0)


if __name__ == "__main__":
    main()
