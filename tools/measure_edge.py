#!/usr/bin/env python3
"""Measures the running gateway over loopback sockets.

    python3 tools/measure_edge.py crates/amqp_gate/out/amqp_gate [--only WORD ..]

It starts the program on free ports of 127.0.0.1, ends each by its process id, and prints one figure a line. The words are:

- idle: system calls a second and the share of a core over 5 seconds each, with no client, with 256 that only got
  connection.start, and with 256 whose connections are open on both sides;
- latency: the time from connect to the whole connection.start (153 bytes), as the median and the 90th of 100, of clients one
  after another, alone and beside 255 idle ones, and of clients with a rest of 20 ms before each;
- writes: the system's calls that a client's opening in one piece takes, to the client and to the container;
- descriptors: what 100 clients get from a gateway with 50 descriptors, and what those that waited get after others have left:
  of clients that only send the header, and of those that open their connections; and what 10 clients get from one whose limit
  falls to 8 after its start, and once it is raised again;
- bursts: the time that each of many heartbeats takes which a client sends in one stream, up to the answer to the channel.flow behind
  them, as the median of the bursts of 5 seconds; and how late heartbeats come meanwhile to 250 other clients, which have one due each
  half second;
- waits: the processor time that one read takes in which frames of a channel wait for the container's begin, and others pass on another
  channel behind them, as the median of 5;
- output: whether a standard output that nobody reads stalls clients, and that its lines come once it is read;
- ends: what is reported of a client that resets its connection, and what one gets that sent much more than was read before it was
  refused;
- addresses: what is told of addresses that can't be used.

No container is needed: where connections are opened, the script starts one of its own, which logs every client in, answers its open,
its close and a begin on channel 1, and does no more. System calls are counted by `perf` (raw_syscalls:sys_enter) and shown by
`strace`, so it is run as root. Nothing is asserted, and this is no part of the build. `--nice N` runs both sides at that priority, for
a machine with other work.
"""

import argparse
import os
import re
import resource
import select
import selectors
import shutil
import signal
import socket
import struct
import subprocess
import sys
import tempfile
import threading
import time

HEADER = b"AMQP\x00\x00\x09\x01"
START = 153
IDLE_SECONDS = 5


def method(class_id, method_id, arguments, channel=0):
    payload = struct.pack(">HH", class_id, method_id) + arguments
    return struct.pack(">BHI", 1, channel, len(payload)) + payload + b"\xce"


def short(text):
    return bytes([len(text)]) + text


def long(text):
    return struct.pack(">I", len(text)) + text


def opening(interval):
    """All that a client sends to open its connection, with an interval of heartbeats in seconds."""
    return (
        HEADER
        + method(10, 11, long(b"") + short(b"PLAIN") + long(b"\0guest\0guest") + short(b"en_US"))
        + method(10, 31, struct.pack(">HIH", 255, 131072, interval))
        + method(10, 40, short(b"/") + short(b"") + b"\0")
    )


OPENING = opening(0)
TUNE = 20
OPEN_OK = method(10, 41, short(b""))
HEARTBEAT = struct.pack(">BHI", 8, 0, 0) + b"\xce"
CHANNEL_OPEN = method(20, 10, short(b""), 1)
CHANNEL_OPEN_OK = method(20, 11, long(b""), 1)
FLOW = method(20, 20, b"\1", 1)
FLOW_OK = method(20, 21, b"\1", 1)
# One that wants no answer; and on a channel whose begin the container doesn't answer.
SELECT = method(85, 10, b"\1", 1)
WAITING_OPEN = method(20, 10, short(b""), 2)
WAITING_BODY = struct.pack(">BHI", 3, 2, 0) + b"\xce"
HIGH_HEARTBEAT = struct.pack(">BHI", 8, 300, 0) + b"\xce"
HIGH_SELECT = method(85, 10, b"\1", 301)


def frame10(kind, body):
    return struct.pack(">IBBH", 8 + len(body), 2, kind, 0) + body


SASL = b"AMQP\x03\x01\x00\x00"
AMQP = b"AMQP\x00\x01\x00\x00"
# What the container says to a frame, by the code of its performative: sasl-init, open, begin of a session on channel 1, close.
ANSWERS = {
    0x41: frame10(1, bytes.fromhex("00 53 44 C0 03 01 50 00")),
    0x10: frame10(0, bytes.fromhex("00 53 10 C0 07 01 A1 04") + b"peer"),
    0x11: frame10(0, bytes.fromhex("00 53 11 C0 0F 04 60 00 01 43 70 00 00 08 00 70 00 00 08 00")),
    0x18: frame10(0, bytes.fromhex("00 53 18 45")),
}
MECHANISMS = frame10(1, bytes.fromhex("00 53 40 C0 08 01 A3 05") + b"PLAIN")


def free_port():
    with socket.socket() as probe:
        probe.bind(("127.0.0.1", 0))
        return probe.getsockname()[1]


def contained(unit):
    """What the container answers to a header or a frame."""
    if unit == SASL:
        return SASL + MECHANISMS
    if unit == AMQP:
        return AMQP
    if len(unit) <= 10 or unit[10] == 0x11 and unit[6:8] != b"\0\1":
        return b""
    return ANSWERS.get(unit[10], b"")


def contain(stream):
    """The container's side of one connection."""
    held = b""
    while more := stream.recv(65536):
        held += more
        while len(held) >= 8:
            size = 8 if held[:4] == b"AMQP" else int.from_bytes(held[:4], "big")
            if len(held) < size:
                break
            stream.sendall(contained(held[:size]))
            held = held[size:]


def greet(stream):
    """A server that answers eight bytes as a gateway does, with as many bytes, to compare times with."""
    receive(stream, len(HEADER))
    stream.sendall(bytes(START))


def listen(port, act, at_once, address="127.0.0.1"):
    """Does so with each that connects: with all at once, one thread each, or with one after another."""

    def alone(stream):
        with stream:
            try:
                act(stream)
            except OSError:
                pass

    with socket.create_server((address, port), backlog=512) as listener:
        while True:
            stream = listener.accept()[0]
            if at_once:
                threading.Thread(target=alone, args=(stream,), daemon=True).start()
            else:
                alone(stream)


class Peer:
    """This script as a server, in a process of its own, ended at the end of the block."""

    def __init__(self, kind):
        self.port = free_port()
        words = [sys.executable, os.path.abspath(__file__), kind, "--port", str(self.port)]
        self.process = subprocess.Popen(words)

    def __enter__(self):
        for _ in range(500):
            if listens(self.port):
                return self
            time.sleep(0.02)
        raise SystemExit("the script's own server does not listen")

    def __exit__(self, *_):
        self.process.kill()
        self.process.wait()


def listens(port):
    """Whether something listens on a port, told without a connection."""
    with open("/proc/net/tcp") as table:
        rows = [line.split() for line in table][1:]
    return any(row[1].endswith(f":{port:04X}") and row[3] == "0A" for row in rows)


class Gateway:
    """A running gateway on a port of its own, ended at the end of the block.

    Upstream is a container or an address that are given, or else a listener that answers nothing. The program may be several words.
    `waits`: whether it is waited for until clients are let in.
    """

    def __init__(self, program, descriptors=None, out=None, container=None, upstream=None, waits=True):
        self.port = free_port()
        self.said = tempfile.TemporaryFile()
        self.waits = waits
        self.mute = None
        limit = None
        if descriptors:
            limit = lambda: resource.setrlimit(resource.RLIMIT_NOFILE, (descriptors, descriptors))
        self.upstream = container.port if container else upstream
        if not self.upstream:
            self.mute = socket.create_server(("127.0.0.1", 0), backlog=512)
            self.upstream = self.mute.getsockname()[1]
        behind = self.upstream if ":" in str(self.upstream) else f"127.0.0.1:{self.upstream}"
        program = [program] if isinstance(program, str) else program
        words = [*program, "serve", "--listen", f"127.0.0.1:{self.port}", "--upstream", behind]
        self.process = subprocess.Popen(words, stdout=out or self.said, stderr=self.said, preexec_fn=limit)

    def __enter__(self):
        for _ in range(200):
            if not self.waits and self.lines() or listens(self.port):
                time.sleep(0.2)
                return self
            time.sleep(0.02)
        raise SystemExit("the gateway does not listen")

    def __exit__(self, *_):
        self.process.terminate()
        self.process.wait()
        self.said.close()
        if self.mute:
            self.mute.close()

    def client(self):
        return socket.create_connection(("127.0.0.1", self.port), timeout=2)

    def started(self):
        """A client that got the whole of connection.start, or None."""
        stream = self.client()
        stream.sendall(HEADER)
        try:
            got = receive(stream, START)
        except OSError:
            got = b""
        if len(got) == START:
            return stream
        stream.close()
        return None

    def opened(self, interval=0):
        """A client whose connection is open on both sides, or None."""
        stream = self.client()
        stream.sendall(opening(interval))
        if met(stream) == "open":
            return stream
        stream.close()
        return None

    def told(self):
        """What was told beside the report, each line once."""
        return sorted({line for line in self.lines() if not line.startswith("pair")})

    def lines(self):
        self.said.seek(0)
        return self.said.read().decode(errors="replace").splitlines()


def receive(stream, count):
    got = b""
    while len(got) < count:
        more = stream.recv(count - len(got))
        if not more:
            break
        got += more
    return got


def met(stream):
    """What a client met that sent its opening in one piece."""
    try:
        got = receive(stream, START + TUNE + len(OPEN_OK))
    except OSError as error:
        return type(error).__name__
    answer = got[START + TUNE :]
    if answer == OPEN_OK:
        return "open"
    if len(answer) < 13:
        return f"{len(got)} bytes and the end"
    return f"closed with {int.from_bytes(answer[11:13], 'big')}"


def processor_seconds(pid):
    with open(f"/proc/{pid}/stat") as file:
        fields = file.read().rpartition(")")[2].split()
    return (int(fields[11]) + int(fields[12])) / os.sysconf("SC_CLK_TCK")


def system_calls(pid, seconds):
    words = ["perf", "stat", "-x", ",", "-e", "raw_syscalls:sys_enter", "-p", str(pid), "--", "sleep", str(seconds)]
    ran = subprocess.run(words, capture_output=True, text=True)
    found = re.search(r"^(\d+),", ran.stderr, re.M)
    return int(found[1]) / seconds if found else None


def idle(gateway, name):
    before = processor_seconds(gateway.process.pid)
    begun = time.monotonic()
    calls = system_calls(gateway.process.pid, IDLE_SECONDS) if shutil.which("perf") else None
    if calls is None:
        time.sleep(IDLE_SECONDS)
    share = (processor_seconds(gateway.process.pid) - before) / (time.monotonic() - begun)
    told = "not counted" if calls is None else f"{calls:,.0f}"
    print(f"{name}: {told} system calls/s, {share:.3f} of a core")


def latency(server, name, clients=400, rest=0.0):
    times = []
    for _ in range(clients):
        time.sleep(rest)
        begun = time.perf_counter()
        stream = socket.create_connection(("127.0.0.1", server.port), timeout=2)
        stream.sendall(HEADER)
        receive(stream, START)
        times.append((time.perf_counter() - begun) * 1e6)
        stream.close()
    times.sort()
    print(f"{name}: connect to start {times[clients // 2]:.0f} us, 90 of 100 within {times[clients * 9 // 10]:.0f} us")


def idle_clients(gateway, count):
    return [gateway.started() for _ in range(count)]


def all_idle(program):
    with Gateway(program) as gateway:
        idle(gateway, "no client")
    with Gateway(program) as gateway:
        held = idle_clients(gateway, 256)
        idle(gateway, f"{len([it for it in held if it])} idle clients that got connection.start")
        del held
    with Peer("contain") as container, Gateway(program, container=container) as gateway:
        held = [gateway.opened() for _ in range(256)]
        idle(gateway, f"{len([it for it in held if it])} idle clients, open on both sides")
        del held


def latencies(program):
    with Peer("greet") as server:
        latency(server, "a server of ten lines of Python")
        latency(server, "the same, after a rest of 20 ms", 100, 0.02)
    with Gateway(program) as gateway:
        latency(gateway, "alone")
        latency(gateway, "alone, after a rest of 20 ms", 100, 0.02)
    with Gateway(program) as gateway:
        held = idle_clients(gateway, 255)
        latency(gateway, "beside 255 idle clients")
        latency(gateway, "beside 255 idle clients, after a rest of 20 ms", 100, 0.02)
        del held


def writes(program):
    """The writes that an opening in one piece takes, by strace."""
    if not shutil.which("strace"):
        return
    with Peer("contain") as container, Gateway(program, container=container) as gateway, tempfile.NamedTemporaryFile("r") as log:
        words = ["strace", "-f", "-yy", "-s", "0", "-e", "trace=sendto,sendmsg,write,writev", "-o", log.name]
        tracer = subprocess.Popen(words + ["-p", str(gateway.process.pid)], stderr=subprocess.PIPE, text=True)
        tracer.stderr.readline()
        stream = gateway.client()
        stream.sendall(OPENING)
        said = met(stream)
        time.sleep(0.3)
        stream.close()
        tracer.terminate()
        tracer.wait()
        found = [line for line in log if "TCP:" in line]
        up = [line for line in found if f"->127.0.0.1:{gateway.upstream}]" in line]
    for name, lines in (("the client", [line for line in found if line not in up]), ("the container", up)):
        counts = [line.rpartition("=")[2].strip() for line in lines]
        print(f"an opening in one piece ({said}): {len(lines)} writes to {name}, of {', '.join(counts)} bytes")


def opened_with_few_descriptors(program):
    with Peer("contain") as container, Gateway(program, descriptors=50, container=container) as gateway:
        clients = [gateway.client() for _ in range(100)]
        for stream in clients:
            stream.sendall(OPENING)
        time.sleep(1)
        answered = tell_met("50 descriptors, 100 clients that open", clients)
        for stream in answered:
            stream.close()
        time.sleep(1)
        tell_met("    after those left", [stream for stream in clients if stream not in answered])
        print(f"    the service {'goes on' if gateway.process.poll() is None else 'has ended'}, and told {gateway.told()}")


def tell_met(name, clients):
    """Tells what these clients met, and gives those that met anything."""
    ready = select.select(clients, [], [], 0)[0]
    found = [met(stream) for stream in ready]
    counts = [f"{found.count(what)} {what}" for what in sorted(set(found))]
    print(f"{name}: {', '.join(counts)}, {len(clients) - len(ready)} wait")
    return ready


def few_descriptors(program):
    with Gateway(program, descriptors=50) as gateway:
        clients = []
        for _ in range(100):
            try:
                stream = gateway.client()
                stream.sendall(HEADER)
                clients.append(stream)
            except OSError:
                break
        time.sleep(1)
        ready = select.select(clients, [], [], 0)[0]
        served = [stream for stream in clients if stream in ready and got_start(stream)]
        print(f"50 descriptors, 100 clients: {len(clients)} connected, {len(served)} got connection.start")
        if gateway.process.poll() is not None:
            print(f"    and the service ended with status {gateway.process.returncode}: {gateway.lines()[-1:]}")
            return
        leaving = served[:30]
        for stream in leaving:
            stream.close()
        time.sleep(1)
        late = [stream for stream in clients if stream not in served]
        ready = select.select(late, [], [], 0)[0]
        later = [stream for stream in ready if got_start(stream)]
        told = [line for line in gateway.lines() if line.startswith("a client waits")]
        print(f"    after {len(leaving)} of them left: {len(later)} of those that waited got it; {len(told)} lines told")


def falling_limit(program, count=10):
    """A gateway that has room for all, and whose limit of descriptors is then below what they need."""
    with Gateway(program, descriptors=512) as gateway:
        limit = lambda soft: resource.prlimit(gateway.process.pid, resource.RLIMIT_NOFILE, (soft, 512))
        limit(8)
        clients = [gateway.client() for _ in range(count)]
        for stream in clients:
            stream.sendall(HEADER)
        waiting = clients
        for title in (f"a limit of descriptors that fell to 8, {count} clients", "    after it was raised to 512 again"):
            time.sleep(1)
            ready = select.select(waiting, [], [], 0)[0]
            served = [stream for stream in ready if got_start(stream)]
            waiting = [stream for stream in waiting if stream not in ready]
            print(f"{title}: {len(served)} got connection.start, {len(waiting)} wait; told {gateway.told()}")
            limit(512)
        print(f"    the service {'goes on' if gateway.process.poll() is None else 'has ended'}")


class Watched:
    """Clients with an interval of one second, watched by a thread for how late their heartbeats come.

    The gateway sends one half a second after the byte that it sent last. What a heartbeat comes later after the one before it is
    its delay. Each is answered by one.
    """

    def __init__(self, gateway, count):
        self.streams = [stream for stream in (gateway.opened(1) for _ in range(count)) if stream]
        self.last = {}
        self.delays = []
        self.lost = 0
        self.over = threading.Event()
        self.thread = threading.Thread(target=self.watch)

    def __enter__(self):
        self.thread.start()
        time.sleep(2)
        return self

    def __exit__(self, *_):
        self.over.set()
        self.thread.join()
        for stream in self.streams:
            stream.close()

    def watch(self):
        selector = selectors.DefaultSelector()
        for stream in self.streams:
            selector.register(stream, selectors.EVENT_READ)
        while not self.over.is_set():
            for key, _ in selector.select(0.05):
                if not self.note(key.fileobj):
                    selector.unregister(key.fileobj)
                    self.lost += 1

    def note(self, stream):
        """Takes what came, and answers it; whether the client is still connected."""
        now = time.monotonic()
        try:
            came = stream.recv(4096)
        except OSError:
            return False
        if not came:
            return False
        if stream in self.last:
            self.delays.append(now - self.last[stream] - 0.5)
        self.last[stream] = now
        send_all(stream, HEARTBEAT)
        return True

    def told(self):
        """What came since this was asked last."""
        found, self.delays = sorted(self.delays), []
        if not found:
            return "no heartbeat came"
        at = lambda part: found[min(int(len(found) * part), len(found) - 1)] * 1e3
        lost = f", {self.lost} clients lost" if self.lost else ""
        return f"{len(found)} heartbeats late by {at(0.5):.1f} ms, 99 of 100 within {at(0.99):.1f}, all within {at(1):.1f}{lost}"


def burst(stream, data):
    """The time from the first byte of a burst to the answer to the channel.flow behind it; None where none comes."""
    begun = time.perf_counter()
    try:
        stream.sendall(data)
        got = receive(stream, len(FLOW_OK))
    except OSError:
        return None
    return time.perf_counter() - begun if got == FLOW_OK else None


def bursts(program, others=250, seconds=5):
    with Peer("contain") as container, Gateway(program, container=container) as gateway, Watched(gateway, others) as watched:
        stream = gateway.opened()
        stream.settimeout(60)
        stream.sendall(CHANNEL_OPEN)
        if receive(stream, len(CHANNEL_OPEN_OK)) != CHANNEL_OPEN_OK:
            raise SystemExit("no channel was opened")
        watched.told()
        time.sleep(seconds)
        print(f"{len(watched.streams)} clients, and none that sends more: {watched.told()}")
        alone = 0.0
        for count, times in ((0, 101), (1_000, 101), (10_000, 31), (100_000, 11), (1_000_000, 3)):
            data = HEARTBEAT * count + FLOW
            until = time.monotonic() + seconds
            took = []
            while len(took) < times or time.monotonic() < until:
                took.append(burst(stream, data))
                if took[-1] is None:
                    print(f"{count:,} heartbeats in one stream: no answer")
                    return
            median = sorted(took)[len(took) // 2]
            if count:
                each = (median - alone) / count * 1e6
                print(f"{count:,} heartbeats in one stream, {len(took)} times: {median * 1e3:.2f} ms, {each:.3f} us a frame")
            else:
                alone = median
                print(f"a channel.flow alone, {len(took)} times: {median * 1e6:.0f} us")
            print(f"    meanwhile of the others {watched.told()}")
        stream.close()


def scheduled_seconds(pid):
    with open(f"/proc/{pid}/schedstat") as file:
        return int(file.read().split()[0]) / 1e9


def one_read(program, container, data, opens=False):
    """The processor time until the answer to the channel.flow in these bytes, which the gateway gets in one read. Channel 1 is open before, or they open it."""
    answer = CHANNEL_OPEN_OK + FLOW_OK if opens else FLOW_OK
    with Gateway(program, container=container) as gateway:
        pid = gateway.process.pid
        stream = gateway.opened()
        if stream is None:
            raise SystemExit("no connection was opened")
        stream.settimeout(60)
        if not opens:
            stream.sendall(CHANNEL_OPEN)
            if receive(stream, len(CHANNEL_OPEN_OK)) != CHANNEL_OPEN_OK:
                raise SystemExit("no channel was opened")
        stream.sendall(WAITING_OPEN)
        time.sleep(0.1)
        os.kill(pid, signal.SIGSTOP)
        stream.sendall(data)
        time.sleep(0.1)
        begun = scheduled_seconds(pid)
        os.kill(pid, signal.SIGCONT)
        got = receive(stream, len(answer))
        took = scheduled_seconds(pid) - begun
        stream.close()
        return took if got == answer else None


def waits(program):
    with Peer("contain") as container:
        for count, passing in ((0, 2_500), (100, 100), (1_200, 1_200), (2_500, 2_500), (4_000, 2_500), (6_000, 1_200)):
            data = WAITING_BODY * count + SELECT * passing + FLOW
            took = [one_read(program, container, data) for _ in range(5)]
            if None in took:
                print(f"{passing:,} frames behind {count:,} that wait: no answer")
                return
            median = sorted(took)[2]
            print(f"{passing:,} frames behind {count:,} that wait: {median * 1e3:.2f} ms, {median / passing * 1e6:.2f} us a frame")
        held = WAITING_BODY + HIGH_HEARTBEAT + WAITING_BODY * 3_999 + CHANNEL_OPEN + SELECT * 2_000 + FLOW + HEARTBEAT
        for what, data in (("a heartbeat on channel 300", held), ("that and a frame on 301", held + HIGH_SELECT)):
            took = [one_read(program, container, data, opens=True) for _ in range(5)]
            if None in took:
                print(f"2,000 frames behind 4,000 that wait, with {what}: no answer")
                return
            median = sorted(took)[2]
            print(f"2,000 frames behind 4,000 that wait, with {what}: {median * 1e3:.2f} ms, {median / 2_000 * 1e6:.2f} us a frame")


def unread_output(program, clients=6000):
    """More report lines than a pipe holds, and a reader that comes late."""
    reader, writer = os.pipe()
    with Gateway(program, out=writer) as gateway:
        os.close(writer)
        served = 0
        for _ in range(clients):
            stream = gateway.started()
            if not stream:
                break
            stream.close()
            served += 1
        print(f"a standard output that nobody reads: {served} of {clients} clients got connection.start")
        os.set_blocking(reader, False)
        text = b""
        for _ in range(100):
            try:
                text += os.read(reader, 1 << 20)
            except BlockingIOError:
                pass
            time.sleep(0.01)
        print(f"    read late: {text.count(b'closed')} lines")
    os.close(reader)


def reset(program):
    with Gateway(program) as gateway:
        stream = gateway.started()
        stream.setsockopt(socket.SOL_SOCKET, socket.SO_LINGER, struct.pack("ii", 1, 0))
        stream.close()
        time.sleep(0.2)
        print(f"a client that resets: {gateway.lines()[-1:]}, and the next one {'is' if gateway.started() else 'is not'} served")


def refused_late(program):
    with Gateway(program) as gateway:
        stream = gateway.client()
        sent = threading.Thread(target=lambda: send_all(stream, b"GET / HTTP/1.1\r\n" + bytes(1_000_000)))
        sent.start()
        time.sleep(0.3)
        try:
            got = receive(stream, 100)
            print(f"a client that is refused while it sends a megabyte: {len(got)} bytes and the end")
        except OSError as error:
            print(f"a client that is refused while it sends a megabyte: {type(error).__name__}")
        stream.close()
        sent.join()


def send_all(stream, data):
    try:
        stream.sendall(data)
    except OSError:
        pass


def addresses(program):
    with socket.socket() as taken:
        taken.bind(("127.0.0.1", 0))
        taken.listen()
        for address in (f"127.0.0.1:{taken.getsockname()[1]}", "no.such.host.invalid:5672", "203.0.113.1:5672", "127.0.0.1"):
            ran = subprocess.run([program, "serve", "--listen", address], capture_output=True, text=True, timeout=60)
            told = "; ".join(ran.stderr.splitlines())
            print(f"--listen {address}: status {ran.returncode}, {ran.stdout.strip()!r}, told {told!r}")
    for address in ("no.such.host.invalid:5672", "127.0.0.1"):
        words = [program, "serve", "--listen", "127.0.0.1:0", "--upstream", address, "--turns", "5"]
        ran = subprocess.run(words, capture_output=True, text=True, timeout=60)
        told = "; ".join(ran.stderr.splitlines())
        print(f"--upstream {address}: status {ran.returncode}, {ran.stdout.strip()!r}, told {told!r}")


def got_start(stream):
    try:
        return len(receive(stream, START)) == START
    except OSError:
        return False


MEASURES = {
    "idle": [all_idle],
    "latency": [latencies],
    "writes": [writes],
    "descriptors": [few_descriptors, opened_with_few_descriptors, falling_limit],
    "bursts": [bursts],
    "waits": [waits],
    "output": [unread_output],
    "ends": [reset, refused_late],
    "addresses": [addresses],
}


def main():
    parser = argparse.ArgumentParser(description=__doc__, formatter_class=argparse.RawDescriptionHelpFormatter)
    parser.add_argument("program")
    parser.add_argument("--nice", type=int, default=0)
    parser.add_argument("--only", nargs="+", choices=MEASURES, default=list(MEASURES))
    # Behind the word `contain` or `greet` the script is such a server, as it starts itself.
    parser.add_argument("--port", type=int)
    given = parser.parse_args()
    if given.port:
        if given.program == "contain":
            listen(given.port, contain, at_once=True)
        listen(given.port, greet, at_once=False)
    os.nice(given.nice)
    for word in given.only:
        for measure in MEASURES[word]:
            measure(given.program)


if __name__ == "__main__":
    main()
