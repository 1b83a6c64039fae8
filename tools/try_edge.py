#!/usr/bin/env python3
"""Tries over loopback what the program does at its edge, and what it tells on the standard error.

    python3 tools/try_edge.py PROGRAM [--only WORD ..]

PROGRAM is the built program, as crates/amqp_gate/out/amqp_gate. The words are:

- full: the line that a client waits, where 256 are open: within 2 s, once, and once more where it happens again; and of 256 pairs
  whose clients left while their container doesn't answer;
- capture: the mode of a capture's file, of a new one under each umask, and of one that was there;
- names: the status and the reason where an address can't be used;
- outage: clients are refused before the container is there and after it was killed, those that are in are told, and further ones
  are served within 2 s of its start; what is told of it, and how often it is connected to meanwhile;
- silent: the same where a container's machine doesn't answer a connect at all; it takes 25 s;
- moved: a name with several addresses, and with another one later. For it the program is run as root in a mount namespace of its
  own, with a file of names of its own.

What doesn't hold is printed, and the status is then 1. No part of the build runs this.
"""

import argparse
import os
import select
import socket
import subprocess
import sys
import tempfile
import time

from measure_edge import HEADER, OPEN_OK, OPENING, Gateway, Peer, free_port, met

FAULTS = []
# No more clients than these have pairs at once.
MOST = 256


def must(holds, what):
    print(f"{'ok' if holds else 'FAULT'}: {what}", flush=True)
    if not holds:
        FAULTS.append(what)


def until(holds, seconds=5.0):
    """Whether something holds within a time."""
    ends = time.monotonic() + seconds
    while time.monotonic() < ends:
        if holds():
            return True
        time.sleep(0.01)
    return holds()


def asks(port):
    """What becomes of a client: `refused`, `open`, or what else it met."""
    try:
        stream = socket.create_connection(("127.0.0.1", port), timeout=10)
    except ConnectionRefusedError:
        return "refused"
    with stream:
        try:
            stream.sendall(OPENING)
            return met(stream)
        except OSError as error:
            return type(error).__name__


def enters(gateway):
    """A client whose connection is open on both sides."""
    stream = socket.create_connection(("127.0.0.1", gateway.port), timeout=30)
    stream.sendall(OPENING)
    what = met(stream)
    if what != "open":
        sys.exit(f"a client's connection isn't opened: {what}")
    return stream


def lines_with(gateway, text):
    return [line for line in gateway.lines() if text in line]


def full(program):
    waits = f"a client waits, and cannot be accepted: {MOST} are open"
    with Peer("contain") as container, Gateway(program, container=container) as gateway:
        clients = [enters(gateway) for _ in range(MOST)]
        time.sleep(1.2)
        must(not lines_with(gateway, "a client waits"), "nothing is told while none waits")
        late = gateway.client()
        late.sendall(HEADER)
        must(until(lambda: lines_with(gateway, waits)), f"told: {waits}")
        time.sleep(2.5)
        must(len(lines_with(gateway, waits)) == 1, "it is told once")
        clients.pop().close()
        must(bool(select.select([late], [], [], 2)[0]), "the one that waits is served once another has left")
        time.sleep(1.2)
        clients.pop().close()
        time.sleep(1.2)
        clients += [enters(gateway), gateway.client()]
        must(until(lambda: len(lines_with(gateway, waits)) == 2), "it is told again where it happens again")
    with socket.create_server(("127.0.0.1", 0), backlog=512) as mute:
        with Gateway(program, upstream=mute.getsockname()[1]) as gateway:
            clients = [gateway.client() for _ in range(MOST)]
            for stream in clients:
                stream.sendall(OPENING)
            must(all(stream.recv(1) for stream in clients), f"{MOST} clients whose containers don't answer are served")
            late = gateway.client()
            must(until(lambda: lines_with(gateway, waits)), f"told: {gateway.told()}")


def capture(program):
    with tempfile.TemporaryDirectory() as folder:
        there = os.path.join(folder, "there")
        open(there, "w").close()
        os.chmod(there, 0o640)
        for mask, name, mode in ((0o022, "new", 0o600), (0, "new too", 0o600), (0o077, "new as well", 0o600), (0, "there", 0o640)):
            path = os.path.join(folder, name)
            words = [program, "serve", "--listen", "127.0.0.1:0", "--turns", "3", "--capture", path]
            ran = subprocess.run(words, capture_output=True, timeout=60, preexec_fn=lambda: os.umask(mask))
            found = os.stat(path).st_mode & 0o777
            must((found, ran.returncode) == (mode, 6), f"capture {name!r} under umask {mask:03o}: mode {found:03o}")


def names(program):
    port = free_port()
    for wanted, address, reason in (
        ("--upstream", "no.such.host.invalid:5672", "cannot use no.such.host.invalid:5672 as the container's address: "),
        ("--upstream", "127.0.0.1", "cannot use 127.0.0.1 as the container's address: "),
        ("--listen", "no.such.host.invalid:5672", "cannot listen on no.such.host.invalid:5672: "),
    ):
        words = {"--listen": f"127.0.0.1:{port}", "--upstream": f"127.0.0.1:{free_port()}", wanted: address}
        words = [word for pair in words.items() for word in pair]
        ran = subprocess.run([program, "serve", *words], capture_output=True, text=True, timeout=60)
        told = ran.stderr.splitlines()
        fine = ran.returncode == 4 and ran.stdout == "fault: accept\n" and told[0].startswith(reason) and told[0] != reason
        must(fine and told[-1].startswith("ended: "), f"{wanted} {address}: status {ran.returncode}, {told}")


class Server(Peer):
    """The script's own container on a port that is given."""

    def __init__(self, port):
        self.port = port
        words = [sys.executable, os.path.join(os.path.dirname(os.path.abspath(__file__)), "measure_edge.py"), "contain"]
        self.process = subprocess.Popen([*words, "--port", str(port)])


def outage(program):
    port = free_port()
    lost = f"the container at 127.0.0.1:{port} cannot be reached, clients are refused: Connection refused"
    reached = f"the container at 127.0.0.1:{port} is reached"
    with Gateway(program, upstream=port, waits=False) as gateway:
        must(until(lambda: lines_with(gateway, lost)), f"told before the container is there: {lost}")
        must(asks(gateway.port) == "refused", "a client is refused")
        time.sleep(2.2)
        must(asks(gateway.port) == "refused" and len(lines_with(gateway, lost)) == 1, "so later, and it is told once")
        with Server(port):
            must(until(lambda: asks(gateway.port) == "open"), "a client is served once the container is there")
            must(len(lines_with(gateway, reached)) == 1, f"told: {reached}")
            must(len(lines_with(gateway, "listening on")) == 2, "so is that it listens again")
            must([asks(gateway.port) for _ in range(5)] == ["open"] * 5, "others are served")
            must(not lines_with(gateway, "failed"), "a client that leaves is no failure of the container")
            inside = [enters(gateway) for _ in range(3)]
            waiting, entered = gateway.started(), time.monotonic()
        told = [met_close(stream) for stream in inside]
        began = time.monotonic()
        must(asks(gateway.port) == "refused", f"a client is refused {(time.monotonic() - began) * 1e3:.1f} ms after that")
        must(told == [320] * 3, f"clients that are in are told 320 when the container is killed: {told}")
        must(len(lines_with(gateway, lost)) == 2, "told again, once")
        must(len(lines_with(gateway, f"the container at 127.0.0.1:{port} failed: ")) >= 1, f"so is why: {gateway.told()}")
        must(waiting.fileno() > 0 and not select.select([waiting], [], [], 0)[0], "a client that hasn't opened yet stays")
        with Server(port):
            must(until(lambda: asks(gateway.port) == "open"), "a client is served once it is back")
            waiting.sendall(OPENING[len(HEADER) :])
            stayed = time.monotonic() - entered
            got = received(waiting)
            # (on a busy machine its ten seconds may be over)
            must(got.endswith(OPEN_OK) or stayed > 9, f"so is the one that stayed, for {stayed:.1f} s: {got.hex() or 'nothing'}")
            must(len(lines_with(gateway, reached)) == 2, "told again, once")
    counted(program)


def received(stream):
    """What comes until nothing more does."""
    got, stream_is_open = b"", True
    while stream_is_open and select.select([stream], [], [], 1)[0]:
        more = stream.recv(4096)
        got, stream_is_open = got + more, bool(more)
    return got


def met_close(stream):
    """The code of the connection.close that comes."""
    got = stream.recv(4096)
    return int.from_bytes(got[11:13], "big") if got[7:11] == b"\0\x0a\0\x32" else got


def counted(program):
    """How often a container is connected to by the edge itself."""
    with socket.create_server(("127.0.0.1", 0), backlog=512) as container:
        with Gateway(program, upstream=container.getsockname()[1]) as gateway:
            with gateway.client() as stream:
                stream.sendall(OPENING)
                found = [container.accept()[0]]
                found[0].settimeout(10)
                must(found[0].recv(8) == b"AMQP\x03\x01\x00\x00", "the first stream that a container gets is the first client's")
                container.settimeout(6)
                try:
                    found.append(container.accept()[0])
                except TimeoutError:
                    pass
                must(len(found) == 1, "and the only one")
        with Gateway(program, upstream=container.getsockname()[1]):
            container.settimeout(10)
            stream = container.accept()[0]
            stream.settimeout(20)
            began = time.monotonic()
            must(stream.recv(8) == b"", f"without a client it is closed: after {time.monotonic() - began:.1f} s")


def silent(program):
    """A listener whose queue is full answers no connect, as a machine that is gone."""
    with socket.create_server(("127.0.0.1", 0), backlog=0) as container:
        port = container.getsockname()[1]
        held = [socket.socket() for _ in range(2)]
        with Gateway(program, upstream=port) as gateway:
            must(not lines_with(gateway, "cannot be reached"), "it is reached at first")
            for stream in held:
                stream.setblocking(False)
                stream.connect_ex(("127.0.0.1", port))
            time.sleep(6)
            stuck = gateway.client()
            stuck.sendall(OPENING)
            must(until(lambda: lines_with(gateway, "cannot be reached, clients are refused: timed out"), 17), f"told: {gateway.told()}")
            must(asks(gateway.port) == "refused", "a client is refused")
        for stream in held:
            stream.close()


def moved(program):
    port = free_port()
    with tempfile.NamedTemporaryFile("w", suffix=".hosts") as hosts:
        def name(*addresses):
            hosts.seek(0)
            hosts.truncate()
            hosts.write("127.0.0.1 localhost\n" + "".join(f"{address} the.container\n" for address in addresses))
            hosts.flush()

        name("127.0.0.2", "127.0.0.3")
        script = f"mount --bind {hosts.name} /etc/hosts && exec \"$@\""
        wrapped = ["unshare", "-m", "sh", "-c", script, "sh", program]
        with Gateway(wrapped, upstream=f"the.container:{port}", waits=False) as gateway:
            must(until(lambda: lines_with(gateway, "cannot be reached")), f"none of two addresses: {gateway.told()}")
            for address in ("127.0.0.3", "127.0.0.2"):
                with Shared(address, port):
                    must(until(lambda: asks(gateway.port) == "open"), f"the container is at {address}")
                must(until(lambda: asks(gateway.port) == "refused"), "it is killed")
            name("127.0.0.4")
            with Shared("127.0.0.4", port):
                must(until(lambda: asks(gateway.port) == "open"), "the name has another address, 127.0.0.4")
            print(gateway.told())


class Shared:
    """A container in this process's place at an address of its own."""

    def __init__(self, address, port):
        words = [sys.executable, os.path.abspath(__file__), "-", "--serve", f"{address}:{port}"]
        self.process = subprocess.Popen(words)

    def __enter__(self):
        return self

    def __exit__(self, *_):
        self.process.kill()
        self.process.wait()


WORDS = {it.__name__: it for it in (full, capture, names, outage, silent, moved)}


def main():
    parser = argparse.ArgumentParser(description=__doc__, formatter_class=argparse.RawDescriptionHelpFormatter)
    parser.add_argument("program")
    parser.add_argument("--only", nargs="+", choices=WORDS, default=list(WORDS))
    parser.add_argument("--serve")
    given = parser.parse_args()
    if given.serve:
        from measure_edge import contain, listen

        address, port = given.serve.split(":")
        listen(int(port), contain, at_once=True, address=address)
    for word in given.only:
        print(f"{word}:", flush=True)
        WORDS[word](given.program)
    print(f"{len(FAULTS)} faults")
    sys.exit(1 if FAULTS else 0)


if __name__ == "__main__":
    main()
