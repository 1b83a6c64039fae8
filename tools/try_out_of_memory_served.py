#!/usr/bin/env python3
"""Makes each allocation of the running gateway fail, one in each run, over loopback sockets, and checks what its peers got.

    python3 tools/try_out_of_memory_served.py [--gateway FILE] [--from NUMBER] NAME..

The gateway is crates/amqp_gate/out/amqp_gate, as `rt run` leaves it there. A NAME is that of a capture of tools/captures with
one pair, in which no connect failed. What its client and its container sent is sent by two clients, one after the other, and by the
container of each, as far as they got as many bytes as the capture says. The gateway is run anew for each allocation, as
`tools/try_out_of_memory.py` has it fail, until a run doesn't come to it; the first is NUMBER, or 1.

What must hold: the gateway ends with status 5, and says why, before a client is served. Or all is as with ample memory. Or it ends with
status 0, and reports one pair that ran out of memory. What each peer of that pair got is whole units, the first ones those that it gets
with ample memory. Behind them its client gets one close at most: connection.close 506 NO_MEMORY, byte by byte, unless it is the one that
it gets with ample memory. Its container gets dispositions, detaches, ends and the close, in this order, the close with
amqp:resource-limit-exceeded where its client is told 506. The other client and its container get what they get with ample memory.

Each outcome is printed with its count, and what is wrong with the number of the allocation; the status is 1 then. It needs cc, glibc
and Linux. This is no part of the gate.
"""

import argparse
import collections
import select
import socket
import subprocess
import sys
import tempfile
import time
from pathlib import Path

from try_out_of_memory import BYES, CAPTURES, CLIENT, CLOSE, CRATES, LIMIT_EXCEEDED, NO_MEMORY, UP
from try_out_of_memory import Program, Wrong, is_close, must, of_capture, performative, units_of

PAIRS = 2


def pieces_of(scenario):
    """What each end sends, with the count of bytes that it gets before; none where its stream ends."""
    pieces = {CLIENT: [], UP: []}
    for _, deed in scenario.lines:
        end, deed = (UP, deed[3:]) if deed.startswith("up ") else (CLIENT, deed)
        verb, _, text = deed.partition(" ")
        if verb == "after":
            count, _, text = text.partition(" ")
            pieces[end].append((int(count), bytes.fromhex(text)))
        elif verb in ("sends", "ends"):
            pieces[end].append((0, bytes.fromhex(text) if verb == "sends" else None))
    return pieces


class Talk:
    """A client, and the container that is asked for it."""

    def __init__(self, pieces, port, containers):
        self.left, self.got, self.sockets = {end: list(pieces[end]) for end in pieces}, {CLIENT: b"", UP: b""}, {}
        self.over, self.containers = set(), containers
        self.sockets[CLIENT] = socket.create_connection(("127.0.0.1", port))

    def hear(self):
        """Takes what comes within a moment; whether something does."""
        open_ones = {self.sockets[end]: end for end in self.sockets if end not in self.over}
        waits = [*open_ones, *([] if UP in self.sockets else [self.containers])]
        ready = select.select(waits, [], [], 0.02)[0]
        for one in ready:
            if one is self.containers:
                self.sockets[UP] = one.accept()[0]
                continue
            try:
                came = one.recv(65536)
            except ConnectionError:
                came = b""
            self.got[open_ones[one]] += came
            if not came:
                self.over.add(open_ones[one])
        return bool(ready)

    def say(self):
        """Sends what is due; whether something is."""
        said = False
        for end, one in self.sockets.items():
            while self.left[end] and end not in self.over and len(self.got[end]) >= self.left[end][0][0]:
                piece = self.left[end].pop(0)[1]
                said = True
                try:
                    one.shutdown(socket.SHUT_WR) if piece is None else one.sendall(piece)
                except OSError:
                    self.over.add(end)
        return said

    def run(self):
        """What each end got, once both are over, or nothing more comes."""
        last = time.monotonic()
        while self.over != set(self.sockets):
            moved = self.hear()
            moved |= self.say()
            now = time.monotonic()
            last = now if moved else last
            if now - last > (2 if any(self.left.values()) else 0.3):
                break
        for one in self.sockets.values():
            one.close()
        return self.got


class Served:
    """The gateway, served to its end with an allocation that fails."""

    def __init__(self, gateway, library, containers, pieces, words, number, many):
        port = containers.getsockname()[1]
        serve = ["serve", "--listen", "127.0.0.1:0", "--upstream", f"127.0.0.1:{port}", f"--pairs={PAIRS}", *words]
        env = {"LD_PRELOAD": str(library), "FAILING": f"{number} {many}"}
        with subprocess.Popen([gateway, *serve], env=env, stdout=-1, stderr=-1, bufsize=0) as program:
            try:
                first, self.got = program.stderr.readline(), []
                for _ in range(PAIRS if first.startswith(b"listening") else 0):
                    self.got.append(Talk(pieces, int(first.rpartition(b":")[2]), containers).run())
            except ConnectionError:
                pass
            try:
                report, words = program.communicate(timeout=60)
            finally:
                program.kill()
            self.status, self.report = program.returncode, report.decode().splitlines()
        *self.words, self.count = (first + words).decode().splitlines()


def check_pair(got, ample):
    """How a pair that ran out was closed."""
    behind = {}
    for end in (CLIENT, UP):
        units, rest = units_of(end, got[end])
        usual, _ = units_of(end, ample[end])
        must(rest == b"", "a peer gets whole units")
        same = next((k for k, pair in enumerate(zip(units, usual)) if pair[0] != pair[1]), min(len(units), len(usual)))
        behind[end] = units[same:]
    client, container = behind[CLIENT], behind[UP]
    codes = [performative(unit)[0] for unit in container]
    must(client in ([], [NO_MEMORY]), "the client gets connection.close 506, or nothing more")
    must(all(code in BYES for code in codes) and codes == sorted(codes), "the container gets dispositions, detaches, ends and the close")
    must(codes.count(CLOSE) <= 1 and (not client or CLOSE not in codes or container[-1] == LIMIT_EXCEEDED), "the close is that for 506")
    closes = [unit for unit in units_of(CLIENT, got[CLIENT])[0] if is_close(unit)]
    must(closes or not got[CLIENT], "the client is told of the close")
    return "506" if client else "what it gets with ample memory" if got[CLIENT] else "nothing"


def judged(run, ample):
    """What came of a run; of a wrong one it begins with WRONG."""
    try:
        if run.status == 5:
            must("ended: out of memory" in run.words and not any(got[CLIENT] for got in run.got), "status 5 comes before a client")
            return "status 5 before any client"
        must(run.status == 0 and run.report[-1] == ample.report[-1], "the service goes on to its end")
        short = [pair for pair in range(PAIRS) if f"pair {pair} memory" in run.report]
        if not short and run.got == ample.got:
            # Where words are collected, room for all of them is asked for, and its want is passed over.
            return "nothing changed"
        must(len(short) == 1, "one pair ran out")
        must(run.got[1 - short[0]] == ample.got[1 - short[0]], "the other pair gets what it gets with ample memory")
        return f"pair {short[0]} ran out, and its client got {check_pair(run.got[short[0]], ample.got[short[0]])}"
    except Wrong as wrong:
        return f"WRONG: {wrong}"


def main():
    parser = argparse.ArgumentParser(description=__doc__, formatter_class=argparse.RawDescriptionHelpFormatter)
    parser.add_argument("--gateway", type=Path, default=CRATES / "amqp_gate" / "out" / "amqp_gate")
    parser.add_argument("--from", type=int, default=1, dest="first")
    parser.add_argument("names", nargs="+")
    options = parser.parse_args()
    is_wrong = False
    with tempfile.TemporaryDirectory() as made, socket.create_server(("127.0.0.1", 0)) as containers:
        library = Program(options.gateway, Path(made)).library
        for name in options.names:
            scenario = of_capture((CAPTURES / f"{name}.agc").read_bytes())
            given = (options.gateway, library, containers, pieces_of(scenario), scenario.words)
            ample, counts, number = Served(*given, 0, 0), collections.Counter(), options.first
            if ample.status != 0 or not all(got[UP] for got in ample.got):
                sys.exit(f"{name} isn't served with ample memory: {ample.words}")
            while number <= int((run := Served(*given, number, 1)).count):
                outcome = judged(run, ample)
                counts[outcome] += 1
                if outcome.startswith("WRONG"):
                    print(f"{name}, allocation {number}: {outcome}", flush=True)
                number += 1
            is_wrong |= any(outcome.startswith("WRONG") for outcome in counts)
            print(f"{name}: allocations {options.first} to {number - 1}")
            for outcome, count in counts.most_common():
                print(f"{count:8} {outcome}", flush=True)
    sys.exit(is_wrong)


if __name__ == "__main__":
    main()
