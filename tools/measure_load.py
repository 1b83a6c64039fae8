#!/usr/bin/env python3
"""Measures publishes and deliveries through the gateway, beside the same against RabbitMQ's own port, over loopback.

    python3 tools/measure_load.py --rabbit PORT [--gateway 'COMMAND'] [--container 'COMMAND'] [--client NAME,NAME..]
                                  [--what WORD,WORD..] [--paths WORD,WORD..] [--size BYTES,BYTES..] [--count COUNT,COUNT..]
                                  [--window COUNT] [--prefetch COUNT] [--rounds COUNT] [--wait SECONDS] [--profile FOLDER]
                                  [--quorum]

RabbitMQ listens at PORT for both protocols, by its plugin for AMQP 1.0. The gateway is crates/amqp_gate/out/amqp_gate if no
command names another. It is started twice: in front of the container, and in front of RabbitMQ. The container is
tools/fast_container.c, built over Qpid Proton, if no command names another, which is then run as `COMMAND --port P`.
The clients are `c` and `go`, by tools/clients/load.c (rabbitmq-c) and load.go (amqp091-go).

| WORD of --what | Measured |
|---|---|
| `publish` | publishes with confirms, at most `--window` of them without one |
| `each`, `multiple`, `none` | deliveries of a queue filled before, with `--prefetch`: acked each, each fifth part of it at once, or not to be acked |
| `alone` | no gateway: a client of AMQP 1.0 (tools/clients/load_10.c) sends to the container and takes from it, and sends to RabbitMQ's plugin |

| WORD of --paths | The client is |
|---|---|
| `rabbit` | at RabbitMQ's own port; the queue isn't durable, and the messages are transient |
| `container` | at the gateway in front of the container |
| `plugin` | at the gateway in front of RabbitMQ; of deliveries only with a prefetch of 1, or `none` with `--quorum`, since RabbitMQ's plugin sends too much otherwise |

With `--quorum` RabbitMQ's queue is a durable quorum queue, both at its own port and behind the gateway. There too its plugin may send
too much of what isn't acked, and then a line says FAULT.

For each client, kind, size and count the paths are taken in turn, `--rounds` times. Each run prints the messages a second, the
processor time of the gateway a message (its threads' schedstat, which is utime and stime in nanoseconds) with the connection's
opening and close, and how much of the time the client, the gateway, and what is behind it were busy. A table of medians
comes last. Each message must have been acked and be in the queue, or have come once, in order and whole, and be settled as the
client did: else a line says FAULT, and the status is 1. With `--profile` each run through a gateway is recorded by perf.
This is no part of the build.
"""

import argparse
import collections
import itertools
import os
import re
import shlex
import signal
import statistics
import subprocess
import sys
import tempfile
import time

from quorum_queue import QuorumQueue
from try_container import BUILT, CLIENTS, GO_PATH, ROOT, end, free_port, wait_for

QUEUE = "load"
Run = collections.namedtuple("Run", "rate each gateway client behind")


def listener(port):
    """The process that listens on a port."""
    with open("/proc/net/tcp") as table:
        rows = [line.split() for line in table][1:]
    wanted = {f"socket:[{row[9]}]" for row in rows if row[1].endswith(f":{port:04X}") and row[3] == "0A"}
    for pid in filter(str.isdigit, os.listdir("/proc")):
        try:
            files = os.listdir(f"/proc/{pid}/fd")
            if any(os.readlink(f"/proc/{pid}/fd/{name}") in wanted for name in files):
                return int(pid)
        except OSError:
            continue
    sys.exit(f"nobody listens on port {port}")


def processor_seconds(pid):
    """What all threads of a process, that are there, took of a processor."""
    total = 0
    for thread in os.listdir(f"/proc/{pid}/task"):
        with open(f"/proc/{pid}/task/{thread}/schedstat") as stat:
            total += int(stat.read().split()[0])
    return total / 1e9


class Programs:
    """The clients and the container, built in a folder."""

    def __init__(self, folder):
        at = lambda name: os.path.join(folder, name)
        self.container, self.alone = at("fast_container"), at("load_10")
        self.clients = {"c": at("load"), "go": at("load_go")}
        environment = {**os.environ, "GOPATH": GO_PATH, "GO111MODULE": "off", "GOCACHE": "/tmp/go-cache"}
        source = lambda name: os.path.join(CLIENTS, name)
        gcc = ["gcc", "-O2", "-o"]
        for words in (
            [*gcc, self.container, os.path.join(ROOT, "tools", "fast_container.c"), "-lqpid-proton"],
            [*gcc, self.alone, source("load_10.c"), "-lqpid-proton"],
            [*gcc, self.clients["c"], source("load.c"), "-lrabbitmq"],
            ["go", "build", "-o", self.clients["go"], source("load.go")],
        ):
            subprocess.run(words, check=True, env=environment)


class Gateway:
    """A running gateway in front of a port; of a command that starts it as its child, the child is what is measured."""

    def __init__(self, options, upstream, folder, name):
        self.port, self.report = free_port(), os.path.join(folder, f"report-{name}")
        words = ["serve", "--listen", f"127.0.0.1:{self.port}", "--upstream", f"127.0.0.1:{upstream}"]
        with open(self.report, "w") as report:
            self.program = subprocess.Popen([*shlex.split(options.gateway), *words], stdout=report)
        self.wait = options.wait

    def started(self):
        wait_for(self.port, self.program, self.wait)
        self.pid = listener(self.port)
        return self

    def end(self):
        end(self.program)
        if self.program.pid != getattr(self, "pid", self.program.pid) and os.path.exists(f"/proc/{self.pid}"):
            os.kill(self.pid, signal.SIGTERM)

    def lines(self):
        """What the report says beside the pairs that closed."""
        with open(self.report) as report:
            return [line.strip() for line in report if not line.endswith(" closed\n")]


class Container:
    """The container, which tells of each connection that ended what it took and what became of its deliveries."""

    def __init__(self, command, folder):
        self.port, path = free_port(), os.path.join(folder, "container")
        with open(path, "w") as said:
            self.program = subprocess.Popen([*shlex.split(command), "--port", str(self.port)], stdout=said)
        self.said = open(path)
        wait_for(self.port, self.program)

    def told(self):
        """The numbers of the next line, by their words."""
        for _ in range(1000):
            line = self.said.readline()
            if line.startswith("took "):
                words = line.split()
                return dict(zip(words[::2], map(int, words[1::2])))
            time.sleep(0.01)
        return {}


class Measure:
    """Runs of the clients on each path."""

    def __init__(self, options, programs, container, gateways):
        self.options, self.programs, self.container, self.gateways = options, programs, container, gateways
        self.faults, self.found = 0, collections.defaultdict(list)
        self.counts = container and options.container is None
        # A quorum queue is there before its clients come, which couldn't declare it as theirs.
        self.environment = {**os.environ, "LOAD_PASSIVE": "1"} if options.quorum else None

    def fault(self, what):
        self.faults += 1
        print(f"FAULT: {what}", flush=True)

    def ports(self, path):
        """The port that a client uses, the process of the gateway, and that behind it."""
        rabbit = self.options.rabbit
        if path == "rabbit":
            return rabbit, None, listener(rabbit)
        gateway = self.gateways[path]
        return gateway.port, gateway.pid, listener(self.container.port if path == "container" else rabbit)

    def client(self, name, port, queue, *words):
        """What a client told: seconds, two counts and its processor seconds."""
        ran = subprocess.run(
            [self.programs.clients[name], str(port), queue, *map(str, words)],
            capture_output=True, text=True, timeout=self.options.wait, env=self.environment,
        )
        if ran.returncode:
            self.fault(f"{name} {words}: status {ran.returncode}: {ran.stderr.strip()[-300:]}")
            return None
        seconds, good, bad, spent = ran.stdout.split()
        return float(seconds), int(good), int(bad), float(spent)

    def timed(self, name, path, queue, label, *words):
        """A client's run with the processor time of each process, as a Run."""
        port, gateway, behind = self.ports(path)
        before = [processor_seconds(pid) if pid else 0 for pid in (gateway, behind)]
        recorder = self.record(gateway, f"{label}-{path}")
        said = self.client(name, port, queue, *words)
        told = self.container.told() if path == "container" and self.counts else {}
        after = [processor_seconds(pid) if pid else 0 for pid in (gateway, behind)]
        if recorder:
            recorder.send_signal(signal.SIGINT)
            recorder.wait()
        if said is None:
            return None, told
        seconds, good, bad, spent = said
        count = words[1]
        if good != count or bad:
            self.fault(f"{label} {path}: {good} of {count} fine, {bad} not")
        used = [late - early for late, early in zip(after, before)]
        return Run(count / seconds, used[0] * 1e6 / count, used[0] / seconds, spent / seconds, used[1] / seconds), told

    def record(self, pid, name):
        if not pid or not self.options.profile:
            return None
        out = os.path.join(self.options.profile, f"{re.sub('[^a-z0-9-]+', '-', name)}.data")
        words = ["perf", "record", "-q", "-g", "-p", str(pid), "-o", out]
        program = subprocess.Popen(words, stdout=subprocess.DEVNULL, stderr=subprocess.DEVNULL)
        time.sleep(0.5)
        return program

    def waiting(self, name, path, told):
        """How many messages the queue has."""
        if path == "container":
            return told.get("left", -1) if self.counts else None
        if self.options.quorum:
            time.sleep(2)  # its count is renewed each second or so
        said = self.client(name, self.options.rabbit, QUEUE, "count")
        return said and said[1]

    def check(self, what, found, wanted):
        if found is not None and found != wanted:
            self.fault(f"{what}: {found} in the place of {wanted}")

    def published(self, name, path, label, count, size, queue):
        run, told = self.timed(name, path, queue, label, "publish", count, size, self.options.window)
        if path != "container":
            self.check(f"{label} {path}: in the queue", self.waiting(name, path, told), count)
        elif self.counts:
            self.check(f"{label} {path}: taken", told.get("took"), count)
        return run, told

    def consumed(self, name, path, label, count, size, how):
        queue = self.queue_at(path)
        _, told = self.published(name, path, f"{label} filled", count, size, queue)
        self.check(f"{label} {path}: before", self.waiting(name, path, told), count)
        run, told = self.timed(name, path, queue, label, "consume", count, size, self.options.prefetch, how)
        self.check(f"{label} {path}: after", self.waiting(name, path, told), 0)
        if path == "container" and self.counts:
            self.check(f"{label} {path}: accepted", told.get("accepted"), count)
        return run

    def queue_at(self, path):
        """What the queue is called on a path."""
        return self.quorum.address if self.options.quorum and path == "plugin" else QUEUE

    def one(self, name, path, what, count, size, label):
        if self.options.quorum and path != "container":
            self.quorum = QuorumQueue(self.options.rabbit, QUEUE)
        if what == "publish":
            queue = "discard" if path == "container" and self.counts else self.queue_at(path)
            run, _ = self.published(name, path, label, count, size, queue)
        else:
            run = self.consumed(name, path, label, count, size, what)
        if path != "container":
            self.client(name, self.options.rabbit, QUEUE, "delete")
        return run

    def tell(self, label, path, run):
        if run is None:
            return
        self.found[label, path].append(run)
        each = f", {run.each:.1f} us each" if run.each else ""
        busy = f"; busy: client {run.client:.0%}, gateway {run.gateway:.0%}, behind it {run.behind:.0%}" if run.behind else ""
        print(f"{label}, {path}: {run.rate:,.0f} a second{each}{busy}", flush=True)

    def alone(self, count, size):
        """What the container, and RabbitMQ's plugin, do without a gateway."""
        own, rabbit = self.container.port, self.options.rabbit
        self.unhelped("container", own, "discard", "send", count, size)
        self.unhelped("container, kept", own, QUEUE, "send", count, size)
        self.unhelped("container", own, QUEUE, "take", count, size)
        self.unhelped("plugin", rabbit, QUEUE, "send", count, size)
        self.client("c", rabbit, QUEUE, "delete")

    def unhelped(self, path, port, queue, verb, count, size):
        words = [self.programs.alone, str(port), queue, verb, str(count), str(size), str(self.options.window)]
        ran = subprocess.run(words, capture_output=True, text=True, timeout=self.options.wait)
        if port == self.container.port and self.counts:
            self.container.told()
        seconds, good, bad = ran.stdout.split()
        self.check(f"alone {verb}", (int(good), int(bad)), (count, 0))
        self.tell(f"{count} of {size} bytes {verb}, 1.0", f"{path} alone", Run(count / float(seconds), 0, 0, 0, 0))

    def all(self):
        options = self.options
        whole = lambda words: [int(word) for word in words.split(",")]
        runs = list(itertools.product(whole(options.size), whole(options.count), range(options.rounds)))
        for what in options.what.split(","):
            for size, count, _ in runs if what == "alone" else []:
                self.alone(count, size)
            for name in options.client.split(",") if what != "alone" else []:
                for size, count, _ in runs:
                    self.round(name, what, count, size)

    def round(self, name, what, count, size):
        label = f"{count} of {size} bytes {what}, {name}"
        for path in self.options.paths.split(","):
            is_kept = self.options.prefetch == 1 or what == "none" and self.options.quorum
            if path != "plugin" or what == "publish" or is_kept:
                self.tell(label, path, self.one(name, path, what, count, size, label))

    def table(self):
        """Medians, with the least and the most."""
        print("| Messages | Path | A second | Least to most | The gateway's time each |\n|---|---|---|---|---|")
        for (label, path), runs in self.found.items():
            rates = sorted(run.rate for run in runs)
            each = statistics.median(run.each for run in runs)
            spread = f"{rates[0]:,.0f} to {rates[-1]:,.0f}"
            print(f"| {label} | {path} | {statistics.median(rates):,.0f} | {spread} | {f'{each:.1f} us' if each else ''} |")


def options_of():
    parser = argparse.ArgumentParser(description=__doc__, formatter_class=argparse.RawDescriptionHelpFormatter)
    parser.add_argument("--rabbit", type=int, required=True)
    parser.add_argument("--gateway", default=BUILT)
    parser.add_argument("--container")
    parser.add_argument("--client", default="c,go")
    parser.add_argument("--what", default="publish,each,multiple,none")
    parser.add_argument("--paths", default="rabbit,container,plugin")
    parser.add_argument("--size", default="100")
    parser.add_argument("--count", default="1000,10000,100000")
    parser.add_argument("--window", type=int, default=500)
    parser.add_argument("--prefetch", type=int, default=500)
    parser.add_argument("--rounds", type=int, default=3)
    parser.add_argument("--wait", type=int, default=300)
    parser.add_argument("--profile")
    parser.add_argument("--quorum", action="store_true")
    return parser.parse_args()


def main():
    options = options_of()
    signal.signal(signal.SIGTERM, lambda *_: sys.exit(1))
    with tempfile.TemporaryDirectory() as folder:
        programs = Programs(folder)
        container = Container(options.container or programs.container, folder)
        gateways = {}
        try:
            for path, port in (("container", container.port), ("plugin", options.rabbit)):
                if path in options.paths.split(","):
                    gateways[path] = Gateway(options, port, folder, path)
            for gateway in gateways.values():
                gateway.started()
            measure = Measure(options, programs, container, gateways)
            measure.all()
            measure.table()
        finally:
            for gateway in gateways.values():
                gateway.end()
            end(container.program)
        for path, gateway in gateways.items():
            for line in gateway.lines():
                measure.fault(f"{path}: {line}")
    print(f"{measure.faults} faults")
    sys.exit(1 if measure.faults else 0)


if __name__ == "__main__":
    main()
