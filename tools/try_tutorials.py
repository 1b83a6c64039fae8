#!/usr/bin/env python3
"""Runs the programs of RabbitMQ's first two tutorials through the gateway, over loopback.

    python3 tools/try_tutorials.py --container 'COMMAND' | --upstream ADDRESS [--gateway 'COMMAND'] [--client NAME,NAME..]

It starts the container as `COMMAND --port P`, unless one listens at an address already, and the gateway as `COMMAND serve ..` on
port 5672 of this machine, as the programs expect it; the gateway is crates/amqp_gate/out/amqp_gate if no command names
another. With each library (`pika`, `go`, `php`, `php-plain`, `bunny`, `java`) then run, each with a terminal of its own:

- hello: `send`, and `receive` until it has the message; then it is interrupted, as by Ctrl-C;
- get: `send`, and `get` twice, which finds one message and then none; with --upstream once;
- work: two `worker`s, and a `new_task` for each of six tasks that take 1 or 2 s; a worker has one task at a time;
- killed: two workers and six tasks again, and a worker is killed while it has a task; the other does that too.

The programs stand in tools/tutorials. They are written as the tutorials have them, which couldn't be fetched; `get` is no tutorial. `php`
needs a folder `vendor`, which is made; `php-plain` names PLAIN as the login method, which is no part of the tutorial: without it the
library asks for AMQPLAIN. `published` runs programs of Debian's packages of Bunny, rabbitmq-c and pika as they are: their folders are
given by --bunny, --rabbitmq-c and --pika, the last of python-pika-doc.

What was printed is shown; where a step fails or isn't done within two minutes a line says so, and the status is then 1. No part of the
build runs this.
"""

import argparse
import os
import pty
import re
import shlex
import shutil
import signal
import subprocess
import sys
import tempfile
import threading
import time

from try_container import BUILT, GO_PATH, JARS, ROOT, end, free_port, wait_for

PROGRAMS = os.path.join(ROOT, "tools", "tutorials")
WAIT = 120
faults = 0


def fault(words):
    global faults
    faults += 1
    print(f"  FAULT: {words}", flush=True)


class Program:
    """A program on a terminal of its own, and the lines that it printed."""

    def __init__(self, command, folder):
        self.lines, (outer, inner) = [], pty.openpty()
        self.process = subprocess.Popen(command, stdin=inner, stdout=inner, stderr=inner, cwd=folder, start_new_session=True)
        os.close(inner)
        self.reader = threading.Thread(target=self.read, args=(outer,), daemon=True)
        self.reader.start()

    def read(self, outer):
        rest = b""
        while True:
            try:
                part = os.read(outer, 4096)
            except OSError:
                break
            *whole, rest = (rest + part).split(b"\n")
            self.lines += [re.sub(r"^\d{4}/\S+ \S+ ", "", line.decode(errors="replace").strip()) for line in whole]
        os.close(outer)

    def ended(self):
        try:
            self.process.wait(WAIT)
        except subprocess.TimeoutExpired:
            fault(f"{self.process.args} goes on: {self.lines}")
            self.process.kill()
            self.process.wait()
        self.reader.join(5)
        return self.lines

    def stop(self, how=signal.SIGINT):
        self.process.send_signal(how)
        return self.ended()


def wait_until(holds, what):
    until = time.monotonic() + WAIT
    while time.monotonic() < until:
        if holds():
            return
        time.sleep(0.05)
    fault(f"not within {WAIT} s: {what}")


class Tutorial:
    """The programs of one library."""

    def __init__(self, name, folder):
        self.name, self.folder = name, os.path.join(folder, name)
        kind = {"pika": "python", "php-plain": "php", "bunny": "ruby"}.get(name, name)
        shutil.copytree(os.path.join(PROGRAMS, kind), self.folder)
        settings = {**os.environ, "GOPATH": GO_PATH, "GO111MODULE": "off", "GOCACHE": "/tmp/go-cache"}
        named = {"send": "Send", "receive": "Recv", "new_task": "NewTask", "worker": "Worker", "get": "Get"}
        if kind == "go":
            for verb in named:
                subprocess.run(["go", "build", f"{verb}.go"], cwd=self.folder, env=settings, check=True)
        if kind == "java":
            subprocess.run(["javac", "-cp", JARS, *(f"{word}.java" for word in named.values())], cwd=self.folder, check=True)
        if kind == "php":
            os.mkdir(os.path.join(self.folder, "vendor"))
            with open(os.path.join(self.folder, "vendor", "autoload.php"), "w") as text:
                text.write("<?php require_once 'PhpAmqpLib/autoload.php';\n")
        if name == "php-plain":
            subprocess.run("sed -i \"s#'guest', 'guest')#'guest', 'guest', '/', false, 'PLAIN')#\" *.php", shell=True, cwd=self.folder)
        self.command = {
            "python": lambda verb: [sys.executable, f"{verb}.py"], "go": lambda verb: [f"./{verb}"],
            "php": lambda verb: ["php", f"{verb}.php"], "ruby": lambda verb: ["ruby", f"{verb}.rb"],
            "java": lambda verb: ["java", "-cp", f".:{JARS}", named[verb]],
        }[kind]

    def start(self, verb, *words):
        return Program([*self.command(verb), *words], self.folder)

    def run(self, verb, *words):
        program = self.start(verb, *words)
        lines = program.ended()
        if program.process.returncode:
            fault(f"{self.name} {verb}: status {program.process.returncode}: {' | '.join(lines)[-400:]}")
        return lines

    def say(self, title, *some):
        print(f"{self.name} {title}: {' / '.join(' | '.join(lines) for lines in some)}", flush=True)


def hello(tutorial):
    sent = tutorial.run("send")
    receiver = tutorial.start("receive")
    wait_until(lambda: any("Hello World!" in line for line in receiver.lines) or receiver.process.poll() is not None, "hello")
    tutorial.say("hello", sent, receiver.stop())


def get(tutorial, times):
    tutorial.run("send")
    tutorial.say("get", *(tutorial.run("get") for _ in range(times)))


def done(lines):
    """The tasks that a worker did; each is told before the next comes, as it has one at a time."""
    tasks, now = [], None
    for line in lines:
        found = re.search(r"Received.*?(task \d+)", line)
        if found:
            if now:
                fault(f"two tasks at once: {lines}")
            now = found[1]
        elif line.endswith("Done") and now:
            tasks.append(now)
            now = None
    return tasks, now


def work(tutorial, title):
    tasks = [f"task {number}{'.' * (1 + number % 2)}" for number in range(6)]
    workers = [tutorial.start("worker") for _ in range(2)]
    for worker in workers:
        wait_until(lambda: any("Waiting" in line for line in worker.lines) or worker.process.poll() is not None, "a worker")
    time.sleep(1)
    for task in tasks:
        tutorial.run("new_task", *task.split())
    if title == "killed":
        wait_until(lambda: any(done(worker.lines)[1] for worker in workers), "a task")
        next(worker for worker in workers if done(worker.lines)[1]).stop(signal.SIGKILL)
    all_done = lambda: sorted(task for worker in workers for task in done(worker.lines)[0])
    wait_until(lambda: len(set(all_done())) == len(tasks), "all tasks")
    time.sleep(1)
    lines = [worker.stop() for worker in workers]
    if all_done() != sorted(task.rstrip(".") for task in tasks):
        fault(f"done otherwise: {all_done()}")
    told = [f"{', '.join(done(some)[0])}{f'; killed with {done(some)[1]}' if done(some)[1] else ''}" for some in lines]
    print(f"{tutorial.name} {title}: {' / '.join(told)}", flush=True)


def published(options, folder):
    """Programs of Debian's packages, as they are."""
    if options.rabbitmq_c:
        for name in ("amqp_sendstring", "amqp_listenq"):
            source = [os.path.join(options.rabbitmq_c, word) for word in (f"{name}.c", "utils.c", "unix/platform_utils.c")]
            subprocess.run(["gcc", "-I", options.rabbitmq_c, "-o", os.path.join(folder, name), *source, "-lrabbitmq"], check=True)
        for queue in ("strings", "test"):
            Program(["./amqp_sendstring", "localhost", "5672", "", queue, "hello"], folder).ended()
        listener = Program(["./amqp_listenq", "localhost", "5672", "strings"], folder)
        wait_until(lambda: any("68 65 6C 6C 6F" in line for line in listener.lines), "listenq")
        print(f"rabbitmq-c amqp_sendstring, amqp_listenq: {listener.stop()}")
    if options.bunny:
        name = "guides/getting_started/hello_world.rb"
        print(f"bunny {name}: {Program(['ruby', os.path.join(options.bunny, name)], folder).ended()}")
    if options.pika:
        for name in ("blocking_basic_get", "blocking_basic_get"):
            with open(os.path.join(options.pika, f"{name}.rst.txt")) as text:
                code = re.split(r"::\n", text.read(), maxsplit=1)[1]
            with open(os.path.join(folder, f"{name}.py"), "w") as text:
                text.write("if True:\n" + code)
            print(f"pika {name}: {Program([sys.executable, f'{name}.py'], folder).ended()}")


def main():
    parser = argparse.ArgumentParser(description=__doc__, formatter_class=argparse.RawDescriptionHelpFormatter)
    parser.add_argument("--container")
    parser.add_argument("--upstream")
    parser.add_argument("--gateway", default=BUILT)
    parser.add_argument("--client", default="pika,go,php,php-plain,bunny,java,published")
    parser.add_argument("--bunny", default="/usr/share/doc/ruby-bunny/examples")
    parser.add_argument("--rabbitmq-c", default="/usr/share/doc/librabbitmq-dev/examples")
    parser.add_argument("--pika", default="/usr/share/doc/python-pika-doc/html/_sources/examples")
    options = parser.parse_args()
    if (options.container is None) == (options.upstream is None):
        parser.error("one of --container and --upstream is wanted")
    with tempfile.TemporaryDirectory() as folder:
        container = gateway = None
        try:
            upstream = options.upstream
            if options.container:
                port = free_port()
                upstream = f"127.0.0.1:{port}"
                container = subprocess.Popen([*shlex.split(options.container), "--port", str(port)], stdout=subprocess.DEVNULL)
                wait_for(port, container)
            words = ["serve", "--listen", "127.0.0.1:5672", "--upstream", upstream]
            gateway = subprocess.Popen([*shlex.split(options.gateway), *words], stdout=subprocess.DEVNULL)
            wait_for(5672, gateway)
            for name in options.client.split(","):
                if name == "published":
                    published(options, folder)
                    continue
                tutorial = Tutorial(name, folder)
                hello(tutorial)
                if name == "php":
                    continue
                get(tutorial, 2 if options.container else 1)
                work(tutorial, "work")
                work(tutorial, "killed")
        finally:
            for program in (gateway, container):
                if program:
                    end(program)
    print(f"{faults} faults")
    sys.exit(1 if faults else 0)


if __name__ == "__main__":
    main()
