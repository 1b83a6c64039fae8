#!/usr/bin/env python3
"""Lets workers of Celery share tasks through the gateway while some of them are killed, over loopback.

    python3 tools/try_celery.py --container 'COMMAND' [--gateway 'COMMAND'] [--tasks COUNT] [--workers COUNT] [--kills COUNT]
                                [--pause SECONDS] [--seed SEED] [--quorum PORT]

It starts the container as `COMMAND --port P` and the gateway as `COMMAND serve ..` on a free port; the gateway is
crates/amqp_gate/out/amqp_gate if no command names another. COMMAND is tools/watched_container.py over a container's file. With --quorum
it is tools/watched_broker.py before a RabbitMQ whose port for AMQP 0-9-1 is PORT, where the queue is a durable quorum queue.

WORKERS workers of one process each have a prefetch of 1 and ack a task once it is done (tools/clients/celery_tasks.py). TASKS tasks are
sent with confirms. At random moments a worker that has done a task is killed with its process, and another takes its place, until
KILLS were. Then the others do what is left.

Each task must be done, and the container must have been told once that its message is accepted, behind all other outcomes of it. A task
is done once more only behind a worker that was killed, and only if it was the last one that this worker did. What doesn't hold is
printed, and the status is 1. No part of the build runs this.
"""

import argparse
import collections
import os
import random
import shlex
import signal
import subprocess
import sys
import tempfile
import time

from quorum_queue import QuorumQueue
from try_container import BUILT, CLIENTS, end, free_port, wait_for

NAME = "celery-tasks"
LIMIT = 600
QUIET = {"stdin": subprocess.DEVNULL, "stdout": subprocess.DEVNULL, "stderr": subprocess.DEVNULL}


class Pool:
    """Workers of Celery, each with a process group and a log of its own."""

    def __init__(self, port, queue, folder):
        self.folder, self.workers, self.killed, self.count = folder, [], set(), 0
        self.settings = {**os.environ, "PORT": str(port), "QUEUE": queue, "PYTHONPATH": CLIENTS, "PYTHONWARNINGS": "ignore",
                         "TMPDIR": folder}

    def send(self, tasks):
        code = f"import celery_tasks\nfor number in range({tasks}): celery_tasks.note.delay(number)"
        subprocess.run([sys.executable, "-c", code], env={**self.settings, "LOG": ""}, check=True)

    def log(self, number):
        return os.path.join(self.folder, f"worker{number}.done")

    def start(self):
        """A worker, with its number."""
        number = self.count
        self.count += 1
        words = [sys.executable, "-m", "celery", "-A", "celery_tasks", "worker", "-c", "1", "--without-gossip", "--without-mingle",
                 "--without-heartbeat", "-n", f"worker{number}@localhost"]
        settings = {**self.settings, "LOG": self.log(number)}
        worker = subprocess.Popen(words, env=settings, cwd=self.folder, start_new_session=True, **QUIET)
        return number, worker

    def kill(self, place):
        number, worker = self.workers[place]
        self.killed.add(number)
        os.killpg(worker.pid, signal.SIGKILL)
        worker.wait()

    def at_work(self):
        """The places of the workers that have done a task."""
        return [place for place, (number, _) in enumerate(self.workers) if os.path.exists(self.log(number))]

    def did(self, number):
        """The tasks that a worker did, in order."""
        if not os.path.exists(self.log(number)):
            return []
        with open(self.log(number)) as log:
            return [int(line.split()[1]) for line in log.read().split("\n")[:-1]]

    def done(self):
        """How often each task was done."""
        return collections.Counter(task for number in range(self.count) for task in self.did(number))

    def undone(self):
        """The tasks whose ack a killed worker may not have sent."""
        return collections.Counter(task for number in self.killed for task in self.did(number)[-1:])


def share(pool, options):
    """Kills workers while they share the tasks, and waits until all are done."""
    pool.workers = [pool.start() for _ in range(options.workers)]
    until = time.monotonic() + LIMIT
    kills = 0
    while kills < options.kills and time.monotonic() < until:
        time.sleep(random.uniform(0.0, options.pause))
        if places := pool.at_work():
            place = random.choice(places)
            pool.kill(place)
            pool.workers[place] = pool.start()
            kills += 1
    at_last_kill = len(pool.done())
    while len(pool.done()) < options.tasks and time.monotonic() < until:
        time.sleep(0.5)
    time.sleep(3)
    undone = pool.undone()
    for place in range(len(pool.workers)):
        pool.kill(place)
    return at_last_kill, undone


def outcomes(path):
    """The outcomes of each message, by the hash of its body."""
    told = collections.defaultdict(list)
    for line in open(path):
        if line.startswith("gave "):
            _, _, _, hashed, state, _ = line.split()
            told[hashed].append(state)
    return told


def faults_of(options, done, undone, told, left):
    """What doesn't hold."""
    for number in range(options.tasks):
        if not done[number]:
            yield f"task {number} wasn't done"
        if done[number] > 1 + undone[number]:
            yield f"task {number} was done {done[number]} times"
    if len(told) != options.tasks:
        yield f"the container gave {len(told)} messages"
    for hashed, states in told.items():
        if states.count("accepted") != 1 or states[-1] != "accepted":
            yield f"{hashed} had the outcomes {states}"
    if left:
        yield f"{left} are left in the queue"


def run(options, folder):
    up_port, port = free_port(), free_port()
    quorum = QuorumQueue(options.quorum, NAME) if options.quorum else None
    pool = Pool(port, quorum.address if quorum else NAME, folder)
    log = os.path.join(folder, "container")
    with open(log, "w") as said:
        container = subprocess.Popen([*shlex.split(options.container), "--port", str(up_port)], stdout=said)
    wait_for(up_port, container)
    words = ["serve", "--listen", f"127.0.0.1:{port}", "--upstream", f"127.0.0.1:{up_port}"]
    gateway = subprocess.Popen([*shlex.split(options.gateway), *words], stdout=subprocess.DEVNULL)
    try:
        wait_for(port, gateway)
        pool.send(options.tasks)
        at_last_kill, undone = share(pool, options)
        left = quorum.length() if quorum else 0
        if quorum:
            quorum.delete()
        return pool.done(), undone, outcomes(log), left, at_last_kill
    finally:
        end(gateway)
        end(container)


def main():
    parser = argparse.ArgumentParser(description=__doc__, formatter_class=argparse.RawDescriptionHelpFormatter)
    parser.add_argument("--container", required=True)
    parser.add_argument("--gateway", default=BUILT)
    parser.add_argument("--tasks", type=int, default=10000)
    parser.add_argument("--workers", type=int, default=20)
    parser.add_argument("--kills", type=int, default=60)
    parser.add_argument("--pause", type=float, default=1.0)
    parser.add_argument("--seed", type=int, default=1)
    parser.add_argument("--quorum", type=int)
    options = parser.parse_args()
    random.seed(options.seed)
    with tempfile.TemporaryDirectory() as folder:
        done, undone, told, left, at_last_kill = run(options, folder)
    states = collections.Counter(state for some in told.values() for state in some)
    twice = sum(done.values()) - len(done)
    print(f"{options.kills} kills: {len(done)} tasks done, {at_last_kill} of them by the last kill, {twice} twice; {dict(states)}")
    faults = list(faults_of(options, done, undone, told, left))
    for fault in faults:
        print(fault)
    sys.exit(1 if faults else 0)


if __name__ == "__main__":
    main()
