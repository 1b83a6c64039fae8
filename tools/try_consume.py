#!/usr/bin/env python3
"""Kills consumers behind the gateway, and counts what their container keeps, over loopback.

    python3 tools/try_consume.py --container 'COMMAND' [--gateway 'COMMAND'] [--kills COUNT] [--messages COUNT]
                                 [--prefetch COUNT] [--workers COUNT] [--seed SEED] [--client NAME,NAME..]
                                 [--quorum PORT]

It starts the container as `COMMAND --port P` and the gateway as `COMMAND serve ..` on a free port; the gateway is
crates/amqp_gate/out/amqp_gate if no command names another. It publishes MESSAGES with confirms, each with its number as its
body, and lets WORKERS consumers take them with a prefetch. A consumer is killed at a random moment, and another takes its
place, until KILLS were. Then one more takes what is left. With --quorum COMMAND is tools/watched_broker.py before a RabbitMQ
whose port for AMQP 0-9-1 is PORT: the messages are in a durable quorum queue there, and what is left is taken straight from it.

Every message must be settled once: by a consumer that told so, or by the last one. One whose consumer told that the
gateway had read its ack must not come again; one that was got and not told of may come again or not. What doesn't
hold is printed, and the status is 1. With --quorum what is left must be exactly what the broker wasn't told to be accepted, too.
The consumers are by `pika`, and in turn by `amqp` and `go` where --client names them. pika is needed. No part of the build
runs this.
"""

import argparse
import collections
import hashlib
import os
import random
import shlex
import subprocess
import sys
import tempfile
import time

import pika

from quorum_queue import QuorumQueue
from try_container import BUILT, CLIENTS, GO_PATH, end, free_port, wait_for

NAME = "kills"


def opened(port):
    connection = pika.BlockingConnection(pika.ConnectionParameters("127.0.0.1", port, heartbeat=0))
    return connection, connection.channel()


def publish(port, queue, count):
    connection, channel = opened(port)
    channel.confirm_delivery()
    for number in range(count):
        channel.basic_publish("", queue, str(number).encode())
    connection.close()


def program(name, port, queue, prefetch, folder):
    """What runs a consumer by a library."""
    if name == "pika":
        return [sys.executable, os.path.join(CLIENTS, "consume_pika.py"), str(port), queue, str(prefetch)]
    if name == "amqp":
        return [sys.executable, os.path.join(CLIENTS, "trip_amqp.py"), str(port), "work", queue, str(prefetch)]
    built = os.path.join(folder, "trip")
    if not os.path.exists(built):
        settings = {**os.environ, "GOPATH": GO_PATH, "GO111MODULE": "off", "GOCACHE": "/tmp/go-cache"}
        subprocess.run(["go", "build", "-o", built, os.path.join(CLIENTS, "trip.go")], check=True, env=settings)
    return [built, str(port), "work", queue, str(prefetch)]


def worker(port, queue, options, folder, number):
    """A consumer, with a log of its own."""
    names = options.client.split(",")
    command = program(names[number % len(names)], port, queue, options.prefetch, folder)
    with open(os.path.join(folder, f"log{number}"), "w") as log:
        return subprocess.Popen(command, stdout=log, stderr=subprocess.DEVNULL)


def kill_workers(port, queue, options, folder):
    """Kills workers one after another, each at a random moment."""
    workers = [worker(port, queue, options, folder, number) for number in range(options.workers)]
    for kill in range(options.kills):
        time.sleep(random.uniform(0.0, options.pause))
        place = random.randrange(len(workers))
        workers[place].kill()
        workers[place].wait()
        workers[place] = worker(port, queue, options, folder, options.workers + kill)
    for one in workers:
        one.kill()
        one.wait()


def told(folder):
    """The whole lines of all logs, as words and numbers. A worker that is killed may leave a part of a line."""
    for name in sorted(os.listdir(folder)):
        if name.startswith("log"):
            with open(os.path.join(folder, name)) as log:
                for line in log.read().split("\n")[:-1]:
                    if line.startswith(("got ", "settled ")):
                        yield line.split()[0], int(line.split()[1])
                    else:
                        print(f"{name}: {line}")


def drain(port, queue, quiet):
    """What is left in the queue, each as often as it came."""
    connection, channel = opened(port)
    left = []
    for method, _, body in channel.consume(queue, inactivity_timeout=quiet):
        if method is None:
            break
        left.append(int(body))
        channel.basic_ack(method.delivery_tag)
    connection.close()
    return left


def judged(count, got, settled, left):
    """What is wrong with a run."""
    faults = []
    for number in range(count):
        times = settled.count(number) + left.count(number)
        if number not in got and number not in left:
            faults.append(f"{number} is lost")
        if number in settled and number in left:
            faults.append(f"{number} was acknowledged and is still there")
        if times > 1:
            faults.append(f"{number} was settled {times} times")
        if times == 0 and number in got:
            continue  # its ack was on its way when its consumer was killed
    return faults


def accepted(path, count):
    """What the broker was told to be accepted, each as often as it was."""
    number_of = {hashlib.sha1(str(number).encode()).hexdigest(): number for number in range(count)}
    with open(path) as told:
        words = [line.split() for line in told if line.startswith("gave ")]
    return [number_of[hashed] for _, _, _, hashed, state, _ in words if state == "accepted"]


def judged_by_broker(count, taken, left):
    """What is wrong with what the broker kept, for what it was told to be accepted."""
    of_taken, of_left = collections.Counter(taken), collections.Counter(left)
    for number in range(count):
        if of_taken[number] + of_left[number] != 1:
            yield f"{number} was accepted {of_taken[number]} times, and is there {of_left[number]} times"


def run(options, folder):
    """The lines of the workers, what is left, and what the broker was told to be accepted where one is watched."""
    up_port, port = free_port(), free_port()
    quorum = QuorumQueue(options.quorum, NAME) if options.quorum else None
    queue = quorum.address if quorum else NAME
    log = os.path.join(folder, "container")
    with open(log, "w") as said:
        container = subprocess.Popen([*shlex.split(options.container), "--port", str(up_port)], stdout=said)
    wait_for(up_port, container)
    words = ["serve", "--listen", f"127.0.0.1:{port}", "--upstream", f"127.0.0.1:{up_port}"]
    gateway = subprocess.Popen([*shlex.split(options.gateway), *words], stdout=subprocess.DEVNULL)
    try:
        wait_for(port, gateway, options.wait)
        publish(port, queue, options.messages)
        kill_workers(port, queue, options, folder)
        if not quorum:
            return list(told(folder)), drain(port, queue, 2.0), None
        print(f"RabbitMQ counts {quorum.length()} in its queue")
        left = [int(body) for body in quorum.taken()]
        quorum.delete()
        return list(told(folder)), left, accepted(log, options.messages)
    finally:
        end(gateway)
        end(container)


def main():
    parser = argparse.ArgumentParser(description=__doc__, formatter_class=argparse.RawDescriptionHelpFormatter)
    parser.add_argument("--container", required=True)
    parser.add_argument("--gateway", default=BUILT)
    parser.add_argument("--kills", type=int, default=100)
    parser.add_argument("--messages", type=int, default=10000)
    parser.add_argument("--prefetch", type=int, default=10)
    parser.add_argument("--workers", type=int, default=4)
    parser.add_argument("--pause", type=float, default=0.5)
    parser.add_argument("--seed", type=int, default=1)
    parser.add_argument("--wait", type=int, default=60)
    parser.add_argument("--client", default="pika")
    parser.add_argument("--quorum", type=int)
    options = parser.parse_args()
    random.seed(options.seed)
    with tempfile.TemporaryDirectory() as folder:
        lines, left, taken = run(options, folder)
    got = {number for word, number in lines if word == "got"}
    settled = [number for word, number in lines if word == "settled"]
    faults = judged(options.messages, got, settled, left)
    unsure = len(got - set(settled) - set(left))
    print(f"{options.kills} kills: {len(settled)} settled by workers, {len(left)} left, {unsure} acks under way at a kill")
    if taken is not None:
        print(f"the broker was told accepted of {len(taken)}")
        faults.extend(judged_by_broker(options.messages, taken, left))
    for fault in faults:
        print(fault)
    sys.exit(1 if faults else 0)


if __name__ == "__main__":
    main()
