#!/usr/bin/env python3
"""Publishes through the gateway with client libraries of AMQP 0-9-1, to a container of AMQP 1.0, over loopback.

    python3 tools/try_publish.py --container 'COMMAND' | --upstream ADDRESS [--gateway 'COMMAND'] [--client NAME,NAME..]
                                 [--key NAME,NAME..] [--count COUNT] [--size BYTES,BYTES..] [--wait SECONDS]
                                 [--mandatory]

It starts the container as `COMMAND --port P`, unless one listens at an address already, and the gateway as `COMMAND serve ..`
on a free port; the gateway is crates/amqp_gate/out/amqp_gate if no command names another. Each client then opens a channel,
asks for confirms, and publishes COUNT messages of each size to each routing key, with `--mandatory` as
mandatory ones: `pika` and `amqp` then count those that came back. What it counted of acks and nacks is printed
with the time that it took, and in the end the processor time of the gateway, and of each key how many messages the container
says that it took (lines `took KEY BYTES ..`). Nothing is asserted, and this is no part of the build.

The clients are six of tools/try_container.py: `pika`, `amqp`, `go`, `php`, `bunny` and `java`. One that isn't installed is
left out, and a line says so. Each program is ended by its process id.
"""

import argparse
import collections
import os
import shlex
import subprocess
import sys
import tempfile
import time

from try_container import BUILT, CLIENTS, GO_PATH, JARS, end, free_port, wait_for


def commands(folder):
    """What runs each client, and what builds it."""
    go = os.path.join(folder, "publish")
    source = os.path.join(CLIENTS, "Publish.java")
    return {
        "pika": ([sys.executable, os.path.join(CLIENTS, "publish_pika.py")], None),
        "amqp": ([sys.executable, os.path.join(CLIENTS, "publish_amqp.py")], None),
        "go": ([go], ["go", "build", "-o", go, os.path.join(CLIENTS, "publish.go")]),
        "php": (["php", os.path.join(CLIENTS, "publish.php")], None),
        "bunny": (["ruby", os.path.join(CLIENTS, "publish.rb")], None),
        "java": (["java", "-cp", f"{folder}:{JARS}", "Publish"], ["javac", "-cp", JARS, "-d", folder, source]),
    }


def prepared(name, command, build):
    environment = {**os.environ, "GOPATH": GO_PATH, "GO111MODULE": "off", "GOCACHE": "/tmp/go-cache"}
    try:
        if build:
            subprocess.run(build, check=True, env=environment, capture_output=True, text=True)
        return True
    except (OSError, subprocess.CalledProcessError) as error:
        print(f"{name}: left out: {getattr(error, 'stderr', None) or error}".strip())
        return False


def publish(name, command, port, key, count, size, wait, flags):
    began = time.monotonic()
    try:
        said = subprocess.run(
            [*command, str(port), key, str(count), str(size), *flags], capture_output=True, text=True, timeout=wait
        )
        words = (said.stdout.strip() or said.stderr.strip()[-300:]) + (f", status {said.returncode}" if said.returncode else "")
    except (OSError, subprocess.TimeoutExpired) as error:
        words = str(error)
    took = time.monotonic() - began
    print(f"{name}: {count} of {size} bytes to {key!r}: {words}; {took:.2f} s", flush=True)


def processor_seconds(program):
    with open(f"/proc/{program.pid}/stat") as stat:
        fields = stat.read().rsplit(")", 1)[1].split()
    return (int(fields[11]) + int(fields[12])) / os.sysconf("SC_CLK_TCK")


def main():
    parser = argparse.ArgumentParser(description=__doc__, formatter_class=argparse.RawDescriptionHelpFormatter)
    parser.add_argument("--container")
    parser.add_argument("--upstream")
    parser.add_argument("--gateway", default=BUILT)
    parser.add_argument("--client", default="pika,amqp,go,php,bunny,java")
    parser.add_argument("--key", default="q")
    parser.add_argument("--count", type=int, default=100)
    parser.add_argument("--size", default="100")
    parser.add_argument("--wait", type=int, default=300)
    parser.add_argument("--mandatory", action="store_true")
    options = parser.parse_args()
    if (options.container is None) == (options.upstream is None):
        parser.error("one of --container and --upstream is wanted")
    flags = ["mandatory"] if options.mandatory else []
    with tempfile.TemporaryDirectory() as folder:
        log = open(os.path.join(folder, "container"), "w+")
        container = None
        upstream = options.upstream
        if options.container:
            port = free_port()
            upstream = f"127.0.0.1:{port}"
            container = subprocess.Popen([*shlex.split(options.container), "--port", str(port)], stdout=log)
            wait_for(port, container)
        port = free_port()
        words = ["serve", "--listen", f"127.0.0.1:{port}", "--upstream", upstream]
        gateway = subprocess.Popen([*shlex.split(options.gateway), *words], stdout=subprocess.DEVNULL)
        try:
            wait_for(port, gateway, options.wait)
            programs = commands(folder)
            for name in options.client.split(","):
                command, build = programs[name]
                if not prepared(name, command, build):
                    continue
                for key in options.key.split(","):
                    for size in options.size.split(","):
                        publish(name, command, port, key, options.count, int(size), options.wait, flags)
            print(f"the gateway took {processor_seconds(gateway):.2f} s of a processor")
        finally:
            end(gateway)
            if container:
                end(container)
        log.seek(0)
        taken = collections.Counter(line.split()[1] for line in log if line.startswith("took "))
        for key, count in sorted(taken.items()):
            print(f"the container took {count} of {key!r}")


if __name__ == "__main__":
    main()
