#!/usr/bin/env python3
"""Opens and closes connections through the gateway again and again, and says what the gateway keeps, over loopback.

    python3 tools/try_openings.py --container 'COMMAND' | --upstream ADDRESS [--gateway 'COMMAND'] [--at COUNT,COUNT..] [--clients COUNT]

It starts the container as `COMMAND --port P`, unless one listens at an address already, and the gateway as `COMMAND serve ..` on a free
port; the gateway is crates/amqp_gate/out/amqp_gate if no command names another. CLIENTS at once then each open a connection and
a channel and close both, and so on. After each COUNT of openings a line tells how long they took, the descriptors of the gateway, and
what it has in memory: all of it, its heap, and what it wrote to, as /proc tells. The client is this script: it sends
the bytes of each method as they are, and waits for the answer. Nothing is asserted, and this is no part of the build.
"""

import argparse
import asyncio
import os
import shlex
import struct
import subprocess
import time

from try_container import BUILT, end, free_port, wait_for


def method(channel, klass, number, rest=b""):
    payload = struct.pack(">HH", klass, number) + rest
    return struct.pack(">BHI", 1, channel, len(payload)) + payload + b"\xce"


LOGIN = b"\0guest\0guest"
START_OK = method(0, 10, 11, bytes(4) + b"\5PLAIN" + struct.pack(">I", len(LOGIN)) + LOGIN + b"\5en_US")
TUNE_OK = method(0, 10, 31, struct.pack(">HIH", 255, 131072, 0))
OPEN = method(0, 10, 40, b"\1/\0\0")
CHANNEL, CHANNEL_CLOSE = method(1, 20, 10, b"\0"), method(1, 20, 40, bytes(7))
CLOSE = method(0, 10, 50, bytes(7))


async def answer(reader, klass, number):
    head = await reader.readexactly(7)
    payload = await reader.readexactly(struct.unpack(">I", head[3:])[0] + 1)
    assert struct.unpack(">HH", payload[:4]) == (klass, number), payload


async def opening(port):
    reader, writer = await asyncio.open_connection("127.0.0.1", port)
    writer.write(b"AMQP\0\0\x09\x01")
    await answer(reader, 10, 10)
    writer.write(START_OK)
    await answer(reader, 10, 30)
    writer.write(TUNE_OK + OPEN)
    await answer(reader, 10, 41)
    for sent, wanted in ((CHANNEL, (20, 11)), (CHANNEL_CLOSE, (20, 41)), (CLOSE, (10, 51))):
        writer.write(sent)
        await answer(reader, *wanted)
    writer.close()


async def openings(port, count, clients):
    left = iter(range(count))

    async def client():
        for _ in left:
            await opening(port)

    await asyncio.gather(*(client() for _ in range(clients)))


def kept(pid):
    """The descriptors of a process, and kilobytes of its memory: resident, of its heap, and written to."""
    with open(f"/proc/{pid}/smaps") as maps:
        words, sums, heap = [line.split() for line in maps], {"Rss:": 0, "Private_Dirty:": 0, "heap": 0}, False
    for row in words:
        if "-" in row[0] and not row[0].endswith(":"):
            heap = row[-1] == "[heap]"
        elif row[0] in sums:
            sums[row[0]] += int(row[1])
            sums["heap"] += int(row[1]) if heap and row[0] == "Rss:" else 0
    return f"{len(os.listdir(f'/proc/{pid}/fd'))} descriptors, {sums['Rss:']} kB, heap {sums['heap']} kB, written {sums['Private_Dirty:']} kB"


def main():
    parser = argparse.ArgumentParser(description=__doc__, formatter_class=argparse.RawDescriptionHelpFormatter)
    parser.add_argument("--container")
    parser.add_argument("--upstream")
    parser.add_argument("--gateway", default=BUILT)
    parser.add_argument("--at", default="4000,16000,64000")
    parser.add_argument("--clients", type=int, default=200)
    options = parser.parse_args()
    if (options.container is None) == (options.upstream is None):
        parser.error("one of --container and --upstream is wanted")
    container = gateway = None
    try:
        upstream, port, done = options.upstream, free_port(), 0
        if options.container:
            up_port = free_port()
            upstream = f"127.0.0.1:{up_port}"
            container = subprocess.Popen([*shlex.split(options.container), "--port", str(up_port)], stdout=subprocess.DEVNULL)
            wait_for(up_port, container)
        words = ["serve", "--listen", f"127.0.0.1:{port}", "--upstream", upstream]
        gateway = subprocess.Popen([*shlex.split(options.gateway), *words], stdout=subprocess.DEVNULL)
        wait_for(port, gateway)
        print(f"0 openings: {kept(gateway.pid)}", flush=True)
        for count in map(int, options.at.split(",")):
            began = time.monotonic()
            asyncio.run(openings(port, count - done, options.clients))
            done = count
            took = time.monotonic() - began
            time.sleep(1)
            print(f"{count} openings: {kept(gateway.pid)}; {took:.1f} s", flush=True)
    finally:
        for program in (gateway, container):
            if program:
                end(program)


if __name__ == "__main__":
    main()
