#!/usr/bin/env python3
"""Compares `amqp_gate show 10` with the dissector of tshark, on a conversation of AMQP 1.0 over loopback.

    python3 tools/compare_listing.py PROGRAM --container 'COMMAND' [--publish NAME,NAME..] [--consume NAME,NAME..] [--count COUNT]
                                     [--keep FOLDER]

It starts the container as `COMMAND --port P`, and captures what goes over that port by dumpcap. A client of Qpid Proton sends COUNT
messages of several sizes to each address of `--publish`, and takes messages of each of `--consume`. Both are `q` if nothing else is
given. Then both streams are cut out of the capture and listed by `PROGRAM show 10`. Of each unit the offset, the channel, the name and
the length of the payload are compared with what tshark says of it. What differs is printed, and `equal: N units` of each stream in which
nothing does. The status is 1 where anything differs. `--keep` leaves the capture, the streams and both listings in a folder.

What it needs:

- the built program;
- tshark and dumpcap (Debian's tshark), and the right to capture on the interface `lo`, which root has;
- python3-qpid-proton, in the Python that runs this;
- a container that lets an anonymous client use these addresses, and sends frames of at most 65,536 bytes, as `show 10` takes them.

Each program is ended by its process id. This is no part of the build.
"""

import argparse
import os
import shlex
import shutil
import signal
import subprocess
import sys
import tempfile
import time
import xml.etree.ElementTree as tree

from try_container import end, free_port, wait_for

SIZES = (0, 2, 300, 40_000)
SASL = {64: "mechanisms", 65: "init", 66: "challenge", 67: "response", 68: "outcome"}
HEADERS = {"0": "amqp", "3": "sasl"}


def converse(port, publish, consume, count):
    """Sends messages to some addresses and takes messages of others, with links that come and go."""
    from proton import Message
    from proton.handlers import MessagingHandler
    from proton.reactor import Container

    class Client(MessagingHandler):
        def __init__(self):
            super().__init__(prefetch=5)
            self.sent = {}

        def on_start(self, event):
            # The container then sends an empty frame a second, where it has nothing else to say.
            self.connection = event.container.connect(f"127.0.0.1:{port}", heartbeat=2)
            self.links = [event.container.create_receiver(self.connection, name) for name in consume]
            self.links += [event.container.create_sender(self.connection, name) for name in publish]
            event.container.schedule(4, self)

        def on_sendable(self, event):
            link = event.sender
            while link.credit and self.sent.get(link.name, 0) < count:
                number = self.sent.get(link.name, 0)
                self.sent[link.name] = number + 1
                properties = {"number": number, "more": [1, 2]}
                body = "x" * SIZES[number % len(SIZES)]
                link.send(Message(id=f"m{number}", body=body, properties=properties, subject="s", durable=bool(number % 2)))

        def on_link_error(self, event):
            print(f"the container refused a link: {event.link.remote_condition}")

        def on_timer_task(self, event):
            if self.links:
                self.links.pop(0).close()
                event.container.schedule(0.2, self)
            else:
                self.connection.close()

    Container(Client()).run()


def run(words):
    return subprocess.run(words, check=True, capture_output=True).stdout


class Captured:
    """A capture of what goes over a port of loopback, while the block lasts."""

    def __init__(self, path, port):
        self.words = ["dumpcap", "-q", "-i", "lo", "-f", f"tcp port {port}", "-w", path]

    def __enter__(self):
        self.program = subprocess.Popen(self.words, stderr=subprocess.PIPE, text=True)
        # It says which file it writes to once it captures.
        for line in self.program.stderr:
            if line.startswith("File:"):
                break
        else:
            sys.exit("dumpcap does not capture")
        time.sleep(1)

    def __exit__(self, *_):
        time.sleep(1)
        self.program.send_signal(signal.SIGINT)
        self.program.communicate(timeout=30)


def dissect(path, port, *words):
    return run(["tshark", "-r", path, "-d", f"tcp.port=={port},amqp", *words])


def streams_of(path, port):
    """The bytes of both directions, by the port that sent them."""
    fields = ("-T", "fields", "-e", "tcp.srcport", "-e", "tcp.seq_raw", "-e", "tcp.payload", "-Y", "tcp.len>0")
    pieces = {}
    for line in dissect(path, port, *fields).decode().splitlines():
        source, number, data = line.split("\t")
        pieces.setdefault(source, {})[int(number)] = bytes.fromhex(data.replace(":", ""))
    streams = {}
    for source, found in pieces.items():
        at, stream = min(found), b""
        for number in sorted(found):
            if number != at:
                sys.exit(f"the capture lacks bytes of the stream from port {source}")
            stream += found[number]
            at += len(found[number])
        streams[source] = stream
    return streams


def field(part, name):
    return next((it for it in part.iter("field") if it.get("name") == name), None)


def number(part, name):
    return int(field(part, name).get("show"))


def unit_of(part, at):
    """The line of a unit at an offset, as tshark dissects it, and how many bytes it has."""
    if field(part, "amqp.init.protocol") is not None:
        return f"{at} header {HEADERS[field(part, 'amqp.init.id').get('show')]}", 8
    size = number(part, "amqp.length")
    if field(part, "amqp.sasl.method") is not None:
        return f"{at} sasl sasl-{SASL[number(part, 'amqp.sasl.method')]}", size
    channel = number(part, "amqp.channel")
    performative = field(part, "amqp.performative")
    if performative is None:
        return f"{at} {channel} empty", size
    name = performative.get("showname").split(": ")[1].split()[0]
    # The payload stands behind the fields of the performative, which are the first list.
    begin = int(field(part, "amqp.length").get("pos"))
    fields = field(part, "amqp.method.arguments")
    behind = begin + size if fields is None else int(fields.get("pos")) + int(fields.get("size"))
    return f"{at} {channel} {name} {begin + size - behind}", size


def dissected(path, port):
    """The lines of the units of both directions, by the port that sent them."""
    lines, offsets = {}, {}
    for packet in tree.fromstring(dissect(path, port, "-T", "pdml")).iter("packet"):
        source = None
        for part in packet.iter("proto"):
            if part.get("name") == "tcp":
                source = field(part, "tcp.srcport").get("show")
            elif part.get("name") == "amqp":
                line, size = unit_of(part, offsets.get(source, 0))
                lines.setdefault(source, []).append(line)
                offsets[source] = offsets.get(source, 0) + size
    return lines


def differences(shown, wanted):
    """What differs between two listings, as lines to print."""
    for k in range(max(len(shown), len(wanted))):
        mine, its = (lines[k] if k < len(lines) else "nothing" for lines in (shown, wanted))
        if mine != its:
            yield f"unit {k}: show says {mine!r}, tshark {its!r}"


def compare(program, path, port, folder):
    """Compares both streams of a capture, and says what came of it; whether all units are equal."""
    wanted = dissected(path, port)
    alike = True
    for source, stream in sorted(streams_of(path, port).items(), key=lambda it: it[0] == str(port)):
        title = "the container" if source == str(port) else "the client"
        said = subprocess.run([program, "show", "10"], input=stream, capture_output=True)
        shown = said.stdout.decode().splitlines()
        for name, data in (
            ("stream", stream),
            ("show", said.stdout),
            ("tshark", "".join(f"{it}\n" for it in wanted.get(source, [])).encode()),
        ):
            with open(os.path.join(folder, f"{title.split()[1]}.{name}"), "wb") as file:
                file.write(data)
        found = list(differences(shown, wanted.get(source, [])))
        if said.returncode != 0:
            found.append(f"show 10 ended with status {said.returncode}")
        for line in found[:10]:
            print(f"{title}'s stream, {line}")
        if len(found) > 10:
            print(f"{title}'s stream, {len(found) - 10} more")
        if not found:
            print(f"{title}'s stream of {len(stream)} bytes, equal: {len(shown)} units")
        alike = alike and not found
    return alike


def main():
    parser = argparse.ArgumentParser(description=__doc__, formatter_class=argparse.RawDescriptionHelpFormatter)
    parser.add_argument("program")
    parser.add_argument("--container", required=True)
    parser.add_argument("--publish", default="q")
    parser.add_argument("--consume", default="q")
    parser.add_argument("--count", type=int, default=8)
    parser.add_argument("--keep")
    options = parser.parse_args()
    for needed in ("dumpcap", "tshark"):
        if not shutil.which(needed):
            sys.exit(f"{needed} is not installed")
    with tempfile.TemporaryDirectory() as folder:
        if options.keep:
            folder = options.keep
            os.makedirs(folder, exist_ok=True)
        port, path = free_port(), os.path.join(folder, "capture.pcapng")
        command = shlex.split(options.container) + ["--port", str(port)]
        container = subprocess.Popen(command, stdout=subprocess.DEVNULL, stderr=subprocess.STDOUT)
        try:
            wait_for(port, container)
            with Captured(path, port):
                converse(port, options.publish.split(","), options.consume.split(","), options.count)
        finally:
            end(container)
        print(run(["tshark", "--version"]).decode().splitlines()[0])
        if not compare(options.program, path, port, folder):
            sys.exit(1)


if __name__ == "__main__":
    main()
