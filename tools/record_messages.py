#!/usr/bin/env python3
"""Records the messages that client libraries of AMQP 0-9-1 publish, over loopback.

    python3 tools/record_messages.py [--client NAME,NAME..] > tools/captured_messages.txt

It is a small server of AMQP 0-9-1: it opens connections and channels, takes every declaration, and
acknowledges each publish where its channel confirms. For each publish it prints a line

    CLIENT EXCHANGE KEY HEADER BODY

CLIENT is the library, with the version that it tells; the rest is in hexadecimal, `-` where it is
empty. HEADER is the payload of the content header as it came, and BODY the body frames' payloads,
joined. The clients are `pika`, `java` and `go`, the programs messages_pika.py, Messages.java and
messages.go of tools/clients; tools/try_container.py says what each needs. Go puts the headers of a
message into another order each time. This is no part of the build.
"""

import argparse
import os
import socket
import struct
import subprocess
import sys
import tempfile

from make_mapping_cases import Reader, table_091
from try_container import CLIENTS, GO_PATH, JARS

NAMES = {"pika": "pika", "java": "amqp-client", "go": "amqp091-go"}
CAN = ("F", [(b"publisher_confirms", ("t", 1)), (b"basic.nack", ("t", 1))])
START = (10, 10), b"\x00\x09" + table_091([(b"capabilities", CAN)]) + b"".join(
    struct.pack(">I", len(words)) + words for words in (b"PLAIN", b"en_US"))
TUNE = (10, 30), struct.pack(">HIH", 255, 4096, 0)
ANSWERS = {(10, 40): ((10, 41), b"\x00"), (20, 10): ((20, 11), bytes(4)), (20, 40): ((20, 41), b""),
           (40, 10): ((40, 11), b""), (50, 10): ((50, 11), b"\x01q" + bytes(8)),
           (85, 10): ((85, 11), b""), (10, 50): ((10, 51), b"")}


def commands(folder):
    """What runs each client, and what builds it."""
    go, java = os.path.join(folder, "messages"), os.path.join(CLIENTS, "Messages.java")
    return {
        "pika": ([sys.executable, os.path.join(CLIENTS, "messages_pika.py")], None),
        "java": (["java", "-cp", f"{folder}:{JARS}", "Messages"],
                 ["javac", "-cp", JARS, "-d", folder, java]),
        "go": ([go], ["go", "build", "-o", go, os.path.join(CLIENTS, "messages.go")]),
    }


def frames(stream):
    """The kind, the channel and the payload of each frame, to the end of the stream."""
    while head := stream.read(7):
        kind, channel, size = struct.unpack(">BHI", head)
        payload = stream.read(size)
        if stream.read(1) != b"\xCE":
            sys.exit("a frame has no end byte")
        yield kind, channel, payload


def shown(data):
    return data.hex().upper() or "-"


def serve(peer, name):
    """Answers one connection to its end, and prints what it publishes."""
    stream = peer.makefile("rb")
    if stream.read(8) != b"AMQP\x00\x00\x09\x01":
        sys.exit(f"{name}: another protocol")

    def put(channel, method, arguments):
        payload = struct.pack(">HH", *method) + arguments
        peer.sendall(struct.pack(">BHI", 1, channel, len(payload)) + payload + b"\xCE")

    put(0, *START)
    client, counts, contents = NAMES[name], {}, {}
    for kind, channel, payload in frames(stream):
        reader = Reader(payload)
        method = (reader.number("H"), reader.number("H")) if kind == 1 else None
        if method == (10, 11):
            client += "-" + dict(reader.table())[b"version"][1].decode()
            put(0, *TUNE)
        elif method == (60, 40):
            reader.number("H")
            contents[channel] = [reader.short(), reader.short(), b"", b""]
        elif method == (85, 10):
            counts[channel] = 0
        if kind in (2, 3):
            contents[channel][kind] += payload
            _, _, header, body = contents[channel]
            if len(body) == struct.unpack_from(">Q", header, 4)[0]:
                print(client, *map(shown, contents.pop(channel)), flush=True)
                if channel in counts:
                    counts[channel] += 1
                    put(channel, (60, 80), struct.pack(">QB", counts[channel], 0))
        if method in ANSWERS:
            put(channel, *ANSWERS[method])
        if method == (10, 50):
            return


def main():
    parser = argparse.ArgumentParser(
        description=__doc__, formatter_class=argparse.RawDescriptionHelpFormatter)
    parser.add_argument("--client", default="pika,java,go")
    go_words = {"GOPATH": GO_PATH, "GO111MODULE": "off", "GOCACHE": "/tmp/go-cache"}
    with tempfile.TemporaryDirectory() as folder, socket.create_server(("127.0.0.1", 0)) as server:
        server.settimeout(120)
        for name in parser.parse_args().client.split(","):
            command, build = commands(folder)[name]
            if build:
                subprocess.run(build, check=True, env={**os.environ, **go_words})
            program = subprocess.Popen([*command, str(server.getsockname()[1])])
            with server.accept()[0] as peer:
                serve(peer, name)
            if program.wait(60) != 0:
                sys.exit(f"{name} ended with status {program.returncode}")


if __name__ == "__main__":
    main()
