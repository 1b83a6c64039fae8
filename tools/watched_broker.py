#!/usr/bin/env python3
"""Stands before a broker's port for AMQP 1.0, and tells each outcome that passes with its moment, over loopback.

    python3 tools/watched_broker.py --broker PORT --port P

It passes on what comes from either side, as it is. Each disposition is told before it is passed on: one of the broker, and one of its
client for each delivery, which must have come in one frame:

    outcome FIRST LAST STATE NANOSECONDS
    gave - ID HASH STATE NANOSECONDS

FIRST and LAST are delivery-ids, ID is the message's id, HASH the SHA-1 of its body. tools/try_trips.py compares these with what
client libraries tell, and reads a queue by `fetched`.
"""

import argparse
import hashlib
import socket
import threading
import time

from proton import Data, Described, Message
from proton.handlers import MessagingHandler
from proton.reactor import Container

from watched_container import body_of, rest_of

TRANSFER, DISPOSITION = b"\0\x53\x14", b"\0\x53\x15"
STATES = {0x24: "accepted", 0x25: "rejected", 0x26: "released", 0x27: "modified"}
LINES = threading.Lock()


def tell(*words):
    """A line, whole: several connections tell theirs at once."""
    with LINES:
        print(*words, time.time_ns(), flush=True)


def frames(buffer):
    """The bodies of the whole frames in a buffer, which are taken from it."""
    while len(buffer) >= 8:
        head = buffer.startswith(b"AMQP")
        size = 8 if head else int.from_bytes(buffer[:4], "big")
        if len(buffer) < size:
            break
        body = b"" if head else bytes(buffer[4 * buffer[4] : size])
        del buffer[:size]
        yield body


def read(body):
    """The fields of a performative, and what stands behind it."""
    data = Data()
    taken = data.decode(body)
    data.rewind()
    data.next()
    return data.get_object().value + [None] * 5, body[taken:]


def settled(body):
    """The first and the last delivery-id of a disposition, and its state."""
    (_, first, last, _, state, *_), _ = read(body)
    word = STATES.get(state.descriptor, "none") if isinstance(state, Described) else "none"
    return int(first), int(first if last is None else last), word


def from_broker(body, came):
    """What the broker sends: outcomes, and deliveries, which are noted by their ids."""
    if body[:3] == DISPOSITION:
        tell("outcome", *settled(body))
    elif body[:3] == TRANSFER:
        fields, payload = read(body)
        message = Message()
        message.decode(payload)
        came[int(fields[1])] = f"{message.id} {hashlib.sha1(body_of(message)).hexdigest()}"


def from_client(body, came):
    if body[:3] == DISPOSITION:
        first, last, word = settled(body)
        for number in range(first, last + 1):
            tell("gave -", came.pop(number, "none none"), word)


def carry(source, sink, watch, came):
    buffer = bytearray()
    try:
        while part := source.recv(1 << 16):
            buffer += part
            for body in frames(buffer):
                watch(body, came)
            sink.sendall(part)
        sink.shutdown(socket.SHUT_WR)
    except OSError:
        for end in (source, sink):
            end.close()


class Fetch(MessagingHandler):
    """Takes the messages of a queue, and one more than COUNT at most, until none comes for a while: longer where some are wanting."""

    def __init__(self, port, queue, count):
        super().__init__(prefetch=0)
        self.port, self.queue, self.count, self.rows = port, queue, count, []

    def on_start(self, event):
        self.connection = event.container.connect(f"127.0.0.1:{self.port}", reconnect=False, heartbeat=0)
        event.container.create_receiver(self.connection, self.queue)
        self.last = time.monotonic()
        event.container.schedule(1, self)

    def on_link_opened(self, event):
        event.receiver.flow(self.count + 1)

    def on_message(self, event):
        self.last = time.monotonic()
        message = event.message
        self.rows.append((message.id, hashlib.sha1(body_of(message)).hexdigest(), rest_of(message)))

    def on_timer_task(self, event):
        if time.monotonic() - self.last > (120 if len(self.rows) < self.count else 3):
            self.connection.close()
        else:
            event.container.schedule(1, self)


def fetched(port, queue, count):
    """The id of each message of a queue, the hash of its body, and that of its properties and headers."""
    fetch = Fetch(port, queue, count)
    Container(fetch).run()
    return fetch.rows


def main():
    parser = argparse.ArgumentParser(description=__doc__, formatter_class=argparse.RawDescriptionHelpFormatter)
    parser.add_argument("--broker", type=int, required=True)
    parser.add_argument("--port", type=int, required=True)
    options = parser.parse_args()
    with socket.create_server(("127.0.0.1", options.port)) as server:
        while True:
            client, _ = server.accept()
            broker = socket.create_connection(("127.0.0.1", options.broker))
            came = {}
            for words in ((client, broker, from_client, came), (broker, client, from_broker, came)):
                threading.Thread(target=carry, args=words, daemon=True).start()


if __name__ == "__main__":
    main()
