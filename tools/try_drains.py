#!/usr/bin/env python3
"""Speaks AMQP 1.0 to a RabbitMQ without the gateway, and shows what it answers to ways of getting a message, over loopback.

    python3 tools/try_drains.py --port PORT --kind quorum|classic STEP ..
    python3 tools/try_drains.py --port PORT --kind quorum|classic --gets COUNT [--at-once]

PORT takes AMQP 0-9-1 and AMQP 1.0. A queue of that kind is made anew, and deleted in the end. The steps are `attach`, `detach`, `put`,
which is a message that is published straight, `drain` (a flow with credit 1 and drain), `grant` (credit 1 and echo) and `stop`
(credit 0 and echo). The frames of each link are shown, `>` those that went and `<` those that came.

With --gets COUNT messages are put, and got by a `grant` and a `stop` each, which goes once the echo of the grant came, or with --at-once
in one piece with it. The messages that came are counted, and the gets that found none while there were some.

python3-qpid-proton and pika are needed. No part of the build runs this.
"""

import argparse
import socket

from proton import Data, Described, symbol, ubyte, uint, ulong

from quorum_queue import QuorumQueue
from show_frames import shown

NAME = "drains"
FLOW, TRANSFER = 0x13, 0x14


def encoded(code, *fields):
    data = Data()
    data.put_described()
    data.enter()
    data.put_ulong(code)
    data.put_list()
    data.enter()
    for field in fields:
        data.put_object(field)
    data.exit()
    data.exit()
    return data.encode()


def framed(body, channel=0, kind=0):
    return (len(body) + 8).to_bytes(4, "big") + bytes([2, kind]) + channel.to_bytes(2, "big") + body


class Link:
    """A session with a receiving link, which accepts each delivery."""

    def __init__(self, port, address):
        self.address, self.count, self.came, self.names = address, 0, 0, 0
        self.socket = socket.create_connection(("127.0.0.1", port))
        self.socket.settimeout(5)
        self.rest = b""
        self.socket.sendall(b"AMQP\3\1\0\0" + framed(encoded(0x41, symbol("ANONYMOUS")), 0, 1))
        for _ in range(3):
            self.frame()
        begin = encoded(0x11, None, uint(0), uint(2048), uint(2048))
        self.socket.sendall(b"AMQP\0\1\0\0" + framed(encoded(0x10, "drains")) + framed(begin, 1))
        for _ in range(3):
            self.frame()

    def frame(self):
        """The next frame that isn't empty, or protocol header."""
        while True:
            size = 8 if self.rest[:4] == b"AMQP" else int.from_bytes(self.rest[:4], "big")
            if len(self.rest) >= max(size, 8):
                frame, self.rest = self.rest[:size], self.rest[size:]
                if size > 8 or frame[:4] == b"AMQP":
                    return frame
            elif part := self.socket.recv(1 << 16):
                self.rest += part
            else:
                raise EOFError

    def take(self):
        """The code of the next frame, and the frame; a delivery is accepted."""
        frame = self.frame()
        data = Data()
        data.decode(frame[8:])
        data.rewind()
        data.next()
        value = data.get_object()
        code, fields = int(value.descriptor), value.value
        if code == TRANSFER:
            self.count, self.came = self.count + 1, self.came + 1
            accepted = Described(ulong(0x24), [])
            self.socket.sendall(framed(encoded(0x15, True, fields[1], None, True, accepted), 1))
        elif code == FLOW and fields[5] is not None:
            self.count = max(self.count, int(fields[5]))
        return code, frame

    def attach(self):
        source, target = Described(ulong(0x28), [self.address]), Described(ulong(0x29), [])
        self.names, self.count = self.names + 1, 0
        return framed(encoded(0x12, f"l-{self.names}", uint(0), True, ubyte(0), ubyte(0), source, target), 1)

    def detach(self):
        return framed(encoded(0x16, uint(0), True), 1)

    def flow(self, credit, drain, echo):
        window = [uint(0), uint(2048), uint(0), uint(2048)]
        return framed(encoded(FLOW, *window, uint(0), uint(self.count), uint(credit), None, drain, echo), 1)

    def drain(self):
        return self.flow(1, True, False)

    def grant(self):
        return self.flow(1, False, True)

    def stop(self):
        return self.flow(0, False, True)

    def send(self, *frames):
        self.socket.sendall(b"".join(frames))

    def until_flows(self, count):
        while count:
            code, _ = self.take()
            count -= code == FLOW


def put(queue, count):
    def publish(channel):
        channel.confirm_delivery()
        for number in range(count):
            channel.basic_publish("", queue.name, str(number).encode())

    queue.ask(publish)


def show(link, queue, steps):
    for step in steps:
        if step == "put":
            put(queue, 1)
            print("- put")
            continue
        frame = getattr(link, step)()
        print(">", shown(frame))
        link.send(frame)
        link.socket.settimeout(1)
        try:
            while True:
                print("<", shown(link.take()[1]))
        except socket.timeout:
            continue
        except EOFError:
            return print("< the end")


def gets(link, queue, count, at_once):
    put(queue, count)
    link.send(link.attach())
    link.take()
    empty = 0
    for _ in range(count):
        before = link.came
        link.send(link.grant(), *[link.stop()] * at_once)
        link.until_flows(1 + at_once)
        if not at_once:
            link.send(link.stop())
            link.until_flows(1)
        empty += link.came == before
    print(f"{count} gets of {count} messages: {link.came} came, {empty} gets found none")


def main():
    parser = argparse.ArgumentParser(description=__doc__, formatter_class=argparse.RawDescriptionHelpFormatter)
    parser.add_argument("--port", type=int, required=True)
    parser.add_argument("--kind", choices=["quorum", "classic"], default="quorum")
    parser.add_argument("--gets", type=int)
    parser.add_argument("--at-once", action="store_true")
    parser.add_argument("steps", nargs="*")
    options = parser.parse_args()
    queue = QuorumQueue(options.port, NAME, options.kind)
    link = Link(options.port, queue.address)
    if options.gets:
        gets(link, queue, options.gets, options.at_once)
    else:
        show(link, queue, options.steps)
    queue.delete()


if __name__ == "__main__":
    main()
