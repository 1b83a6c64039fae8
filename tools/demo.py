#!/usr/bin/env python3
"""One message each way through the gateway, over real sockets.

    python3 tools/demo.py PROGRAM        PROGRAM is the built gateway, as crates/amqp_gate/out/amqp_gate

It starts the gateway, a container of AMQP 1.0 and a client of AMQP 0-9-1, both of Python's standard library alone,
and tells each step in a line. The client publishes a message with a confirm; then the container has one for the
client, which acknowledges it. It ends within a second, with status 0 if each step came.
"""

import re
import socket
import struct
import subprocess
import sys
import threading
import time

WITHIN = 10.0
OUT, BACK = b"hello, container", b"hello, client"
BEGAN = time.monotonic()


def tell(who, what):
    print(f"{time.monotonic() - BEGAN:6.3f} s  {who:<9} {what}", flush=True)


class Stream:
    """A socket that is read by the byte."""

    def __init__(self, sock):
        self.sock, self.rest = sock, b""
        sock.settimeout(WITHIN)
        sock.setsockopt(socket.IPPROTO_TCP, socket.TCP_NODELAY, 1)

    def take(self, count):
        while len(self.rest) < count:
            more = self.sock.recv(65_536)
            if not more:
                raise EOFError("the gateway closed the connection")
            self.rest += more
        taken, self.rest = self.rest[:count], self.rest[count:]
        return taken

    def give(self, data):
        self.sock.sendall(data)


# ---- the container (AMQP 1.0 2.3 to 2.7, 5.3)

OPEN, BEGIN, ATTACH, FLOW, TRANSFER, DISPOSITION, DETACH, END, CLOSE = range(0x10, 0x19)
MECHANISMS, INIT, OUTCOME = 0x40, 0x41, 0x44
NULL, TRUE, FALSE = b"\x40", b"\x41", b"\x42"
ACCEPTED = b"\x00\x53\x24\x45"


def uint(number):
    return b"\x70" + struct.pack(">I", number)


def binary(data):
    return b"\xa0" + bytes([len(data)]) + data


def string(text):
    return b"\xa1" + bytes([len(text)]) + text


def composite(code, fields):
    body = b"".join(fields)
    return b"\x00\x53" + bytes([code, 0xD0]) + struct.pack(">II", len(body) + 4, len(fields)) + body


def frame(kind, channel, code, *fields, payload=b""):
    body = composite(code, fields) + payload
    return struct.pack(">IBBH", len(body) + 8, 2, kind, channel) + body


def value(data, at=0):
    """The value at a place (AMQP 1.0 1.6), and the place behind it. A described value is its code and its value."""
    code, at = data[at], at + 1
    if code == 0x00:
        descriptor, at = value(data, at)
        described, at = value(data, at)
        return (descriptor, described), at
    known = {0x40: None, 0x41: True, 0x42: False, 0x43: 0, 0x44: 0, 0x45: []}
    if code in known:
        return known[code], at
    width = {0x5: 1, 0x6: 2, 0x7: 4, 0x8: 8, 0x9: 16}.get(code >> 4)
    if width:
        return int.from_bytes(data[at:at + width], "big"), at + width
    size = 1 if code >> 4 in (0xA, 0xC, 0xE) else 4
    length = int.from_bytes(data[at:at + size], "big")
    at, end = at + size, at + size + length
    if code >> 4 not in (0xC, 0xD):
        return data[at:end], end
    count, at = int.from_bytes(data[at:at + size], "big"), at + size
    items = []
    for _ in range(count):
        item, at = value(data, at)
        items.append(item)
    return items, end


def body_of(message):
    """The bytes of a message's first data section (AMQP 1.0 3.2.6)."""
    at = 0
    while at < len(message):
        (code, section), at = value(message, at)
        if code == 0x75:
            return section
    return b""


class Container:
    """A container with one queue, which accepts what comes and has one message for who receives."""

    def __init__(self):
        self.listener = socket.create_server(("127.0.0.1", 0))
        self.listener.settimeout(WITHIN)
        self.address = "127.0.0.1:%d" % self.listener.getsockname()[1]
        self.outcome = threading.Event()
        self.channel = 0
        self.sent = False
        self.receivers = set()
        self.thread = threading.Thread(target=self.serve, daemon=True)
        self.thread.start()

    def serve(self):
        sock, _ = self.listener.accept()
        stream = Stream(sock)
        tell("container", "the gateway connects")
        try:
            self.login(stream)
            while self.answer(stream):
                pass
        except EOFError:
            pass
        sock.close()

    def login(self, stream):
        stream.give(stream.take(8) + frame(1, 0, MECHANISMS, b"\xa3\x05PLAIN"))
        _, _, init, _ = self.frame(stream)
        user = init[1].split(b"\0")[1].decode()
        stream.give(frame(1, 0, OUTCOME, b"\x50\x00"))
        stream.give(stream.take(8))
        tell("container", f"it logs in as {user}, with the client's own password")

    @staticmethod
    def frame(stream):
        """The next frame that isn't empty: its channel, its performative's code and fields, and its payload."""
        while True:
            size = struct.unpack(">I", stream.take(4))[0]
            rest = stream.take(size - 4)
            data = rest[rest[0] * 4 - 4:]
            if data:
                (code, fields), end = value(data)
                channel = struct.unpack(">H", rest[2:4])[0]
                return channel, code, fields + [None] * (14 - len(fields)), data[end:]

    def answer(self, stream):
        """Takes up a frame of the gateway; answers whether more may come."""
        channel, code, fields, payload = self.frame(stream)
        if code == OPEN:
            stream.give(frame(0, 0, OPEN, string(b"demo"), NULL, uint(65_536)))
        elif code == BEGIN:
            self.channel, window = channel, uint(2_048)
            stream.give(frame(0, channel, BEGIN, b"\x60" + struct.pack(">H", channel), uint(0), window, window))
        elif code == ATTACH:
            self.attach(stream, fields)
        elif code == FLOW and fields[4] in self.receivers and not self.sent:
            self.send(stream, fields[4])
        elif code == TRANSFER:
            tell("container", f"a message for 'q': {body_of(payload).decode()}")
            stream.give(frame(0, self.channel, DISPOSITION, TRUE, uint(fields[1]), NULL, TRUE, ACCEPTED))
            tell("container", "it is accepted")
        elif code == DISPOSITION:
            tell("container", "its delivery is accepted" if fields[4] == (0x24, []) else f"its delivery: {fields[4]}")
            self.outcome.set()
        elif code == DETACH:
            stream.give(frame(0, self.channel, DETACH, uint(fields[0]), TRUE))
        elif code == END:
            stream.give(frame(0, self.channel, END))
        elif code == CLOSE:
            stream.give(frame(0, 0, CLOSE))
            return False
        return True

    def attach(self, stream, fields):
        name, handle, receives = fields[:3]
        source = composite(0x28, [string(b"q")] if receives else [])
        target = composite(0x29, [] if receives else [string(b"q")])
        ends = [string(name), uint(handle), FALSE if receives else TRUE, b"\x50\x00", b"\x50\x00", source, target]
        if receives:
            self.receivers.add(handle)
            stream.give(frame(0, self.channel, ATTACH, *ends, NULL, NULL, uint(0)))
            return
        stream.give(frame(0, self.channel, ATTACH, *ends))
        window = uint(2_048)
        stream.give(frame(0, self.channel, FLOW, uint(0), window, uint(0), window, uint(handle), uint(0), uint(10)))

    def send(self, stream, handle):
        self.sent = True
        message = b"\x00\x53\x75" + binary(BACK)
        tell("container", f"a message from 'q': {BACK.decode()}")
        fields = [uint(handle), uint(0), binary(b"1"), uint(0), FALSE]
        stream.give(frame(0, self.channel, TRANSFER, *fields, payload=message))


# ---- the client (AMQP 0-9-1 1.4 to 1.8, 4.2)

METHOD, HEADER, BODY = 1, 2, 3


class Client:
    def __init__(self, address):
        host, port = address.rsplit(":", 1)
        self.stream = Stream(socket.create_connection((host, int(port)), WITHIN))

    def say(self, kind, channel, payload):
        self.stream.give(struct.pack(">BHI", kind, channel, len(payload)) + payload + b"\xce")

    def ask(self, channel, *ids_and_arguments):
        class_id, method_id, arguments = ids_and_arguments
        self.say(METHOD, channel, struct.pack(">HH", class_id, method_id) + arguments)

    def hear(self, *ids):
        """The arguments of the next method, which must be this one."""
        payload = self.frame(METHOD)
        found = struct.unpack(">HH", payload[:4])
        if found != ids:
            raise SystemExit(f"demo: method {found} came in place of {ids}: {payload[4:]!r}")
        return payload[4:]

    def frame(self, kind):
        while True:
            found, _, size = struct.unpack(">BHI", self.stream.take(7))
            payload = self.stream.take(size + 1)[:-1]
            if found == kind:
                return payload

    def login(self):
        self.stream.give(b"AMQP\0\0\x09\x01")
        self.hear(10, 10)
        answer = b"\0guest\0guest"
        self.ask(0, 10, 11, struct.pack(">IB5sI", 0, 5, b"PLAIN", len(answer)) + answer + b"\x05en_US")
        self.ask(0, 10, 31, self.hear(10, 30))
        self.ask(0, 10, 40, b"\x01/\0\0")
        self.hear(10, 41)
        tell("client", "connection.open-ok")
        self.ask(1, 20, 10, b"\0")
        self.hear(20, 11)
        tell("client", "channel.open-ok")

    def publish(self):
        self.ask(1, 85, 10, b"\0")
        self.hear(85, 11)
        self.ask(1, 60, 40, b"\0\0\0\x01q\0")
        self.say(HEADER, 1, struct.pack(">HHQH", 60, 0, len(OUT), 0))
        self.say(BODY, 1, OUT)
        tell("client", f"basic.publish to 'q': {OUT.decode()}")
        tag, _ = struct.unpack(">QB", self.hear(60, 80))
        tell("client", f"basic.ack of publish {tag}")

    def consume(self):
        self.ask(1, 60, 20, b"\0\0\x01q\x01c\0\0\0\0\0")
        self.hear(60, 21)
        tell("client", "basic.consume-ok of 'q'")
        deliver = self.hear(60, 60)
        size = struct.unpack(">Q", self.frame(HEADER)[4:12])[0]
        body = b""
        while len(body) < size:
            body += self.frame(BODY)
        tell("client", f"basic.deliver: {body.decode()}")
        tag = deliver[1 + deliver[0]:][:8]
        self.ask(1, 60, 80, tag + b"\0")
        tell("client", "basic.ack of the delivery")
        if body != BACK:
            raise SystemExit(f"demo: the body came as {body!r}")

    def close(self):
        self.ask(0, 10, 50, struct.pack(">HB3sHH", 200, 3, b"bye", 0, 0))
        self.hear(10, 51)
        tell("client", "connection.close-ok")
        self.stream.sock.close()


# ---- the gateway

def started(program, upstream):
    """The gateway, and the address that it says it listens on."""
    words = [program, "serve", "--listen", "127.0.0.1:0", "--upstream", upstream, "--pairs", "1"]
    tell("gateway", " ".join(["amqp_gate", *words[1:]]))
    gate = subprocess.Popen(words, stdout=subprocess.PIPE, stderr=subprocess.PIPE, text=True)
    for line in gate.stderr:
        tell("gateway", line.strip())
        found = re.match(r"listening on (\S+)", line)
        if found:
            return gate, found[1]
    raise SystemExit(f"demo: {program} ended with status {gate.wait()} before it listened")


def main():
    if len(sys.argv) != 2:
        raise SystemExit(__doc__)
    container = Container()
    gate, address = started(sys.argv[1], container.address)
    try:
        client = Client(address)
        client.login()
        client.publish()
        client.consume()
        if not container.outcome.wait(WITHIN):
            raise SystemExit("demo: no disposition of the delivery reached the container")
        client.close()
        status = gate.wait(WITHIN)
    finally:
        gate.kill()
    for line in gate.stdout:
        tell("gateway", line.strip())
    tell("gateway", f"ends with status {status}")
    if status != 0:
        raise SystemExit(1)


if __name__ == "__main__":
    main()
