#!/usr/bin/env python3
"""Lists the frames between the gateway and its container in a capture, with their fields.

    amqp_gate serve --capture run.agc ..
    python3 tools/show_frames.py run.agc [PAIR]

A line for each frame of the pair, in the order in which it was read or written: the moment in milliseconds, `<` for what the container
sent or `>` for what the gateway sent, the channel, the name, and the fields that aren't null, by their place in the standard's list.
Of transfers the payload's length. python3-qpid-proton is needed. No part of the build runs this.
"""

import sys

from proton import Data, Described

NAMES = {0x10: "open", 0x11: "begin", 0x12: "attach", 0x13: "flow", 0x14: "transfer", 0x15: "disposition", 0x16: "detach",
         0x17: "end", 0x18: "close", 0x40: "mechanisms", 0x41: "init", 0x44: "outcome"}
FLOW = "next-incoming-id incoming-window next-outgoing-id outgoing-window handle delivery-count link-credit available drain echo".split()
FIELDS = {0x13: FLOW, 0x14: "handle delivery-id delivery-tag message-format settled more".split(),
          0x15: "role first last settled state batchable".split(), 0x16: "handle closed error".split(), 0x17: ["error"], 0x18: ["error"]}


def plain(value):
    if isinstance(value, Described):
        code = int(value.descriptor)
        name = {0x24: "accepted", 0x25: "rejected", 0x26: "released", 0x27: "modified"}.get(code, f"{code:#x}")
        return f"{name}{plain(value.value) if value.value else ''}"
    if isinstance(value, (list, tuple)):
        return "[" + ", ".join(plain(inner) for inner in value) + "]"
    if isinstance(value, bool) or value is None:
        return str(value).lower()
    if isinstance(value, int):
        return str(int(value))
    return bytes(value).hex() if isinstance(value, (bytes, memoryview)) else str(value)


def shown(frame):
    """One frame as a text."""
    if len(frame) == 8 and frame.startswith(b"AMQP"):
        return f"header {frame.hex(' ')}"
    start, channel = 4 * frame[4], int.from_bytes(frame[6:8], "big")
    if start == len(frame):
        return f"{channel} empty"
    data = Data()
    taken = data.decode(frame[start:])
    data.rewind()
    data.next()
    value = data.get_object()
    code = int(value.descriptor)
    names = FIELDS.get(code, [])
    fields = [(names[i] if i < len(names) else str(i), field) for i, field in enumerate(value.value) if field is not None]
    text = " ".join(f"{name}={plain(field)}" for name, field in fields)
    rest = f" +{len(frame) - start - taken} bytes" if code == 0x14 else ""
    return f"{channel} {NAMES.get(code, hex(code))} {text}{rest}"


def entries(data):
    """The moment, the pair, the direction and the bytes of each read and write at the container's end."""
    number = lambda place: int.from_bytes(data[place : place + 4], "big")
    place, now = 8 + number(4), 0
    while place < len(data):
        kind, answer = data[place], place + 1
        if kind == 1:
            place += 6 if data[answer] == 1 else 2
        elif kind in (2, 5, 6):
            place += {2: 6, 5: 6, 6: 2}[kind]
        elif kind == 7:
            now, place = int.from_bytes(data[place + 1 : place + 9], "big"), place + 9
        else:
            pair, up, length = number(place + 1), data[place + 5] == 1, number(place + 6)
            place += 10
            written = b""
            if kind == 4:
                written, place = data[place : place + length], place + length
            word = data[place]
            place += 1
            if word == 1:
                count, place = number(place), place + 4
                if kind == 3:
                    written, place = data[place : place + count], place + count
                if up:
                    yield now, pair, "<" if kind == 3 else ">", written[:count]


def main():
    if len(sys.argv) not in (2, 3):
        sys.exit(__doc__)
    with open(sys.argv[1], "rb") as capture:
        data = capture.read()
    wanted = int(sys.argv[2]) if len(sys.argv) > 2 else 0
    rests = {"<": b"", ">": b""}
    for now, pair, way, some in entries(data):
        if pair != wanted:
            continue
        rest = rests[way] + some
        while len(rest) >= 8:
            size = 8 if rest.startswith(b"AMQP") else int.from_bytes(rest[:4], "big")
            if len(rest) < size:
                break
            print(now, way, shown(rest[:size]))
            rest = rest[size:]
        rests[way] = rest


if __name__ == "__main__":
    main()
