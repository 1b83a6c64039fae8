#!/usr/bin/env python3
"""A container of AMQP 1.0 that tells each message and each outcome with its id, the hash of its body and the moment.

    python3 tools/watched_container.py --rig FILE --port P [options of FILE]

FILE is a container over Qpid Proton with a class Broker as `container.py` has it. Its lines stay; beside them stand

    told ADDRESS ID HASH OUTCOME NANOSECONDS REST   a publish, told just before its outcome is handed to Proton
    gave ADDRESS ID HASH OUTCOME NANOSECONDS        what a consumer did with a delivery

ID is the message's id, HASH the SHA-1 of its body, REST that of its properties and headers. tools/try_trips.py and
tools/try_awkward.py compare them with what the client libraries tell. A rule stands beside those of FILE: what is published to
late.N.REST is granted credit one by one, N milliseconds late.
"""

import hashlib
import importlib.util
import json
import os
import sys
import time

from proton import Delivery, Message, ProtonException

NAMES = {Delivery.ACCEPTED: "accepted", Delivery.REJECTED: "rejected", Delivery.RELEASED: "released",
         Delivery.MODIFIED: "modified"}


def loaded(path):
    sys.path.insert(0, os.path.dirname(path))
    spec = importlib.util.spec_from_file_location("rig", path)
    rig = importlib.util.module_from_spec(spec)
    spec.loader.exec_module(rig)
    return rig


def body_of(message):
    return bytes(message.body if message.body is not None else b"")


def read(raw):
    """A message, and the bytes of its body; of bytes that are no message, or whose body has no bytes, all."""
    message = Message()
    try:
        message.decode(raw)
        return message, body_of(message)
    except (ProtonException, TypeError, ValueError):
        return message, raw


def hashed(value):
    return hashlib.sha1(json.dumps(value, sort_keys=True, default=repr).encode()).hexdigest()


def rest_of(message):
    """The hash of all properties and headers that a message has."""
    return hashed([
        message.durable, message.priority, message.ttl, message.id, message.user_id.hex(), message.address, message.subject,
        message.reply_to, message.correlation_id, message.content_type, message.content_encoding, message.creation_time,
        message.properties, message.annotations,
    ])


def named(raw):
    message, body = read(raw)
    return f"{message.id} {hashlib.sha1(body).hexdigest()}"


def watch(rig):
    """Lets a Broker tell more."""

    class Late:
        """Grants a link one credit, once its time has come."""

        def __init__(self, link):
            self.link = link

        def on_timer_task(self, event):
            if not getattr(self.link, "gone", False):
                self.link.flow(1)

    class Watched(rig.Broker):
        def on_reactor_init(self, event):
            super().on_reactor_init(event)
            self.container = event.container

        def grant(self, link):
            if link.rule != "late":
                super().grant(link)
            elif link.credit == 0:
                self.container.schedule(link.n / 1000, Late(link))

        def take(self, link, d, raw):
            d.told = named(raw)
            word = {"mute": "none", "bare": "none", "twostep": "accepted"}.get(link.rule)
            d.rest = rest_of(read(raw)[0])
            if word:
                rig.say("told", link.address, d.told, word, time.time_ns(), d.rest)
            super().take(link, d, raw)

        def settle(self, d, word, undeliverable):
            rig.say("told", d.link.address, d.told, word, time.time_ns(), d.rest)
            super().settle(d, word, undeliverable)

        def outcome(self, link, d):
            raw = link.out[d.tag][1]
            rig.say("gave", link.address, named(raw), NAMES.get(d.remote_state, "none") + ("" if d.settled else "-unsettled"),
                    time.time_ns())
            super().outcome(link, d)

    rig.Broker = Watched


def main():
    if "--rig" not in sys.argv[1:-1]:
        sys.exit(__doc__)
    place = sys.argv.index("--rig")
    path = sys.argv[place + 1]
    del sys.argv[place : place + 2]
    rig = loaded(path)
    watch(rig)
    rig.main()


if __name__ == "__main__":
    main()
