"""Publishes by pika without waiting, and tells what becomes of each message, for tools/try_awkward.py:

    PORT KEY COUNT SIZE WAIT [mandatory]

It publishes COUNT messages of SIZE bytes with the ids m1, m2, .., waits until each is confirmed, WAIT seconds at most, and
closes the channel and the connection. It prints `ack N TIME` and `nack N TIME` of each confirm, `return N` of each
message that came back, `met ERROR` where it was refused or lost, and `closed SECONDS` once the close was answered.

The program of each library takes the same words and prints the same lines.
"""

import sys
import time

import pika

port, key, count, size, wait, *flags = sys.argv[1:]
waits = set()


def confirmed(frame):
    word = "ack" if isinstance(frame.method, pika.spec.Basic.Ack) else "nack"
    tag, multiple = frame.method.delivery_tag, frame.method.multiple
    for number in [number for number in sorted(waits) if number == tag or multiple and number < tag]:
        waits.discard(number)
        print(word, number, time.time_ns(), flush=True)


def returned(channel, method, properties, body):
    print("return", properties.message_id[1:], flush=True)


try:
    connection = pika.BlockingConnection(pika.ConnectionParameters("127.0.0.1", int(port), heartbeat=0))
    channel = connection.channel()
    # the blocking channel would wait for each confirm, so the one below it publishes
    channel._impl.add_on_return_callback(returned)
    channel._impl.confirm_delivery(confirmed, callback=lambda frame: None)
    for number in range(1, int(count) + 1):
        waits.add(number)
        properties = pika.BasicProperties(message_id=f"m{number}")
        channel._impl.basic_publish("", key, b"x" * int(size), properties, mandatory="mandatory" in flags)
        connection.process_data_events(0)
    until = time.monotonic() + float(wait)
    while waits and channel.is_open and time.monotonic() < until:
        connection.process_data_events(0.1)
    if not channel.is_open:
        raise channel._closing_reason
    began = time.monotonic()
    channel.close()
    connection.close()
    print(f"closed {time.monotonic() - began:.2f}")
except Exception as error:
    print("met", type(error).__name__, error.args)
