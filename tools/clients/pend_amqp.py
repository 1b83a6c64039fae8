"""Publishes by py-amqp and tells what becomes of each message, for tools/try_awkward.py: its words are those of pend_pika.py."""

import socket
import sys
import time

import amqp

port, key, count, size, wait, *flags = sys.argv[1:]
waits = set()


def confirmed(word):
    def tell(tag, multiple):
        for number in [number for number in sorted(waits) if number == tag or multiple and number < tag]:
            waits.discard(number)
            print(word, number, time.time_ns(), flush=True)

    return tell


def returned(error, exchange, routing_key, message):
    print("return", message.properties["message_id"][1:], flush=True)


def drain(seconds):
    try:
        connection.drain_events(timeout=seconds)
    except socket.timeout:
        pass


try:
    connection = amqp.Connection(f"127.0.0.1:{port}", heartbeat=0)
    connection.connect()
    channel = connection.channel()
    channel.confirm_select()
    channel.events["basic_ack"].add(confirmed("ack"))
    channel.events["basic_return"].add(returned)
    channel.events["basic_nack"].add(confirmed("nack"))
    for number in range(1, int(count) + 1):
        waits.add(number)
        message = amqp.Message("x" * int(size), message_id=f"m{number}")
        channel.basic_publish(message, routing_key=key, mandatory="mandatory" in flags)
        drain(0.001)
    until = time.monotonic() + float(wait)
    while waits and time.monotonic() < until:
        drain(0.1)
    began = time.monotonic()
    channel.close()
    connection.close()
    print(f"closed {time.monotonic() - began:.2f}")
except Exception as error:
    print("met", type(error).__name__, error.args)
