"""Sends, takes and shows messages by py-amqp, for tools/try_trips.py: its words are those of trip_pika.py."""

import datetime
import decimal
import hashlib
import json
import socket
import sys
import time

import amqp

port, verb, queue, *words = sys.argv[1:]
connection = amqp.Connection(f"127.0.0.1:{port}", confirm_publish=True, heartbeat=0)
connection.connect()
channel = connection.channel()


def numbered(i, body):
    headers = {"number": i, "text": f"größe {i}", "even": i % 2 == 0, "inner": {"number": i}}
    return amqp.Message(
        body, content_type="text/plain", content_encoding="utf-8", application_headers=headers, delivery_mode=1 + i % 2,
        priority=1 + i % 9, correlation_id=f"c{i}", reply_to="answers", expiration=str(86400000 + i), message_id=f"m{i}",
        timestamp=1700000000 + i, type=f"t{i}", user_id="guest", app_id="shop",
    )


def send(sizes, pool):
    with open(sizes) as numbers, open(pool, "rb") as source:
        sizes, pool = [int(word) for word in numbers.read().split()], source.read()
    for i, size in enumerate(sizes):
        try:
            channel.basic_publish(numbered(i, pool[i : i + size]), routing_key=queue)
            word = "ack"
        except amqp.exceptions.MessageNacked:
            word = "nack"
        print(word, i, time.time_ns())


def drain(done):
    """Takes what comes until all is done, or nothing comes for half a minute."""
    while not done():
        try:
            connection.drain_events(timeout=30)
        except socket.timeout:
            print("quiet")
            break


def body_of(message):
    return message.body if isinstance(message.body, bytes) else message.body.encode()


def take(how, count, prefetch):
    seen, settled = set(), 0

    def on_message(message):
        nonlocal settled
        name, tag = message.properties["message_id"], message.delivery_info["delivery_tag"]
        print(int(message.delivery_info["redelivered"]), name, hashlib.sha1(body_of(message)).hexdigest())
        again = name in seen
        seen.add(name)
        settled += how != "requeue" or again
        if how == "ack" or how == "requeue" and again:
            channel.basic_ack(tag)
        elif how == "multiple" and (settled % 10 == 0 or settled == count):
            channel.basic_ack(tag, multiple=True)
        elif how == "reject":
            channel.basic_reject(tag, requeue=False)
        elif how == "requeue":
            channel.basic_reject(tag, requeue=True)

    channel.basic_qos(0, prefetch, False)
    tag = channel.basic_consume(queue, no_ack=how == "none", callback=on_message)
    drain(lambda: settled == count)
    channel.basic_cancel(tag)


def get(count):
    for _ in range(count):
        message = channel.basic_get(queue)
        if message is None:
            print("empty")
            break
        redelivered, name = int(message.delivery_info["redelivered"]), message.properties["message_id"]
        print(redelivered, name, hashlib.sha1(body_of(message)).hexdigest())
        channel.basic_ack(message.delivery_info["delivery_tag"])


def work(prefetch):
    """Takes tasks until it is killed, as consume_pika.py does."""

    def on_task(message):
        name = body_of(message).decode()
        print("got", name, flush=True)
        channel.basic_ack(message.delivery_info["delivery_tag"])
        channel.basic_qos(0, prefetch, False)
        print("settled", name, flush=True)

    channel.basic_qos(0, prefetch, False)
    channel.basic_consume(queue, callback=on_task)
    while True:
        connection.drain_events()


PROPERTIES = dict(
    content_type="text/plain", content_encoding="utf-8", delivery_mode=2, priority=5, correlation_id="c-17",
    reply_to="answers", expiration="600000", message_id="m-17", timestamp=1700000000, type="order.new",
    user_id="guest", app_id="shop", cluster_id="west",
)
NOON = datetime.datetime(2024, 2, 29, 12, 0, 0)
# It writes an integer past 32 bits as `L`, and bytes as a long string: the gateway refuses them.
HEADERS = {
    "yes": True, "no": False, "int": -70000, "double": -2.25, "text": "größe €", "time": NOON, "nothing": None,
    "table": {"a": 1, "b": {"c": "deep"}}, "list": [1, "two", True, None, [3], {"d": 4}],
}


def rich():
    channel.basic_publish(amqp.Message("rich", application_headers=HEADERS, **PROPERTIES), routing_key=queue)
    print("confirmed")


def decimal_():
    headers = {"decimal": decimal.Decimal("3.14")}
    channel.basic_publish(amqp.Message("decimal", application_headers=headers), routing_key=queue)


def told(value):
    """A value with its kind, as the programs of all libraries write it."""
    if isinstance(value, bytes):
        return {"bytes": value.hex()}
    if isinstance(value, float):
        return {"float": repr(value)}
    if isinstance(value, datetime.datetime):
        return {"time": int(value.replace(tzinfo=datetime.timezone.utc).timestamp())}
    if isinstance(value, decimal.Decimal):
        return {"decimal": str(value)}
    if isinstance(value, dict):
        return {"table": {name: told(inner) for name, inner in value.items()}}
    if isinstance(value, list):
        return [told(inner) for inner in value]
    return value


def show(count):
    taken = 0

    def on_message(message):
        nonlocal taken
        said = dict(message.properties)
        said["headers"] = told(said.pop("application_headers", None))
        said["body"] = body_of(message).decode()
        print(json.dumps(said, sort_keys=True, default=told))
        channel.basic_ack(message.delivery_info["delivery_tag"])
        taken += 1

    tag = channel.basic_consume(queue, callback=on_message)
    drain(lambda: taken == count)
    channel.basic_cancel(tag)


verbs = {"send": send, "take": lambda how, *two: take(how, *map(int, two)), "rich": rich, "decimal": decimal_,
         "show": lambda count: show(int(count)), "work": lambda prefetch: work(int(prefetch)),
         "get": lambda count: get(int(count))}
try:
    verbs[verb](*words)
    channel.close()
    connection.close()
except Exception as error:
    print("error", type(error).__name__, error.args)
