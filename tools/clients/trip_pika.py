"""Sends, takes and shows messages by pika, for tools/try_trips.py: a port, and then one of

    send KEY SIZES POOL                 publishes a message for each number in SIZES, with confirms, and with properties of its own
    take QUEUE HOW COUNT PREFETCH       consumes, and settles each message as HOW says
    get QUEUE COUNT                     gets messages one by one, and acks each
    rich KEY                            publishes a message with all that the library can write
    rare KEY                            publishes one with kinds of headers that some libraries can't read (go, php, java)
    decimal KEY                         publishes a message with a decimal among its headers
    show QUEUE COUNT                    consumes messages, and shows what the library makes of them
    work QUEUE PREFETCH                 takes tasks for tools/try_consume.py, as consume_pika.py does (go, amqp)

The program of each library knows the same words and prints the same lines, where a word has no names of libraries behind it.
"""

import datetime
import decimal
import hashlib
import json
import sys
import time

import pika

port, verb, queue, *words = sys.argv[1:]
connection = pika.BlockingConnection(pika.ConnectionParameters("127.0.0.1", int(port), heartbeat=0))
channel = connection.channel()


def numbered(i):
    """The properties of message i, which are those of each library's."""
    headers = {"number": i, "text": f"größe {i}", "even": i % 2 == 0, "inner": {"number": i}}
    return pika.BasicProperties(
        content_type="text/plain", content_encoding="utf-8", headers=headers, delivery_mode=1 + i % 2, priority=1 + i % 9,
        correlation_id=f"c{i}", reply_to="answers", expiration=str(86400000 + i), message_id=f"m{i}",
        timestamp=1700000000 + i, type=f"t{i}", user_id="guest", app_id="shop",
    )


def send(sizes, pool):
    with open(sizes) as numbers, open(pool, "rb") as source:
        sizes, pool = [int(word) for word in numbers.read().split()], source.read()
    channel.confirm_delivery()
    for i, size in enumerate(sizes):
        try:
            channel.basic_publish("", queue, pool[i : i + size], numbered(i))
            word = "ack"
        except pika.exceptions.NackError:
            word = "nack"
        print(word, i, time.time_ns())


def take(how, count, prefetch):
    seen, settled = set(), 0

    def settle(tag, again):
        if how == "ack" or how == "requeue" and again:
            channel.basic_ack(tag)
        elif how == "multiple" and (settled % 10 == 0 or settled == count):
            channel.basic_ack(tag, multiple=True)
        elif how == "reject":
            channel.basic_reject(tag, requeue=False)
        elif how == "requeue":
            channel.basic_nack(tag, requeue=True)

    channel.basic_qos(prefetch_count=prefetch)
    for method, properties, body in channel.consume(queue, auto_ack=how == "none", inactivity_timeout=30):
        if method is None:
            print("quiet")
            break
        print(int(method.redelivered), properties.message_id, hashlib.sha1(body).hexdigest())
        again = properties.message_id in seen
        seen.add(properties.message_id)
        settled += how != "requeue" or again
        settle(method.delivery_tag, again)
        if settled == count:
            break
    channel.cancel()


def get(count):
    for _ in range(count):
        method, properties, body = channel.basic_get(queue)
        if method is None:
            print("empty")
            break
        print(int(method.redelivered), properties.message_id, hashlib.sha1(body).hexdigest())
        channel.basic_ack(method.delivery_tag)


PROPERTIES = dict(
    content_type="text/plain", content_encoding="utf-8", delivery_mode=2, priority=5, correlation_id="c-17",
    reply_to="answers", expiration="600000", message_id="m-17", timestamp=1700000000, type="order.new",
    user_id="guest", app_id="shop", cluster_id="west",
)
NOON = datetime.datetime(2024, 2, 29, 12, 0, 0)
HEADERS = {
    "yes": True, "no": False, "int": -70000, "long": -(2**40), "text": "größe €", "time": NOON, "nothing": None,
    "bytes": b"\x00\x80\xFF", "table": {"a": 1, "b": {"c": "deep"}}, "list": [1, "two", True, None, [3], {"d": 4}],
}


def rich():
    channel.confirm_delivery()
    channel.basic_publish("", queue, b"rich", pika.BasicProperties(headers=HEADERS, **PROPERTIES))
    print("confirmed")


def decimal_():
    channel.confirm_delivery()
    channel.basic_publish("", queue, b"decimal", pika.BasicProperties(headers={"decimal": decimal.Decimal("3.14")}))


def told(value):
    """A value with its kind, as the programs of all libraries write it."""
    if isinstance(value, bytes):
        return {"bytes": value.hex()}
    if isinstance(value, float):
        return {"float": repr(value)}
    if isinstance(value, datetime.datetime):
        return {"time": int(value.replace(tzinfo=datetime.timezone.utc).timestamp())}
    if isinstance(value, decimal.Decimal):
        return {"decimal": str(value)}
    if isinstance(value, dict):
        return {"table": {name: told(inner) for name, inner in value.items()}}
    if isinstance(value, list):
        return [told(inner) for inner in value]
    return value


def show(count):
    for method, properties, body in channel.consume(queue, inactivity_timeout=30):
        if method is None:
            print("quiet")
            break
        said = {name: value for name, value in vars(properties).items() if value is not None}
        said["headers"] = told(properties.headers)
        said["body"] = body.decode()
        print(json.dumps(said, sort_keys=True, default=told))
        channel.basic_ack(method.delivery_tag)
        if method.delivery_tag == count:
            break
    channel.cancel()


verbs = {"send": send, "take": lambda how, *two: take(how, *map(int, two)), "rich": rich, "decimal": decimal_,
         "show": lambda count: show(int(count)), "get": lambda count: get(int(count))}
try:
    verbs[verb](*words)
    channel.close()
    connection.close()
except Exception as error:
    print("error", type(error).__name__, error.args)
