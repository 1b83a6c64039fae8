"""Publishes messages of many kinds by pika, for tools/record_messages.py: port."""

import datetime
import sys

import pika
from pika import BasicProperties as Properties

NOON = datetime.datetime(2024, 2, 29, 12, 0, 0)
DEATH = {"count": 2, "exchange": "orders", "queue": "orders.new", "reason": "rejected",
         "routing-keys": ["new.eu", "new"], "time": NOON}

# exchange, routing key, body, properties
MESSAGES = [
    ("", "q", b"", None),
    ("", "q", b"hello", Properties()),
    ("", "", b"no key", Properties(content_type="text/plain")),
    ("amq.topic", "a.b.c", b"topic", Properties(content_type="text/plain", delivery_mode=2)),
    ("amq.fanout", "", b"\x00\xFF" * 40, Properties(content_type="application/octet-stream")),
    ("orders", "new.eu", b'{"id": 17}', Properties(
        content_type="application/json", content_encoding="utf-8", delivery_mode=2, priority=5,
        correlation_id="c-17", reply_to="amq.rabbitmq.reply-to", expiration="60000",
        message_id="m-17", timestamp=1700000000, type="order.new", user_id="guest", app_id="shop",
        cluster_id="west")),
    ("", "q", b"transient", Properties(delivery_mode=1)),
    ("", "q", b"priority 0", Properties(priority=0)),
    ("", "q", b"priority 255", Properties(priority=255)),
    ("", "q", b"expires at once", Properties(expiration="0")),
    ("", "q", b"expires late", Properties(expiration="4294967295")),
    ("", "q", b"the epoch", Properties(timestamp=0)),
    ("", "q", b"far away", Properties(timestamp=9223372036854775)),
    ("", "q", "grüße".encode(), Properties(message_id="größe-€", correlation_id="𝄞")),
    ("größe", "schlüssel.€", b"names past ASCII", Properties(type="größe", app_id="läden")),
    ("", "k" * 255, b"a long key", Properties(message_id="m" * 255)),
    ("e" * 255, "q", b"a long exchange", Properties(cluster_id="c" * 255)),
    ("", "q", b"empty texts", Properties(
        content_type="", content_encoding="", correlation_id="", reply_to="", message_id="",
        type="", user_id="", app_id="", cluster_id="")),
    ("", "q", b"no headers inside", Properties(headers={})),
    ("", "q", b"text", Properties(headers={"text": "value", "empty": "", "euro": "€"})),
    ("", "q", b"numbers", Properties(headers={
        "zero": 0, "minus": -1, "most": 2147483647, "least": -2147483648, "more": 2147483648,
        "long": 2 ** 63 - 1, "less": -2 ** 63})),
    ("", "q", b"flags", Properties(headers={"yes": True, "no": False, "nothing": None})),
    ("", "q", b"bytes", Properties(headers={"some": b"\x00\x80\xFF", "none": b""})),
    ("", "q", b"times", Properties(headers={"noon": NOON, "epoch": datetime.datetime(1970, 1, 1)})),
    ("", "q", b"lists", Properties(headers={
        "empty": [], "inner": [[1], [[]]],
        "mixed": [1, "two", True, None, b"four", 2 ** 40, NOON]})),
    ("", "q", b"tables", Properties(headers={
        "empty": {}, "inner": {"a": 1, "b": {"c": {"d": "deep"}}}})),
    ("", "q", b"tables in lists", Properties(headers={"x-death": [DEATH, DEATH]})),
    ("", "q", b"a nested one first", Properties(headers={
        "a": [1, 2], "b": "plain", "c": {}, "d": 4})),
    ("", "q", b"a nested one last", Properties(headers={
        "b": "plain", "d": 4, "a": [1, 2], "c": {}})),
    ("", "q", b"names", Properties(headers={
        "": 1, "n" * 255: 2, "x-opt-mqtt": 3, "x-opt-091": 4, "größe": 5, "with blank": 6})),
    ("", "q", b"many", Properties(headers={f"header-{k}": k * k for k in range(40)})),
    ("", "q", b"tracing", Properties(content_type="application/json", delivery_mode=2, headers={
        "traceparent": "00-4bf92f3577b34da6a3ce929d0e0e4736-00f067aa0ba902b7-01",
        "x-delay": 5000, "retries": 3, "celery": {"task": "add", "args": [1, 2], "eta": None}})),
    ("", "q", bytes(range(256)) * 2, Properties(content_encoding="gzip", headers={"all": "bytes"})),
    ("", "q", b"x" * 6000, Properties(message_id="two frames", headers={"big": True})),
]

connection = pika.BlockingConnection(
    pika.ConnectionParameters("127.0.0.1", int(sys.argv[1]), heartbeat=0))
channel = connection.channel()
channel.queue_declare("q", durable=True)
channel.confirm_delivery()
for exchange, key, body, properties in MESSAGES:
    channel.basic_publish(exchange, key, body, properties)
channel.close()
connection.close()
