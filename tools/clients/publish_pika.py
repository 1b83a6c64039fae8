"""Publishes by pika, for tools/try_publish.py: port, routing key, how many, bytes of each, and `mandatory` where they are."""

import sys

import pika

port, key, count, size, *flags = sys.argv[1:]
connection = pika.BlockingConnection(pika.ConnectionParameters("127.0.0.1", int(port), heartbeat=0))
channel = connection.channel()
channel.confirm_delivery()
acks = nacks = returns = 0
for i in range(int(count)):
    try:
        channel.basic_publish(
            "", key, b"x" * int(size), pika.BasicProperties(message_id=f"m{i}"), mandatory="mandatory" in flags
        )
        acks += 1
    except pika.exceptions.NackError as error:
        nacks += 1
        returns += sum(
            message.method.reply_code == 312
            and message.method.routing_key == key
            and message.properties.message_id == f"m{i}"
            and message.body == b"x" * int(size)
            for message in error.messages
        )
channel.close()
connection.close()
print(f"acks {acks} nacks {nacks} returns {returns}")
