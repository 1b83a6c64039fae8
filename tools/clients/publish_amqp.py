"""Publishes by py-amqp, for tools/try_publish.py: port, routing key, how many, bytes of each, and `mandatory` where they are."""

import sys

import amqp

port, key, count, size, *flags = sys.argv[1:]
connection = amqp.Connection(f"127.0.0.1:{port}", confirm_publish=True, heartbeat=0)
connection.connect()
channel = connection.channel()
acks = nacks = 0
returned = []
channel.events["basic_return"].add(lambda *back: returned.append(back))
for i in range(int(count)):
    try:
        message = amqp.Message("x" * int(size), message_id=f"m{i}")
        channel.basic_publish(message, routing_key=key, mandatory="mandatory" in flags)
        acks += 1
    except amqp.exceptions.MessageNacked:
        nacks += 1
channel.close()
connection.close()
print(f"acks {acks} nacks {nacks} returns {len(returned)}")
