"""Consumes from a queue with pika until it is killed, and tells each message that it settled.

    consume_pika.py PORT QUEUE PREFETCH

A line `settled ID` comes once the gateway has read the ack of the message whose body is ID: a basic.qos behind
the ack was answered. A line `got ID` comes before the ack is sent.
"""

import sys

import pika


def main():
    port, queue, prefetch = int(sys.argv[1]), sys.argv[2], int(sys.argv[3])
    connection = pika.BlockingConnection(pika.ConnectionParameters("127.0.0.1", port, heartbeat=0))
    channel = connection.channel()
    channel.basic_qos(prefetch_count=prefetch)
    for method, _, body in channel.consume(queue):
        name = body.decode()
        print("got", name, flush=True)
        channel.basic_ack(method.delivery_tag)
        channel.basic_qos(prefetch_count=prefetch)
        print("settled", name, flush=True)


main()
