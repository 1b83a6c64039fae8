"""Durable quorum queues of a RabbitMQ, declared and read straight at its port for AMQP 0-9-1, for the scripts beside it."""

import time

import pika


class QuorumQueue:
    """A queue that is made anew. A client names it behind the gateway by its address."""

    def __init__(self, port, name, kind="quorum", dead=None):
        """With another queue as `dead` what is rejected goes there."""
        self.port, self.name, self.address = port, name, f"/amq/queue/{name}"
        arguments = {"x-queue-type": kind}
        if dead:
            arguments |= {"x-dead-letter-exchange": "", "x-dead-letter-routing-key": dead.name}
        self.delete()
        self.ask(lambda channel: channel.queue_declare(name, durable=True, arguments=arguments))

    def ask(self, what):
        connection = pika.BlockingConnection(pika.ConnectionParameters("127.0.0.1", self.port, heartbeat=0))
        answer = what(connection.channel())
        connection.close()
        return answer

    def length(self):
        """How many messages it has once none is on its way back to it any more: its count is renewed each second or so."""
        time.sleep(2)
        return self.ask(lambda channel: channel.queue_declare(self.name, passive=True)).method.message_count

    def taken(self):
        """The bodies of all its messages, which are taken from it."""

        def take(channel):
            bodies = []
            for method, _, body in channel.consume(self.name, inactivity_timeout=5.0):
                if method is None:
                    return bodies
                bodies.append(body)
                channel.basic_ack(method.delivery_tag)

        return self.ask(take)

    def delete(self):
        self.ask(lambda channel: channel.queue_delete(self.name))
