"""A client by aio-pika, for tools/try_container.py: it reads commands line by line and answers each in one line."""

import asyncio
import sys

import aio_pika


class Client:
    """A connection, its channels, and what closed it."""

    def __init__(self):
        self.channels = []
        self.closed = asyncio.Event()
        self.why = None

    def note_close(self, _connection, why):
        self.why = why
        self.closed.set()

    async def connect(self, port, vhost, password, heartbeat):
        self.connection = await aio_pika.connect(
            host="127.0.0.1",
            port=int(port),
            login="guest",
            password=password,
            virtualhost=vhost,
            heartbeat=heartbeat,
            timeout=20,
        )
        self.connection.close_callbacks.add(self.note_close)
        inner = self.connection.transport.connection
        agreed = inner.connection_tune
        return (
            f"open: {inner.server_properties['product']!r}, channels to {agreed.channel_max}, "
            f"frames to {agreed.frame_max}, heartbeat {agreed.heartbeat}"
        )

    async def publish(self, key):
        exchange = self.channels[-1].default_exchange
        return repr(await exchange.publish(aio_pika.Message(b"mandatory"), key, mandatory=True, timeout=5))

    async def consume(self, name):
        queue = await self.channels[-1].get_queue(name, ensure=False)
        await queue.consume(lambda message: None, timeout=5)

    async def hold(self, seconds):
        try:
            await asyncio.wait_for(self.closed.wait(), float(seconds))
        except asyncio.TimeoutError:
            return
        if self.why:
            raise self.why

    async def act(self, word, *words):
        if word == "connect":
            return await self.connect(*words)
        if word == "channel":
            self.channels.append(await asyncio.wait_for(self.connection.channel(), 20))
        elif word == "close-channel":
            await asyncio.wait_for(self.channels.pop().close(), 20)
        elif word == "publish":
            return await self.publish(*words)
        elif word == "consume":
            await self.consume(*words)
        elif word == "hold":
            await self.hold(*words)
        elif word == "close":
            await asyncio.wait_for(self.connection.close(), 20)
        else:
            raise ValueError("no such command")
        return "done"


async def main():
    client, loop = Client(), asyncio.get_running_loop()
    while line := await loop.run_in_executor(None, sys.stdin.readline):
        try:
            said = await client.act(*line.split())
        except Exception as error:  # whatever the library raises is what is to be seen
            said = f"error {type(error).__name__} {error.args!r}"
        print(said, flush=True)


asyncio.run(main())
