#!/usr/bin/env python3
"""Tries the gateway between client libraries of AMQP 0-9-1 and a container of AMQP 1.0, over loopback.

    python3 tools/try_container.py --container 'COMMAND' | --upstream ADDRESS [--gateway 'COMMAND'] [--client NAME,NAME..]
                                   [--channels COUNT] [--hold SECONDS] [--heartbeat SECONDS] [--wait SECONDS] [--end-container]
                                   [--unknown ADDRESS] [--words 'WORD ..']

It starts the container as `COMMAND --port P`, unless one listens at an address already, and the gateway as `COMMAND serve ..` on
a free port, with as many pairs as there are connections and with a capture. The gateway is crates/amqp_gate/out/amqp_gate, as `rt
run` leaves it there, if no command names another, and has `--wait` seconds to listen; `--words` adds words to those behind `serve`.
Then come these connections of each client, one after another:

- one that opens channels, closes them, opens one more, holds it, closes it, and closes;
- with `--unknown`, one that publishes a mandatory message with a confirm to that address, and then consumes from it;
- one that asks for another virtual host, and one that sends another password;
- one that ends without a close while a channel is open;
- with `--end-container`, one of each that has a channel open while the container is ended.

What each of them met is printed with the time that it took, and in the end what the container and the gateway said, the
gateway's status, and whether a replay of the capture is the same. Nothing is asserted, and this is no part of the build.

| Client | Library | Debian's packages |
|---|---|---|
| `pika` | pika | python3-pika |
| `amqp` | py-amqp | python3-amqp |
| `kombu` | kombu | python3-kombu |
| `aio-pika` | aio-pika | python3-aio-pika |
| `c` | rabbitmq-c | librabbitmq-dev, gcc |
| `go` | amqp091-go | golang-go, golang-github-rabbitmq-amqp091-go-dev |
| `php` | php-amqplib | php-cli, php-amqplib |
| `bunny` | Bunny | ruby-bunny |
| `java` | RabbitMQ's library for Java | librabbitmq-client-java, libslf4j-java, and a JDK |

One that isn't installed is left out, and a line says so; the four for Python are looked for in the Python that runs this. All but
`pika`, `amqp` and `kombu` are the programs of tools/clients. Each program is ended by its process id.
"""

import argparse
import importlib.util
import os
import shlex
import shutil
import socket
import subprocess
import sys
import tempfile
import threading
import time

ROOT = os.path.dirname(os.path.dirname(os.path.abspath(__file__)))
BUILT = os.path.join(ROOT, "crates", "amqp_gate", "out", "amqp_gate")
CLIENTS = os.path.join(ROOT, "tools", "clients")
GO_PATH = "/usr/share/gocode"
JARS = ":".join(f"/usr/share/java/{name}.jar" for name in ("amqp-client", "slf4j-api", "slf4j-nop"))


def free_port():
    with socket.socket() as probe:
        probe.bind(("127.0.0.1", 0))
        return probe.getsockname()[1]


def listens(port):
    """Whether something listens on a port, told without a connection, since the gateway would count it."""
    with open("/proc/net/tcp") as table:
        rows = [line.split() for line in table][1:]
    return any(row[1].endswith(f":{port:04X}") and row[3] == "0A" for row in rows)


def wait_for(port, program, seconds=180):
    until = time.monotonic() + seconds
    while time.monotonic() < until:
        if listens(port):
            return
        if program.poll() is not None:
            sys.exit(f"{program.args[0]} ended with status {program.returncode} before it listened")
        time.sleep(0.1)
    sys.exit(f"nothing listens on port {port}")


def end(program):
    if program.poll() is None:
        program.terminate()
    try:
        program.wait(20)
    except subprocess.TimeoutExpired:
        program.kill()
        program.wait()


def told(error):
    """An error of a client's library, with what it wraps."""
    inner = getattr(error, "args", None)
    return f"{type(error).__name__} {inner!r}"


class PikaClient:
    """A connection by pika."""

    def __init__(self, port, heartbeat, vhost="/", password="guest"):
        import pika

        self.channels = []
        self.connection = pika.BlockingConnection(
            pika.ConnectionParameters(
                host="127.0.0.1",
                port=port,
                virtual_host=vhost,
                heartbeat=heartbeat,
                credentials=pika.PlainCredentials("guest", password),
                socket_timeout=20,
                blocked_connection_timeout=20,
            )
        )

    def says(self):
        inner = self.connection._impl
        if not self.connection.is_open:
            return "open, and closed since"
        agreed = inner.params
        return (
            f"open: {inner.server_properties['product']!r}, channels to {agreed.channel_max}, "
            f"frames to {agreed.frame_max}, heartbeat {agreed.heartbeat}"
        )

    def open_channel(self):
        self.channels.append(self.connection.channel())

    def close_channel(self):
        self.channels.pop().close()

    def publish(self, key):
        channel, returned = self.channels[-1], []
        channel.add_on_return_callback(lambda _, method, *rest: returned.append((method.reply_code, method.reply_text)))
        channel.confirm_delivery()
        channel.basic_publish("", key, b"mandatory", mandatory=True)
        return f"acked, returned {returned}"

    def consume(self, queue):
        for _ in self.channels[-1].consume(queue, inactivity_timeout=5):
            break

    def hold(self, seconds):
        self.connection.process_data_events(time_limit=seconds)

    def close(self):
        self.connection.close()

    def drop(self):
        self.connection._impl._transport._sock.close()


class AmqpClient:
    """A connection by py-amqp."""

    def __init__(self, port, heartbeat, vhost="/", password="guest"):
        import amqp

        self.channels = []
        self.connection = amqp.Connection(
            f"127.0.0.1:{port}",
            userid="guest",
            password=password,
            virtual_host=vhost,
            heartbeat=heartbeat or 0,
            connect_timeout=20,
            confirm_publish=True,
        )
        self.connection.connect()

    def says(self):
        inner = self.connection
        return (
            f"open: {inner.server_properties['product']!r}, channels to {inner.channel_max}, "
            f"frames to {inner.frame_max}, heartbeat {inner.heartbeat}"
        )

    def open_channel(self):
        self.channels.append(self.connection.channel())

    def close_channel(self):
        self.channels.pop().close()

    def publish(self, key):
        import amqp

        channel = self.channels[-1]
        channel.events["basic_return"].add(lambda *told: print(f"    returned: {told[:4]}"))
        channel.basic_publish(amqp.Message("mandatory"), routing_key=key, mandatory=True)
        return "acked"

    def consume(self, queue):
        self.channels[-1].basic_consume(queue)
        self.connection.drain_events(timeout=5)

    def hold(self, seconds):
        until = time.monotonic() + seconds
        while time.monotonic() < until:
            try:
                self.connection.drain_events(timeout=0.2)
            except socket.timeout:
                pass
            if self.connection.heartbeat:
                self.connection.heartbeat_tick()

    def close(self):
        self.connection.close()

    def drop(self):
        self.connection.transport.sock.close()


class KombuClient(AmqpClient):
    """A connection by kombu, which stands on py-amqp."""

    def __init__(self, port, heartbeat, vhost="/", password="guest"):
        import kombu

        self.channels = []
        self.outer = kombu.Connection(
            hostname="127.0.0.1",
            port=port,
            userid="guest",
            password=password,
            virtual_host=vhost,
            heartbeat=heartbeat,
            connect_timeout=20,
            transport="pyamqp",
            transport_options={"confirm_publish": True},
        )
        self.connection = self.outer.connect()

    def open_channel(self):
        self.channels.append(self.outer.channel())

    def publish(self, key):
        import kombu

        told = lambda *words: print(f"    returned: {words[0]!r}")
        kombu.Producer(self.channels[-1], on_return=told).publish("mandatory", routing_key=key, mandatory=True)
        return "acked"

    def consume(self, queue):
        import kombu

        with kombu.Consumer(self.channels[-1], kombu.Queue(queue, no_declare=True), callbacks=[print]):
            self.outer.drain_events(timeout=5)

    def hold(self, seconds):
        until = time.monotonic() + seconds
        while time.monotonic() < until:
            try:
                self.outer.drain_events(timeout=0.2)
            except socket.timeout:
                pass
            if self.connection.heartbeat:
                self.outer.heartbeat_check()

    def close(self):
        self.outer.close()


class Met(Exception):
    """What a program of tools/clients met."""


def met(error):
    return str(error) if isinstance(error, Met) else told(error)


class ProgramClient:
    """A connection by a program that reads commands line by line and answers each in one line."""

    def __init__(self, command, port, heartbeat, vhost="/", password="guest"):
        self.program = subprocess.Popen(
            command, stdin=subprocess.PIPE, stdout=subprocess.PIPE, stderr=subprocess.DEVNULL, text=True
        )
        try:
            self.said = self.ask(f"connect {port} {vhost} {password} {heartbeat}")
        except Met:
            end(self.program)
            raise

    def ask(self, line):
        try:
            self.program.stdin.write(line + "\n")
            self.program.stdin.flush()
        except BrokenPipeError:
            raise Met("the program ended") from None
        answer = self.program.stdout.readline().strip()
        if not answer:
            raise Met("the program ended")
        if answer.startswith("error "):
            raise Met(answer.removeprefix("error "))
        return answer

    def says(self):
        return self.said

    def open_channel(self):
        self.ask("channel")

    def close_channel(self):
        self.ask("close-channel")

    def publish(self, key):
        return self.ask(f"publish {key}")

    def consume(self, queue):
        return self.ask(f"consume {queue}")

    def hold(self, seconds):
        self.ask(f"hold {seconds}")

    def close(self):
        self.ask("close")
        end(self.program)

    def drop(self):
        self.program.kill()
        self.program.wait()


def succeeds(command, **options):
    return subprocess.run(command, stdout=subprocess.DEVNULL, stderr=subprocess.DEVNULL, **options).returncode == 0


def build_go(folder):
    """The program in Go, built in a folder; None where Go or the library isn't there."""
    built = os.path.join(folder, "client-go")
    settings = dict(os.environ, GO111MODULE="off", GOPATH=os.environ.get("GOPATH", GO_PATH), GOCACHE=os.path.join(folder, "go"))
    if not shutil.which("go") or not succeeds(["go", "build", "-o", built, os.path.join(CLIENTS, "client.go")], env=settings):
        return None
    return [built]


def command_of(name, folder):
    """The command of a program of tools/clients; None where it can't run."""
    if name == "go":
        return build_go(folder)
    if name == "aio-pika":
        program = [sys.executable, os.path.join(CLIENTS, "client_aio_pika.py")]
        probe, command = [sys.executable, "-c", "import aio_pika"], program
    elif name == "c":
        built = os.path.join(folder, "client-c")
        probe, command = ["gcc", "-o", built, os.path.join(CLIENTS, "client.c"), "-lrabbitmq"], [built]
    elif name == "php":
        probe, command = ["php", "-r", 'require "PhpAmqpLib/autoload.php";'], ["php", os.path.join(CLIENTS, "client.php")]
    elif name == "bunny":
        probe, command = ["ruby", "-e", 'require "bunny"'], ["ruby", os.path.join(CLIENTS, "client.rb")]
    else:
        built = ["javac", "-cp", JARS, "-d", folder, os.path.join(CLIENTS, "Client.java")]
        probe, command = built, ["java", "-cp", f"{folder}:{JARS}", "Client"]
    return command if shutil.which(probe[0]) and succeeds(probe) else None


def kind_of(name, folder):
    """What opens a connection by a client; None where the client isn't installed."""
    kind = {"pika": PikaClient, "amqp": AmqpClient, "kombu": KombuClient}.get(name)
    if kind:
        return kind if importlib.util.find_spec(name) else None
    command = command_of(name, folder)
    return command and (lambda port, heartbeat, **options: ProgramClient(command, port, heartbeat, **options))


class Trial:
    """The side of one client in a trial."""

    def __init__(self, name, kind, port, options):
        self.name, self.kind, self.port, self.options = name, kind, port, options

    def step(self, title, act):
        """Does something, and says what came of it; what it answered, or None where it failed."""
        begin = time.monotonic()
        try:
            answer = act()
            said = answer.says() if hasattr(answer, "says") else answer or "done"
        except Exception as error:  # whatever the library raises is what is to be seen
            answer, said = None, met(error)
        print(f"  {self.name} {title}: {said} ({time.monotonic() - begin:.3f} s)", flush=True)
        return answer

    def opened(self, **options):
        return self.step("connects", lambda: self.kind(self.port, self.options.heartbeat, **options))

    def held(self, client, seconds):
        return self.step(f"holds it for {seconds} s", lambda: client.hold(seconds))

    def channels(self, client, count):
        for number in range(count):
            self.step(f"opens channel {number + 1}", client.open_channel)

    def goes(self):
        """The connections that come one after another."""
        client = self.opened()
        if client:
            self.channels(client, self.options.channels)
            for _ in range(self.options.channels):
                self.step("closes a channel", client.close_channel)
            self.step("opens one more", client.open_channel)
            self.held(client, self.options.hold)
            self.step("closes it", client.close_channel)
            self.step("closes", client.close)
        if self.options.unknown:
            self.meets_unknown(self.options.unknown)
        print(f"{self.name}, for another virtual host", flush=True)
        self.opened(vhost="other")
        print(f"{self.name}, with another password", flush=True)
        client = self.opened(password="wrong")
        if client:
            self.step("closes", client.close)
        print(f"{self.name}, which ends without a close", flush=True)
        client = self.opened()
        if client:
            self.channels(client, 1)
            self.step("ends", client.drop)


    def meets_unknown(self, address):
        """What a client is told of an address that the container doesn't know."""
        print(f"{self.name}, which publishes to {address} and consumes from it", flush=True)
        client = self.opened()
        if client:
            self.channels(client, 1)
            self.step("publishes", lambda: client.publish(address))
            self.channels(client, 1)
            self.step("consumes", lambda: client.consume(address))
            self.step("closes", client.close)


def wait_for_end(trial, client, kill):
    """Says what a connection meets once the container is killed, and how long after that."""
    try:
        client.hold(30)
        said = "nothing"
    except Exception as error:
        said = met(error)
    behind = f"{time.monotonic() - kill[0]:.3f} s behind the kill" if kill else "before the kill"
    print(f"  {trial.name} meets: {said} ({behind})", flush=True)


def end_under(trials, container):
    """Ends the container while a connection of each client has a channel."""
    print("a container that ends", flush=True)
    kill, threads = [], []
    for trial in trials:
        client = trial.opened()
        if client:
            trial.channels(client, 1)
            threads.append(threading.Thread(target=wait_for_end, args=(trial, client, kill)))
    for thread in threads:
        thread.start()
    time.sleep(1)
    kill.append(time.monotonic())
    container.kill()
    for thread in threads:
        thread.join()


def installed(names, folder):
    """The clients that can run, each with what opens its connections."""
    found = []
    for name in names:
        kind = kind_of(name, folder)
        if kind:
            found.append((name, kind))
        else:
            print(f"{name}: not installed, and left out", flush=True)
    return found


def say_file(title, path):
    with open(path, errors="replace") as text:
        for line in text.read().splitlines():
            print(f"{title}: {line}")


def main():
    parser = argparse.ArgumentParser(description=__doc__, formatter_class=argparse.RawDescriptionHelpFormatter)
    parser.add_argument("--container")
    parser.add_argument("--upstream")
    parser.add_argument("--gateway", default=BUILT)
    parser.add_argument("--client", default="pika,amqp,kombu,aio-pika,c,go,php,bunny,java")
    parser.add_argument("--channels", type=int, default=3)
    parser.add_argument("--hold", type=float, default=3)
    parser.add_argument("--heartbeat", type=int, default=0)
    parser.add_argument("--wait", type=int, default=180)
    parser.add_argument("--end-container", action="store_true")
    parser.add_argument("--unknown")
    parser.add_argument("--words", default="")
    options = parser.parse_args()
    if (options.container is None) == (options.upstream is None):
        parser.error("one of --container and --upstream is wanted")
    if options.end_container and options.container is None:
        parser.error("only a container that is started here can be ended")
    port, up_port = free_port(), free_port()
    upstream = options.upstream or f"127.0.0.1:{up_port}"
    with tempfile.TemporaryDirectory() as folder:
        at = lambda name: os.path.join(folder, name)
        found = installed(options.client.split(","), folder)
        count = (4 + bool(options.unknown) + options.end_container) * len(found)
        if not found:
            sys.exit("no client is installed")
        with open(at("container"), "w") as said, open(at("report"), "w") as out, open(at("errors"), "w") as errors:
            words = ["serve", "--listen", f"127.0.0.1:{port}", "--upstream", upstream]
            words += ["--pairs", str(count), "--capture", at("capture")] + shlex.split(options.words)
            container = gateway = None
            try:
                if options.container:
                    command = shlex.split(options.container) + ["--port", str(up_port)]
                    container = subprocess.Popen(command, stdout=said, stderr=subprocess.STDOUT)
                    wait_for(up_port, container)
                gateway = subprocess.Popen(shlex.split(options.gateway) + words, stdout=out, stderr=errors)
                wait_for(port, gateway, options.wait)
                trials = [Trial(name, kind, port, options) for name, kind in found]
                for trial in trials:
                    print(trial.name, flush=True)
                    trial.goes()
                if options.end_container:
                    end_under(trials, container)
                try:
                    gateway.wait(30)
                except subprocess.TimeoutExpired:
                    print("the gateway goes on")
            finally:
                for program in (container, gateway):
                    if program:
                        end(program)
        say_file("container", at("container"))
        say_file("report", at("report"))
        say_file("standard error", at("errors"))
        print(f"the gateway's status: {gateway.returncode}")
        with open(at("capture"), "rb") as capture:
            replay = subprocess.run(
                shlex.split(options.gateway) + ["replay"], stdin=capture, stdout=subprocess.PIPE, stderr=subprocess.PIPE
            )
        print(f"replay of the capture: {replay.stdout.decode().strip()}")


if __name__ == "__main__":
    main()
