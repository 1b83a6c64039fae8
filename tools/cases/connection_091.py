"""Cases of a client's connection: its units and the other events, what each unit wants, and the state after it."""

from .calls_091 import bytes_in, call, fields, fine, name_of, number, number_first, parts
from .codecs_091 import KINDS, props_text
from .told_bytes import NoCase, told_bytes

# The greatest frame that a unit is scanned of.
FRAME_MAX = 131072
UNITS = {kind.lower(): number for kind, number in KINDS.items()}
CHANNELS = range(301)
SWAP = call("swap")
STATE = [call("state")] + [call("is-open", channel) for channel in CHANNELS]
HELD = ("asked", "opening", "closing", "over")
CHANNEL_SCOPE, CONNECTION_SCOPE = 0, 1


def whole_text(content):
    """A whole content: the length of its body, its properties, and the bytes."""
    content = fields(content)
    body = bytes_in(content["body"])
    return f"whole {len(body)}{props_text(content['props'])}{told_bytes(body)}"


def refusal_text(refusal):
    """A refusal by its code, its channel where one closes, and the ids."""
    channel = f" channel {refusal['channel']}" if refusal["scope"] == "Channel" else ""
    return f"Refuse {refusal['code']}{channel} {refusal['class']} {refusal['method']}"


def want_text(want):
    """What a unit wants."""
    name = name_of(want)
    if name == "Login":
        mechanism, response = map(bytes_in, parts(want))
        return f"Login{told_bytes(mechanism)},{told_bytes(response)}"
    if name == "Publish":
        channel, method, content = parts(want)
        return f"Publish({channel}, {method}), {whole_text(content)}"
    if name == "Refuse":
        return refusal_text(fields(parts(want)[0]))
    return want


def state_text(answers):
    """The phase, what the stream is and what is awaited of it, the limits, what else holds, and the open channels."""
    phase, stream, awaits, limits, holds = parts(answers[0])
    held = [f", {word}" for word, holds in zip(HELD, parts(holds)) if holds == "true"]
    opened = [f", {channel} is open" for channel, answer in zip(CHANNELS, answers[1:]) if answer == "true"]
    return f"{phase}, stream {stream}, awaits {awaits}, limits {' '.join(parts(limits))}" + "".join(held + opened)


def event_call(words):
    """The call of an event that no unit tells."""
    word, blank, rest = words.partition(" ")
    if word == "ended" and not blank:
        return call("ended")
    if word == "opened":
        return call("opened", number(rest, 16) if blank else 0xFFFF)
    if word == "closing":
        return call("closing", CHANNEL_SCOPE, number(rest, 16)) if blank else call("closing", CONNECTION_SCOPE, 0)
    if word in ("told", "closed"):
        return call(word, number(rest, 16))
    raise NoCase(words)


class Connection:
    """The connection of the cases. All calls that it takes are made in the second steps, after frames were scanned."""

    def __init__(self, names):
        self.names = names
        # What was called since it was new, so that the same comes to another one.
        self.came = [call("new")]

    def frame_call(self, data):
        """The call for the frame that fills bytes."""
        answers = yield [call("scan-frame", FRAME_MAX, data=data)]
        scan = fine(answers[0])
        if name_of(scan) != "Whole":
            raise NoCase(data.hex())
        frame, size = parts(scan)
        if int(size) != len(data):
            raise NoCase(data.hex())
        frame = fields(frame)
        return call("take", KINDS[frame["kind"]], frame["channel"], data=bytes_in(frame["payload"]))

    def unit_call(self, words):
        """The call for a unit or another event. It yields once."""
        word, _, rest = words.partition(" ")
        if word == "frame":
            return (yield from self.frame_call(self.names.joined(rest)))
        if word in UNITS:
            channel, rest = number_first(rest, 16)
            made = call("take", UNITS[word], channel, data=self.names.joined(rest))
        elif word == "protocol":
            made = call("protocol")
        elif word == "bad":
            made = call("bad", number(rest, 16))
        else:
            made = event_call(words)
        yield []
        return made

    def begun(self, words):
        """A new connection to the virtual host `/`, or to the one that is told."""
        vhost = self.names.joined(words) if words else b"/"
        yield []
        self.came = [call("new", data=vhost)]
        answers = yield self.came + STATE
        return state_text(answers[1:])

    def taken(self, words, tries):
        """A unit or another event, and the state after it. One that is tried comes to the other of two connections."""
        made = yield from self.unit_call(words)
        before = [SWAP, *self.came] if tries else []
        if not tries:
            self.came = self.came + [made]
        answers = yield before + STATE + [made] + STATE + ([SWAP] if tries else [])
        answers = answers[len(before) :]
        old, told, new = answers[: len(STATE)], answers[len(STATE)], answers[len(STATE) + 1 : 2 * len(STATE) + 1]
        text = words if told == "true" else want_text(fine(told))
        return f"{text} | =" if old == new else f"{text} | {state_text(new)}"

    def case(self, line):
        """The generator of a case of the connection, or None where it is another one."""
        verb, _, rest = line.partition(" ")
        if verb == "connection":
            return self.begun(rest)
        if verb in ("take", "try"):
            return self.taken(rest, verb == "try")
        return None
