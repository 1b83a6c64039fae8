"""Cases of AMQP 0-9-1, and of listings of both protocols: the calls of each line, and what is printed of their answers.

| Line | Answer |
|---|---|
| `name N BYTES` | nothing: these bytes have a name from now on |
| `header BYTES`, `frame LIMIT BYTES` | the unit with which the bytes begin, and its length |
| `table BYTES`, `at N BYTES` | the table, also from an offset, and the offset after it |
| `kinds` | the type bytes of fields that are known |
| `method BYTES` | the ids, and the method that fills the bytes |
| `content BYTES` | the size and the properties of the content header that fills the bytes |
| `cuts` and one of these | the same, and the answer at each shorter length; of `Syntax` its place alone |
| `content-of FRAME / FRAME ..` | what each frame of a content comes to: `header BYTES`, `body BYTES` |
| `close CODE CLASS METHOD BYTES`, `close-ok` | the frame that is written without memory |
| `on CHANNEL close CODE CLASS METHOD BYTES` | the same on a channel |
| `on CHANNEL` with `close-ok`, `open-ok` or `flow-ok` | the same of an answer |
| `on CHANNEL declare-ok`, `on CHANNEL select-ok` | the same of the answers to a publisher |
| `on CHANNEL ack TAG`, `on CHANNEL nack TAG`, also with `multiple` | the same of confirms |
| `code N`, `error N` | the name of a reply code, and the error condition for it |
| `condition SCOPE BYTES`, `condition SCOPE` | the reply code for an error condition, or for none |
| `u8 END BYTES`, `u16`, `u32`, `u64` | the number in front of bytes that end at an offset, and the offset behind it |
| `short END BYTES`, `long END BYTES` | the text in front of such bytes, and the bytes behind it |
| `set AT N BYTES`, `truncate N BYTES`, `discard N BYTES` | the bytes after that |
| `room N BYTES` | the bytes in so much room if they fit, how many more do, and the bytes without the first |
| `connection`, `connection BYTES` | the state of a new connection to the virtual host `/`, or to that one |
| `take UNIT` | what a unit wants, and the state after it if it is another one |
| `try UNIT` | the same, but it leaves the connection as it was |
| `091 BYTES`, `10 BYTES` | the listing of a stream of AMQP 0-9-1 or 1.0, a line for each unit, and how it ended |
| `cuts-091 BYTES`, `cuts-10 BYTES` | the lengths at which a shorter input is whole units |

A unit is `protocol`, `bad CODE`, `frame BYTES`, or `method CHANNEL BYTES` and so on by its kind. In its place may stand
another event: `opened`, `opened CHANNEL` where the container takes channels up to that number, `closing`,
`closing CHANNEL`, `told CHANNEL`, `closed CHANNEL`, `ended`.

Behind what was read stands what is written of it: `=` the same bytes. What should be the same is told where it differs:
where the first bytes came before the others, where a byte is added, and where other bytes stand around. A fault is its
name and its place. Bytes are digits, texts and names with commas between them; those of listings have no names.
A listing of a shorter input is told where it doesn't end with `Cut` at its length.
"""

from .calls_091 import bytes_in, call, fault_text, fields, fine, name_of, number, number_first, parts
from .codecs_091 import codec_case, kinds
from .connection_091 import Connection, whole_text
from .told_bytes import NoCase, Names, bytes_of, told_bytes, told_text

SCOPES = {"channel": 0, "connection": 1}
# The bytes over which closes and answers are written, and how many there are.
UNWRITTEN = b"\x5a"
ROOM = 512
TEXT_MAX = 255
NUMBERS = ("u8", "u16", "u32", "u64")
TEXTS = ("short", "long")
# The answers that are told together, and those to publishes. `close-ok` is that of a channel, behind the connection's.
ANSWERS = ("connection-close-ok", "close-ok", "open-ok", "flow-ok", "declare-ok", "select-ok")
CONFIRMS = ("ack", "nack")
LISTINGS = {"091": "list-091", "10": "list-10"}


def step_text(answer):
    """What a frame of a content came to."""
    if answer == "false":
        return "no content"
    read = fine(answer)
    step = parts(read)[0]
    if name_of(read) == "Ok":
        return "more" if step == "More" else whole_text(parts(step)[0])
    return f"Header {fault_text(parts(step)[0])}" if name_of(step) == "Header" else step


def written(made, which):
    """The bytes that were written over others, of one of several answers, and whether those behind them stayed."""
    answers = yield [made]
    size, out = parts(parts(answers[0])[which])
    out = bytes_in(out)
    size = int(size)
    more = "" if out[size:] == UNWRITTEN * (ROOM - size) else " | more was written"
    return told_bytes(out[:size]) + more


def confirm(channel, words):
    """What is written of a basic.ack or a basic.nack by its delivery tag."""
    verb, _, rest = words.partition(" ")
    tag, rest = number_first(rest)
    if verb not in CONFIRMS or rest not in ("", "multiple"):
        raise NoCase(words)
    return written(call("confirms", channel, tag, int(rest == "multiple")), CONFIRMS.index(verb))


def answered(channel, words):
    """What is written of an answer on a channel."""
    return written(call("ok", channel), ANSWERS.index(words)) if words in ANSWERS[1:] else confirm(channel, words)


def taken(verb, words, names):
    """What a reader takes from the front of bytes that end at an offset: a number or a text, and what is left."""
    end, words = number_first(words)
    (answer,) = yield [call("front", end, data=names.joined(words))]
    numbers, texts, _ = map(parts, parts(answer))
    answer = numbers[NUMBERS.index(verb)] if verb in NUMBERS else texts[TEXTS.index(verb)]
    found = parts(answer)[0]
    if name_of(answer) == "Err":
        return f"Fault {parts(found)[0]}"
    value, rest = parts(found)
    if verb in TEXTS:
        return f"{told_text(bytes_in(value))} |{told_bytes(bytes_in(rest))}"
    (answer,) = yield [call("front", end, data=bytes_in(rest))]
    return f"{value} | {parts(answer)[2]}"


def changed(verb, words, names):
    """Bytes after a number was written over four of them, or after so many were kept or dropped at their front."""
    at, words = number_first(words)
    numbers = [at]
    if verb == "set":
        value, words = number_first(words)
        numbers.append(min(value, 0xFFFFFFFF))
    data = names.joined(words)
    if verb == "set" and at + 4 > len(data) or verb == "discard" and at > len(data):
        raise NoCase(words)
    answers = yield [call(verb, *numbers, data=data)]
    return told_bytes(bytes_in(answers[0]))


def reserved(words, names):
    """Bytes in reserved room if they fit, how many may still be added, and what stands after the first was dropped."""
    room, words = number_first(words)
    data = names.joined(words)
    whole, rest = yield [call("room", room, count, data=data) for count in (0, 1)]
    left, held = parts(whole)
    return f"{told_bytes(bytes_in(held))} | {left} |{told_bytes(bytes_in(parts(rest)[1]))}"


def listed_text(listed, text):
    """How a listing ended, with the text of its fault."""
    if listed == "Whole":
        return "whole"
    if listed == "OutFailed":
        return "out failed"
    return f"bad input at {fields(parts(listed)[0])['at']}{bytes_in(text).decode().rstrip()}"


def listing(verb, data):
    """What is listed of a stream, and how that ended."""
    answers = yield [call(verb, data=data)]
    listed, text, held = parts(answers[0])
    return bytes_in(held).decode() + listed_text(fine(listed), text)


def cut_text(answer, size):
    """How the listing of a shorter input ends, where it isn't `Cut` at its length."""
    listed, text, _ = parts(answer)
    listed = fine(listed)
    if listed == "Whole":
        return f" {size}"
    if listed == "OutFailed":
        return " out failed"
    if fields(parts(listed)[0]) == {"fault": "Cut", "at": str(size)}:
        return ""
    return f" {size}: {listed_text(listed, text)}"


def listing_cuts(verb, data):
    """The lengths at which a shorter input is whole units, and where another fault is told than that it is cut."""
    answers = yield [call(verb, data=data[:size]) for size in range(len(data))]
    return "whole at" + "".join(cut_text(answer, size) for size, answer in enumerate(answers))


class Cases:
    """The cases. What they share are the names of bytes and the connection."""

    def __init__(self):
        self.names = Names()
        self.connection = Connection(self.names)

    def close(self, which, channel, words):
        """What is written of a close by its code, the ids, and its text."""
        numbers = [channel]
        for _ in range(3):
            value, words = number_first(words, 16)
            numbers.append(value)
        text = self.names.joined(words)
        if len(text) > TEXT_MAX:
            raise NoCase(words)
        return written(call("closes", *numbers, data=text), which)

    def on_channel(self, words):
        """What is written on a channel: a close, or an answer."""
        channel, words = number_first(words, 16)
        if words.startswith("close "):
            return self.close(1, channel, words.removeprefix("close "))
        return answered(channel, words)

    def assembled(self, words):
        """What each frame of a content comes to."""
        calls = [call("assemble")]
        for frame in words.split(" / "):
            kind, _, rest = frame.partition(" ")
            if kind not in ("header", "body"):
                raise NoCase(frame)
            calls.append(call(kind, data=self.names.joined(rest)))
        answers = yield calls
        return ", ".join(map(step_text, answers[1:]))

    def condition(self, words):
        """The reply code for an error condition, or for none."""
        scope, _, name = words.partition(" ")
        if scope not in SCOPES:
            raise NoCase(words)
        (answer,) = yield [call("codes", SCOPES[scope], data=self.names.joined(name))]
        return parts(answer)[0 if name else 1]

    def coded(self, verb, words):
        """The name of a reply code, or of the error condition for it."""
        (answer,) = yield [call("names", number(words, 16))]
        return told_text(bytes_in(parts(answer)[0 if verb == "code" else 1]))

    def single_case(self, verb, rest):
        """The generator of a case that neither a codec nor the connection has."""
        if verb in NUMBERS or verb in TEXTS:
            return taken(verb, rest, self.names)
        if verb in ("set", "truncate", "discard"):
            return changed(verb, rest, self.names)
        if verb in LISTINGS:
            return listing(LISTINGS[verb], bytes_of(rest))
        if verb.removeprefix("cuts-") in LISTINGS:
            return listing_cuts(LISTINGS[verb.removeprefix("cuts-")], bytes_of(rest))
        if verb in ("code", "error"):
            return self.coded(verb, rest)
        others = {
            "kinds": kinds,
            "room": lambda: reserved(rest, self.names),
            "content-of": lambda: self.assembled(rest),
            "condition": lambda: self.condition(rest),
            "close": lambda: self.close(0, 0, rest),
            "close-ok": lambda: written(call("ok"), 0),
            "on": lambda: self.on_channel(rest),
        }
        if verb not in others:
            raise NoCase(verb)
        return others[verb]()

    def answer(self, line):
        """Yields the calls of a case, is sent their answers, and returns what is printed."""
        verb, _, rest = line.partition(" ")
        if verb == "name":
            self.names.add(rest)
            return ""
        case = self.connection.case(line)
        if case is not None:
            return (yield from case)
        text = yield from codec_case(self.names, line) or self.single_case(verb, rest)
        # An answer without a letter is an empty line.
        return text.strip() or "\n"
