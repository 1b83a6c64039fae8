"""Cases of AMQP 1.0: values, messages, performatives, frames, headers, and messages of each protocol in the other.

A line says what those behind it are about, and is printed as it is. At first they are about values.

| Line | Behind it stand cases of | Listed in |
|---|---|---|
| `cases of values` | values and messages | values_10.py, messages_10.py |
| `cases of performatives` | performatives, frames and protocol headers | performatives_10.py, frames_10.py |
| `cases of the mapping` | messages of each protocol in the other | mapping_10.py |

Of values:

| Line | Answer |
|---|---|
| `read BYTES` | the value, the offset after it, and what is written of it: `=` the same bytes, `-` none |
| `cuts BYTES` | the same, and each shorter length that isn't cut off at its length |
| `at N BYTES` | the same as of `read` from an offset |
| `lists N BYTES` | the same inside so many lists |
| `sequence BYTES` | values one after another, a line each |
| `write WORDS` | the value that the words build, and what is written of it: `uint 5, string "a", list 2` |
| `codes` | the format codes that are known |

Of messages:

| Line | Answer |
|---|---|
| `message BYTES` | the message that fills the bytes, and what is written of it |
| `cuts message BYTES` | the same, and the answer at each shorter length |

Of performatives, frames and protocol headers, as tools/make_performative_cases.py writes them:

| Line | Answer |
|---|---|
| `read BYTES` | the performative, the offset behind it, and what is written of it |
| `cuts BYTES` | the same, and each shorter length that isn't cut off at its length |
| `settled CHANNEL FIRST`, also with a last | the length and bytes of what settles as sender |
| `frame LIMIT BYTES` | the frame, the offset behind it, what is written; each shorter length that doesn't want more |
| `header amqp BYTES`, `header sasl BYTES` | whether it is the header, and the offset behind it |

Of the mapping, as tools/make_mapping_cases.py writes them:

| Line | Answer |
|---|---|
| `to10 EXCHANGE, KEY, HEADER, BODY` | what is written of the image, and the message that comes back: `=` the same |
| `to091 QUEUE, ROOM, MESSAGE` | the image: exchange, key, properties and body; and `redelivered` |

HEADER is the payload of a content header, and MESSAGE the sections of a message of AMQP 1.0. A fault is its name and
its place, of the mapping its name alone, and of performatives as `Debug` prints it.
"""

from cases import frames_10, mapping_10, messages_10, performatives_10, values_10
from cases.told_bytes import NoCase

PARTS = {
    "cases of values": values_10.VERBS | messages_10.VERBS,
    "cases of performatives": performatives_10.VERBS | frames_10.VERBS,
    "cases of the mapping": mapping_10.VERBS,
}


def told(text):
    """Answers a text without a call."""
    yield from ()
    return text


class Cases:
    """The cases in the order of their lines, since one says what those behind it are about."""

    def __init__(self):
        self.verbs = PARTS["cases of values"]

    def answer(self, line):
        """The generator of a case. The part of the line is told now, and not when the case begins."""
        if line in PARTS:
            self.verbs = PARTS[line]
            return told(line)
        return self.case(line, self.verbs)

    def case(self, line, verbs):
        verb, _, words = line.partition(" ")
        if words.startswith("message") and f"{verb} message" in verbs:
            verb, words = f"{verb} message", words.removeprefix("message")
        if verb not in verbs:
            raise NoCase(line)
        return (yield from verbs[verb](words))
