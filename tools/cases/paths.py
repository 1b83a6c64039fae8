"""Cases of what is kept of a session's links, publishes and deliveries, call by call.

| Line | Answer |
|---|---|
| `sender new`, `sender begin`, `sender drain` | a sending link after a call: its delivery-count and its credit |
| `sender credit CREDIT`, `sender flow COUNT CREDIT` | the same after a flow of the container, without a count and with one |
| `receiver quota N` | a receiving link: its delivery-count, its credit, what is left of its limit, and the credit that is due |
| `receiver attached COUNT`, `granted CREDIT`, `arrived`, `recounted N`, `flow COUNT`, `cancel` | the same after a call |
| `handles` | what is answered of the handles of two links, of which one goes |
| `publishes life N`, `deliveries life N` | nothing: a life begins, without links |

Of `publishes`:

| Line | Answer |
|---|---|
| `needed LINK TEXT`, `attached LINK`, `flow LINK CREDIT`, `drain LINK`, `remove LINK` | nothing: the link is changed; a
  needed one has this address |
| `find TEXT`, `can-send LINK` | the link to an address, and whether it may send |
| `plain LINK "TEXT"`, `confirmed LINK "TEXT"`, `mandatory LINK "TEXT"` | the number of a publish that is taken up; a mandatory
  one is confirmed, and its return has two frames |
| `send N`, `confirm`, `return` | the frame, the confirm or the frame of a return that is due, which is sent; a frame has so many
  bytes at most |
| `next N` | the frame that is due, where the container takes so many more |
| `accepted FIRST LAST`, `released FIRST LAST`, `refused FIRST LAST` | whether an outcome told of any |
| `lost LINK`, `not-found LINK`, `all-lost`, `told` | nothing: a link is lost, its address isn't known, each is lost, the report's
  lines were told |
| `held`, `waits LINK`, `unanswered LINK`, `next-id`, `line PLACE`, `has-rest NUMBER` | what is asked |

Of `deliveries`:

| Line | Answer |
|---|---|
| `consumer LINK TAG`, `getter LINK`, `flow LINK COUNT`, `echo LINK`, `cancel LINK`, `wait LINK`, `empty LINK` | nothing: a link
  is attached, or a call on it; `wait` is a get, and `empty` its get-empty |
| `prefetch N`, `global N`, `written TAG`, `close`, `lose`, `tell` | nothing: a call on the life |
| `transfer LINK ID WORDS` | what a transfer comes to; a whole delivery is taken. The words are `more`, `settled` and `no-image` |
| `last LINK ID WORDS` | nothing: the last transfer of a delivery, which is taken at once; `again` says that it was delivered
  before |
| `grant`, `deliver`, `settle` | the flow, the deliver (its tag and its delivery-id) or the disposition that is due, which is
  sent |
| `accept TAG`, `reject TAG`, `release TAG`, also with `multiple` | nothing: an answer of the client |
| `knows TAG`, `message ID`, `line PLACE`, `tags`, `is-closed` | what is asked of the life |
| `links`, `has-tag TAG`, `tag-of LINK`, `count LINK`, `payload LINK`, `is-covered LINK`, `is-empty LINK`, `fault LINK ID` | what
  is asked of the links |

An answer that has no words of its own here is as a derived `Debug` prints it.
"""

import re

from cases.calls import call
from cases.calls_091 import bytes_in, parts
from cases.debug import read
from cases.told_bytes import NoCase, quoted

SUBJECTS = ("sender", "receiver", "handles", "publishes", "deliveries")
CALL = re.compile(r"(\S+)(?: (\d+))?(?: (\d+))?(?: (.*))?")
# The words that are told as a sum of marks, and the verbs that take such.
MARKS = {"more": 1, "settled": 2, "no-image": 4, "again": 8, "multiple": 16}
# Verbs by which a publish is taken up, with their marks.
ADDED = {"plain": 0, "confirmed": 32, "mandatory": 96}
MARKED = ("transfer", "last", "fault", "accept", "reject", "release", "knows")
# What is asked, by the place of its answer.
ASKED = {
    "publishes": (
        ("next", "next-id", "line", "has-rest", "held", "waits", "unanswered"),
        ("find", "can-send"),
    ),
    "deliveries": (
        ("tags", "knows", "message", "line", "is-closed", "links", "has-tag"),
        ("fault", "tag-of", "payload", "count", "is-covered", "is-empty"),
    ),
}
# Answers that are bytes, and are told as texts.
BYTES = ("tag-of", "payload")
SENDER = "count {}, credit {}"
RECEIVER = "count {}, credit {}, limit {}, due {}"


def marks_of(words):
    """The sum of the marks that words tell."""
    if not set(words) <= set(MARKS):
        raise NoCase(words)
    return sum(MARKS[word] for word in words)


def call_of(line):
    """The call of a line: numbers that aren't told are 0."""
    subject, _, words = line.partition(" ")
    found = CALL.fullmatch(words) if words else CALL.fullmatch("ask")
    if found is None or subject not in SUBJECTS:
        raise NoCase(line)
    verb, first, second, text = found.groups()
    text = text or ""
    marks = 0
    if verb in MARKED:
        marks, text = marks_of(text.split()), ""
    elif verb in ADDED:
        # (the quotes are no part of the text)
        verb, marks, text = "add", ADDED[verb], text.strip('"')
    if any(verb in verbs for verbs in ASKED.get(subject, ())):
        verb = "ask"
    return call(subject, verb, first or 0, second or 0, marks, data=text.encode())


def told_option(value):
    """An `Option` of a number, as `Debug` prints it."""
    return f"Some({value[0]})" if value.name == "Some" else "None"


def told_handles(answer):
    """What is answered of two links' handles, in the order in which it was asked."""
    told_free, taken, *told_links = answer[0]
    free, named, going = ([told_option(one) for one in part] for part in (told_free, *told_links))
    attached = " ".join(str(is_taken).lower() for is_taken in taken)
    return (
        f"free {free[0]}, attached {attached}, named {' '.join(named)}, limited {free[1]}, "
        f"sent {going[0]}, read {going[1]}, free {free[2]}"
    )


def told_receiver(answer):
    *numbers, due = answer
    return RECEIVER.format(*numbers, told_option(due))


WAYS = {"handles": told_handles, "receiver": told_receiver, "sender": lambda answer: SENDER.format(*answer)}


def asked_of(line, answer):
    """The answer to what a line asks, of all that is told together."""
    subject, verb = (line.split(" ") + [""])[:2]
    for verbs, told in zip(ASKED.get(subject, ()), parts(answer)):
        if verb in verbs:
            answer = parts(told)[verbs.index(verb)]
    return quoted(bytes_in(answer)) if verb in BYTES else answer


def told(subject, answer):
    """An answer in the words of the cases. One without a value is that of a call that only prepares others."""
    if subject in WAYS:
        return WAYS[subject](read(answer))
    if answer in ("()", "Ok(())"):
        return ""
    done = re.fullmatch(r"Ok\((.*)\)", answer)
    return done[1] if done else answer


class Cases:
    def answer(self, line):
        (answer,) = yield [call_of(line)]
        if answer == "Err(Memory)":
            raise MemoryError(line)
        return told(line.partition(" ")[0], asked_of(line, answer))
