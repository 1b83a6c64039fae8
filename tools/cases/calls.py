"""The lines in which calls are told."""

import re
from pathlib import Path

# The words of lines and their numbers, as the program has them.
VERBS = Path(__file__).resolve().parents[2] / "crates/tests_gate/src/verbs.rt"
NUMBERS = {name: int(number) for name, number in re.findall(r"pub const (\w+): u64 = (\d+);", VERBS.read_text())}


def number_of_word(word):
    return NUMBERS[word.upper().replace("-", "_")]


def call(kind, verb, *numbers, data=b""):
    """The line of a call: two words, four numbers, and bytes. Without data they are those of the line before."""
    words = [number_of_word(kind), number_of_word(verb), *numbers, *[0] * (4 - len(numbers))]
    return " ".join([*map(str, words), "=" if data is None else data.hex().upper()])


def together(cases):
    """Steps through generators of calls side by side, so that a step of all takes one run; what each returned."""
    cases = list(cases)
    results = [None] * len(cases)
    going = [(k, case, None) for k, case in enumerate(cases)]
    while going:
        asked = []
        waiting = []
        for k, case, answers in going:
            try:
                calls = case.send(answers)
                waiting.append((k, case, len(asked), len(asked) + len(calls)))
                asked += calls
            except StopIteration as end:
                results[k] = end.value
        if waiting:
            answers = yield asked
        going = [(k, case, answers[start:end]) for k, case, start, end in waiting]
    return results

