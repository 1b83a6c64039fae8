#!/usr/bin/env python3
"""Runs the cases of the test program, and compares their answers.

    python3 tools/run_cases.py [--program FILE] [--print] [NAME ..]

A NAME is that of a part of the cases, and each part is meant where none is given:

    amqp_10     AMQP 1.0: values, messages, performatives, frames, and messages of each protocol in the other
    amqp_091    AMQP 0-9-1: headers, frames, tables, methods, contents, closes, connections; listings of both protocols
    paths       credit, handles, publishes and deliveries, call by call
    turns       the loop with both ends, ports, streams, the ends of pairs, captures
    gateway     the gateway: scenarios of clients and containers, its command line, its captures
    broken      what breaks a run of the gateway: malformed units, streams that end anywhere, calls that fail

Its cases are the lines of tools/cases/NAME.txt, and tools/cases/NAME.answers.txt has what is to be printed for them. How a line
becomes calls, and what is printed of their answers, says tools/cases/NAME.py. The calls go to the program that `rt ci` left in
crates/tests_gate/out, and to what Rattle's own compiler made beside it, or to FILE alone. --print prints the answers in
place of comparing them. The status is 0 where all are as they were to be.
"""

import argparse
import importlib
import os
import shutil
import subprocess
import sys
import tempfile
import time
from pathlib import Path

from cases.calls import together
from cases.told_bytes import NoCase

TOOLS = Path(__file__).resolve().parent
CASES = TOOLS / "cases"
BUILT = TOOLS.parent / "crates/tests_gate/out/tests_gate"
PARTS = ("amqp_10", "amqp_091", "paths", "turns", "gateway", "broken")
SECONDS = 600


class Program:
    """A program that answers calls, a line each."""

    def __init__(self, path):
        self.path = path

    def ask(self, calls):
        if not calls:
            return []
        text = "".join(f"{call}\n" for call in calls)
        done = subprocess.run([self.path], input=text.encode(), stdout=subprocess.PIPE, timeout=SECONDS)
        answers = done.stdout.decode().split("\n")[:-1]
        if done.returncode != 0 or len(answers) != len(calls):
            last = calls[min(len(answers), len(calls) - 1)]
            sys.exit(f"{self.path}: status {done.returncode}, {len(answers)} answers to {len(calls)} calls, up to: {last[:200]}")
        for call, answer in zip(calls, answers):
            if answer == '"no call"':
                sys.exit(f"{self.path}: no call: {call[:200]}")
        return answers


def printed(text):
    """What is printed for a case: its answer with the end of a line, and nothing where it only prepares others. An answer that
    is an empty line is the end of a line alone."""
    return text if text in ("", "\n") else f"{text}\n"


def told(case, line):
    """What is printed for a line that its case tells."""
    try:
        return printed((yield from case))
    except NoCase:
        return f"no case: {line}\n"


def answered(program, cases, lines):
    """What is printed for each line. A case tells its calls, and is given their answers, as often as it wants."""
    is_case = [line != "" and not line.startswith("#") for line in lines]
    calls = together([told(cases.answer(line), line) for line, tells in zip(lines, is_case) if tells])
    answers = None
    try:
        while True:
            answers = program.ask(calls.send(answers))
    except StopIteration as end:
        texts = iter(end.value)
    return [next(texts) if tells else f"{line}\n" for line, tells in zip(lines, is_case)]


def difference(lines, texts, wanted):
    """The first case whose answer isn't the wanted one, or None."""
    rest = wanted
    for k, text in enumerate(texts):
        if not rest.startswith(text):
            first = max((i for i in range(k) if lines[i].startswith("#")), default=k)
            return "\n".join(lines[first : k + 1]) + f"\nwanted:\n{rest[: max(len(text), 1)]}\nanswered:\n{text}"
        rest = rest[len(text) :]
    return f"behind the last case is wanted:\n{rest[:400]}" if rest else None


def programs_of(program):
    """The programs that are called, of which the second isn't always there."""
    if program is not None:
        return [Path(program)]
    other = BUILT.with_name(f"{BUILT.name}.by-rattle")
    return [BUILT] + ([other] if other.exists() else [])


def runnable(path, folder):
    """A program that can be run: `rt ci` leaves what an earlier run built as a file that can't be."""
    if os.access(path, os.X_OK):
        return path
    copy = Path(folder) / path.name
    shutil.copyfile(path, copy)
    copy.chmod(0o755)
    return copy


def run(name, program, prints, folder):
    """Runs a part of the cases; whether all answers are the wanted ones."""
    lines = (CASES / f"{name}.txt").read_text().split("\n")[:-1]
    wanted = (CASES / f"{name}.answers.txt").read_text()
    is_right = True
    for path in programs_of(program):
        begun = time.monotonic()
        cases = importlib.import_module(f"cases.{name}").Cases()
        texts = answered(Program(runnable(path, folder)), cases, lines)
        if prints:
            sys.stdout.write("".join(texts))
            continue
        found = difference(lines, texts, wanted)
        took = time.monotonic() - begun
        said = "all as wanted" if found is None else f"differs\n{found}"
        print(f"{name} by {path.name}: {len(lines)} lines, {said} ({took:.0f} s)")
        is_right = is_right and found is None
    return is_right


def main():
    parser = argparse.ArgumentParser(description=__doc__, formatter_class=argparse.RawDescriptionHelpFormatter)
    parser.add_argument("--program", help="the program to ask, in place of the built ones")
    parser.add_argument("--print", action="store_true", help="print the answers, and compare nothing")
    parser.add_argument("names", nargs="*", metavar="NAME")
    words = parser.parse_args()
    unknown = set(words.names) - set(PARTS)
    if unknown:
        parser.error(f"no part of the cases: {', '.join(unknown)}")
    with tempfile.TemporaryDirectory() as folder:
        results = [run(name, words.program, words.print, folder) for name in words.names or PARTS]
    sys.exit(0 if all(results) else 1)


if __name__ == "__main__":
    main()
