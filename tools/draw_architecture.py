#!/usr/bin/env python3
"""Writes what docs/ARCHITECTURE.md takes from other files: the phases of both connections, from the
tables of docs/GUARANTEES.md, and what a change proves again, from crates.txt. With --check it writes
nothing, and its status says whether the page is as it would be written.

    tools/draw_architecture.py [--check]
"""
import os
import re
import sys

TOP = os.path.join(os.path.dirname(os.path.abspath(__file__)), "..")
PAGE = os.path.join(TOP, "docs", "ARCHITECTURE.md")
TABLES = {
    "phases 0-9-1": "### The connection of a client (machine_091)",
    "phases 1.0": "### The connection to a container (machine_10)",
}
# The changes of the table, with the crates in which they are made.
CHANGES = [
    ("a socket, a file, a line on the standard error", ["gate_ends", "gate_edge"]),
    ("an option of the command line", ["gate_command"]),
    ("a line of a capture's listing", ["gate_show"]),
    ("a law of whole runs", ["gate_laws"]),
    ("a law of the turns", ["gate_turn_laws"]),
    ("how a turn is made, with the same rules", ["gate_turns"]),
    ("a rule of the turn, a line of the report", ["gate_runs"]),
    ("what a pair and the loop know of one another", ["gate_relay"]),
    ("how bytes are cut into units", ["gate_pair"]),
    ("the code of a pair, with the same model", ["bridge_core"]),
    ("what is due, and in which order", ["gate_model"]),
    ("the path of a session, of a publish", ["session_path", "publish_path"]),
    ("a transition or a refusal of a client's connection", ["machine_091"]),
    ("a transition or a refusal of a container's connection", ["machine_10"]),
    ("a row of the mapping of messages", ["property_map"]),
    ("a method of AMQP 0-9-1", ["methods_091"]),
    ("a performative of AMQP 1.0", ["performatives_10"]),
    ("a reply code, an error condition", ["close_translate"]),
    ("the trait `Ports`, a script, the log", ["gate_outside"]),
]


def rows_below(text, heading):
    """The cells of the first table below a heading."""
    lines = text[text.index(heading):].split("\n")
    first = next(i for i, line in enumerate(lines) if line.startswith("|"))
    rows = []
    for line in lines[first + 2:]:
        if not line.startswith("|"):
            break
        rows.append([cell.strip() for cell in line.strip("|").split("|")])
    return rows


def phases_of(cell):
    names = re.findall(r"`(\w+)`", cell)
    return ["before " + names[0]] if cell.startswith("before") else names


def drawn(text, heading):
    """A line for each way from one phase to another."""
    lines = []
    for phases, unit, _, after in rows_below(text, heading):
        target = re.match(r"`(\w+)`", after)
        if not target:
            continue
        for phase in phases_of(phases):
            if phase != target.group(1):
                lines.append((phase, unit.replace("`", ""), target.group(1)))
    width = max(len(phase) for phase, _, _ in lines)
    return [f"    {phase.ljust(width)}  -- {unit} -->  {target}" for phase, unit, target in lines]


def stands_on():
    crates = {}
    for line in open(os.path.join(TOP, "crates.txt"), encoding="utf-8"):
        name, found, deps = line.partition(":")
        if found and not line.startswith("#"):
            crates[name.strip()] = deps.split()
    return crates


def is_tests(name):
    return name.startswith("tests_")


def above(crates, changed):
    """The crates that stand on these, without those that only test."""
    found = set(changed)
    while True:
        more = {name for name, deps in crates.items() if found & set(deps)} - found
        if not more:
            return sorted(name for name in found - set(changed) if not is_tests(name))
        found |= more


def changes():
    crates = stands_on()
    lines = ["| Change | Made in | Proved again above it |", "|---|---|---|"]
    for what, changed in CHANGES:
        more = ", ".join(above(crates, changed)) or "nothing"
        lines.append(f"| {what} | {', '.join(changed)} | {more} |")
    return lines


def page_with(page, part, lines):
    begin = f"<!-- {part}: written by tools/draw_architecture.py -->"
    end = f"<!-- end of {part} -->"
    head, rest = page.split(begin)
    _, tail = rest.split(end)
    return head + begin + "\n\n" + "\n".join(lines) + "\n\n" + end + tail


def main():
    guarantees = open(os.path.join(TOP, "docs", "GUARANTEES.md"), encoding="utf-8").read()
    page = open(PAGE, encoding="utf-8").read()
    new = page
    for part, heading in TABLES.items():
        new = page_with(new, part, drawn(guarantees, heading))
    new = page_with(new, "changes", changes())
    if "--check" in sys.argv[1:]:
        return 0 if new == page else 1
    with open(PAGE, "w", encoding="utf-8") as file:
        file.write(new)
    return 0


sys.exit(main())
