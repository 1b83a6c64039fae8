#!/usr/bin/env python3
"""Reads each capture of a folder and of the folders in it, and says of each that isn't read and written again the same.

    python3 tools/check_captures.py FOLDER [LISTER]

It calls crates/tests_gate/out/tests_gate: `rt run` in crates/tests_gate makes it. With a LISTER, a program that prints a capture's
listing (its first line and the bytes behind two blanks don't count), the listings are compared too. The last line has the counts;
the status is 0 where every capture is the same.
"""

import subprocess
import sys
from pathlib import Path

from cases.turns import Cases
from run_cases import BUILT, Program, answered


def listing_of(lister, path):
    """The listing that another program prints, without its first line and without bytes."""
    lines = subprocess.run([lister, path], stdout=subprocess.PIPE, check=True).stdout.decode().split("\n")[1:-1]
    return [line.strip(" ").partition("  ")[0] for line in lines]


def difference(path, lister, answers):
    """What is wrong with what was read and listed of a capture, or None."""
    read, listed = answers
    if not read.endswith("| =\n"):
        return read
    if lister is None:
        return None
    wanted, found = listing_of(lister, path), listed.split("\n")[:-2]
    differ = [f"wanted {one}, listed {other}" for one, other in zip(wanted, found) if one != other]
    return None if wanted == found else "another listing: " + (differ + ["of another length"])[0]


def main():
    if len(sys.argv) not in (2, 3):
        sys.exit(__doc__)
    paths = sorted(Path(sys.argv[1]).rglob("*.agc"))
    lister = sys.argv[2] if len(sys.argv) == 3 else None
    program = Program(BUILT)
    lines = [f"{verb} {path.read_bytes().hex(' ').upper()}" for path in paths for verb in ("read", "list")]
    texts = answered(program, Cases(), lines)
    wrong = 0
    for k, path in enumerate(paths):
        found = difference(path, lister, texts[2 * k : 2 * k + 2])
        if found is not None:
            wrong += 1
            print(f"{path}: {found}")
    print(f"captures: {len(paths) - wrong} of {len(paths)} the same")
    sys.exit(1 if wrong else 0)


if __name__ == "__main__":
    main()
