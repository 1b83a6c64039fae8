"""What the scripts share that write a section of a part of the cases: the lines behind one that says `cases of NAME`, up to the next
such line. This is no part of the build."""

import sys
from pathlib import Path

CASES = Path(__file__).resolve().parent / "cases"
HEAD = "cases of "


def with_part(text, name, lines):
    """A file of cases, with these lines as that section."""
    before, head, behind = text.partition(f"\n{HEAD}{name}\n")
    if not head:
        sys.exit(f"there is no line: {HEAD}{name}")
    next_section = f"\n{behind}".find(f"\n{HEAD}")
    return before + head + "\n".join(lines) + "\n" + (behind[next_section:] if next_section >= 0 else "")


def put_part(name, section, lines, answers):
    """Writes that section of the cases and of their answers, or only compares where `--check` is asked for; the names of the files
    that differ."""
    differ = []
    for path, told in ((CASES / f"{name}.txt", lines), (CASES / f"{name}.answers.txt", answers)):
        text = path.read_text()
        wanted = with_part(text, section, told)
        if "--check" not in sys.argv[1:]:
            path.write_text(wanted)
        elif wanted != text:
            differ.append(path.name)
    return differ
