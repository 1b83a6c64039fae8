"""What the scripts that write files of a crate from a published definition share: the layout of what they write, and how it
is compared with what stands. This is no part of the build."""

import re
import sys
from pathlib import Path

WIDTH = 100


def camel(name):
    return "".join(word.capitalize() for word in name.split("-"))


def snake(name):
    return name.replace("-", "_")


def laid_out(text):
    """Long lines broken where `rt fmt` breaks none: comments, lists of imports, and equations of .antt files."""
    return "\n".join(part for line in text.split("\n") for part in broken(line))


def broken(line):
    if len(line) <= WIDTH:
        return [line]
    if match := re.match(r"(--|//[/!]?) (.*)$", line):
        return filled(match[1] + " ", match[2].split(" "), " ", "")
    if match := re.match(r"((?:ghost )?use [^{]*\{)(.*)(\};?)$", line):
        return filled(match[1], match[2].split(", "), ", ", match[3])
    if match := re.match(r"(\w[^=]* =) (.*)$", line):
        return [match[1]] + listed(match[2])
    return [line]


def filled(head, items, link, tail):
    """Lines with the same head and tail, and as many items in each as there is room for."""
    lines, row = [], []
    for item in items:
        if row and len(head + link.join([*row, item]) + tail) > WIDTH:
            lines.append(head + link.join(row) + tail)
            row = []
        row.append(item)
    return [*lines, head + link.join(row) + tail]


def listed(body):
    """The elements of a list behind an equation, in as many lines as they need."""
    lines, row = [], ""
    for item in re.split(r" (?=∷ )(?!∷ \[\]$)(?![^(]*\))", body):
        if row and len(f"    {row} {item}") > WIDTH:
            lines.append(f"    {row}")
            row = item
        else:
            row = f"{row} {item}" if row else item
    return [*lines, f"    {row}"]


def plain(text):
    """The text without what its layout changes: blanks, line ends, marks of comments, imports of one module in several lines,
    and commas before a closing bracket."""
    text = re.sub(r"^(\s*)(--|//[/!]?)( |$)", r"\1", text, flags=re.MULTILINE)
    joined, count = text, 1
    while count:
        joined, count = re.subn(r"(use ([\w.]+)\.\{[^}]*)\};?\n(?:ghost )?use \2\.\{", r"\1, ", joined)
    return re.sub(r",([)}\]])", r"\1", re.sub(r"\s+", "", joined))


def run(crate, files):
    """Writes the files into the crate, or into the folder that is given; with --check, compares them with those of the crate,
    and names each that says something else."""
    if sys.argv[1:] == ["--check"]:
        differing = [name for name, text in files.items() if plain((crate / name).read_text()) != plain(text)]
        for name in differing:
            print(f"differs from the definition: crates/{crate.name}/{name}")
        print(f"{crate.name}: {len(files)} files compared, {len(differing)} differing")
        return 1 if differing else 0
    folder = Path(sys.argv[1]) if len(sys.argv) > 1 else crate
    for name, text in files.items():
        path = folder / name
        path.parent.mkdir(parents=True, exist_ok=True)
        path.write_text(laid_out(text))
    return 0
