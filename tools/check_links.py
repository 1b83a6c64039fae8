#!/usr/bin/env python3
"""Checks the links and the paths that *.md, docs/*.md and tools/*.md name, and the size of README.md.

    python3 tools/check_links.py [FOLDER]

FOLDER is the top of the repository, or this file's if none is given. Of each of these files it checks:

- each relative link: its file exists, and if it has an anchor, that file has a heading of that name, as forges spell
  it;
- each link by a name has a definition, and each definition is used;
- each path in the text that begins with `docs/`, `tools/`, `crates/` or `.ci/`, each source of a crate, as
  `gate_turns/src/live.rt`, and each name that ends in `.md` is there. A part in capitals, as `crates/NAME`, stands for
  any, and what is built, in a folder `out`, isn't looked for.

README.md has 250 lines at most, of 120 columns. What is wrong is printed, a line each, and the status is 1 then.
"""

import pathlib
import re
import sys

COLUMNS, LINES = 120, 250
INLINE = re.compile(r"\[[^\[\]]+\]\(([^()\s]+)\)")
NAMED = re.compile(r"\[([^\[\]]+)\]\[([^\[\]]*)\]")
DEFINITION = re.compile(r"^\[([^\[\]]+)\]:\s+(\S+)$", re.MULTILINE)
HEADING = re.compile(r"^#{1,6} +(.+)$", re.MULTILINE)
PATH = re.compile(
    r"(?<![\w/.-])(?:(?:docs|tools|crates|\.ci)/[\w./-]*[\w-]|\w+/(?:src|specs|proofs)/[\w/]+\.(?:rt|antt)|\w+\.md\b)"
)
FOR_ANY = re.compile(r"(?:^|/)[A-Z]+(?:\.antt)?(?:/|$)|/out/")


def blanked(match):
    return re.sub(r"[^\n]", " ", match.group())


def without_fences(text):
    return re.sub(r"^```.*?^```", blanked, text, flags=re.MULTILINE | re.DOTALL)


def prose_of(text):
    """The text with blanks in place of code blocks, and of the brackets in code within a line."""
    text = re.sub(r"^ {4}.*$", blanked, without_fences(text), flags=re.MULTILINE)
    return re.sub(r"`[^`]*`", lambda code: re.sub(r"[\[\]()]", " ", code.group()), text)


def anchors_of(file):
    """The names of headings in links: lower case, without punctuation, `-` for a blank, numbered if they repeat."""
    seen, anchors = {}, set()
    for heading in HEADING.findall(without_fences(file.read_text(encoding="utf-8"))):
        name = re.sub(r"[^\w -]", "", heading.strip().lower()).replace(" ", "-")
        anchors.add(f"{name}-{seen[name]}" if name in seen else name)
        seen[name] = seen.get(name, 0) + 1
    return anchors


def link_fault(file, target):
    """What is wrong with a link, or None; one to another host isn't looked at."""
    if re.match(r"[a-z][a-z0-9+.-]*:", target):
        return None
    path, _, anchor = target.partition("#")
    aim = file.parent / path if path else file
    if not aim.exists():
        return f"no file {path}"
    if anchor and anchor not in anchors_of(aim):
        return f"no heading #{anchor} in {aim.name}"
    return None


def is_there(top, file, path):
    if FOR_ANY.search(path):
        return True
    return any((folder / path).exists() for folder in (top, file.parent, top / "docs", top / "crates"))


def faults_of(top, file):
    """Each fault of a file, with its place in the text."""
    text = file.read_text(encoding="utf-8")
    prose = prose_of(text)
    names = {link.group(1).lower(): link.start() for link in DEFINITION.finditer(prose)}
    for link in [*INLINE.finditer(prose), *DEFINITION.finditer(prose)]:
        fault = link_fault(file, link.group(link.lastindex))
        if fault:
            yield link.start(), fault
    used = {(link.group(2) or link.group(1)).lower(): link.start() for link in NAMED.finditer(prose)}
    for name in used.keys() - names.keys():
        yield used[name], f"no definition [{name}]"
    for name in names.keys() - used.keys():
        yield names[name], f"the definition [{name}] isn't used"
    for path in PATH.finditer(text):
        if not is_there(top, file, path.group()):
            yield path.start(), f"no file {path.group()}"
    if file == top / "README.md":
        for line in re.finditer(r"^.{%d,}$" % (COLUMNS + 1), text, re.MULTILINE):
            yield line.start(), f"{len(line.group())} columns, more than {COLUMNS}"
        if text.count("\n") > LINES:
            yield len(text) - 1, f"{text.count(chr(10))} lines, more than {LINES}"


def main():
    top = pathlib.Path(sys.argv[1] if len(sys.argv) > 1 else pathlib.Path(__file__).parent.parent).resolve()
    faults = []
    for file in [*sorted(top.glob("*.md")), *sorted((top / "docs").glob("*.md")), *sorted((top / "tools").glob("*.md"))]:
        text = file.read_text(encoding="utf-8")
        for place, fault in sorted(set(faults_of(top, file))):
            faults.append(f"{file.relative_to(top)}:{text.count(chr(10), 0, place) + 1}: {fault}")
    print("\n".join(faults), end="\n" if faults else "")
    return 1 if faults else 0


if __name__ == "__main__":
    sys.exit(main())
