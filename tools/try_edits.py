#!/usr/bin/env python3
"""Tries edits that turn the meaning of a crate's functions, each by the functions that it turns: all must be refused.

    python3 tools/try_edits.py [--plants | --must-fail] [--edit NAME].. [--jobs N] [--seconds N] [--apart]
                               [--proved | --built] [--answers FILE] [--kept FOLDER] CRATE..
    python3 tools/try_edits.py [..] --listed FILE

The edits are tools/plants/CRATE/*.edit and crates/CRATE/must-fail/*.edit, or those of one of both folders, or those of
the names that are given. --listed names a file instead, each line of which is CRATE/NAME: those edits of these crates.
They are tried on a copy in a temporary folder, so no file here changes. The copy has the libraries in out/rlib and the
work that checks kept in out/, so that only what is cited is checked: `rt check` or `rt all check` before this makes it
quick.

An edit turns the functions around the lines that it changes in src/. Another has a line `by: PATH[, PATH]`, which `rt`
passes over: the functions, modules or types that must refuse it, by their paths below the crate. With neither the whole
crate is checked.

These functions are checked without the edit first, over the same kept work. Edits of the bodies of different functions
are tried in one check, since a proof reads the contracts of what it calls, and not their bodies; under --apart each is
tried alone. So is each that such a check didn't refuse. Under --proved nothing is checked without the edits: the crates
were proved just before, and what their checks kept isn't asked for. --built is that behind `rt ci`, whose libraries in
out/rlib no other command takes: `rt` itself is asked how it checks over them. A line comes for each edit:

    refused     one of these functions isn't proved with the edit, and is proved without it
    PROVED      they are all proved with it, and so is the whole crate: a contract says too little
    BAD EDIT    it can't be applied, compiled or read, or names no function, so it shows nothing
    NOT TRIED   its check was cut off after --seconds (3,600), or a function isn't proved without the edit either

Behind it stand the functions that refuse it, and the seconds of processor that its check took. --jobs gives the number
of checks at a time, one if it is left out. --answers names a file of answers: what it has of the same edit and the same
sources isn't tried again, and each new answer is added. --kept names a folder for the copy, which then stays with what
was checked without edits, for a run that goes on.

The status is 0 where every edit is refused, 1 where one isn't, and 2 where a crate has none of those that are asked for.
Where it is 1, the last line names the folder with what the prover said. Under --built it is 3 where this `rt` can't be
asked, and nothing was tried.
"""

import argparse
import hashlib
import importlib.machinery
import importlib.util
import os
import queue
import re
import shutil
import signal
import subprocess
import sys
import tempfile
import threading
import time
from concurrent.futures import ThreadPoolExecutor
from dataclasses import dataclass, field
from pathlib import Path

TOP = Path(__file__).resolve().parent.parent
PARTS = ("src", "specs", "proofs")
KEPT = "out/incremental"
REFUSED, PROVED, BAD, NOT_TRIED = "refused", "PROVED", "BAD EDIT", "NOT TRIED"
FUNCTION = re.compile(r"( *)(?:pub(?:\([^)]*\))? )?(?:const |unsafe )*fn (\w+)")
AROUND = re.compile(r"( *)(?:pub(?:\([^)]*\))? )?(impl|trait|mod)\b(.*)")
JUDGED = re.compile(r"^fn (\S+): (.*)$", re.M)
STALE = re.compile(r"module .Rattle-\w+-.*Run the lower steps again")


@dataclass
class Edit:
    """An edit: the texts that it replaces, the functions that must refuse it, and whether it changes bodies alone."""

    file: Path
    pairs: list = field(default_factory=list)
    by: list = field(default_factory=list)
    of_bodies: bool = True
    bad: str = ""

    @property
    def name(self):
        return str(self.file.relative_to(TOP))

    def files(self):
        return {path for path, _, _ in self.pairs}


@dataclass
class Check:
    """What a check said: its status, its words, the seconds of processor, and whether it was cut off."""

    status: int
    said: str
    seconds: float
    was_cut: bool

    def proved(self):
        return {name for name, what in JUDGED.findall(self.said) if is_proved(what)}

    def unproved(self):
        return [name for name, what in JUDGED.findall(self.said) if not is_proved(what)]

    def is_judged(self):
        """Whether the prover came to its end: it then says how many functions are proved, or whether the crate is."""
        ends = re.search(r"^(only=\d+ proved=|logic=(not-)?proved)", self.said, re.M)
        return self.status in (0, 1) and bool(ends) and not STALE.search(self.said)


def is_proved(what):
    return what == "proved" or what.startswith("proved,")


def path_in(header):
    """The name in paths of what `impl` heads: of the type, and of the trait with its types."""
    header = re.sub(r"\bwhere\b.*|\{.*", "", header).strip()
    if header.startswith("<"):
        header = header[end_of_brackets(header):].strip()
    of_trait, _, of_type = header.rpartition(" for ")
    head = lambda text: re.match(r"(?:\w+::)*(\w*)", text.strip()).group(1)
    inside = re.search(r"<(.*)>$", of_trait)
    types = [head(it) for it in inside.group(1).split(",")] if inside else []
    return head(of_type) + head(of_trait) + "".join(types)


def end_of_brackets(text):
    depth = 0
    for at, letter in enumerate(text):
        depth += {"<": 1, ">": -1}.get(letter, 0)
        if depth == 0:
            return at + 1
    return len(text)


def body_of(lines, first, last, indent):
    """The line that opens a function's body: the brace that ends its head, or that stands alone behind a contract."""
    for at in range(first, last + 1):
        if lines[at] in (indent + "{", indent + "{}"):
            return at
        if re.match(r"\s*(requires|ensures|where)\b", lines[at]):
            first = last + 1
        if at >= first and lines[at].endswith("{"):
            return at
    return last


def functions(text):
    """The functions of a source in the layout of `rt fmt`: what is around, name, lines: first, of the body, last."""
    lines, around, found = text.split("\n"), [], []
    ends = lambda at, indent: next((k for k in range(at, len(lines)) if lines[k] in (indent + "}", indent + "{}")), at)
    behind = 0
    for at, line in enumerate(lines):
        around = [it for it in around if at <= it[1]]
        head = AROUND.match(line)
        if head and at >= behind and not line.endswith((";", "}")):
            name = path_in(head[3]) if head[2] == "impl" else re.match(r"\W*(\w*)", head[3])[1]
            around.append((name, ends(at, head[1])))
        head = FUNCTION.match(line)
        if head and at >= behind:
            last = at if line.endswith((";", "}")) else ends(at, head[1])
            names = [it[0] for it in around]
            found.append((names, head[2], at, body_of(lines, at, last, head[1]), last))
            behind = last + 1
    return found


def module_of(path):
    module = path.removeprefix("src/").removesuffix(".rt").replace("/", "::")
    return [] if module in ("lib", "main") else [module]


def home_of(name, path, crate):
    """The module of a function in a source: a method stands under its type's, in whatever source its `impl` is."""
    declared = re.compile(rf"^(?:pub(?:\([^)]*\))? )?(?:struct|enum) {name}\b", re.M)
    sources = TOP / "crates" / crate
    homes = [it for it in (sources / "src").rglob("*.rt") if declared.search(it.read_text(encoding="utf-8"))]
    homes = [str(it.relative_to(sources)) for it in homes]
    return module_of(homes[0] if len(homes) == 1 else path)


def turned(edit, crate, path, text, line):
    """Adds the function around a line of a file to those that must refuse the edit."""
    for around, name, first, body, last in functions(text) if path.startswith("src/") else []:
        if first <= line <= last:
            home = home_of(around[0], path, crate) if around else module_of(path)
            whole = "::".join([*home, *around, name])
            edit.of_bodies = edit.of_bodies and line > body
            edit.by += [whole] if whole not in edit.by else []
            return
    edit.of_bodies = False


def read_edit(file, crate):
    """Reads an edit as `rt` does, with its line `by:`, and says why it can't be applied if it can't."""
    edit, path, old, named = Edit(file), "", "", []
    for line in file.read_text(encoding="utf-8").split("\n"):
        if line.startswith("by: "):
            named += [it.strip() for it in line[len("by: "):].split(",")]
        elif line.startswith("file: "):
            path = line[len("file: "):].strip()
        elif line.startswith("old: "):
            old = line[len("old: "):]
        elif line.startswith("new:"):
            edit.pairs.append((path, old, line[len("new:"):].removeprefix(" ")))
            old = ""
    place = lambda path, text, line: turned(edit, crate, path, text, line)
    _, edit.bad = applied([edit], TOP / "crates" / crate, place)
    if named:
        edit.by, edit.of_bodies = named, False
    return edit


def applied(edits, folder, place=lambda *_: None):
    """The texts of the files that edits change, by their paths, and why they can't be applied if they can't."""
    texts = {}
    pairs = [it for edit in edits for it in edit.pairs]
    for path, old, new in pairs:
        if os.path.normpath(path) != path or not path.startswith(tuple(f"{it}/" for it in PARTS)):
            return {}, "a 'file:' line names no file below src/, specs/ or proofs/"
        if not (folder / path).is_file():
            return {}, f"there is no file {path}"
        text = texts.get(path) or (folder / path).read_text(encoding="utf-8")
        if not old or text.count(old) != 1:
            return {}, f"an 'old:' text is in {path} {text.count(old)} times, and not once: {old.strip()}"
        place(path, text, text[:text.index(old)].count("\n"))
        texts[path] = text.replace(old, new)
    return texts, "" if pairs else "it has no 'old:' and 'new:' pair"


def unread(line, changed):
    """Whether the prover couldn't read a text, as `rt` tells it: an edit that makes a statement false reads well."""
    at = re.match(r"(?:\./)?(\S+?):\d+:\d+: error: (?:(`[^`]*`): )?(.*)", line)
    if not at or at[1] not in changed and not at[1].startswith(("src/", "specs/")):
        return False
    said = re.sub(r"`[^`]*`", "", at[3])
    ways = r"is not in scope|has no field|is no name|operand is missing|expected the end|cannot continue"
    return not at[2] or bool(re.search(ways, said))


def names_gone(said):
    """Whether a check failed only where a proof names what the edit took away, which says little of a contract."""
    told = [it for it in said.split("\n") if re.match(r"(note: )?\S+:\d+:\d+:", it)]
    told = [it for it in told if ": error" in it or it.startswith("note: ")] or told
    names = r"(\./)?proofs/.*(has no field|is not in scope|has no `|was not admitted)"
    return bool(told) and all(re.match(names, it) for it in told)


def crates_of(top):
    """Each crate of crates.txt with those of it that it stands on, at whatever depth."""
    rows = {}
    for line in (top / "crates.txt").read_text(encoding="utf-8").split("\n"):
        head, colon, uses = line.partition("#")[0].partition(":")
        if colon:
            rows[head.split()[0]] = uses.split()

    def below(name, seen):
        for it in rows[name]:
            if it in rows and it not in seen:
                below(it, seen)
                seen.append(it)
        return seen

    return {name: below(name, []) for name in rows}


def sum_of(names):
    """A sum of the sources of these crates."""
    total = hashlib.sha256()
    for name in names:
        for part in PARTS:
            for file in sorted((TOP / "crates" / name / part).rglob("*.*")):
                if file.is_file():
                    total.update(repr((name, str(file.relative_to(TOP)), file.read_bytes())).encode())
    return total


def linked(source, to):
    try:
        os.link(source, to)
    except OSError:
        shutil.copy2(source, to)


def copied(source, to, by=linked):
    """Copies a folder anew, if it is there: by links, where no file of it is written in place."""
    shutil.rmtree(to, ignore_errors=True)
    if source.is_dir():
        to.parent.mkdir(parents=True, exist_ok=True)
        shutil.copytree(source, to, copy_function=by, symlinks=True)


def ended(ran, out, limit):
    """Waits for a check, and cuts it off at its limit, or if it was killed: `rt` would then build each library anew."""
    began, was_cut = time.monotonic(), False
    while True:
        pid, status, used = os.wait4(ran.pid, os.WNOHANG)
        if pid:
            ran.returncode = os.waitstatus_to_exitcode(status)
            return used.ru_utime + used.ru_stime, was_cut
        is_late = limit and time.monotonic() - began > limit
        if is_late or b"\nrt: killed again" in os.pread(out.fileno(), 2**24, 0):
            was_cut = True
            ran.kill()
        time.sleep(0.2)


class Built:
    """How `rt ci` checks a crate over the libraries that it built."""

    def __init__(self):
        where = os.path.realpath(shutil.which("rt") or "rt")
        sys.path.insert(0, os.path.dirname(where))
        loader = importlib.machinery.SourceFileLoader("rt_of_the_kit", where)
        kit = importlib.util.module_from_spec(importlib.util.spec_from_loader(loader.name, loader))
        loader.exec_module(kit)
        self.lib = kit.rtlib
        self.lib.guarded()
        self.crates = {it.name: it for it in self.lib.crates_below(str(TOP))}

    def command(self, crate, only):
        words = self.crates[crate].words(["--jobs", "1", *only], keeps=False)
        return [*self.lib.guarded(), self.lib.RATTLE, "check", *words]


def built_by_rt():
    """How `rt ci` checks, or nothing where this `rt` can't be asked."""
    try:
        found = Built()
        found.command(next(iter(found.crates)), [])
        return found
    except (Exception, SystemExit) as error:
        print(f"this rt can't be asked how it checks over its libraries: {error!r}", file=sys.stderr)
        return None


class Trial:
    """The trials of one crate's edits, on copies in a folder."""

    def __init__(self, crate, below, folder, given):
        self.crate, self.below, self.folder, self.given = crate, [] if given.built else below, folder, given
        self.sum = sum_of([*below, crate])
        self.seconds, self.answered = 0.0, {}
        self.running, self.lock = set(), threading.Lock()

    def room(self, name, of):
        """A copy of the crate and of what it stands on, with their libraries."""
        room = self.folder / self.crate / name
        for low in self.below:
            for part in (*PARTS, "c", "out/rlib", *([KEPT] if of == TOP else [])):
                copied(of / "crates" / low / part, room / "crates" / low / part)
        room.mkdir(parents=True, exist_ok=True)
        rows = (TOP / "crates.txt").read_text(encoding="utf-8").split("\n")
        rows = [it for it in rows if re.split(r"[ :]", it)[0] in (*self.below, self.crate)]
        (room / "crates.txt").write_text("\n".join(rows) + "\n", encoding="utf-8")
        return room

    def renew(self, room, texts, of, with_kept=True):
        """Gives a room the crate's sources, with these texts in place of its own, and the kept work of another."""
        here, there = room / "crates" / self.crate, of / "crates" / self.crate
        for part in PARTS:
            copied(there / part, here / part, shutil.copy2)
        for path, text in texts.items():
            (here / path).write_text(text, encoding="utf-8")
        if with_kept:
            copied(there / KEPT, here / KEPT)

    def base_room(self):
        """The room in which the crate is checked without edits. Where it stayed from a run before, so does its work."""
        base = self.room("base", TOP)
        has_kept = (base / "crates" / self.crate / KEPT).is_dir()
        self.renew(base, {}, TOP, with_kept=not has_kept)
        return base

    def check(self, room, paths, jobs=1, limit=None):
        """Checks what the paths name in a room, or the whole crate if there is none."""
        only = [word for it in paths for word in ("--only", it)]
        with tempfile.TemporaryFile("w+", errors="replace") as out:
            how = {"stdin": subprocess.DEVNULL, "stdout": out, "stderr": subprocess.STDOUT}
            folder = room / "crates" / self.crate
            built = self.given.built
            words = built.command(self.crate, only) if built else ["rt", "check", "--jobs", str(jobs), *only]
            ran = subprocess.Popen(words, cwd=folder, **how)
            self.running.add(ran)
            seconds, was_cut = ended(ran, out, limit)
            self.running.discard(ran)
            out.seek(0)
            said = out.read()
        with self.lock:
            self.seconds += seconds
        return Check(ran.returncode, said, seconds, was_cut)

    def check_without(self, edits):
        """Checks the functions of the edits without them, and keeps which are proved. A path of no function is bad."""
        while edits:
            paths = list(dict.fromkeys(path for it in edits for path in it.by)) if all(it.by for it in edits) else []
            self.without = check = self.check(self.base, paths, self.given.jobs)
            lost = re.search(rf"`{self.crate}` has no function `([^`]*)`", check.said)
            if not lost or lost[1] not in paths:
                break
            for edit in edits:
                edit.bad = f"there is no function {lost[1]}" if lost[1] in edit.by else ""
            edits = [it for it in edits if not it.bad]
        if not check.is_judged():
            self.keep_words("without_edits", check)

    def names_under(self, path, among):
        whole = f"{self.crate}::{path}"
        return [it for it in among if it == whole or it.startswith(whole + "::")]

    def lacks(self, edit):
        """The answer to an edit where something of it isn't there, or isn't proved without it."""
        if edit.bad:
            return BAD, edit.bad
        if self.given.proved:
            return None
        if not edit.by and self.without.status:
            return NOT_TRIED, "the crate isn't proved without it"
        unproved = self.without.unproved()
        for path in edit.by:
            judged = self.names_under(path, [*self.without.proved(), *unproved])
            if not judged and self.without.is_judged():
                return BAD, f"there is no function {path}"
            if not judged or self.names_under(path, unproved):
                return NOT_TRIED, f"{path} isn't proved without it"
        return None

    def refusers(self, edit, check):
        """The functions of the edit that aren't proved with it."""
        found = [name for path in edit.by for name in self.names_under(path, check.unproved())]
        return list(dict.fromkeys(found))

    def answer(self, edit, what, why="", seconds=None, check=None):
        took = f", {seconds:.0f} s" if seconds is not None else ""
        line = f"{what:<10} {edit.name}{': ' + why if why else ''}{took}"
        with self.lock:
            self.answered[edit.name] = what
            print(line, flush=True)
            if self.given.answers:
                with open(self.given.answers, "a", encoding="utf-8") as file:
                    file.write(f"{self.key(edit)} {line}\n")
        if check and what != REFUSED:
            self.keep_words(f"{edit.file.parent.name}_{edit.file.stem}", check)

    def keep_words(self, name, check):
        said = self.folder / "said" / self.crate
        said.mkdir(parents=True, exist_ok=True)
        (said / name).write_text(check.said, encoding="utf-8")

    def key(self, edit):
        total = self.sum.copy()
        total.update(edit.file.read_bytes())
        return total.hexdigest()[:16]

    def try_all(self, edits):
        """Tries the edits that have no answer yet."""
        for edit in edits:
            if edit.bad:
                self.answer(edit, BAD, edit.bad)
        edits = [it for it in edits if not it.bad]
        if not edits:
            return
        self.base = self.base_room()
        if not self.given.proved:
            self.check_without(edits)
        lacking = [(edit, self.lacks(edit)) for edit in edits]
        for edit, answer in lacking:
            if answer:
                self.answer(edit, *answer, check=self.without)
        left = [edit for edit, answer in lacking if not answer]
        self.rooms = queue.Queue()
        for number in range(self.given.jobs):
            self.rooms.put(self.room(f"room-{number}", self.base))
        with ThreadPoolExecutor(self.given.jobs) as pool:
            for done in [pool.submit(self.try_set, it) for it in self.sets(left)]:
                done.result()

    def sets(self, edits):
        """The edits in sets to try in one check: those of the bodies of different functions."""
        found = []
        for edit in edits:
            fits = lambda it: it[0].of_bodies and not any({*edit.by} & {*other.by} for other in it)
            at = next(filter(fits, found), None) if edit.of_bodies and edit.by and not self.given.apart else None
            if at is None:
                found.append([edit])
            else:
                at.append(edit)
        # No worker is to wait for one long set.
        most = max(3, -(-len(edits) // self.given.jobs))
        while found and len(max(found, key=len)) > most:
            longest = max(found, key=len)
            found.remove(longest)
            found += [longest[::2], longest[1::2]]
        return found

    def try_set(self, edits):
        """Tries edits in one check, and those alone that it doesn't refuse."""
        if len(edits) == 1:
            self.try_alone(edits[0])
            return
        texts, why = applied(edits, self.base / "crates" / self.crate)
        paths = list(dict.fromkeys(path for it in edits for path in it.by))
        check = None if why else self.check_with(texts, paths, len(edits))
        if not check or not check.is_judged() or any(unread(it, texts) for it in check.said.split("\n")):
            half = len(edits) // 2
            self.try_set(edits[:half])
            self.try_set(edits[half:])
            return
        refused = [(edit, self.refusers(edit, check)) for edit in edits]
        for edit, found in refused:
            if found:
                self.answer(edit, REFUSED, ", ".join(found), check.seconds / len(edits))
        for edit, found in refused:
            if not found:
                self.try_alone(edit)

    def check_with(self, texts, paths, count=1):
        """Checks with these texts in a room that no other check uses."""
        room = self.rooms.get()
        try:
            self.renew(room, texts, self.base)
            return self.check(room, paths, limit=self.given.seconds * count)
        finally:
            self.rooms.put(room)

    def try_alone(self, edit):
        texts, _ = applied([edit], self.base / "crates" / self.crate)
        check = self.check_with(texts, edit.by)
        if check.status == 0 and edit.by:
            self.try_whole(edit, texts)
        else:
            self.judge(edit, check)

    def judge(self, edit, check):
        """The answer to an edit of which not all is proved."""
        bad = next((it for it in check.said.split("\n") if unread(it, edit.files())), "")
        first = next((it for it in check.said.split("\n") if "error" in it), check.said[:200]).strip()
        if check.was_cut:
            what, why = NOT_TRIED, "its check was cut off"
        elif bad:
            what, why = BAD, f"the prover can't read it: {bad[:160]}"
        elif STALE.search(check.said):
            what, why = NOT_TRIED, "the kept work of a library can't be used"
        elif check.status == 3:
            what, why = NOT_TRIED, "the prover couldn't tell: " + ", ".join(check.unproved())
        elif check.is_judged() and check.status == 1:
            gone = " (only because a proof names what it took away)" if names_gone(check.said) else ""
            what, why = REFUSED, ", ".join(self.refusers(edit, check) or check.unproved()) + gone
        elif check.status == 0:
            what, why = PROVED, ""
        elif check.status in (1, 2):
            what, why = BAD, f"it didn't reach the prover: {first[:160]}"
        else:
            what, why = NOT_TRIED, f"the check ended with status {check.status}"
        self.answer(edit, what, why, check.seconds, check)

    def try_whole(self, edit, texts):
        """Checks the whole crate with an edit that the functions that it turns don't refuse."""
        check = self.check_with(texts, [])
        turned = ", ".join(edit.by)
        if check.was_cut:
            why = f"{turned} is proved with it, and the check of the whole crate was cut off"
            self.answer(edit, NOT_TRIED, why, check.seconds, check)
        elif check.status == 0:
            self.answer(edit, PROVED, turned, check.seconds, check)
        else:
            others = [it.removeprefix(f"{self.crate}::") for it in check.unproved()]
            without = self.check(self.base, others).proved() if others else set()
            if others and not any(self.names_under(it, without) for it in others):
                why = f"{others[0]} isn't proved without it"
                self.answer(edit, NOT_TRIED, why, check.seconds, check)
            else:
                self.judge(edit, check)


def edits_in(given, crate):
    """The files of a crate's edits that are asked for."""
    folders = [] if given.must_fail else [TOP / "tools/plants" / crate]
    folders += [] if given.plants else [TOP / "crates" / crate / "must-fail"]
    files = [file for folder in folders for file in sorted(folder.glob("*.edit"))]
    if given.listed:
        return [it for it in files if it.stem in given.listed.get(crate, [])]
    return [it for it in files if not given.edit or it.stem in given.edit]


def listed_in(file):
    """The names of the edits that a file lists, by their crates."""
    found = {}
    for line in Path(file).read_text(encoding="utf-8").splitlines():
        crate, slash, name = line.partition("#")[0].strip().partition("/")
        if slash:
            found.setdefault(crate, []).append(name)
    return found


def answers_in(file):
    """The answers of runs before, by the sum of the edit and its sources."""
    found = {}
    if file and os.path.exists(file):
        for line in Path(file).read_text(encoding="utf-8").splitlines():
            key, _, answer = line.partition(" ")
            found[key] = answer
    return found


def options():
    parser = argparse.ArgumentParser(usage=__doc__)
    which = parser.add_mutually_exclusive_group()
    which.add_argument("--plants", action="store_true")
    which.add_argument("--must-fail", action="store_true")
    parser.add_argument("--edit", action="append")
    parser.add_argument("--jobs", type=int, default=1)
    parser.add_argument("--seconds", type=int, default=3600)
    parser.add_argument("--apart", action="store_true")
    parser.add_argument("--proved", action="store_true")
    parser.add_argument("--built", action="store_true")
    parser.add_argument("--answers")
    parser.add_argument("--kept", type=Path)
    parser.add_argument("--listed", type=listed_in)
    parser.add_argument("crates", nargs="*", metavar="CRATE")
    given = parser.parse_args()
    given.crates = given.crates or list(given.listed or {})
    if not given.crates:
        parser.error("no crate is named")
    return given


def lacking(given, crate, known):
    """Whether a crate isn't there, or an edit of it that is asked for."""
    wanted = len(given.listed.get(crate, [])) if given.listed else 1
    return crate not in known or len(edits_in(given, crate)) < max(1, wanted)


def ended_by_signal(trials):
    for it in trials:
        for ran in it.running:
            ran.kill()
    os._exit(143)


def try_crate(trial):
    """Tries a crate's edits, and counts its answers."""
    crate, given = trial.crate, trial.given
    edits, known = [read_edit(it, crate) for it in edits_in(given, crate)], answers_in(given.answers)
    left = []
    for edit in edits:
        answer = known.get(trial.key(edit), NOT_TRIED)
        if answer.startswith(NOT_TRIED):
            left.append(edit)
        else:
            trial.answered[edit.name] = next(it for it in (REFUSED, PROVED, BAD) if answer.startswith(it))
            print(answer, flush=True)
    began = time.time()
    trial.try_all(left)
    counts = {it: [*trial.answered.values()].count(it) for it in (REFUSED, PROVED, BAD, NOT_TRIED)}
    told = ", ".join(f"{count} {what}" for what, count in counts.items() if count)
    took = (time.time() - began) / 60
    print(f"{crate}: {told}; {trial.seconds / 60:.1f} min of processor, {took:.1f} min", flush=True)
    return counts[REFUSED] == len(edits)


def main():
    given, known = options(), crates_of(TOP)
    given.proved = given.proved or given.built
    given.built = built_by_rt() if given.built else None
    if given.built is None and "--built" in sys.argv:
        return 3
    for crate in given.crates:
        if lacking(given, crate, known):
            print(f"{crate} has no such edit", file=sys.stderr)
            return 2
    folder = given.kept or Path(tempfile.mkdtemp(prefix="try-edits-"))
    # Over built libraries a crate has few checks, so crates go side by side, and not the checks of one.
    at_a_time = given.jobs if given.built else 1
    given.jobs = 1 if given.built else given.jobs
    with ThreadPoolExecutor(at_a_time) as pool:
        signal.signal(signal.SIGTERM, lambda *_: ended_by_signal(trials))
        trials = [Trial(crate, known[crate], folder, given) for crate in given.crates]
        well = list(pool.map(try_crate, trials))
    if not all(well):
        print(f"what the prover said: {folder / 'said'}")
    for crate in given.crates if not given.kept else []:
        shutil.rmtree(folder / crate, ignore_errors=True)
    if all(well) and not given.kept:
        shutil.rmtree(folder)
    return 0 if all(well) else 1


if __name__ == "__main__":
    sys.exit(main())
