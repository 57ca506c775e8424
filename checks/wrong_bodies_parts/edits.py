"""Edits of the sources, as wrong bodies of functions that stand behind a switch.

An edit has lines `file:`, `old:` and `new:`, as `rt must-fail` reads them: an old text stands once,
and a line takes the place of a line. So lines keep their numbers, and the function around one that
changes is found by the layout of `rt fmt`, which ends a body with a brace below its `fn`. What an
edit changes in specifications is passed over.
"""

from __future__ import annotations

import collections
import dataclasses
import glob
import hashlib
import os
import re
import shutil

TOP = os.path.realpath(f"{os.path.dirname(os.path.abspath(__file__))}/../..")
FOLDERS = ("crates/*/must-fail", "checks/wrong_bodies/*", "checks/wrong_bodies/same/*")
FUNCTION = re.compile(r"( *)(?:pub(?:\([a-z]+\))? )?(?:const |safe |unsafe )*fn [a-z_0-9]+.*")


class BadEdit(Exception):
    """An edit that can't be put behind the switch, and why."""


@dataclasses.dataclass(frozen=True)
class Body:
    """A text for the lines between a function's braces. Without braces it is one function more. It
    may need a copy of the right function, under another name, behind it."""

    path: str
    braces: tuple[int, int] | None
    text: str
    copy: str = ""


@dataclasses.dataclass
class Edit:
    """An edit by its name, CRATE/SENTENCE. `same` says that the bodies mean the same as the right
    ones. It has a number, and so has each function that it changes."""

    name: str
    file: str
    same: bool
    bodies: list[Body] = dataclasses.field(default_factory=list)
    number: int = 0
    functions: dict[Body, int] = dataclasses.field(default_factory=dict)

    @property
    def crate(self) -> str:
        """The crate that it changes."""
        return self.name.split("/")[0]


def find_edits() -> list[Edit]:
    """All edits of the repository, by name."""
    found = []
    for file in (file for folder in FOLDERS for file in glob.glob(f"{TOP}/{folder}/*.edit")):
        parts = file.split("/")
        crate = parts[-3] if parts[-2] == "must-fail" else parts[-2]
        found.append(Edit(f"{crate}/{parts[-1][:-5]}", file, parts[-3] == "same"))
    return sorted(found, key=lambda edit: edit.name)


def lines_of(file: str) -> list[str]:
    """The lines of a source."""
    with open(file, encoding="utf-8") as source:
        return source.read().split("\n")


def edited(edit: Edit) -> dict[str, list[str]]:
    """The lines of each source that the edit changes, as it leaves them."""
    texts: dict[str, str] = {}
    path = old = ""
    for line in lines_of(edit.file):
        word, _, rest = line.partition(":")
        rest = rest.removeprefix(" ")
        if word == "file":
            path = rest.strip()
        elif word == "old":
            old = rest
        elif word == "new":
            source = f"{TOP}/crates/{edit.crate}/{path}"
            if not os.path.isfile(source):
                raise BadEdit(f"its crate has no {path}")
            text = texts.get(path) or "\n".join(lines_of(source))
            if text.count(old) != 1:
                raise BadEdit(f"`{old.strip()}` stands {text.count(old)} times in {path}")
            texts[path] = text.replace(old, rest)
    return {path: text.split("\n") for path, text in texts.items() if path.startswith("src/")}


def braces_in(lines: list[str]) -> list[tuple[int, int]]:
    """The numbers of the lines that hold the braces of each function's body."""
    found = []
    for first, line in enumerate(lines):
        function = FUNCTION.match(line)
        if not function or line.endswith((";", "}")):
            continue
        indent = function[1]
        last = next((i for i in range(first, len(lines)) if lines[i] == indent + "}"), 0)
        # Behind a contract the brace has a line of its own, else it ends the signature.
        opens = [i for i in range(first, last) if lines[i] == indent + "{"] or [
            i for i in range(first, last)
            if lines[i].endswith("{") and (i == first or lines[i].startswith(indent + ")"))]
        if opens:
            found.append((opens[0], last))
    return found


def read_bodies(edit: Edit) -> None:
    """Finds the bodies that the edit changes, as it leaves them."""
    found = []
    for path, wrong in edited(edit).items():
        right = lines_of(f"{TOP}/crates/{edit.crate}/{path}")
        spans = braces_in(right)
        for place, (was, now) in enumerate(zip(right, wrong)):
            if was == now:
                continue
            braces = next((span for span in spans if span[0] < place < span[1]), None)
            if braces:
                found.append(Body(path, braces, "\n".join(wrong[braces[0] + 1 : braces[1]])))
            elif was.startswith("///") and FUNCTION.match(now):
                found.append(Body(path, None, now))
            else:
                raise BadEdit(f"line {place + 1} of {path} isn't within a function's body")
    if not found:
        raise BadEdit("it changes nothing")
    edit.bodies = list(dict.fromkeys(found))


def number(edits: list[Edit]) -> None:
    """Numbers the edits and the functions that they change, from 1 on."""
    functions: dict[tuple, int] = {}
    for place, edit in enumerate(edits, 1):
        edit.number = place
        for body in edit.bodies:
            if body.braces:
                key = (edit.crate, body.path, body.braces)
                edit.functions[body] = functions.setdefault(key, len(functions) + 1)


def switch_of(edits: list[Edit]) -> str:
    """What puts these edits on: FUNCTION=NUMBER for each function that one changes."""
    return " ".join(f"{function}={edit.number}" for edit in edits
                    for function in sorted(set(edit.functions.values())))


def together(edits: list[Edit]) -> list[list[Edit]]:
    """The edits in groups that can be put on together: no two of a group change one function."""
    groups: list[tuple[list[Edit], set[int]]] = []
    for edit in edits:
        mine = set(edit.functions.values())
        group = next((group for group in groups if not group[1] & mine), None)
        if group is None:
            group = ([], set())
            groups.append(group)
        group[0].append(edit)
        group[1].update(mine)
    return [members for members, _ in groups]


class Sources:
    """Copies of the crates' sources in a folder, with the bodies of edits behind the switch."""

    def __init__(self, folder: str, edits: list[Edit]):
        self.folder = folder
        self.crates = {edit.crate for edit in edits}
        # the lines of each body, and those of each function with all its bodies
        self.places: dict[str, list[tuple[int, int, Edit]]] = collections.defaultdict(list)
        self.around: dict[str, list[tuple[int, int, Edit]]] = collections.defaultdict(list)
        shutil.rmtree(folder, ignore_errors=True)
        for crate in sorted(self.crates):
            shutil.copytree(f"{TOP}/crates/{crate}/src", f"{folder}/{crate}/src")
            mine = [edit for edit in edits if edit.crate == crate]
            for path in sorted({body.path for edit in mine for body in edit.bodies}):
                self.write(f"{folder}/{crate}/{path}", [
                    (edit, body) for edit in mine for body in edit.bodies if body.path == path])

    def write(self, file: str, bodies: list[tuple[Edit, Body]]) -> None:
        """Puts bodies into a source, and notes the lines of each."""
        right, written, place = lines_of(file), [], 0
        for braces in sorted({body.braces for _, body in bodies if body.braces}):
            arms = [(edit, body) for edit, body in bodies if body.braces == braces]
            function = arms[0][0].functions[arms[0][1]]
            written += right[place : braces[0] + 1] + [f"match libc::getpgid({function}) {{"]
            first = len(written)
            for edit, body in arms:
                self.add(written, file, edit, f"{edit.number} => {{\n{body.text}\n}}")
            written += ["_ => {", *right[braces[0] + 1 : braces[1]], "}", "}", right[braces[1]]]
            for copy in dict.fromkeys(body.copy for _, body in arms if body.copy):
                written += copy.split("\n")
            self.around[file] += [(first, len(written), edit) for edit, _ in arms]
            place = braces[1] + 1
        written += right[place:]
        for edit, body in bodies:
            if not body.braces:
                self.add(written, file, edit, body.text)
        with open(file, "w", encoding="utf-8") as source:
            source.write("\n".join(written))

    def add(self, written: list[str], file: str, edit: Edit, text: str) -> None:
        """Adds an edit's lines to those of a file."""
        lines = text.split("\n")
        self.places[file].append((len(written) + 1, len(written) + len(lines), edit))
        written += lines

    def stamp(self, crates: set[str], place: str) -> str:
        """A text that stays as it is as long as the bodies and the sources of these crates do,
        which are laid out at a place."""
        sums = hashlib.sha256()
        for crate in sorted(crates):
            for folder in (f"{self.folder}/{crate}", f"{place}{crate}/src"):
                for file in sorted(glob.glob(f"{folder}/**/*.rt", recursive=True)):
                    with open(file, "rb") as source:
                        sums.update(file.encode() + b"\0" + source.read() + b"\0")
        return sums.hexdigest()

    def blamed(self, said: str) -> dict[str, str]:
        """The edits in whose lines the compiler finds an error, each with the first one. Where it
        finds one beside them in their function, that are all edits of the function."""
        found: dict[str, str] = {}
        for file, line, error in re.findall(r"(?m)^(\S+?\.rt):(\d+):\d+: (error.*)", said):
            within = [[edit.name for first, last, edit in places.get(file, [])
                       if first <= int(line) <= last] for places in (self.places, self.around)]
            for name in within[0] or within[1]:
                found.setdefault(name, error[:200])
        return found
