#!/usr/bin/env python3
"""What the documents name is there.

usage: checks/documents.py

The documents are README.md and docs/*.md. Outside blocks of commands each of them is held to the sources by what stands in
backquotes: a path as `crate::Type::call.clause`; a member, as `Record.field`, or as `.clause` of something that its row or
paragraph names; the name of a file; a word with capitals or a `_`. In the pages on contracts each other single word has to be
a call, a definition, a crate or a word of the command line, or a member of what its row names. Links have to lead to a file and a
heading. Beside that:

- docs/map.md has a row for each crate, in the order of crates.txt, in which each crate stands on those above it, and a picture of
  those that the program stands on;
- in docs/definitions.md a word stands in the file that its row names;
- docs/calls.md has each public call with a clause of the crates that the program stands on, and each law, and names no other call;
- in docs/promises.md a definition is one of the crate whose clause is cited beside it, or of one that this crate uses;
- README.md has the figures of the tables of docs/performance.md, and in that section no others;
- no line of text has more than 130 columns, and in the pages that a user reads first no sentence
  has more than 40 words;
- THIRD-PARTY.md is what tools/third_party.py makes, where the kit that it names is there.

That a command prints what a page shows under it is seen by checks/examples.sh.
"""

import difflib
import glob
import os
import re
import subprocess
from collections import defaultdict
from fnmatch import fnmatch

TOP = os.path.realpath(os.path.join(os.path.dirname(os.path.abspath(__file__)), ".."))
# The pages on contracts, where each single word is a name.
ON_CONTRACTS = [f"docs/{page}.md" for page in ("promises", "definitions", "calls", "glossary", "map", "carrying_on", "DECISIONS")]
# The pages that somebody who uses the program reads first.
FOR_USERS = ["README.md", *(f"docs/{page}.md" for page in ("guide", "guarantees", "troubleshooting"))]
# Words in backquotes that look like names of the sources and are others, and what they are.
OTHERS = {
    **dict.fromkeys((".rt", "abbrev", "match", "requires", "Copy"), "words of Rattle"),
    **dict.fromkeys(("cc", "strace", "mypy"), "programs of the system"),
    "None": "what Python has where there is nothing",
    "acquire.check": "a call of the client for Python",
    **dict.fromkeys(("out/", "crates/acquire/out/acquire"), "made by a build"),
    **dict.fromkeys(("night_shift", "Baer"), "names that somebody gives in a vocabulary"),
    "mine.json": "a file that the reader writes",
    "crate::call.clause": "the form of a path",
}
FLOOR = {"acq_loop", "acq_said", "acq_cli"}
NAME = "[A-Za-z_][A-Za-z0-9_]*"
ITEM = re.compile(rf"(?:pub(?:\([a-z]+\))? )?(?:(?:const|unsafe) )*(fn|struct|enum|trait|const|type) ({NAME})")
IMPL = re.compile(rf"impl(?:<.*?>)? (?:.* for )?({NAME})")
CLAUSE = re.compile(rf"\s+(?:requires|ensures)(?: ({NAME}))? \{{")
MEMBER = re.compile(rf"    (?:pub(?:\([a-z]+\))? )?(?:ghost )?({NAME})(?: *[:,=({{]|$)")
DEFINED = re.compile(rf" *(?:(?:abbrev|unfoldable|unfolding) (?:pub )?|(?:pub )?(?=record|data)|pub )(?:(record|data) )?({NAME})(?= ).* :")
PART = re.compile(rf" *(?:pub )?({NAME}) :")


def text_of(name):
    with open(os.path.join(TOP, name), encoding="utf-8") as file:
        return file.read()


class Crate:
    """What a crate declares, in code and in specifications."""

    def __init__(self, name, uses):
        self.name, self.uses = name, uses
        self.modules, self.types, self.consts, self.laws = set(), set(), set(), set()
        self.clauses = defaultdict(set)  # of (type, call), where a function has the type ""; a clause without a name is ""
        self.public = set()  # of these
        self.cited = defaultdict(set)  # what a clause cites
        self.members = defaultdict(set)  # of a type or a record
        self.words = {}  # of a file of specs/
        folder = os.path.join(TOP, "crates", name)
        for path in sorted(glob.glob(folder + "/src/**/*.rt", recursive=True)):
            self.modules.add(os.path.basename(path)[:-3])
            self.read_code(text_of(path).splitlines())
        for path in sorted(glob.glob(folder + "/specs/*.antt")):
            self.read_definitions(os.path.basename(path)[:-5], text_of(path).splitlines())
        proofs = [text_of(path) for path in glob.glob(folder + "/proofs/*.antt")]
        self.lemmas = {name for text in proofs for name in re.findall(rf"(?m)^(?:abbrev )?pub ({NAME}) :", text)}
        self.exported = self.read_exports(folder + "/src")

    def read_code(self, lines):
        """Reads a file in rt fmt's layout: items begin a line, and their members stand behind four blanks."""
        kind = owner = call = clause = None
        depth = 0  # of the braces of the clause that a line goes on with
        for line in lines:
            item = ITEM.match(line.strip())
            if depth or CLAUSE.match(line):
                clause = clause if depth else CLAUSE.match(line)
                depth += line.count("{") - line.count("}")
                if call:
                    self.clauses[call].add(clause[1] or "")
                    self.cited[clause[1]] |= set(re.findall(NAME, line))
            elif impl := IMPL.match(line):
                kind, owner, call = "impl", impl[1], None
            elif item and not line.startswith(" "):
                kind, owner, call = *item.groups(), None
                if kind == "fn":
                    owner, call = None, ("", owner)
                    self.clauses[call] |= set()
                    self.public |= {call} if line.startswith("pub fn") else set()
                    # what takes nothing and gives nothing is called for what it says
                    self.laws |= {call[1]} if line.startswith("pub fn") and line.endswith("()") else set()
                else:
                    (self.consts if kind == "const" else self.types).add(owner)
            elif item and owner and re.match("    [a-z]", line):
                self.members[owner].add(item[2])
                call = None
                if item[1] == "fn":
                    call = (owner, item[2])
                    self.clauses[call] |= set()
                    self.public |= {call} if kind == "trait" or line.startswith("    pub fn") else set()
            elif line == "{}" and call:
                self.laws.add(call[1])
            elif owner and kind != "impl" and (member := MEMBER.match(line)):
                self.members[owner].add(member[1])
            elif owner and re.match("    ghost ", line) and (member := MEMBER.match(line)):
                self.members[owner].add(member[1])

    def read_definitions(self, file, lines):
        words = self.words.setdefault(file, set())
        owner, kind, at = None, "", 0
        for line in lines:
            indent = len(line) - len(line.lstrip())
            if owner and indent == at + 2 and (part := PART.match(line)):
                self.members[owner].add(part[1])
                if kind == "data":
                    words.add(part[1])
            elif found := DEFINED.match(line):
                words.add(found[2])
                owner, kind, at = (found[2], found[1], indent) if found[1] else (None, "", 0)
                if owner:
                    self.members[owner] |= set()
            elif line and indent <= at:
                owner = None

    def read_exports(self, source):
        """The names that the library shows, by `pub use` or in a public module."""
        if not os.path.exists(source + "/lib.rt"):
            return set()
        text = text_of(source + "/lib.rt")
        shown = {name for names in re.findall(r"(?ms)^pub use (.*?);", text) for name in re.findall(rf"{NAME}(?!\w|::)", names)}
        for module in re.findall(r"(?m)^pub mod (\w+);", text):
            shown |= set(re.findall(rf"(?m)^pub (?:fn|struct|enum|trait) ({NAME})", text_of(f"{source}/{module}.rt")))
        return shown

    def calls(self):
        """The public calls that have a clause, without the laws."""
        for (owner, name), clauses in self.clauses.items():
            if clauses and (owner, name) in self.public and (owner or name) in self.exported and name not in self.laws:
                yield owner, name


class Sources:
    def __init__(self):
        lines = [line.split("#")[0].split(":") for line in text_of("crates.txt").splitlines()]
        self.crates = {line[0].split()[0]: Crate(line[0].split()[0], line[1].split()) for line in lines if len(line) == 2}
        self.files = set()
        for folder, folders, files in os.walk(TOP):
            folders[:] = [it for it in folders if it not in (".git", "out", "__pycache__")]
            self.files |= {os.path.relpath(os.path.join(folder, it), TOP) for it in [*folders, *files]}
        self.words = set(re.findall(r"(?<!`)`([a-z]+)\b", text_of("docs/formats.md")))  # of what goes in and out
        self.heads = defaultdict(set)  # the members of each name: fields, variants, methods, clauses
        self.cited = defaultdict(set)  # what the clauses of each name cite
        self.names = set()
        for crate in self.crates.values():
            for owner, members in crate.members.items():
                self.heads[owner] |= members
            for (_, name), clauses in crate.clauses.items():
                self.heads[name] |= clauses
            for clause, cited in crate.cited.items():
                self.cited[clause] |= cited
            self.names |= set(crate.words).union(*crate.words.values())
            self.names |= crate.types | crate.consts | crate.modules | crate.lemmas
            self.names |= {name for _, name in crate.clauses}.union(crate.uses)
        self.types = set().union(*(crate.types for crate in self.crates.values()))
        self.modules = set().union(*(crate.modules for crate in self.crates.values()))
        self.names |= set(self.crates).union(*(self.heads[owner] for owner in self.types))
        self.names |= {os.path.basename(file) for file in self.files}
        self.names |= names_of_client()

    def of_path(self, path):
        """What a path as `crate::module::Type::call` ends in: (crate, type, name) of each thing that it may be."""
        first, *rest = path.split("::")
        crates = [self.crates[first]] if first in self.crates else self.crates.values()
        rest = rest if first in self.crates else [first, *rest]
        for crate in crates:
            steps = rest
            while len(steps) > 1 and steps[0] in crate.modules:
                steps = steps[1:]
            owner, name = ("", steps[0]) if len(steps) == 1 else steps[-2:] if len(steps) == 2 else (None, None)
            if (owner, name) in crate.clauses or name in crate.members.get(owner, ()):
                yield crate, owner, name
            elif owner == "" and name in crate.types | crate.consts | crate.modules | crate.exported:
                yield crate, owner, name

    def members_of(self, word):
        """The members of what a word names, if it names anything."""
        path = word.partition(".")[0]
        if "::" not in path:
            return self.heads.get(path, set())
        found = set()
        for crate, owner, name in self.of_path(path):
            found |= crate.clauses.get((owner, name), set()) | crate.members.get(name, set()) | crate.members.get(owner, set())
        return found

    def has_file(self, name, page, crates):
        """Whether a file is there: from the top, from the page or in one of the crates, or anywhere if it stands without a folder."""
        name = "/".join("*" if part.split(".")[0].isupper() else part for part in name.strip("/").removeprefix("./").split("/"))
        folders = ["", "crates/", os.path.dirname(page) + "/", *(f"crates/{crate}/" for crate in crates)]
        if "/" not in name:
            return any(fnmatch(os.path.basename(file), name) for file in self.files)
        wanted = {os.path.normpath(folder + name + end) for folder in folders for end in ("", ".antt")}
        return any(fnmatch(file, it) for it in wanted for file in (self.files if "*" in it else self.files & {it}))


def names_of_client():
    """The classes and calls of the client for Python."""
    texts = [text_of(os.path.relpath(path, TOP)) for path in glob.glob(TOP + "/python/acquire/*.py")]
    return {name for text in texts for name in re.findall(rf"(?m)^ *(?:class|def) ({NAME})", text)}


class Page:
    def __init__(self, name):
        self.name = name
        self.lines = []  # those outside blocks of commands, with their numbers
        self.headings = set()
        inside = False
        for number, line in enumerate(text_of(name).splitlines(), 1):
            if line.startswith("```"):
                inside = not inside
            elif not inside:
                self.lines.append((number, line))
                if line.startswith("#"):
                    title = re.sub(r"[^\w\- ]", "", line.lstrip("#").strip().lower())
                    self.headings.add(title.replace(" ", "-"))

    def blocks(self):
        """The rows of tables, the items of lists and the paragraphs, each with the number of its first line."""
        block = []
        for number, line in [*self.lines, (0, "")]:
            if block and (not line.strip() or line.startswith(("|", "- ", "#")) or block[-1][1].startswith("|")):
                yield block[0][0], "\n".join(text for _, text in block)
                block = []
            if line.strip():
                block.append((number, line))


def tokens_in(text):
    return re.findall(r"`([^`]+)`", text)


def without_examples(page, text):
    """The last column of definitions.md and what stands behind `Example:` have values and no names."""
    if page.name == "docs/definitions.md" and text.startswith("| "):
        return text.rstrip("| ").rpartition(" | ")[0]
    return text.partition("Example: ")[0]


def perhaps(wanted, names):
    """For a message: which of the names that are there may be meant."""
    alike = difflib.get_close_matches(wanted, sorted(names), 3)
    return f"; perhaps {' or '.join(alike)}" if alike else ""


def path_faults(sources, path, clause):
    found = list(sources.of_path(path))
    members = set().union(*(it.clauses.get((owner, name), set()) | it.members.get(name, set()) for it, owner, name in found))
    if not found:
        yield "there is no such path" + perhaps(path.split("::")[-1], sources.names)
    elif clause and clause not in members:
        yield f"it has no {clause}" + perhaps(clause, members)


def member_faults(sources, head, member, near):
    """`head` is a type, a record or a call; or it is a clause of what stands beside it, and then what the clause cites has the member."""
    heads = ({head} | (sources.cited[head] if head in near else set())) & sources.heads.keys()
    members = set().union(*(sources.heads[it] for it in heads))
    if not heads:
        yield f"there is no {head}" + perhaps(head, sources.heads)
    elif member not in members:
        yield f"{head} has no {member}" + perhaps(member, members)


def token_faults(sources, page, token, near, crates):
    """What is wrong with what stands in backquotes; `near` has the members of all that its block names, `crates` the crates."""
    if re.fullmatch(rf"(?:{NAME}::)+{NAME}(?:\.{NAME})?", token):
        path, _, clause = token.partition(".")
        yield from path_faults(sources, path, clause)
    elif re.fullmatch(rf"\.{NAME}", token):
        if token[1:] not in near:
            yield "nothing that is named beside it has such a clause or member" + perhaps(token[1:], near)
    elif re.fullmatch(r"[\w./*\-]*\.(?:rt|antt|py|md|sh|edit|json|txt)|[\w.\-]+/[\w./\-]*", token):
        if not sources.has_file(token, page.name, crates):
            yield "there is no such file"
    elif re.fullmatch(rf"{NAME}\.{NAME}", token):
        yield from member_faults(sources, *token.split("."), near)
    elif re.fullmatch(NAME, token) and (re.search("[a-z]", token) or "_" in token):
        is_name = re.search("[A-Z_]", token) or page.name in ON_CONTRACTS
        if is_name and token not in sources.names | sources.words | near:
            yield "no name of the sources, and no member of what is named beside it" + perhaps(token, sources.names | near)
    elif " " in token:
        for piece in re.findall(r"(?<![\w/.=])(?:\./)?(?:checks|bench|crates|docs|tools|desk|man|completions|\.ci)/[\w./]+", token):
            if not sources.has_file(piece, page.name, crates):
                yield f"there is no file {piece}"


def naming_faults(sources, page):
    for number, text in page.blocks():
        tokens = tokens_in(without_examples(page, text))
        near = set().union(*(sources.members_of(word) for token in tokens for word in token.split()))
        crates = sources.crates.keys() & set(re.findall(NAME, text)) or sources.crates.keys()
        for token in dict.fromkeys(tokens):
            if token not in OTHERS:
                for fault in token_faults(sources, page, token, near, crates):
                    yield number, f"`{token}`: {fault}"


def citing_faults(sources, page):
    """A definition that docs/promises.md names beside a clause is one of the crate whose clause is cited there, or of a crate that it
    uses; elsewhere there may be another one of that name, which a reader would take for it."""
    homes = defaultdict(set)
    for name, crate in sources.crates.items():
        for word in set().union(*crate.words.values()):
            homes[word].add(name)
    for number, text in page.blocks():
        tokens = tokens_in(text)
        cited = {token.split("::")[0] for token in tokens if "::" in token} & set(sources.crates)
        # The program's floor is one in three crates.
        near = cited.union(FLOOR if cited & FLOOR else set())
        near = near.union(*(sources.crates[crate].uses for crate in near))
        for token in dict.fromkeys(tokens):
            word = token.partition(".")[0]
            if cited and re.fullmatch("[A-Z][A-Za-z]+", word) and homes.get(word) and not homes[word] & near:
                yield number, f"`{token}`: it is of {', '.join(sorted(homes[word]))}, and the clauses that are cited there are of {', '.join(sorted(cited))}"


def link_faults(pages, page):
    for number, line in page.lines:
        for target in re.findall(r"\]\(([^)\s]+)\)", line):
            file, _, heading = target.partition("#")
            name = os.path.normpath(os.path.join(os.path.dirname(page.name), file)) if file else page.name
            if "://" in target:
                continue
            if not os.path.exists(os.path.join(TOP, name)):
                yield number, f"the link to {target}: there is no such file"
            elif heading and heading not in (pages.get(name) or Page(name)).headings:
                yield number, f"the link to {target}: {name} has no such heading"


def map_faults(sources, page):
    rows = [(number, line.split("`")[1]) for number, line in page.lines if re.match(rf"\| `{NAME}` \|", line)]
    order = list(sources.crates)
    for number, crate in rows:
        if crate not in order:
            yield number, f"{crate} isn't in crates.txt"
    for crate in order:
        if crate not in [it for _, it in rows]:
            yield 1, f"crate {crate} has no row"
    rows = [(number, crate) for number, crate in rows if crate in order]
    for (number, crate), wanted in zip(rows, [it for it in order if it in [name for _, name in rows]]):
        if crate != wanted:
            yield number, f"crate {crate} stands where crates.txt has {wanted}"
            break
    for place, crate in enumerate(order):
        for used in sources.crates[crate].uses:
            if used in order[place:]:
                yield 1, f"in crates.txt {crate} uses {used}, which doesn't stand above it"


def picture_faults(sources, page):
    """The picture has each crate that the program stands on once, on a line above those on which that one stands."""
    at = defaultdict(list)
    for number, line in enumerate(text_of(page.name).split("```")[1].splitlines()):
        for word in re.findall(NAME, line):
            at[word].append(number)
    for crate in [*product(sources), "acquire"]:
        if len(at.get(crate, [])) != 1:
            yield 1, f"the picture has {crate} {len(at.get(crate, []))} times"
            continue
        for used in sources.crates[crate].uses:
            if used in at and at[used][0] <= at[crate][0]:
                yield 1, f"in the picture {used} doesn't stand below {crate}, which uses it"


def definition_faults(sources, page):
    """A row begins with words and, in brackets, the file of specs/ that has them; a bare file is one of the crates of its chapter."""
    chapter = []
    for number, line in page.lines:
        if line.startswith("#"):
            chapter = []
        chapter += [crate for crate in re.findall(rf"`({NAME})/specs", line) if not line.startswith("|")]
        if not line.startswith("| ") or line.startswith("| word |"):
            continue
        words = []
        for is_file, word in re.findall(r"(\(?)`([^`]+)`", re.split(r"(?<!\\) \| ", line)[0]):
            if not is_file:
                words.append(word)
                continue
            crate, _, file = word.partition("/specs")
            crates, file = ([crate], file.strip("/")) if "/specs" in word else (chapter, word)
            found = [it for name in crates if name in sources.crates for at, it in sources.crates[name].words.items() if file in ("", at)]
            where = " or ".join(f"crates/{name}/specs/{file}.antt" if file else f"crates/{name}/specs" for name in crates)
            if not found:
                yield number, f"there is no {where}"
            for name in words:
                if found and re.fullmatch(NAME, name) and not any(name in it for it in found):
                    at = [f"{it.name}/specs/{file}" for it in sources.crates.values() for file, has in it.words.items() if name in has]
                    other = f", but in {' and '.join(at)}" if at else ", nor in another file of specs/"
                    yield number, f"`{name}` isn't in {where}{other}"
            words = []


class Listed:
    """What docs/calls.md lists: calls and laws, by crate; where a crate's chapter and the laws begin; what is listed and isn't there."""

    def __init__(self, sources, page):
        self.calls, self.laws, self.wrong = defaultdict(set), defaultdict(set), []
        self.chapters, self.at_laws = {}, 1
        crates, in_laws = [], False
        for number, line in page.lines:
            if line.startswith("## "):
                crates = [it for it in re.findall(NAME, line) if it in sources.crates]
                self.chapters.update((crate, number) for crate in crates)
                if in_laws := line == "## Laws":
                    self.at_laws = number
                crates = crates or list(sources.crates)
            cells = [cell.strip() for cell in re.split(r"(?<!\\)\|", line)[1:-1]]
            if len(cells) < 2 or cells[0] in ("call", "crate") or cells[0].startswith("-"):
                continue
            if in_laws:
                self.read_laws(sources, number, cells)
            else:
                self.read_calls(sources, number, crates, cells[0])

    def read_laws(self, sources, number, cells):
        for law in re.findall(NAME, cells[1]):
            if cells[0] in sources.crates and law in sources.crates[cells[0]].laws:
                self.laws[cells[0]].add(law)
            else:
                self.wrong.append((number, f"`{law}`: {cells[0]} has no such law"))

    def read_calls(self, sources, number, crates, cell):
        """Words behind a type, or behind types, are calls of these, and else of any type of the crates."""
        owners, before = set(), ""
        for word in (word for text in tokens_in(cell) for word in text.split()):
            of, _, name = word.rpartition("::")
            if name in sources.types:
                owners = (owners if before in sources.types else set()) | {name}
            elif of:
                owners = {"" if of in sources.modules else of}
            before = name
            found = [(crate, it) for crate in crates for it in sources.crates[crate].clauses if it[1] == name]
            found = [it for it in found if it[1][0] in owners] or [it for it in found if not of]
            if not found and name not in sources.types:
                self.wrong.append((number, f"`{word}`: no such call in {' or '.join(crates)}"))
            for crate, it in found:
                self.calls[crate].add(it)


def product(sources):
    """The crates that the program stands on."""
    found, todo = set(), ["acquire"]
    while todo:
        found.add(crate := todo.pop())
        todo += [it for it in sources.crates[crate].uses if it in sources.crates and it not in found]
    return [crate for crate in sources.crates if crate in found and crate != "acquire"]


def call_faults(sources, page):
    listed = Listed(sources, page)
    yield from listed.wrong
    for name in product(sources):
        crate = sources.crates[name]
        for owner, call in sorted(set(crate.calls()) - listed.calls[name]):
            clauses = " ".join(sorted(crate.clauses[owner, call] - {""})) or "one without a name"
            yield listed.chapters.get(name, 1), f"no row for {name}::{owner and owner + '::'}{call}, whose clauses are {clauses}"
        for law in sorted(crate.laws - listed.laws[name]):
            yield listed.at_laws, f"no law {law} in the row of {name}"


def rows_under(head):
    """The rows of the table of docs/performance.md with this head, by their first cell."""
    lines = text_of("docs/performance.md").split(head)[1].split("\n\n")[0].split("\n")[2:]
    rows = [[cell.strip() for cell in line.strip("|").split("|")] for line in lines]
    return {row[0]: row[1:] for row in rows}


def longest_waits(columns):
    """The longest wait of each row of the table of full tables, in seconds, in some of its columns."""
    rows = rows_under("| case | variables, scopes, constraints | `scopes` | `quacq` | `multi` |")
    wait = lambda cell: float(cell.split("; ")[1].removeprefix(">"))
    return {case: max(wait(row[column]) for column in columns) for case, row in rows.items()}


def found_in(page, pattern):
    """What a pattern finds in a page, or a word that no other page has in its place."""
    found = re.search(pattern, " ".join(text_of(page).split()))
    return found[1] if found else f"<what {page} no longer says>"


def due_figures():
    """The sentences of README.md on what was measured, and on what is the most."""
    asked = rows_under("| task | variables, scopes, candidates | `scopes` | `quacq` | `multi` |")
    of = lambda task, column: asked[task][column].split(" of ")[0]
    candidates = lambda task: asked[task][0].split(", ")[2]
    yield f"A roster with {candidates('roster')} possible constraints takes {of('roster', 2)} questions."
    exams = "100 exams"
    by_scopes = f"and {of(exams, 1)} in plan `scopes`."
    yield f"{exams} with {candidates(exams)} take {of(exams, 2)}, {by_scopes}"

    timed = rows_under("| case | variables, scopes, constraints | questions | ending |")
    done = {case: row for case, row in timed.items() if row[2] == "converged"}
    others = [int(row[6]) for case, row in done.items() if "Golomb" not in case]
    ruler = next(int(row[6]) for case, row in done.items() if "Golomb" in case)
    took = f"a question took {min(others)} to {max(others)} us of a processor"
    yield f"{took} ({ruler / 1000:.2f} ms on a Golomb ruler)"
    yield f"nobody waited for more than {max(float(row[7]) for row in done.values()):.0f} ms"
    memory = [float(row[8].removesuffix(" MB")) for row in done.values()]
    yield f"and {min(memory)} to {max(memory)} MB were enough"

    full = longest_waits([1, 2, 3])
    longest = lambda word: max(wait for case, wait in full.items() if word in case)
    yield f"of a Sudoku one waits for {longest('Sudoku')} s of a processor and more"
    yield f"of a league for {longest('by teams')} s"
    yield f"with 1,800 constraints between 128 variables for {longest('1,800 mixed'):.0f} s."
    has_none = max(longest_waits([1]).values()) < 0.01
    yield f"Plan `scopes` has {'no such wait' if has_none else 'such waits too'}"
    wait = found_in("docs/performance.md", "0.06 s under 1,000, with 1,800 it was ([0-9.]+) s")
    yield f"under a `--budget` of 1,000 none was above {wait} s."

    names = found_in("docs/formats.md", "1 to ([0-9,]+) names")
    values = found_in("docs/formats.md", "1 to ([0-9,]+) values")
    scopes = found_in("docs/formats.md", "at most ([0-9,]+) scopes")
    yield f"The largest languages have {names} variables, {values} values and {scopes} scopes."


def figure_faults(page):
    """Whether README.md has the figures of the tables, and in that section no others."""
    number = next(number for number, line in page.lines if line == "## Numbers")
    said = " ".join(text_of(page.name).split("\n## Numbers\n")[1].split("\n## ")[0].split())
    for text in due_figures():
        if text not in said:
            yield number, f"the tables of docs/performance.md and docs/formats.md have: {text}"
        said = said.replace(text, "")
    if left := re.findall("[0-9][0-9.,]*", said):
        yield number, f"no table is known for {left[0]}"


def width_faults(page):
    """Lines of text longer than a screen; a row of a table or a picture can't be broken."""
    for number, line in page.lines:
        if len(line) > 130 and not line.startswith(("|", "![")):
            yield number, f"the line has {len(line)} columns, and 130 are the most"


def sentence_faults(page):
    """Sentences too long to be quoted."""
    for number, text in page.blocks():
        plain = re.sub(r"`[^`]*`|\]\([^)]*\)", "x", text)
        for sentence in re.split(r"[.!?][*`)]*\s| \| ", plain):
            if (count := len(re.findall(r"[^\s]*\w[^\s]*", sentence))) > 40:
                begun = " ".join(sentence.split()[:8])
                yield number, f"a sentence has {count} words, and 40 are the most: {begun} .."


def third_party_faults(page):
    """Whether the page of third parties is the one that the kit's libraries give."""
    try:
        kit = subprocess.run(["rt", "version"], capture_output=True, text=True, check=True).stdout.strip()
    except (OSError, subprocess.CalledProcessError):
        kit = None
    if kit is None or kit not in text_of(page.name):
        print("documents: passed over: the kit of THIRD-PARTY.md isn't there, so its libraries aren't looked at")
    elif subprocess.run([TOP + "/tools/third_party.py"], capture_output=True, text=True, check=True).stdout != text_of(page.name):
        yield 1, "it isn't what tools/third_party.py makes: tools/third_party.py > THIRD-PARTY.md"


def main():
    sources = Sources()
    names = ["README.md", *sorted(os.path.relpath(path, TOP) for path in glob.glob(TOP + "/docs/*.md"))]
    pages = {name: Page(name) for name in [*names, "THIRD-PARTY.md"]}
    parts = [(name, lambda page: naming_faults(sources, page)) for name in names]
    parts += [(name, lambda page: link_faults(pages, page)) for name in names]
    parts += [("docs/map.md", lambda page: map_faults(sources, page)), ("docs/map.md", lambda page: picture_faults(sources, page))]
    parts += [("docs/definitions.md", lambda page: definition_faults(sources, page))]
    parts += [("docs/calls.md", lambda page: call_faults(sources, page))]
    parts += [("docs/promises.md", lambda page: citing_faults(sources, page))]
    parts += [("README.md", figure_faults), ("THIRD-PARTY.md", third_party_faults)]
    parts += [(name, width_faults) for name in pages]
    parts += [(name, sentence_faults) for name in FOR_USERS]
    failed = 0
    for name, faults in parts:
        found = list(faults(pages[name]))
        failed += bool(found)
        for number, fault in found:
            print(f"documents: {name}:{number}: {fault}")
    print(f"documents: {len(parts) - failed} passed, {failed} failed")
    return 1 if failed else 0


raise SystemExit(main())
