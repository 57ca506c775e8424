#!/usr/bin/env python3
"""Breaks the long lines of sources, specifications and proofs, each at its outermost operators.

usage: tools/width.py [--check] [--without-proofs] [FILE-OR-FOLDER..]

All of crates/ is meant where nothing is named. A line over 100 columns is broken; all others stay
as they are. A clause or a statement goes on behind `→`, `=`, `in` and `λ x.`, before `×`, `⊎`, `↔`,
`∙` and lesser operators, and else before an argument, with as few lines and as little depth as it
can. A record, a tuple or cases that fit in no line get a line for each part. An import goes on in a
second import of the same module, since `rt fmt` would give each name a line. A paragraph of
comments is filled anew where a line of it is over. The indentation is that of `rt fmt`, which is
run on a copy.

A text that an edit (`must-fail/`, `checks/wrong_bodies/`, `checks/must_not_compile/`) names as
`old:` stays on one line. Each file is read again at the end: its words are the same, and so are
those of its comments. With --check nothing is written, each file that would change is named, and
the status is 1 if there is one.
"""

import glob
import os
import re
import subprocess
import sys
import tempfile

TOP = os.path.dirname(os.path.dirname(os.path.realpath(__file__)))
WIDTH = 100
# So many rounds of breaking and `rt fmt` at most: a record within a record takes one more each.
ROUNDS = 12
WORD = re.compile(r'"(?:[^"\\]|\\.)*"|[^\s"]+|"')
USE = re.compile(r"( *(?:(?:pub|ghost|unfoldable|abbrev|pattern) )*use [^\s{]+\.)\{([^{}]*)\}(;?)")
COMMENT = re.compile(r"( *(?:--|///|//!|//)(?!/) )( *)(?=\S)")
# The mark of an item of a list, and what a comment's line begins with that isn't filled.
ITEM = re.compile(r"(?:[-*]|\d+\.) +(?=\S)")
FIXED = ("|", "#", "```", "    ")
CLAUSE = re.compile(r" *(?:requires|ensures|decreases|(?:pub )?ghost (?!use\b|fn\b))[^{}]*\{")
# What a break costs before and behind an operator. A line costs LINE, a level of brackets DEEPER.
# Behind an arrow a line more is cheaper than a break at a lesser operator or at an argument.
LINE, DEEPER, NEVER = 10, 12, 10_000
BEHIND = {"→": 0, "in": 0, "=": 0.5, "↦": 1, "←": 1}
BEFORE = {"×": 1, "⊎": 1, "↔": 1, "∙": 1, "then": 2, "else": 2, "++": 6, "∷": 8}
BEFORE |= dict.fromkeys(("≡", "≢", "≤", "<", "=="), 12) | dict.fromkeys(("+", "-", "*"), 14)
# What stands with the word behind it.
WITH_NEXT = set("λ ¬ { [ let elim as record data Type module abbrev pub open".split())
WITH_NEXT |= set("unfoldable unfolding pattern ruleset".split())
WITH_LAST = set("→ = : as in where } }. ] [ { ; ↦ ←".split())


def words_of(text):
    """The places of a text's words. What stands in quotes is one, with what stands at it."""
    found, end = [], -1
    for it in WORD.finditer(text):
        if it.start() == end:
            found[-1] = (found[-1][0], it.end())
        else:
            found.append(it.span())
        end = it.end()
    return found


def code_of(line):
    """A line's length without a comment behind code."""
    at = re.search(r"\s(?:--|//) ", line)
    return line if at is None or line[: at.start()].count('"') % 2 else line[: at.start()]


class Line:
    """A line of antt's text that is broken. `kept` are the spans of it that stay whole."""

    def __init__(self, text, further, kept):
        self.text, self.further, self.is_clause = text, further, CLAUSE.match(text) is not None
        self.spans = words_of(text)
        self.words = [text[a:b] for a, b in self.spans]
        self.costs = [self.cost(i) for i in range(len(self.words))]
        depths, depth = [], 0
        for word in self.words:
            depths.append(depth)
            if not word.startswith('"'):
                depth += (
                    sum((it in "({⟦") - (it in ")}⟧") for it in word)
                    + (word == "[")
                    - (word == "]")
                )
        # A break before a word lies as deep as the brackets that are open there.
        self.depths = [it - min(depths) for it in depths]
        names = False
        for i, word in enumerate(self.words):
            if names:
                self.costs[i] += 30
            names = (names or word.lstrip("(⟦{") == "λ") and not word.endswith(".")
        for i, (start, _) in enumerate(self.spans):
            if any(a < start < b for a, b in kept):
                self.costs[i] = NEVER
        self.groups = self.find_groups()
        for first, last, _ in self.groups:
            for i in range(first + 1, last + 1):
                self.costs[i] = NEVER

    def cost(self, i):
        """What a break before word i costs, if it stood in no bracket."""
        if i == 0:
            return NEVER
        last, word = self.words[i - 1], self.words[i]
        if (
            last.lstrip("(⟦{") in WITH_NEXT
            or word in WITH_LAST
            or word == "("
            or last.endswith(("(", "⟦"))
            or self.is_head(i)
        ):
            return NEVER
        if last in BEHIND:
            return BEHIND[last]
        if word in BEFORE:
            return BEFORE[word]
        if last in BEFORE:
            return NEVER
        if last.endswith(".") and re.match(r"[\w\-'«»,)}]+\.$", last):
            return 4
        if last == ":":
            return 12
        # The name of what is applied doesn't stand alone.
        is_first = (
            i == 1
            or last.startswith(("(", "{"))
            or self.words[i - 2] in BEHIND | BEFORE
            or self.words[i - 2].endswith(".")
        )
        return (13 if word.startswith(("(", "{", "λ", "⟦", '"')) else 16) + 8 * is_first

    def is_head(self, i):
        """Whether all that stands before word i is the head of a clause."""
        return self.is_clause and "{" not in self.text[: self.spans[i - 1][0]]

    def find_groups(self):
        """The outermost tuples, records and cases, each by its first and last word, and the places
        of its brackets and of what parts it. `rt fmt` gives each part a line where one has a break.
        """
        stack, found = [], []
        for i, word in enumerate(self.words):
            if word.startswith('"'):
                continue
            marks = word if word in ("[", "]", "|") else re.sub(r"[^(){},;⟦⟧]", " ", word)
            for at, mark in enumerate(marks):
                if mark in "([{⟦":
                    is_record = (
                        mark == "{"
                        and "record"
                        in self.words[max(0, i - 2) : i] + self.words[max(0, i - 1) : i]
                    )
                    stack.append([mark, i, at, False, is_record or self.opens_record(i), []])
                elif mark in ",;|" and stack:
                    stack[-1][3] = True
                    stack[-1][5].append((i, at))
                elif mark in ")]}⟧" and stack:
                    kind, first, column, parted, is_record, parts = stack.pop()
                    whole = (
                        kind == "("
                        and parted
                        or kind == "{"
                        and is_record
                        or kind == "["
                        and parted
                    )
                    if whole:
                        found = [it for it in found if not (first <= it[0] and it[1] <= i)] + [
                            (first, i, (kind, column, at, parts))
                        ]
        return found

    def opens_record(self, i):
        """Whether the brace of word i is that of a record, as in `record r {`."""
        depth = 0
        for j in range(i - 1, -1, -1):
            depth += sum((it in ")}") - (it in "({") for it in self.words[j])
            if depth < 0:
                return self.words[j].endswith("(record")
            if depth == 0 and self.words[j].lstrip("({⟦") == "record":
                return all(it not in ("→", "×", "=") for it in self.words[j:i])
        return False

    def best(self):
        """The cheapest breaks, by the words before which they stand."""
        count = len(self.words)
        costs, breaks = [0.0] + [float("inf")] * count, [0] * (count + 1)
        for j in range(1, count + 1):
            for i in range(j - 1, -1, -1):
                wide = self.width(i, j)
                if wide > WIDTH and costs[j] < NEVER and i:
                    continue
                cost = costs[i] + LINE + (self.costs[i] + DEEPER * self.depths[i] if i else 0)
                if wide > WIDTH:
                    cost += 200 + 5 * (wide - WIDTH)
                elif j < count:
                    cost += 3 * ((WIDTH - wide) / WIDTH) ** 2
                if cost < costs[j]:
                    costs[j], breaks[j] = cost, i
        found = [breaks[count]]
        while found[0]:
            found.insert(0, breaks[found[0]])
        found = found[1:]
        return found

    def width(self, i, j):
        """How wide a line is of the words from i to before j."""
        return self.spans[j - 1][1] - (self.spans[i][0] - self.further if i else 0)

    def broken(self):
        found = self.best()
        for i, j in zip([0] + found, found + [len(self.words)]):
            inside = [it for it in self.groups if i <= it[0] and it[1] < j]
            if self.width(i, j) > WIDTH and inside:
                return self.opened(max(inside, key=lambda it: self.width(it[0], it[1] + 1)))
        if any(self.costs[it] >= NEVER for it in found):
            found = [it for it in found if self.costs[it] < NEVER]
        lines, places = [], [0] + [self.spans[it][0] for it in found] + [len(self.text)]
        for a, b in zip(places, places[1:]):
            lines.append((" " * self.further if a else "") + self.text[a:b].rstrip())
        return lines

    def opened(self, group):
        """The line with a line for each part of a group. `rt fmt` indents them, and sets what ends
        the last one."""
        first, last, (kind, column, at, parts) = group
        start = self.spans[first][0] + column + 1
        stop = self.spans[last][0] + at
        cuts = [start]
        for i, place in parts:
            cuts.append(self.spans[i][0] + place + (0 if kind == "[" else 1))
        cuts.append(stop)
        deep = " " * (self.further + 4)
        texts = [self.text[a:b].strip() for a, b in zip(cuts, cuts[1:])]
        return (
            [self.text[:start].rstrip()]
            + [deep + it for it in texts if it]
            + [" " * self.further + self.text[stop:].strip()]
        )


class Source:
    """A file, and its texts that stay whole."""

    def __init__(self, path, text, kept):
        self.path, self.kept = path, kept
        self.lines = text.split("\n")
        self.is_antt = path.endswith(".antt")

    def spans(self, line):
        return [it.span() for text in self.kept for it in re.finditer(re.escape(text), line)]

    def broken(self):
        """The text with its long lines broken once."""
        out, i, depth = [], 0, 0
        while i < len(self.lines):
            line = self.lines[i]
            if COMMENT.match(line):
                j = i
                while j + 1 < len(self.lines) and self.goes_on(self.lines[j], self.lines[j + 1]):
                    j += 1
                out += self.filled(self.lines[i : j + 1])
                i = j + 1
                continue
            if self.is_antt:
                is_ours = True
            else:
                is_ours = depth > 0 or CLAUSE.match(line) is not None
                if is_ours:
                    depth += sum(
                        it.count("{") - it.count("}")
                        for it in WORD.findall(code_of(line))
                        if not it.startswith('"')
                    )
            if len(line) <= WIDTH:
                out.append(line)
            elif use := USE.fullmatch(line):
                out += self.imported(use, line)
            elif is_ours and code_of(line) == line:
                out += Line(line, self.further(i), self.spans(line)).broken()
            else:
                out.append(line)
            i += 1
        return "\n".join(out)

    def further(self, i):
        """The column at which line i goes on: its own where it goes on a line itself, else four
        further."""
        column = indent(self.lines[i])
        if CLAUSE.match(self.lines[i]):
            return column + 4
        for j in range(i - 1, -1, -1):
            line = self.lines[j]
            if not line.strip() or COMMENT.match(line):
                break
            if indent(line) != column:
                is_head = not line.endswith(("{", "[", "(", " where", " do"))
                return column if is_head and indent(line) == column - 4 else column + 4
            if line.endswith((";", ",")):
                break
        return column + 4

    def imported(self, use, line):
        head, names, end = use.groups()
        rows = [[]]
        for name in [it.strip() for it in names.split(",") if it.strip()]:
            if rows[-1] and len(f"{head}{{{', '.join(rows[-1] + [name])}}}{end}") > WIDTH:
                rows.append([])
            rows[-1].append(name)
        found = []
        for it in rows:
            whole = f"{head}{{{', '.join(it)}}}{end}"
            found += (
                [whole]
                if len(whole) <= WIDTH
                else [head + "{"] + [f"  {name}," for name in it] + ["}" + end]
            )
        return (
            found
            if all(any(line[a:b] in it for it in found) for a, b in self.spans(line))
            else [line]
        )

    def goes_on(self, line, later):
        """Whether a comment goes on in the next line: a break that was made since the next word had
        no room."""
        here, there = COMMENT.match(line), COMMENT.match(later)
        if not there or here.group(1) != there.group(1):
            return False
        text, more = line[len(here.group(1)) :], later[there.end() :]
        if (
            text.startswith(FIXED)
            or more.startswith(FIXED)
            or ITEM.match(more)
            or len(there.group(2)) != hang_of(text)
        ):
            return False
        return len(line) + 1 + len(more.split(" ")[0]) > WIDTH

    def filled(self, lines):
        head = COMMENT.match(lines[0]).group(1)
        texts = [it[len(head) :] for it in lines]
        if (
            all(len(it) <= WIDTH for it in lines)
            or any(self.spans(it) for it in lines)
            or texts[0].startswith(FIXED)
        ):
            return lines
        hang = head + " " * hang_of(texts[0])
        words = [word for it in texts for word in it.split()]
        rows, row = [], head + texts[0][: len(texts[0]) - len(texts[0].lstrip(" "))] + words[0]
        for word in words[1:]:
            if len(row) + 1 + len(word) > WIDTH:
                if ITEM.match(word + " x"):
                    # No line begins as if it were an item.
                    row, _, last = row.rpartition(" ")
                    word = f"{last} {word}"
                rows.append(row)
                row = hang + word
            else:
                row += " " + word
        return rows + [row]


def hang_of(text):
    """How far the second line of a comment's paragraph stands in."""
    item = ITEM.match(text.lstrip(" "))
    return len(text) - len(text.lstrip(" ")) + (item.end() if item else 0)


def indent(line):
    return len(line) - len(line.lstrip(" "))


def sense(path, text):
    """What a file says: its words without the breaks, and those of its comments. Imports of one
    module side by side are one."""
    code, comments = [], []
    text = re.sub(
        r"^( *[^\n{]*\buse [^\s{]+\.\{)\n([^{}]*)\n\}",
        lambda it: it[1] + re.sub(r",? *\n *", ", ", it[2].strip()).rstrip(",") + "}",
        text,
        flags=re.M,
    )
    for line in text.split("\n"):
        if comment := COMMENT.match(line):
            comments += line[comment.end() :].split()
        else:
            code.append(line)
    joined = []
    for line in code:
        use = USE.fullmatch(line)
        last = USE.fullmatch(joined[-1]) if use and joined else None
        if last and last.group(1, 3) == use.group(1, 3):
            joined[-1] = f"{use.group(1)}{{{last.group(2)}, {use.group(2)}}}{use.group(3)}"
        else:
            joined.append(line)
    words = " ".join(text[a:b] for text in joined for a, b in words_of(text))
    # Where a part has a line of its own `rt fmt` ends the last one as the others, and begins the
    # first case as the others.
    for mark, end in (",", ")"), (",", "}"), (";", "}"):
        words = re.sub(rf"\{mark} ?\{end}", f" {end}", words)
    words = re.sub(r"\[ \| ", "[ ", words)
    return re.sub(r"(?<=[({]) | (?=[)},;])", "", words), comments


def edits():
    """For each file the texts that an edit finds in it."""
    found = {}
    for pattern in (
        "crates/*/must-fail",
        "checks/wrong_bodies/*",
        "checks/wrong_bodies/same/*",
        "checks/must_not_compile",
    ):
        for path in glob.glob(f"{TOP}/{pattern}/*.edit"):
            crate, file = path.split("/")[-3 if "/must-fail/" in path else -2], None
            for line in open(path, encoding="utf-8").read().split("\n"):
                key, _, text = line.partition(": ")
                if key == "crate":
                    crate = text
                elif key == "file":
                    file = f"{TOP}/crates/{crate}/{text}"
                elif key == "old":
                    found.setdefault(file, set()).add(text.strip())
    return found


def laid_out(texts):
    """Each text as `rt fmt` lays it out, and what it says against any."""
    with tempfile.TemporaryDirectory() as room:
        names = {}
        for n, path in enumerate(texts):
            folder, end = ("specs", "antt") if path.endswith(".antt") else ("src", "rt")
            names[path] = f"{room}/{folder}/n{n}.{end}"
            os.makedirs(os.path.dirname(names[path]), exist_ok=True)
            with open(names[path], "w", encoding="utf-8") as file:
                file.write(texts[path])
        ran = subprocess.run(["rt", "fmt"], cwd=room, capture_output=True, text=True)
        said = ran.stderr.split("\n") + ran.stdout.split("\n")
        faults = {path: it for path in names for it in said if it.startswith(f"{names[path]}:")}
        found = {}
        for path, name in names.items():
            with open(name, encoding="utf-8") as file:
                found[path] = file.read()
    return found, faults


def formatted(paths):
    """The texts of these files that change, and the faults."""
    kept = edits()
    old = {}
    for path in paths:
        with open(path, encoding="utf-8") as file:
            text = file.read()
        if any(len(line) > WIDTH for line in text.split("\n")):
            old[path] = text
    now, left, faults = dict(old), set(old), {}
    for _ in range(ROUNDS):
        broken = {path: Source(path, now[path], kept.get(path, ())).broken() for path in left}
        broken = {path: text for path, text in broken.items() if text != now[path]}
        if not broken:
            break
        laid, wrong = laid_out(broken)
        for path in wrong:
            faults[path] = wrong[path].replace("\n", " ")
            now[path] = old[path]
        left = {path for path in broken if path not in wrong and laid[path] != now[path]}
        now.update({path: laid[path] for path in left})
    else:
        faults.update({path: f"{path}: no end of breaks after {ROUNDS} rounds" for path in left})
    for path in set(now) - set(faults):
        if sense(path, now[path]) != sense(path, old[path]):
            faults[path] = f"{path}: the words aren't the same"
        for text in kept.get(path, ()):
            if now[path].count(text) != old[path].count(text):
                faults[path] = f"{path}: an edit's text doesn't stand there as before: {text}"
    return {
        path: now[path] for path in now if now[path] != old[path] and path not in faults
    }, faults


def main():
    words = sys.argv[1:]
    options = {it for it in words if it.startswith("--")}
    if options - {"--check", "--without-proofs"}:
        sys.exit(__doc__)
    paths = []
    for it in [os.path.realpath(it) for it in words if it not in options] or [f"{TOP}/crates"]:
        if os.path.isfile(it):
            paths.append(it)
        for where, folders, files in os.walk(it):
            folders[:] = [
                name
                for name in folders
                if name != "out" and not ("--without-proofs" in options and name == "proofs")
            ]
            paths += [f"{where}/{name}" for name in files if name.endswith((".rt", ".antt"))]
    texts, faults = formatted(sorted(paths))
    for path in sorted(texts):
        if "--check" in options:
            print(f"{os.path.relpath(path, TOP)}: has lines that can be broken")
        else:
            with open(path, "w", encoding="utf-8") as file:
                file.write(texts[path])
    for path in sorted(faults):
        print(f"left as it was: {faults[path]}", file=sys.stderr)
    if "--check" not in options:
        print(f"{len(texts)} files")
    sys.exit(1 if faults or texts and "--check" in options else 0)


if __name__ == "__main__":
    main()
