#!/usr/bin/env python3
"""Takes out of proofs the answers (proofs/**/Answers.antt) of goals that Rattle proves by itself.

usage: tools/answers.py [--short] [--jobs N] [--logs FOLDER] CRATE..

Lower crates come first. The libraries below a crate have to be built. For each crate it

1. checks the crate as it is, and keeps what each function's goals cost;
2. takes out every answer, with --short every answer of one line, and lets `rt check --allow-holes
   --margin` name the goals that stay open, where each search has half of its limits: the answers of
   these goals come back, with the lemmas beside them that they cite;
3. checks again without --margin: what is open comes back. Where all is proved, a function whose
   cost grew by more than half a second and a tenth has all of its answers again;
4. calls `rt tidy`, which takes out imports that nothing uses, and checks a last time.

A crate that isn't proved in the end has its old proofs again. A line for each crate has the lines
(no blanks, no comments) and the answers of its proofs, before and after, and how many functions
cost more. FOLDER has the outputs of the checks, as CRATE.STEP. Where CRATE.open lies there from an
earlier call, the work goes on from it, with the old proofs in CRATE.proofs. Costs are processor
seconds by and large, so other work on the machine matters little.

Exit status: 0, or 1 where a crate isn't proved, at first or in the end.
"""
import argparse
import collections
import os
import re
import resource
import shutil
import subprocess
import sys
import time

TOP = os.path.dirname(os.path.dirname(os.path.abspath(__file__)))
FILE = "Answers.antt"
SIGNATURE = re.compile(r"(?:pub )?(\S+) : goal\.\S+$")
LEMMA = re.compile(r"(\S+) :( |$)")
# The modules of a function's proof that depend on its answers.
DEPENDENT = re.compile(r"Rattle-\w+-proofs\.(.*)\.(Answers|Named|Layout|Proof|Met)\.oantt$")
OPEN = re.compile(
    r"fn \S+: no proof: expected answers in \./proofs/(\S+)/Answers\.antt; "
    r"`search` did not prove (.*)"
)
UNPROVED = re.compile(r"fn ([^:\s]\S*): (no proof|not proved|could not tell)")
LEAST_SECONDS, LEAST_PART = 0.5, 0.1
MOST_TURNS = 5


class Part:
    """A part of an Answers.antt: imports, a heading, a lemma, an answer, or another thing."""

    def __init__(self, text: str, kind: str, name: str = "") -> None:
        self.text, self.kind, self.name = text, kind, name

    def is_short(self) -> bool:
        """Whether an answer has one line behind its signature."""
        return sum(1 for it in self.text.split("\n") if it and not it.startswith("--")) <= 2


def parts_of(text: str) -> list[Part]:
    """The parts of an Answers.antt, in order. An indented paragraph belongs to the one before."""
    parts: list[Part] = []
    for paragraph in text.strip("\n").split("\n\n"):
        lines = [it for it in paragraph.split("\n") if not it.startswith("--")]
        if parts and lines and lines[0].startswith(" "):
            parts[-1].text += "\n\n" + paragraph
        elif not lines:
            parts.append(Part(paragraph, "heading"))
        elif found := SIGNATURE.match(lines[0]):
            parts.append(Part(paragraph, "answer", found[1]))
        elif found := LEMMA.match(lines[0]):
            parts.append(Part(paragraph, "lemma", found[1]))
        else:
            parts.append(Part(paragraph, "imports" if lines[0].startswith("use ") else "other"))
    return parts


def is_cited(name: str, text: str) -> bool:
    return re.search(rf"(?<![\w.◌-]){re.escape(name)}(?![\w-])", text) is not None


def with_answers(parts: list[Part], kept: set[str]) -> str:
    """The file with these answers, and the lemmas that they cite. Empty where none is kept."""
    standing = [it for it in parts if it.kind != "answer" or it.name in kept]
    if not any(it.kind == "answer" for it in standing):
        return ""
    while True:
        bodies = [it for it in standing if it.kind != "imports"]
        idle = [
            it
            for it in bodies
            if it.kind == "lemma"
            and not any(is_cited(it.name, other.text) for other in bodies if other is not it)
        ]
        if not idle:
            break
        standing = [it for it in standing if it not in idle]
    # A heading goes with all that stood below it.
    text: list[str] = []
    for at, it in enumerate(standing):
        ends = at + 1 == len(standing) or standing[at + 1].kind == "heading"
        if not (it.kind == "heading" and ends):
            text.append(it.text)
    return "\n\n".join(text) + "\n"


class Crate:
    """A crate, its proofs as they were at first, and which answers each function keeps.

    A function is named by its folder below proofs/.
    """

    def __init__(self, name: str, short: bool, jobs: int, logs: str) -> None:
        self.name, self.jobs, self.logs = name, jobs, logs
        self.folder = os.path.join(TOP, "crates", name)
        self.proofs = os.path.join(self.folder, "proofs")
        self.saved = os.path.join(logs, name + ".proofs")
        # Of each call of rt its start, its end, and how much of the time was a processor's.
        self.calls: list[tuple[float, float, float]] = []
        if os.path.exists(self.log("open")):
            self.put_back()
        else:
            shutil.rmtree(self.saved, ignore_errors=True)
            shutil.copytree(self.proofs, self.saved)
        self.parts: dict[str, list[Part]] = {}
        for folder, _, files in os.walk(self.saved):
            if FILE in files:
                with open(os.path.join(folder, FILE), encoding="utf-8") as file:
                    self.parts[os.path.relpath(folder, self.saved)] = parts_of(file.read())
        self.kept = {
            function: {
                it.name for it in parts if it.kind == "answer" and short and not it.is_short()
            }
            for function, parts in self.parts.items()
        }

    def log(self, step: str) -> str:
        return os.path.join(self.logs, f"{self.name}.{step}")

    def answers_of(self, function: str) -> set[str]:
        return {it.name for it in self.parts[function] if it.kind == "answer"}

    def put_back(self) -> None:
        """Gives the crate the proofs that it had at first."""
        shutil.rmtree(self.proofs)
        shutil.copytree(self.saved, self.proofs)

    def write(self) -> None:
        """Writes each Answers.antt with what is kept of it, and takes out those with nothing."""
        for function, parts in self.parts.items():
            path = os.path.join(self.proofs, function, FILE)
            text = with_answers(parts, self.kept[function])
            if text:
                os.makedirs(os.path.dirname(path), exist_ok=True)
                if self.kept[function] == self.answers_of(function):
                    shutil.copyfile(os.path.join(self.saved, function, FILE), path)
                else:
                    with open(path, "w", encoding="utf-8") as file:
                        file.write(text)
            elif os.path.exists(path):
                os.remove(path)
                if not os.listdir(os.path.dirname(path)):
                    os.removedirs(os.path.dirname(path))

    def keep(self, function: str, goals: list[str]) -> bool:
        """Puts back the answers of these goals, or all where none is named. Whether any is new."""
        if function not in self.parts:
            return False
        before, answers = set(self.kept[function]), self.answers_of(function)
        if not goals:
            self.kept[function] = answers
        # A goal is answered whole or clause by clause.
        for goal in goals:
            self.kept[function] |= {
                it
                for it in answers
                if it == goal
                or goal.startswith(it + "-clause-")
                or it.startswith(goal + "-clause-")
            }
        # An answer can cite another one.
        while True:
            text = with_answers(self.parts[function], self.kept[function])
            cited = {it for it in answers - self.kept[function] if is_cited(it, text)}
            if not cited:
                return self.kept[function] != before
            self.kept[function] |= cited

    def call(self, step: str, command: str, *flags: str) -> str:
        """What a command of rt says of the crate."""
        start, used = time.time(), children_seconds()
        with open(self.log(step), "w+", encoding="utf-8") as file:
            words = ["rt", command, *flags, "--jobs", str(self.jobs)]
            subprocess.run(words, cwd=self.folder, stdout=file, stderr=file, check=False)
            end, part = time.time(), children_seconds() - used
            self.calls.append((start, end, part / self.jobs / (end - start)))
            file.seek(0)
            return file.read()

    def costs(self) -> dict[str, float]:
        """Seconds that went into what depends on the answers, by function (its path with dots).

        A kept file's time says when it was done, so it cost what passed since the one before it,
        times the part that was a processor's. Of what was done first in a check it isn't known.
        """
        room = os.path.join(self.folder, "out", "incremental")
        files = sorted(
            (os.stat(it.path).st_mtime, it.name)
            for folder in os.listdir(room)
            if folder.startswith("antt-checked") and not folder.endswith("-offers")
            for it in os.scandir(os.path.join(room, folder))
        )
        costs: dict[str, float] = collections.defaultdict(float)
        for (before, _), (at, name) in zip(files, files[1:]):
            if found := DEPENDENT.match(name):
                if not any(before < start <= at for start, _, _ in self.calls):
                    parts = [part for start, end, part in self.calls if start <= at <= end]
                    costs[found[1]] += (at - before) * (parts[0] if parts else 1.0)
        return costs

    def dear(self, before: dict[str, float], after: dict[str, float]) -> dict[str, str]:
        """The functions that lost answers and cost more since, with both costs."""
        found = {}
        for function in self.parts:
            if self.kept[function] != self.answers_of(function):
                path = function.replace("/", ".")
                old, new = before.get(path, 0.0), after.get(path, 0.0)
                if old and new > old + LEAST_SECONDS and new > old * (1 + LEAST_PART):
                    found[function] = f"{old:.1f} s, {new:.1f} s without"
        return found


def children_seconds() -> float:
    """Processor seconds of the calls that have ended."""
    used = resource.getrusage(resource.RUSAGE_CHILDREN)
    return used.ru_utime + used.ru_stime


def open_goals(said: str) -> dict[str, list[str]]:
    """The goals that a check left open, by function. No names where it gives another reason."""
    found: dict[str, list[str]] = {}
    for line in said.splitlines():
        if got := OPEN.match(line):
            found[got[1]] = re.findall(r"`([^`]+)`", got[2])
        elif (other := UNPROVED.match(line)) and ": it calls" not in line:
            found.setdefault("/".join(other[1].split("::")[1:]), [])
    return found


def size_of(proofs: str) -> tuple[int, int]:
    """Lines and answers of a folder of proofs, without blank lines and comments."""
    lines = answers = 0
    for folder, _, files in os.walk(proofs):
        for name in files:
            with open(os.path.join(folder, name), encoding="utf-8") as file:
                text = file.read().split("\n")
            counted = [it for it in text if it.strip() and not it.lstrip().startswith("--")]
            lines += len(counted)
            answers += sum(1 for it in counted if SIGNATURE.match(it))
    return lines, answers


def is_proved(said: str) -> bool:
    return "\nlogic=proved" in said


def thin(crate: Crate) -> bool:
    """Takes out what one crate doesn't need, and says what came of it. Whether it is proved."""
    if not is_proved(crate.call("before", "check")):
        print(f"{crate.name}: not proved as it is", flush=True)
        return False
    before = crate.costs()
    if os.path.exists(crate.log("open")):
        with open(crate.log("open"), encoding="utf-8") as file:
            said = file.read()
    else:
        crate.write()
        said = crate.call("open", "check", "--allow-holes", "--margin")
    left = open_goals(said)
    if not re.search(r"^holes=\d", said, re.MULTILINE):
        print(f"{crate.name}: the check without answers came to no end", flush=True)
        left = {it: [] for it in crate.parts}
    for function, goals in left.items():
        crate.keep(function, goals)
    crate.write()

    dear: dict[str, str] = {}
    proved = False
    for turn in range(MOST_TURNS):
        said = crate.call(f"after{turn}", "check")
        proved = is_proved(said)
        if proved and (dear or not (dear := crate.dear(before, crate.costs()))):
            break
        left = {it: [] for it in dear} if proved else open_goals(said)
        if not any([crate.keep(function, goals) for function, goals in left.items()]):
            for function in left or crate.parts:
                crate.keep(function, [])
        crate.write()
    proved = proved and is_proved(crate.call("tidy", "tidy"))
    if not proved:
        crate.put_back()
    for function, costs in dear.items():
        print(f"{crate.name}: {function} keeps its answers: {costs}")
    (old_lines, old), (lines, now) = size_of(crate.saved), size_of(crate.proofs)
    print(
        f"{crate.name}: lines {old_lines} to {lines}, answers {old} to {now}, "
        f"dearer without {len(dear)}{'' if proved else ': not proved without'}",
        flush=True,
    )
    return proved


def main() -> None:
    """Reads the arguments, and takes the crates in their order."""
    reader = argparse.ArgumentParser(usage=str(__doc__).split("usage: ")[1].split("\n", 1)[0])
    reader.add_argument("--short", action="store_true")
    reader.add_argument("--jobs", type=int, default=1)
    reader.add_argument("--logs", default="/tmp/answers")
    reader.add_argument("crates", nargs="+")
    words = reader.parse_args()
    os.makedirs(words.logs, exist_ok=True)
    crates = [Crate(it, words.short, words.jobs, words.logs) for it in words.crates]
    sys.exit(0 if all([thin(it) for it in crates]) else 1)


if __name__ == "__main__":
    main()
