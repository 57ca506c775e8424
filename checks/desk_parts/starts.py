"""How desk is started: its words and their completion, its version, the cases that it hands out, and which program of the repository it
takes, with a line before a proof begins. By real processes, in a repository of stand-ins."""

from __future__ import annotations

import contextlib
import importlib.util
import itertools
import os
import re
import shutil
import subprocess
import sys
import tempfile
from collections.abc import Iterator

import bare
import hands        # desk's folder is on the path now
from planners_desk import __main__

CASE = "things: a b\nvalues: 1 2\nask: all\nwords: different\nplan: scopes\n"
BEFORE_A_PROOF = ("desk: the program is proved and built first, which takes up to 29 minutes on four processors and 54 on one; "
                  "`desk --unproved COMMAND ..` takes one without proof, built in some two minutes\n")
SHARES = "# seconds\nSECONDS 1767\nOF_ONE 3240\nacquire 105\n"
BUILDS = "acquire: it is built\n"
# The script: what it was called with is noted, and it ends as the built program does where there is no session.
SCRIPT = f"""#!/bin/sh
echo "script $ACQUIRE_UNPROVED" >>"${{0%/*}}/used"
printf '{BUILDS}' >&2
[ ! -e "${{0%/*}}/broken" ] || exit 70
exit 3
"""
CHECKS = os.path.join(hands.TOP, "checks")
COMPLETE = """
source "$1"
while IFS= read -r line; do
    COMP_LINE=$line COMP_POINT=${#line} COMPREPLY=()
    _desk
    echo "${COMPREPLY[*]}"
done
"""
PLANTED = [
    ("program/repository.py", "    if not unproved:\n        _tell_of_a_proof()\n", ""),
    ("program/repository.py", "    if not unproved:\n        _tell_of_a_proof()\n", "    _tell_of_a_proof()\n"),
    ("program/repository.py", "if current.returncode == 0 or", "if"),
    ("program/repository.py", ' or shutil.which("rt") is None', ""),
    ("program/repository.py", '"acquire-unproved" if unproved else "acquire"', '"acquire"'),
    ("program/repository.py", "if called.returncode != NO_SESSION:", "if called.returncode < 0:"),
    ("program/repository.py", "    if named:\n", "    if False:\n"),
    ("program/repository.py", "    if not is_there():\n", "    if False:\n"),
    ("__main__.py", "    if options.unproved:\n", "    if False:\n"),
    ("__main__.py", 'for name in ("version", "VERSION"):', 'for name in ("VERSION",):'),
    ("commands/handout.py", "if os.path.lexists(path)]:", "if os.path.lexists(path) and False]:"),
    ("commands/handout.py",
     "copies = {\n"
     "        os.path.join(folder, name): _content(name)\n"
     "        for name in sorted(os.listdir(CASES))\n"
     '        if name.endswith(".case")\n'
     "    }",
     "copies = {os.path.join(folder, name): _content(name) for name in sorted(os.listdir(CASES))}"),
]


@contextlib.contextmanager
def repository(program: str) -> Iterator[str]:
    """A folder with desk, the script, and two programs that note which of them was called."""
    with tempfile.TemporaryDirectory() as top:
        for it in (hands.DESK, os.path.join(os.path.dirname(hands.DESK), "python")):
            shutil.copytree(it, os.path.join(top, os.path.basename(it)), ignore=shutil.ignore_patterns("__pycache__"))
        out = os.path.join(top, "crates", "acquire", "out")
        os.makedirs(out)
        os.makedirs(os.path.join(top, "tools"))
        os.makedirs(os.path.join(top, "kit"))
        for name in ("acquire", "acquire-unproved"):
            hands.script(os.path.join(out, name), f'echo {name} >>"{top}/used"; exec "{program}" "$@"')
        with open(os.path.join(top, "acquire"), "w", encoding="utf-8") as file:
            file.write(SCRIPT)
        os.chmod(os.path.join(top, "acquire"), 0o755)
        hands.script(os.path.join(top, "tools", "proved.sh"), f'[ -e "{top}/current" ] || exit 70')
        hands.script(os.path.join(top, "kit", "rt"), "exit 1")
        for name, text in (("tools/shares", SHARES), ("VERSION", "7.8.9\n"), ("it.case", CASE)):
            with open(os.path.join(top, name), "w", encoding="utf-8") as file:
                file.write(text)
        yield top


def desk(top: str, *words: str, **named: str) -> subprocess.CompletedProcess[str]:
    """What the desk of a folder comes to, which is asked one question and told to stop."""
    whole = {name: value for name, value in os.environ.items() if name not in ("DESK_ACQUIRE", "ACQUIRE_UNPROVED")}
    whole.update({"PATH": f"{top}/kit:{os.environ['PATH']}", "LC_ALL": "C.UTF-8", **named})
    return subprocess.run(["/usr/bin/python3", os.path.join(top, "desk", "desk"), *words], input="q\n", capture_output=True, text=True,
                          env=whole, timeout=hands.PATIENCE, check=False)


def put(top: str, name: str, there: bool = True) -> None:
    """Makes an empty file, or takes it away."""
    path = os.path.join(top, name)
    if there:
        with open(path, "w", encoding="utf-8"):
            pass
    elif os.path.exists(path):
        os.remove(path)


def used(top: str) -> set[str]:
    """What was called since this was asked last."""
    path = os.path.join(top, "used")
    if not os.path.exists(path):
        return set()
    with open(path, encoding="utf-8") as file:
        lines = {line.strip() for line in file}
    os.remove(path)
    return lines


def wrong(what: str, got: object, due: object) -> list[str]:
    """A fault where something isn't as it should be."""
    return [] if got == due else [f"{what}: {got!r}, and not {due!r}"]


def takes(program: str) -> list[str]:
    """Which program is taken, and what is said before."""
    found = []
    with repository(program) as top:
        case = os.path.join(top, "it.case")
        proved, unproved = {"script", "acquire"}, {"script 1", "acquire-unproved"}
        for what, words, named, current, said, due in (
                ("nothing is built", [], {}, False, BEFORE_A_PROOF + BUILDS, proved),
                ("it is built", [], {}, True, BUILDS, proved),
                ("there is no kit", [], {"PATH": "/usr/bin:/bin"}, False, BUILDS, proved),
                ("--unproved", ["--unproved"], {}, False, BUILDS, unproved),
                ("ACQUIRE_UNPROVED", [], {"ACQUIRE_UNPROVED": "1"}, False, BUILDS, unproved),
                ("ACQUIRE_UNPROVED that is empty", [], {"ACQUIRE_UNPROVED": ""}, True, BUILDS, proved)):
            put(top, "current", current)
            ran = desk(top, *words, "ask", "--plain", case, **named)
            found += wrong(what, (ran.returncode, ran.stderr, used(top)), (6, said, due))
        put(top, "broken")
        ran = desk(top, "ask", "--plain", case)
        fault = f"desk: {top}/acquire couldn't be built; the lines above say why. Another build is taken by --acquire PROGRAM or DESK_ACQUIRE"
        found += wrong("it can't be built", (ran.returncode, ran.stderr.splitlines()[-1:]), (1, [fault]))
        used(top)
        for words, named in (([], {"DESK_ACQUIRE": program}), (["--acquire", program], {})):
            ran = desk(top, "--unproved", "ask", "--plain", *words, case, **named)
            fault = f"desk: --unproved takes the program of a repository, and here {program} is named: leave one of the two out\n"
            found += wrong("another one is named", (ran.returncode, ran.stderr, used(top)), (1, fault, set()))
        os.remove(os.path.join(top, "acquire"))
        ran = desk(top, "--unproved", "ask", "--plain", case)
        fault = "desk: --unproved takes the program of a repository, and this desk lies in none: leave it out, or name a program by --acquire PROGRAM\n"
        found += wrong("no repository", (ran.returncode, ran.stderr, used(top)), (1, fault, set()))
    return found


def says(program: str) -> list[str]:
    """The version, and where the cases are."""
    found = []
    with repository(program) as top:
        for word in ("--version", "-V"):
            ran = desk(top, word)
            found += wrong(word, (ran.returncode, ran.stdout), (0, "desk 7.8.9\n"))
        with open(os.path.join(top, "version"), "w", encoding="utf-8") as file:
            file.write("acquire 7.8.9, commit abc\nproved with a kit\n")
        found += wrong("the version, installed", desk(top, "--version").stdout, "desk 7.8.9, commit abc\n")
        for name in ("version", "VERSION"):
            os.remove(os.path.join(top, name))
        found += wrong("no version", desk(top, "--version").stdout, "desk, copied alone: nothing beside it says which\n")
        cases = os.path.join(os.path.realpath(top), "desk", "cases")
        if f"four to begin with are in {cases}.\n" not in desk(top, "--help").stdout:
            found.append(f"--help doesn't say that the cases are in {cases}")
    return found


def hands_out(program: str) -> list[str]:
    """The cases as copies; nothing is replaced."""
    with repository(program) as top:
        there = os.path.join(top, "desk", "cases")
        names = sorted(name for name in os.listdir(there) if name.endswith(".case"))
        to = os.path.join(top, "copies of", "them")
        paths = [os.path.join(to, name) for name in names]
        ran = desk(top, "cases", to)
        found = wrong("cases", (ran.returncode, ran.stdout.splitlines()), (0, [*paths, f"begin with: desk check '{paths[0]}'"]))
        found += wrong("the files", sorted(os.listdir(to)), names)
        for name in names:
            with open(os.path.join(there, name), "rb") as one, open(os.path.join(to, name), "rb") as other:
                found += wrong(name, other.read(), one.read())
        put(to, names[1])
        os.remove(paths[0])
        faults = [f"desk: {path} is there already, so nothing is copied: take another folder" for path in paths[1:]]
        ran = desk(top, "cases", to)
        found += wrong("cases once more", (ran.returncode, ran.stdout, ran.stderr.splitlines()), (1, "", faults))
        found += wrong("what is there", (sorted(os.listdir(to)), os.path.getsize(paths[1])), (names[1:], 0))
        ran = desk(top, "cases", os.path.join(top, "it.case"))
        found += wrong("a file", (ran.returncode, ran.stderr), (1, f"desk: {top}/it.case: File exists\n"))
    return found


# ---------------------------------------------------------------- what these checks need

def installs(_program: str) -> list[str]:
    """checks/desk.py says what it installs before it does so, NO_INSTALL=1 forbids it, and what it passes over stands in lines of their
    own. Its tools aren't on the path, and apt-get is one that notes what was said when it was called. Libraries are those of this
    Python, and then none."""
    found = []
    with tempfile.TemporaryDirectory() as folder:
        said = os.path.join(folder, "said")
        without = bare.hiding(folder)
        hands.script(os.path.join(folder, "apt-get"), f'echo "$1" >>"{folder}/called"; [ -e "{folder}/before" ] || /bin/cp "{said}" "{folder}/before"')
        for no_install, path in itertools.product((True, False), (bare.libraries(), without)):
            named = {"PATH": folder, "PYTHONPATH": path}
            named.update({"NO_INSTALL": "1"} if no_install else {})
            with open(said, "w", encoding="utf-8") as file:
                code = f"import sys; sys.path.insert(0, {CHECKS!r}); import desk; desk.install()"
                code += "; print(*desk.passed_over(), sep='\\n')"
                subprocess.run([sys.executable, "-c", code],
                               env=named, stdout=file, timeout=hands.PATIENCE, check=True)
            with open(said, encoding="utf-8") as file:
                lines = file.read().splitlines()
            there = importlib.util.find_spec("rich") is not None and path != without
            rich = [] if there else ["python3-rich"]
            wanted = ["tmux", "cadical", "minisat", "clasp", "chromium", "poppler-utils", *rich]
            installed = not no_install and os.geteuid() == 0
            head = "installing by apt-get, which NO_INSTALL=1 would forbid:" if installed else \
                "not installed, and parts that want them pass over what they can't do:"
            found += wrong("what is missing", lines[:1], [f"desk: {head} {' '.join(wanted)}"])
            over = [line.split()[0] for line in lines if "so no " in line or "aren't run" in line]
            found += wrong("what is passed over", over, ["tmux", "chromium", "poppler-utils", "no", *rich])
            found += wrong("what is called", calls(folder), ["update", *["install"] * len(wanted)] if installed else [])
        if os.geteuid() == 0:
            with open(os.path.join(folder, "before"), encoding="utf-8") as file:
                found += wrong("what was said before", "desk: installing" in file.read(), True)
    return found


def calls(folder: str) -> list[str]:
    """What apt-get was called for since this was asked last."""
    path = os.path.join(folder, "called")
    if not os.path.exists(path):
        return []
    with open(path, encoding="utf-8") as file:
        words = file.read().split()
    os.remove(path)
    return words


# ---------------------------------------------------------------- words

def commands() -> dict[str, list[str]]:
    """The commands that desk takes, with the options of each."""
    choices = next(action.choices for action in __main__.parser()._actions if action.dest == "command")
    return {name: [option for action in it._actions for option in action.option_strings if option not in ("-h", "--help")]
            for name, it in choices.items()}


def completed(_program: str) -> list[str]:
    """What bash offers behind each command, asked of bash itself; what the lists for zsh and the manual have."""
    words = commands()
    lines = {"desk ": sorted(words), "desk --unproved ": sorted(words), "desk -": sorted(["--unproved", "--help", "--version"]),
             "desk ask --plan ": ["multi", "quacq", "scopes"], "desk ask --plan=m": ["multi"], "desk check x.case --budget ": []}
    for name, options in words.items():
        lines[f"desk {name} -"] = sorted(options)
        lines[f"desk --unproved {name} x.case {' '.join(options[:1])} 1 -"] = sorted(options[1:])
    with tempfile.TemporaryDirectory() as folder:
        for name in ("a.case", "b.case", "c.html", "d e.case"):
            put(folder, name)
        os.mkdir(os.path.join(folder, "f"))
        lines.update({"desk ask ": ["a.case", "b.case", "d", "e.case", "f"], "desk ask a": ["a.case"], "desk report a.case ": ["c.html", "f"],
                      "desk carry a.case b": ["b.case"], "desk cases ": ["f"], "desk check --acquire c": ["c.html"], "desk words ": []})
        ran = subprocess.run(["bash", "-c", COMPLETE, "bash", os.path.join(hands.TOP, "completions", "desk.bash")], input="".join(f"{line}\n" for line in lines),
                             capture_output=True, text=True, cwd=folder, timeout=hands.PATIENCE, check=False)
    found = [] if len(ran.stdout.splitlines()) == len(lines) else [f"{len(lines)} lines are completed by {ran}"]
    for (line, due), got in zip(lines.items(), ran.stdout.splitlines()):
        found += wrong(line, sorted(got.split()), due)
    return found + zsh_lists(words) + manual(words)


def zsh_lists(words: dict[str, list[str]]) -> list[str]:
    """The lists in the text of the completion for zsh."""
    with open(os.path.join(hands.TOP, "completions", "_desk"), encoding="utf-8") as file:
        text = file.read()
    options = dict(re.findall(r"(?m)^    local ([a-z]+)='(--[a-z-]+)=?\[", text))
    listed = {name: [options[it] for it in re.findall(r"\$([a-z]+)", line) if it in options]
              for name, line in re.findall(r"(?m)^    ([a-z]+)\) wanted=\((.*)\) ;;$", text)}
    described = re.findall(r"(?m)^            '([a-z]+):", text)
    found = wrong("the commands for zsh", sorted(described), sorted(words))
    return found + wrong("the options for zsh", {name: sorted(it) for name, it in listed.items()},
                         {name: sorted(it) for name, it in words.items() if name != "words"})


def manual(words: dict[str, list[str]]) -> list[str]:
    """The manual names each command and each option."""
    with open(os.path.join(hands.DESK, "desk.1"), encoding="utf-8") as file:
        text = file.read()
    options = {option for them in words.values() for option in them} | {"--unproved", "--version"}
    tags = [f".B {name}\n" for name in words] + [option.replace("-", "\\-") for option in options]
    return [f"the manual hasn't {tag.strip()}" for tag in tags if tag not in text]


def run(program: str) -> list[str]:
    """All of it."""
    print("starts: programs of a repository, versions, cases handed out, what is installed, and words completed")
    return takes(program) + says(program) + hands_out(program) + installs(program) + completed(program)


def quick(program: str) -> list[str]:
    """Without what isn't desk's own."""
    return takes(program) + says(program) + hands_out(program)
