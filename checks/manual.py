#!/usr/bin/env python3
"""The manual, the help of the script `acquire` and the completions have the words of docs/formats.md.

usage: checks/manual.py

The commands of docs/formats.md are those whose words the program takes. man/acquire.1 is what tools/manual.py makes of
docs/formats.md. The help and the completions are held to its two tables: which commands there are, which options each takes, and
which values. The completion for bash is asked by bash itself; where zsh isn't
there, that for zsh is only read.
"""

import os
import re
import subprocess

TOP = os.path.realpath(os.path.join(os.path.dirname(os.path.abspath(__file__)), ".."))
COMPLETE = """
source "$1"
while IFS= read -r line; do
    COMP_LINE=$line COMP_POINT=${#line} COMPREPLY=()
    _acquire
    echo "${COMPREPLY[*]}"
done
"""


def text_of(name):
    with open(os.path.join(TOP, name), encoding="utf-8") as file:
        return file.read()


def ran(*words, given=""):
    return subprocess.run(words, input=given, capture_output=True, text=True, check=True, cwd=TOP).stdout


def rows(text, head):
    """The rows of the table with this head, each a list of cells."""
    lines = text[text.index(head) :].split("\n\n")[0].split("\n")[2:]
    return [[cell.strip() for cell in line.strip("|").split("|")] for line in lines]


class Words:
    """The commands with their options, in order, and which of them work in memory alone; the values of an option."""

    def __init__(self):
        words = text_of("docs/formats.md")
        found = rows(words, "| command | what it does | options |")
        self.commands = {name.strip("`"): re.findall("`(--[a-z]+)`", options) for name, _, options in found}
        self.in_memory = [name.strip("`") for name, does, _ in found if "JOURNAL has to be `:memory:`" in does]
        self.options = {name.strip("`"): value for name, value, _ in rows(words, "| option | value | where it isn't given |")}
        self.plans = re.findall("`([a-z]+)`", self.options["--plan"].split(":")[0])
        self.usage = re.search("(?m)^usage: .*$", words)[0]


def program_faults(words):
    """Which words the program takes for a command."""
    taken = re.findall(r'"([a-z]+)" => Some\(CommandName::', text_of("crates/acq_words/src/request.rt"))
    if sorted(taken) != sorted(words.commands):
        yield f"the program takes {taken}, and docs/formats.md has {list(words.commands)}"


def help_faults(words):
    """What the help has else than the tables."""
    lines = ran("./acquire", "--help").split("\n")
    if lines[0] != words.usage:
        yield f"its first line is {lines[0]!r}"
    named = [found[1] for line in lines if (found := re.fullmatch(r"  ([a-z]+)  +\S.*", line))]
    if named != [name for name in words.commands if name not in words.in_memory] + [it for it in words.commands if it in words.in_memory]:
        yield f"its commands are {named}"
    for option in words.options:
        of = [name for name, options in words.commands.items() if option in options]
        line = next((line for line in lines if line.startswith(f"  {option} ")), "")
        told = line[line.rfind("(") + 1 : -1].split(", ") if line.endswith(")") else ["demo"] * line.endswith(" a demo")
        if sorted(told) != sorted(of):
            yield f"{option} is said to go with {told}, and not {of}"
    if not any(re.search(", ".join(words.plans[:-1]) + f" or {words.plans[-1]} ", line) for line in lines):
        yield "the plans are others"


def bash_cases(words):
    """Lines as typed so far, and the words that may come."""
    yield "acquire :mem", ["memory:"]
    yield "acquire j ", [name for name in words.commands if name not in words.in_memory]
    yield "acquire :memory: ", words.in_memory
    yield "acquire -", []
    for script in ("./acquire", "./acquire --unproved"):
        yield f"{script} j ", [name for name in words.commands if name not in words.in_memory]
    yield "./acquire --", ["--unproved", "--help", "--version"]
    for name, options in words.commands.items():
        yield f"acquire j {name} ", options
        for option in options:
            values = words.plans if option == "--plan" else []
            yield f"acquire j {name} {option} ", values
            yield f"acquire j {name} {option}=", values
            yield f"acquire j {name} {option} {(values or ['7'])[0]} ", [it for it in options if it != option]
            yield f"acquire j {name} {option}={(values or ['7'])[0]} ", [it for it in options if it != option]
            yield f"acquire j {name} {option[:4]}", [option]
    yield "acquire j new --plan=m", ["multi"]


def bash_faults(words):
    cases = list(bash_cases(words))
    given = "".join(line + "\n" for line, _ in cases)
    printed = ran("bash", "-c", COMPLETE, "bash", "completions/acquire.bash", given=given).split("\n")
    for (line, wanted), got in zip(cases, printed):
        if sorted(got.split()) != sorted(wanted):
            yield f"{line!r} goes on with {got!r}, and not {wanted}"
    if len(printed) != len(cases) + 1:
        yield f"{len(printed) - 1} answers to {len(cases)} cases"


def zsh_faults(words):
    """The lists in the text."""
    text = text_of("completions/_acquire")
    for name, wanted in (("over_journal", set(words.commands) - {*words.in_memory}), ("in_memory", {*words.in_memory})):
        found = re.search(rf"(?s)    {name}=\((.*?)\n    \)", text)[1]
        if (got := set(re.findall(r"(?m)^ *'([a-z]+):", found))) != wanted:
            yield f"{name} has {sorted(got)}"
    if f"plans=('({' '.join(words.plans)})')" not in text:
        yield "the plans are others"
    for line in re.findall(r"(?m)^ +([a-z |]+)\) wanted=\((.*)\) ;;$", text):
        for name in line[0].split(" | "):
            if [f"--{it}" for it in re.findall(r"\$([a-z]+)", line[1])] != words.commands[name]:
                yield f"{name} has the options {line[1]}"
    told = {name for line in re.findall(r"(?m)^ +([a-z |]+)\) wanted=\(", text) for name in line.split(" | ")}
    if told != {name for name, options in words.commands.items() if options}:
        yield f"options go with {sorted(told)}"
    try:
        subprocess.run(["zsh", "-n", os.path.join(TOP, "completions/_acquire")], check=True, timeout=300)
    except FileNotFoundError:
        print("manual: passed over: zsh isn't there, so its completion is only read")
    except subprocess.CalledProcessError:
        yield "zsh doesn't take it"


def manual_faults(words):
    if ran("tools/manual.py") != text_of("man/acquire.1"):
        yield "it isn't what tools/manual.py makes of docs/formats.md: tools/manual.py > man/acquire.1"
    for name in [*words.commands, *words.options]:
        tag = ".TP\n\\fB" + name.replace("-", "\\-") + "\\fP\n"
        if tag not in text_of("man/acquire.1"):
            yield f"{name} has no row"


def main():
    words = Words()
    failed = 0
    parts = {"program": program_faults, "man/acquire.1": manual_faults, "help": help_faults, "bash": bash_faults, "zsh": zsh_faults}
    for name, faults in parts.items():
        found = list(faults(words))
        failed += bool(found)
        for fault in found:
            print(f"manual: {name}: {fault}")
    print(f"manual: {len(parts) - failed} passed, {failed} failed")
    return 1 if failed else 0


raise SystemExit(main())
