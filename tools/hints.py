#!/usr/bin/env python3
"""Puts the inline hints of the sources, this repository's and the kit's, into a module of LLVM text that was made without them.

usage: tools/hints.py KIT MODULE      the kit's folder of sources, and the file, which is exchanged

A function's name there is that of its crate, its modules, its type (with its trait, for a method of one) and its own; what stands for
type parameters comes behind it. A name that isn't found so is left as it is. At the end it says how many had each hint.
"""
import collections
import os
import re
import sys

TOP = os.path.dirname(os.path.dirname(os.path.realpath(__file__)))
HINTS = {"#[inline]": "inlinehint", "#[inline(always)]": "alwaysinline", "#[inline(never)]": "noinline"}
IMPL = re.compile(r"impl(?:<.*?>)? (?:(?P<trait>[\w:]+)(?:<.*>)? for )?(?P<type>\w+)")
FUNCTION = re.compile(r"(?:pub(?:\([a-z ]+\))? )?(?:const )?(?:unsafe )?fn (\w+)")
DEFINED = re.compile(r'define .*?@"?([^"(]+)"?\(')


def sources(folder):
    """Each crate's name, the modules of a file, and its lines."""
    for crate in sorted(os.listdir(folder)):
        top = os.path.join(folder, crate, "src")
        for where, _, names in os.walk(top):
            for name in sorted(it for it in names if it.endswith(".rt")):
                modules = os.path.relpath(os.path.join(where, name[:-3]), top).split(os.sep)
                with open(os.path.join(where, name), encoding="utf-8") as file:
                    yield [crate] + [it for it in modules if it not in ("lib", "main", "mod")], file.readlines()


def hints_of(folder):
    """The hint of each function that has one."""
    found = {}
    for modules, lines in sources(folder):
        owners, hint = [[]], None
        for line in lines:
            if inside := IMPL.match(line):
                trait = (inside["trait"] or "").split("::")[-1]
                owners = [[inside["type"] + trait], [inside["type"]]]
            elif line.startswith("}"):
                owners = [[]]
            text = line.strip()
            if text in HINTS:
                hint = HINTS[text]
            elif function := FUNCTION.match(text):
                if hint:
                    for owner in owners:
                        found["::".join(modules + owner + [function[1]])] = hint
                hint = None
            elif text and not text.startswith(("#", "//")):
                hint = None
    return found


def main():
    if len(sys.argv) != 3:
        sys.exit(__doc__.split("\n\n")[1])
    kit, module = sys.argv[1:]
    hints = hints_of(kit) | hints_of(os.path.join(TOP, "crates"))
    given = collections.Counter()
    with open(module, encoding="utf-8") as file:
        lines = file.readlines()
    for number, line in enumerate(lines):
        if line.startswith("define") and (name := DEFINED.match(line)):
            hint = hints.get(re.sub(r"::<.*", "", name[1]))
            if hint:
                given[hint] += 1
                lines[number] = re.sub(r"\) (#\d+ )", rf") {hint} \1", line, count=1)
    with open(module, "w", encoding="utf-8") as file:
        file.writelines(lines)
    print(", ".join(f"{hint} {count}" for hint, count in sorted(given.items())) or "no function has a hint")


if __name__ == "__main__":
    main()
