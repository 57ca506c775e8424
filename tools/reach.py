#!/usr/bin/env python3
"""Counts the definitions that the clauses of a call reach, by crate: how much a reader opens who wants to know what it promises.

usage: tools/reach.py [CRATE FILE FUNCTION]        (acq_cli src/top.rt acquire where they aren't given)
With --list the names are printed.
"""
import os
import re
import sys

TOP = os.path.dirname(os.path.dirname(os.path.abspath(__file__)))
WORD = r"[A-Za-z_][A-Za-z0-9_'-]*"
HEAD = re.compile(rf"^\s*(?:abbrev |record |inductive |data |def )?(?:pub )?(?:abbrev |record |inductive |data |def )({WORD})|^\s*pub ({WORD}) :")
USE = re.compile(r"^\s*(?:ghost )?(?:pub )?use Rattle\.([A-Za-z0-9_.]+?)(?:\.\{([^}]*)\}| as (\w+))?;?\s*$", re.M)


def imports(text):
    """What each name stands for: the module's path and the name in it."""
    found = {}
    for path, names, _ in USE.findall(text):
        for name in filter(None, (it.strip() for it in names.split(","))):
            was, _, now = name.partition(" as ")
            found[(now or was).strip()] = (path, was.strip())
    return found


def module(path):
    """The definitions of a module, each with its text, and its imports; nothing where it isn't this repository's."""
    crate, _, rest = path.partition(".")
    if not rest.startswith("specs.") or "declared" in rest:
        return None
    file = os.path.join(TOP, "crates", crate, *rest.split(".")) + ".antt"
    if not os.path.isfile(file):
        return None
    text = open(file, encoding="utf-8").read()
    parts, name, kind = {}, None, None
    for line in text.splitlines():
        code = line.split("-- ")[0] if not line.lstrip().startswith("--") else ""
        head = re.match(rf"^\s*(?:pub )?(unfoldable|abbrev|record|inductive|data)(?: pub)? ({WORD})", code)
        if head:
            kind, name = head.group(1), head.group(2)
            parts.setdefault(name, "")
        if name and not code.lstrip().startswith("use "):
            parts[name] += code + "\n"
    return parts, imports(text)


def reached(crate, file, function):
    """The modules' definitions that the clauses of a function reach."""
    source = open(os.path.join(TOP, "crates", crate, file), encoding="utf-8").read()
    start = source.index(f"fn {function}<") if f"fn {function}<" in source else source.index(f"fn {function}(")
    clauses = source[start : source.index("\n{", start)]
    clauses = "\n".join(re.split(r"ensures|requires", clauses)[1:])
    modules, seen, todo = {}, set(), []

    def look(text, names, own):
        for word in set(re.findall(WORD, text)):
            if own and word in own[1]:
                todo.append((own[0], word))
            elif word in names:
                todo.append(names[word])

    look(clauses, imports(source), None)
    while todo:
        path, name = todo.pop()
        if (path, name) in seen:
            continue
        if path not in modules:
            modules[path] = module(path)
        if not modules[path]:
            continue
        parts, names = modules[path]
        if name not in parts:
            # a prelude passes the name on
            todo.extend([names[name]] if name in names else [])
            continue
        seen.add((path, name))
        look(parts[name], names, (path, parts))
    return seen


def main():
    words = [it for it in sys.argv[1:] if it != "--list"]
    found = reached(*(words or ["acq_cli", "src/top.rt", "acquire"]))
    by_crate = {}
    for path, name in found:
        by_crate.setdefault(path.split(".")[0], []).append(f"{path.split('.', 2)[2]}.{name}")
    for crate in sorted(by_crate, key=lambda it: -len(by_crate[it])):
        print(f"{crate} {len(by_crate[crate])}")
        if "--list" in sys.argv:
            for name in sorted(by_crate[crate]):
                print(f"    {name}")
    print(f"{len(found)} definitions in all")


main()
