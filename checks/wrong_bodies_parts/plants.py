"""The wrong bodies that `rt plant` writes for a crate's functions, as bodies behind the switch.

Some give up: they answer a constant, an argument or nothing. The others call the real function,
with an argument or the result changed; these are compiled beside a copy of it. `rt plant` asks the
prover for those of public functions. Here they are run, and so are those of all other functions.
"""

from __future__ import annotations

import importlib.machinery
import importlib.util
import os
import re
import subprocess

from edits import TOP, Body, Edit, braces_in, lines_of
from trial_room import OtherKit, crates_below

COPY = "_as_it_is"


def writer():
    """The module of the kit that writes them."""
    page = subprocess.run(["rt", "doc"], capture_output=True, text=True, check=False).stdout.strip()
    path = f"{os.path.dirname(page)}/bin/rt-plant-bodies"
    if not os.path.isfile(path):
        raise OtherKit("there is no rt-plant-bodies")
    loader = importlib.machinery.SourceFileLoader("rt_plant_bodies", path)
    module = importlib.util.module_from_spec(importlib.util.spec_from_loader(loader.name, loader))
    loader.exec_module(module)
    return module


def find_plants(crate: str) -> list[Edit]:
    """All of a crate's, each as an edit whose name has the function's line and what its body is."""
    kit = writer()
    source = kit.Source(f"{TOP}/crates/{crate}")
    source.read("src/lib.rt")
    for name in crates_below()[crate]:
        source.add_library(name, f"{TOP}/crates/{name}")
    found = []
    for function in source.functions:
        if not function.has_body or function.name == "main" or function.ret == ["!"]:
            continue
        lines = lines_of(f"{TOP}/crates/{crate}/{function.file}")
        first = function.line - 1
        spans = [span for span in braces_in(lines) if span[1] > first]
        if not spans or not re.search(rf"\bfn {function.name}\b", lines[first]):
            continue
        bodies = kit.Bodies(source, function)
        texts = [it.text for it in bodies.giving_up()]
        if not function.in_trait:
            fails = next((text for text in texts if text.startswith(("Err(", "None"))), None)
            texts += [it.text for it in bodies.over_the_real_one(fails)]
        for text in dict.fromkeys(texts):
            if "//" in text:
                # (a comment was taken for a variant's name)
                continue
            name = f"{crate}/{function.file}:{function.line} {function.name} {{ {text} }}"
            body = planted(function, spans[0], lines, text)
            found.append(Edit(name, "", False, [body]))
    return found


def planted(function, braces: tuple[int, int], lines: list[str], text: str) -> Body:
    """A planted body. Where it calls the function itself, it calls a copy, which is put behind."""
    call = rf"\b((?:Self|self)::{function.name})(?=\(|::<)"
    if not re.search(call, text):
        return Body(function.file, braces, text)
    copy = lines[function.line - 1 : braces[1] + 1]
    copy[0] = re.sub(rf"\bfn {function.name}\b", f"fn {function.name}{COPY}", copy[0])
    return Body(function.file, braces, re.sub(call, rf"\g<1>{COPY}", text), "\n".join(copy))
