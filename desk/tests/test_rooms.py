"""The rooms of the package: each imports downward only, and its modules import no circle."""

from __future__ import annotations

import ast
import os
import tomllib
import unittest
from collections.abc import Iterator

import planners_desk
from planners_desk import ROOMS

PACKAGE = os.path.dirname(os.path.realpath(planners_desk.__file__))


def modules() -> dict[tuple[str, ...], str]:
    """Each module of the package with its source, by the names of its room and itself."""
    found = {}
    for folder, _, names in os.walk(PACKAGE):
        room = tuple(os.path.relpath(folder, PACKAGE).split(os.sep)) if folder != PACKAGE else ()
        for name in names:
            if name.endswith(".py"):
                with open(os.path.join(folder, name), encoding="utf-8") as file:
                    found[(*room, name.removesuffix(".py"))] = file.read()
    return found


def imported(module: tuple[str, ...], source: str) -> Iterator[tuple[str, ...]]:
    """What of the package a module imports, wherever in it, by the names of room and module."""
    for node in ast.walk(ast.parse(source)):
        if isinstance(node, ast.ImportFrom) and node.level:
            place = (*module[: len(module) - node.level], *(node.module or "").split("."))
            place = tuple(filter(None, place))
            if len(place) == 2:
                yield place
            else:
                yield from ((*place, one.name) for one in node.names)


def circle(of: dict[tuple[str, ...], set[tuple[str, ...]]]) -> list[tuple[str, ...]]:
    """Modules that import each other in a circle; none where there is no such."""
    left = dict(of)
    while ends := [module for module, others in left.items() if not others & left.keys()]:
        for module in ends:
            del left[module]
    return sorted(left)


class Rooms(unittest.TestCase):
    """By the sources, so that an import inside a function counts as well."""

    def setUp(self) -> None:
        self.sources = modules()
        self.imports = {name: set(imported(name, text)) for name, text in self.sources.items()}

    def test_each_folder_is_a_room(self) -> None:
        """The package holds the rooms and its own two modules, and nothing else."""
        self.assertEqual({name[0] for name in self.sources}, {*ROOMS, "__init__", "__main__"})
        self.assertGreater(len(self.sources), 2 * len(ROOMS))

    def test_rooms_import_downward(self) -> None:
        """A module imports from its own room and from those before it."""
        for name, others in self.imports.items():
            if name[0] not in ROOMS:
                continue
            for other in others - {("ROOMS",)}:
                self.assertIn(other[0], ROOMS, f"{name} imports {other}")
                self.assertLessEqual(
                    ROOMS.index(other[0]), ROOMS.index(name[0]), f"{name} imports {other}"
                )

    def test_imports_are_of_modules(self) -> None:
        """What is named is there, so that a room's imports are all seen."""
        for name, others in self.imports.items():
            for other in others - {("ROOMS",)}:
                self.assertIn(other, self.sources, f"{name} imports {other}")

    def test_no_circle(self) -> None:
        """Inside a room as well."""
        self.assertEqual(circle(self.imports), [])
        self.assertTrue(any(self.imports.values()))


class Width(unittest.TestCase):
    """Lines are as wide as pyproject.toml has it, and no wider."""

    def test_lines(self) -> None:
        """Of the package, its tests, and the file that starts it."""
        top = os.path.dirname(PACKAGE)
        with open(os.path.join(top, "pyproject.toml"), "rb") as file:
            most = tomllib.load(file)["tool"]["black"]["line-length"]
        tests = os.path.join(top, "tests")
        paths = [os.path.join(tests, name) for name in os.listdir(tests) if name.endswith(".py")]
        paths += [os.path.join(PACKAGE, *name) + ".py" for name in modules()]
        wide = []
        for path in [*paths, os.path.join(top, "desk")]:
            with open(path, encoding="utf-8") as file:
                for number, line in enumerate(file, 1):
                    if len(line.rstrip("\n")) > most:
                        wide.append(f"{os.path.relpath(path, top)}:{number}")
        self.assertEqual(wide, [])
        self.assertGreater(len(paths), len(ROOMS))


if __name__ == "__main__":
    unittest.main()
