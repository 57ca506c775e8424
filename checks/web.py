#!/usr/bin/python3
"""`desk web`, the page in the browser, beside the built program.

usage: checks/web.py PROGRAM [PART ..]
       checks/web.py PROGRAM planted [PART ..]      a measure left out at a time, which a test of a part has to notice

Each part is a file in checks/web_parts. `refused` makes requests by hand, and `cases` those of cases; `sittings` answers, kills and
goes on; `clicks`, `plays` and `form` drive a real browser; `pace` measures. What they need is installed by apt-get where that is possible: python3-flask, python3-waitress,
chromium, chromium-driver and python3-selenium. That is said before, and NO_INSTALL=1 forbids it; what can't be had is passed over,
and the last line says so. Where the browser or its driver breaks off in a test, as when it dies, the test is run once more, which is
said; one that finds a fault never is.
"""

from __future__ import annotations

import importlib
import importlib.util
import os
import shutil
import subprocess
import sys
import tempfile
import time
from concurrent.futures import ThreadPoolExecutor

HERE = os.path.dirname(os.path.realpath(__file__))
PARTS_FOLDER = os.path.join(HERE, "web_parts")
DESK = os.path.join(os.path.dirname(HERE), "desk")
PARTS = ("plays", "form", "clicks", "sittings", "cases", "refused", "pace")
IN_A_BROWSER = ("clicks", "plays", "form")
# what has to be there: a module or a command, and the Debian package that has it
MODULES = {"flask": "python3-flask", "waitress": "python3-waitress", "selenium": "python3-selenium"}
COMMANDS = {"chromium": "chromium", "chromedriver": "chromium-driver"}
PATIENCE = 1800         # seconds for a test
SIDE_BY_SIDE = 3
# what a test says that has no server: it notices nothing then
NOT_BEGUN = "desk web doesn't begin"
BROKE_OFF = 75          # status of a test in which the browser's driver broke off
TWICE = "the browser's driver broke off twice"      # what is said of one that so has seen nothing


def missing() -> list[str]:
    """The packages that aren't there."""
    return [package for name, package in MODULES.items() if importlib.util.find_spec(name) is None] + \
           [package for name, package in COMMANDS.items() if not shutil.which(name)]


def install() -> None:
    """Installs what is missing where that can be, and says so before."""
    packages = missing()
    if not packages:
        return
    if os.environ.get("NO_INSTALL") or os.geteuid() != 0 or not shutil.which("apt-get"):
        print(f"web: not installed, and tests that want them are passed over: {' '.join(packages)}", flush=True)
        return
    print(f"web: installing by apt-get, which NO_INSTALL=1 would forbid: {' '.join(packages)}", flush=True)
    for words in (["update"], *(["install", "-y", "--no-install-recommends", package] for package in packages)):
        subprocess.run(["apt-get", *words, "-o", "DPkg::Lock::Timeout=300"],
                       env={**os.environ, "DEBIAN_FRONTEND": "noninteractive"}, stdin=subprocess.DEVNULL,
                       stdout=subprocess.DEVNULL, stderr=subprocess.DEVNULL, check=False)
    importlib.invalidate_caches()


def tested(part: str, test: str, program: str, folder: str = DESK) -> list[str]:
    """Runs one test in a process of its own, once more where the browser's driver breaks off; its faults."""
    status, faults = ran(part, test, program, folder)
    if status == BROKE_OFF:
        print(f"web: the browser's driver broke off, so the test is run once more: {faults[-1]}", flush=True)
        status, faults = ran(part, test, program, folder)
        if status == BROKE_OFF:
            faults = [f"{TWICE}: {fault}" for fault in faults]
    return faults


def ran(part: str, test: str, program: str, folder: str) -> tuple[int, list[str]]:
    """Runs one test: its status, and its faults."""
    code = (f"import sys; sys.path.insert(0, {PARTS_FOLDER!r}); import browser, {part} as it\n"
            "try:\n"
            f"    for fault in it.{test}({program!r}): print('FAULT ' + str(fault).replace(chr(10), ' | '), flush=True)\n"
            "except Exception as error:\n"
            "    if not browser.there() or not browser.broke_off(error): raise\n"
            f"    print(f'{{type(error).__name__}}: {{error}}', file=sys.stderr); sys.exit({BROKE_OFF})\n")
    environment = {**os.environ, "DESK_FOLDER": folder, "PYTHONDONTWRITEBYTECODE": "1"}
    environment.pop("DESK_ACQUIRE", None)
    try:
        done = subprocess.run([sys.executable, "-c", code], env=environment, stdin=subprocess.DEVNULL, capture_output=True, text=True,
                              timeout=PATIENCE, check=False)
    except subprocess.TimeoutExpired:
        return 0, [f"{part}.{test}: it isn't done after {PATIENCE} s"]
    faults = [f"{part}.{test}: {line.removeprefix('FAULT ')}" for line in done.stdout.splitlines() if line.startswith("FAULT ")]
    if done.returncode == BROKE_OFF and faults:     # it has found something before
        return 0, faults
    for line in done.stdout.splitlines():
        if line and not line.startswith("FAULT "):
            print(line, flush=True)
    if done.returncode:
        faults.append(f"{part}.{test} broke off: {' | '.join(done.stderr.strip().splitlines())[-600:]}")
    return done.returncode, faults


def planted(program: str, parts: list[str]) -> tuple[int, list[str]]:
    """Leaves measures out in copies of desk, one each: how many, and those that no test notices."""
    def one(bug: tuple[str, str, str, str, str]) -> str | None:
        part, file, old, new, test = bug
        with tempfile.TemporaryDirectory() as folder:
            copy = os.path.join(folder, "desk")
            shutil.copytree(DESK, copy, ignore=shutil.ignore_patterns("__pycache__", "tests"))
            client = os.path.join(os.path.dirname(DESK), "python")      # without which no desk begins
            os.symlink(client, os.path.join(folder, "python"))
            path = os.path.join(copy, "planners_desk", "web", file)
            with open(path, encoding="utf-8") as source:
                text = source.read()
            if old not in text:
                return f"{part} plants a bug in {file} where there is no such text any more: {old.strip()}"
            with open(path, "w", encoding="utf-8") as source:
                source.write(text.replace(old, new, 1))
            faults = tested(part, test, program, copy)
        what = f"in {file} `{old.strip()}` is `{new.strip()}`"
        if any(NOT_BEGUN in fault or TWICE in fault for fault in faults):
            return f"{part}.{test} has seen no page where {what}: {faults[-1][-200:]}"
        return None if faults else f"{part}.{test} doesn't notice that {what}"
    bugs = [(part, file, old, new, test.__name__) for part in parts for file, old, new, test in importlib.import_module(part).PLANTED]
    with ThreadPoolExecutor(SIDE_BY_SIDE) as pool:
        return len(bugs), [fault for fault in pool.map(one, bugs) if fault]


def main() -> int:
    """Status 0 where no test has a fault."""
    if len(sys.argv) < 2 or not set(sys.argv[2:]) <= {*PARTS, "planted"}:
        print(__doc__)
        return 1
    program, wanted = os.path.abspath(sys.argv[1]), sys.argv[2:]
    began = time.monotonic()
    install()
    lacking = missing()
    over = ""
    parts = [name for name in PARTS if name in wanted] or list(PARTS)
    if {"python3-flask", "python3-waitress"} & set(lacking):
        parts, over = [], "; passed over: all tests, since no page can be served here"
    elif lacking:
        out = [name for name in parts if name in IN_A_BROWSER]
        parts = [name for name in parts if name not in out]
        over = f"; passed over, since no browser can be driven here: {', '.join(out)}" if out else ""
    sys.path.insert(0, PARTS_FOLDER)
    faults: list[str] = []
    count = 0
    if "planted" in wanted:
        count, faults = planted(program, parts)
        print(f"planted: {count} measures left out, one at a time, and {count - len(faults)} were noticed")
    else:
        tests = [(part, test.__name__) for part in parts for test in importlib.import_module(part).TESTS]
        count = len(tests)
        with ThreadPoolExecutor(SIDE_BY_SIDE) as pool:
            for found in pool.map(lambda it: tested(it[0], it[1], program), tests):
                faults += found
    for fault in faults:
        print(f"FAULT {fault}", file=sys.stderr)
    print(f"web: {count} {'measures' if 'planted' in wanted else 'tests'}, {len(faults)} faults, in {time.monotonic() - began:.0f} s{over}")
    return 1 if faults else 0


if __name__ == "__main__":
    sys.exit(main())
