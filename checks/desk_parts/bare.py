#!/usr/bin/python3
"""A machine that has nothing of what desk and its checks can do without: no browser and its driver,
no Flask, waitress, selenium or rich, no tmux, no SAT solver, no mypy, and no apt-get to install
them.

usage: checks/desk.py PROGRAM bare
       checks/desk_parts/bare.py COMMAND ..     runs a command on such a machine

There desk goes as far as it can, `desk web` says what is missing, and the checks end well, with a
last line on what they passed over.
"""

from __future__ import annotations

import contextlib
import os
import pty
import re
import subprocess
import sys
import tempfile
from collections.abc import Iterator

import hands  # desk's folder is on the path now

MODULES = ("flask", "jinja2", "werkzeug", "waitress", "selenium", "rich", "mypy")
COMMANDS = (
    "apt apt-get aptitude dpkg chromium chromium-browser google-chrome firefox chromedriver "
    "geckodriver xdg-open tmux cadical kissat minisat clasp mypy dmypy pdfinfo"
).split()
PATIENCE = 900.0  # seconds for one command, on a machine that does much else

# Python reads this before anything else, where its folder comes first on PYTHONPATH.
HIDES = f"""
import sys
from importlib.machinery import PathFinder

class Bare(PathFinder):
    @classmethod
    def find_spec(cls, name, path=None, target=None):
        hidden = name.partition(".")[0] in {MODULES!r}
        return None if hidden else super().find_spec(name, path, target)

sys.meta_path[:] = [Bare if one is PathFinder else one for one in sys.meta_path]
"""

PLANTED = [
    # a library is asked for where it isn't needed
    ("faces/plain.py", "import sys\n", "import sys\n\nimport rich\n"),
    (
        "report/page.py",
        "from ..hints import patterns, solver\n",
        "from ..faces import drawing\nfrom ..hints import patterns, solver\n",
    ),
    (
        "__main__.py",
        "from .program import repository\n",
        "from .program import repository\nfrom .web import server\n",
    ),
    # it isn't looked for where it is needed
    ("web/serve.py", "    libraries()\n", ""),
    ("commands/check.py", '    if importlib.util.find_spec("rich") is None:\n', "    if False:\n"),
    ("commands/ask.py", '    if importlib.util.find_spec("rich") is None:\n', "    if False:\n"),
    # what to install isn't said
    ("web/serve.py", "`apt-get install {PACKAGES}`", "install them"),
    # a solver is there that isn't
    ("hints/solver.py", "(solver for solver in SOLVERS if shutil.which(solver))", "iter(SOLVERS)"),
    ("faces/end.py", "can = solver.name() is not None", "can = True"),
]


def libraries() -> str:
    """PYTHONPATH as it is."""
    return os.environ.get("PYTHONPATH", "")


def hiding(top: str) -> str:
    """PYTHONPATH with which Python doesn't find what is hidden, by a folder that is made in
    another one."""
    folder = os.path.join(top, "python")
    os.mkdir(folder)
    with open(os.path.join(folder, "sitecustomize.py"), "w", encoding="ascii") as file:
        file.write(HIDES)
    return os.pathsep.join(filter(None, (folder, libraries())))


@contextlib.contextmanager
def machine() -> Iterator[dict[str, str]]:
    """The environment in which a command runs on such a machine, whoever runs it."""
    with tempfile.TemporaryDirectory(prefix="bare-") as top:
        os.chmod(top, 0o755)
        commands = os.path.join(top, "bin")
        os.mkdir(commands)
        for folder in os.get_exec_path():
            with contextlib.suppress(OSError):
                for name in os.listdir(folder):
                    if name not in COMMANDS:
                        with contextlib.suppress(
                            FileExistsError
                        ):  # the first on PATH is the one that is found
                            os.symlink(os.path.join(folder, name), os.path.join(commands, name))
        left_out = ("NO_INSTALL", "BROWSER", "DISPLAY", "WAYLAND_DISPLAY", "DESK_WEB_PYTHON")
        environment = {name: value for name, value in os.environ.items() if name not in left_out}
        yield {
            **environment,
            "PATH": commands,
            "PYTHONPATH": hiding(top),
            "LC_ALL": "C.UTF-8",
        }


# ---------------------------------------------------------------- what is so there


class There:
    """Commands on such a machine, beside a case."""

    def __init__(self, environment: dict[str, str], program: str, path: str) -> None:
        self.environment = {**environment, "DESK_ACQUIRE": program}
        self.program, self.path = program, path

    def ran(
        self, *words: str, given: str = "", without: str = "", user: int | None = None
    ) -> subprocess.CompletedProcess[str]:
        """What a command comes to; one variable of the environment may be left out, and another
        user may run it."""
        environment = {name: value for name, value in self.environment.items() if name != without}
        return subprocess.run(
            words,
            env=environment,
            input=given,
            capture_output=True,
            text=True,
            encoding="utf-8",
            timeout=PATIENCE,
            user=user,
            check=False,
        )

    def desk(self, *words: str, given: str = "") -> subprocess.CompletedProcess[str]:
        """What a call of desk comes to."""
        return self.ran("/usr/bin/python3", os.path.join(hands.DESK, "desk"), *words, given=given)

    def check(self, name: str, *words: str) -> subprocess.CompletedProcess[str]:
        """What one of the project's checks comes to, of the desk that is looked at."""
        return self.ran(
            "/usr/bin/python3",
            os.path.join(hands.TOP, "checks", name),
            self.program,
            *words,
            without="DESK_ACQUIRE",
        )


def nothing_is_there(it: There) -> Iterator[str]:
    """No command and no library that is hidden can be found, by nobody either where root runs
    this."""
    names = "', '".join(MODULES)
    code = f"import importlib.util as u; print([one for one in ('{names}') if u.find_spec(one)])"
    line = f"for it in {' '.join(COMMANDS)}; do command -v $it; done"
    for user in (None, *([hands.NOBODY] if hands.NOBODY else [])):
        found = it.ran("/usr/bin/python3", "-c", code, user=user).stdout
        if found != "[]\n":
            yield f"libraries are there for {user}: {found}"
        found = it.ran("/bin/sh", "-c", line, user=user).stdout
        if found or not it.ran("/bin/sh", "-c", "command -v bash", user=user).stdout:
            yield f"commands are there for {user}: {found!r}, or none at all"


def checked(it: There) -> Iterator[str]:
    """`desk check` goes to its end, and says why it shows no plans."""
    ran = it.desk("check", it.path, "--seconds", "1")
    if (
        ran.returncode
        or ran.stderr
        or "no SAT solver is installed (cadical, minisat or clasp)" not in ran.stdout
    ):
        yield f"check: {ran.returncode}, {ran.stderr!r}, {ran.stdout[-300:]!r}"
    if "can't say" not in ran.stdout or "questions" not in ran.stdout:
        yield f"check says little: {ran.stdout!r}"


def asked_and_reported(it: There) -> Iterator[str]:
    """Lines are asked to the end, and the page has the rules."""
    ran = it.desk("ask", it.path, "--plan", "scopes", given="n\nn\nn\nq\n")
    if (
        ran.returncode
        or ran.stderr
        or "For plans to look at, install a SAT solver" not in ran.stdout
        or "go on to plans" in ran.stdout
    ):
        yield f"ask: {ran.returncode}, {ran.stderr!r}, {ran.stdout[-400:]!r}"
    page = it.path.removesuffix(".case") + ".html"
    ran = it.desk("report", it.path, page)
    if ran.returncode or ran.stderr or not os.path.exists(page):
        yield f"report: {ran.returncode}, {ran.stderr!r}"
        return
    with open(page, encoding="utf-8") as file:
        text = file.read()
    if "a and b differ" not in text or "no SAT solver is installed" not in text:
        yield "the page lacks the rule, or why it shows no plans"


def on_a_terminal(it: There) -> Iterator[str]:
    """Where a screen is due, it is said what draws it, and that lines do without."""
    far, near = pty.openpty()
    words = ["/usr/bin/python3", os.path.join(hands.DESK, "desk"), "ask", it.path]
    ran = subprocess.run(
        words,
        env={**it.environment, "TERM": "xterm"},
        stdin=near,
        stdout=near,
        stderr=subprocess.PIPE,
        text=True,
        timeout=PATIENCE,
        check=False,
    )
    os.close(near)
    os.close(far)
    if ran.returncode != 1 or not re.fullmatch(
        (
            "desk: the library that draws the screen isn't installed: `apt-get install"
            " python3-rich`, or take --plain\n"
        ),
        ran.stderr,
    ):
        yield f"on a terminal: {ran.returncode}, {ran.stderr!r}"


def served(it: There) -> Iterator[str]:
    """No page is served, and it is said what to install for that."""
    ran = it.desk("web", os.path.dirname(it.path), "--no-browser")
    wanted = (
        "desk: the libraries that serve pages aren't installed: `apt-get install python3-flask"
        " python3-waitress`\n"
    )
    if (ran.returncode, ran.stdout, ran.stderr) != (1, "", wanted):
        yield f"web: {ran.returncode}, {ran.stdout!r}, {ran.stderr!r}"


OVER = (
    "desk: 0 faults, after [0-9]+ s of a processor; passed over: tmux isn't installed, so no"
    " terminal is looked at; chromium isn't installed, so no browser is looked at; poppler-utils"
    " isn't installed, so no page is counted; no SAT solver is installed, so no plan is drawn;"
    " python3-rich isn't installed, so the parts terminal, captured, screens, pace aren't run"
)
IN_PARTS = "; within parts, each in a line above: plans 1"


def of_desk(it: There) -> Iterator[str]:
    """checks/desk.py looks at what it can, plants what it can, and its last line says what it passed
    over."""
    for words in (("faults", "terminal", "plans"), ("planted", "faults", "pace")):
        ran = it.check("desk.py", *words)
        last = ran.stdout.splitlines()[-1:]
        over = OVER + (IN_PARTS if "plans" in words else "")
        if ran.returncode or ran.stderr or not re.fullmatch(over, "".join(last)):
            yield f"desk.py {' '.join(words)}: {ran.returncode}, {last}, {ran.stderr[-300:]!r}"
        if "plans" in words and "passed over: plans: no solver draws a plan" not in ran.stdout:
            yield f"desk.py {' '.join(words)}: {ran.stdout!r}"
        if (
            "planted" in words
            and "1 bugs in desk, one at a time, and 1 were noticed" not in ran.stdout
        ):
            yield f"desk.py {' '.join(words)}: {ran.stdout!r}"


def of_the_page(it: There) -> Iterator[str]:
    """checks/web.py passes over all its tests, and its last line says so."""
    ran = it.check("web.py")
    last = ran.stdout.splitlines()[-1:]
    if (
        ran.returncode
        or ran.stderr
        or not re.fullmatch(
            (
                "web: 0 tests, 0 faults, in [0-9]+ s; passed over: all tests, since no page can be"
                " served here"
            ),
            "".join(last),
        )
    ):
        yield f"web.py: {ran.returncode}, {last}, {ran.stderr[-300:]!r}"


ROWS = (nothing_is_there, checked, asked_and_reported, on_a_terminal, served, of_desk, of_the_page)


def run(program: str) -> list[str]:
    """The faults that were found."""
    faults = looked(program, ROWS)
    print(f"bare: {len(ROWS)} rows on a machine without libraries, solvers, browsers and terminals")
    return faults


def quick(program: str) -> list[str]:
    """Without the other checks, in which nothing is planted here."""
    return looked(program, ROWS[:5])


def looked(program: str, rows: tuple[object, ...]) -> list[str]:
    """The faults of some rows."""
    text = "title: Two\nthings: a b\nvalues: x y z\nask: all\nwords: different\n"
    with machine() as environment, hands.room("two", text) as path:
        it = There(environment, program, path)
        return [f"bare: {fault}" for row in rows for fault in row(it)]  # type: ignore[operator]


if __name__ == "__main__":
    if len(sys.argv) < 2:
        sys.exit(__doc__)
    with machine() as bare:
        sys.exit(subprocess.run(sys.argv[1:], env=bare, check=False).returncode)
