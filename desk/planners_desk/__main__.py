"""desk: somebody who can judge a plan finds its rules, by looking at examples of it."""

from __future__ import annotations

import argparse
import contextlib
import os
import sys
import traceback

from .case import catalogue
from .case.model import PLANS, Fault
from .commands import handout, streams
from .faces import ways
from .program import repository

USAGE = f"""desk finds the rules of a plan: you look at examples and say whether they are all right.

    desk check CASE              before the first question: what the case can't say, how many \
questions, which plan
    desk ask CASE                put the questions; goes on where it was
    desk report CASE FILE.html   one page with the rules, sample plans and all answers
    desk carry CASE              the case has changed: a new session, in which the old \
answers count as far as they decide
    desk carry OLD NEW           the same, from one case to another
    desk web [CASE | FOLDER]     all of this on a page in the browser, for this \
user of this machine alone
    desk words                   the words of which rules are made
    desk cases FOLDER            copies of the cases to begin with, to try and to change

Before a command, --unproved takes the repository's program without proof, built in some two \
minutes, as ACQUIRE_UNPROVED=1 does;
else it is proved first, which desk says before. --version says which desk this is.

A case is a text; four to begin with are in {handout.CASES}.
Nothing of desk is proved: the program acquire below it is."""


def parser() -> argparse.ArgumentParser:
    """The words that desk takes."""
    whole = argparse.ArgumentParser(
        prog="desk", description=USAGE, formatter_class=argparse.RawDescriptionHelpFormatter
    )
    whole.add_argument(
        "--unproved",
        action="store_true",
        help="before a command: take the repository's program without proof",
    )
    whole.add_argument(
        "--version", "-V", action="version", version=version(), help="say which desk this is"
    )
    commands = whole.add_subparsers(dest="command", metavar="COMMAND", required=True)
    common = argparse.ArgumentParser(add_help=False)
    common.add_argument(
        "--acquire",
        metavar="PROGRAM",
        help="the program acquire; else DESK_ACQUIRE, that of this repository, or that on PATH",
    )
    common.add_argument(
        "--budget", type=budget, metavar="N", help="how long a search may be, as for acquire"
    )
    check = commands.add_parser(
        "check", parents=[common], help="what a case can say and can't, and which plan to take"
    )
    ask = commands.add_parser("ask", parents=[common], help="put the questions")
    report = commands.add_parser("report", parents=[common], help="one page with all that is known")
    carry = commands.add_parser(
        "carry", parents=[common], help="take old answers over into a changed case"
    )
    web = commands.add_parser("web", parents=[common], help="a page in the browser")
    commands.add_parser("words", help="the words of which rules are made")
    cases = commands.add_parser("cases", help="copies of the cases to begin with")
    for command in (check, ask):
        command.add_argument(
            "--seconds",
            type=seconds,
            metavar="S",
            help=(
                "how long the ways of asking may be compared; else 10 in check, 3 in ask. In check "
                "also each of plans, prices and counts"
            ),
        )
    for command in (check, ask, report):
        command.add_argument("case", metavar="CASE")
    ask.add_argument(
        "--plan",
        choices=PLANS,
        help="how questions are chosen, where the session begins; else what desk check advises",
    )
    ask.add_argument(
        "--plain",
        action="store_true",
        help="plain lines, one below the other, as for a screen reader",
    )
    web.add_argument(
        "place",
        metavar="CASE | FOLDER",
        nargs="?",
        default=".",
        help="a case, or a folder of cases; else this folder",
    )
    web.add_argument("--no-browser", action="store_true", help="only say where the page is")
    web.add_argument("--port", type=port, default=0, metavar="N", help="else one that is free")
    report.add_argument("file", metavar="FILE.html")
    carry.add_argument("old", metavar="OLD")
    carry.add_argument("new", metavar="NEW", nargs="?")
    cases.add_argument("folder", metavar="FOLDER")
    return whole


def version() -> str:
    """Which desk this is: what an installation says of the program that came with it, else the
    version of the repository."""
    for name in ("version", "VERSION"):
        with (
            contextlib.suppress(OSError),
            open(os.path.join(repository.TOP, name), encoding="utf-8") as file,
        ):
            return f"desk {file.readline().strip().removeprefix('acquire ')}"
    return "desk, copied alone: nothing beside it says which"


def seconds(text: str) -> float:
    """A time as somebody types it."""
    given = float(text)
    if not 0 < given <= 86400:
        raise ValueError
    return given


def port(text: str) -> int:
    """A port of this machine."""
    given = int(text)
    if not 0 <= given < 2**16:
        raise ValueError
    return given


def budget(text: str) -> int:
    """A budget as the program takes it."""
    given = int(text)
    if not 0 <= given < 2**63:
        raise ValueError
    return given


def words() -> int:
    """Prints the catalogue."""
    print(
        "V and W are values, PART is a side of a grid of values, x and y are things, K is a number."
    )
    for arity in (1, 2, 3):
        print({1: "\nof one thing", 2: "\nof two things", 3: "\nof three or four things"}[arity])
        for entry in catalogue.ENTRIES:
            if entry.arity == arity:
                print(f"  {entry.form:<32} {entry.meaning}")
    return 0


def run(options: argparse.Namespace) -> int:
    """Does what the words say; the exit status."""
    if options.command == "words":
        return words()
    if options.command == "cases":
        return handout.main(options.folder)
    if options.unproved:
        repository.take_unproved(options.acquire or os.environ.get("DESK_ACQUIRE"))
    if options.command == "check":
        from .commands import check

        return check.main(options.case, options)
    if options.command == "ask":
        from .commands import ask

        return ask.main(options.case, options)
    if options.command == "report":
        from .report import page

        return page.main(options.case, options)
    if options.command == "web":
        from .web import serve

        return serve.main(options)
    from .commands import carry

    return carry.main(options.old, options.new, options)


def main() -> int:
    """The exit status: 0 where it is done, 1 for a fault that is told, 2 for words that aren't
    taken."""
    streams.prepared()
    try:
        if wrong := streams.wrong_word(sys.argv[1:]):
            print(f"desk: {wrong}", file=sys.stderr)
            return 2
        streams.there(reads=False)
        options = parser().parse_args()
        streams.there(reads=options.command == "ask")
        status = run(options)
        sys.stdout.flush()
        return status
    except BrokenPipeError:
        return 1  # nobody reads it any more
    except KeyboardInterrupt:
        print("\ndesk: stopped; all answers are kept", file=sys.stderr)
        return 130
    except Exception as error:
        return told(error)
    finally:
        streams.given_up()


def told(error: Exception) -> int:
    """Says why desk can't go on, a line for each thing that has to be mended; the exit status."""
    for line in ways.lines(error if isinstance(error, Fault) else Fault(streams.reason(error))):
        print(f"desk: {line}", file=sys.stderr)
    if sys.flags.dev_mode:
        traceback.print_exception(error)
    return 1


if __name__ == "__main__":
    sys.exit(main())
