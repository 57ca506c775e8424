"""`desk report`: one page of HTML, without script, with the rules, plans and answers of a
session."""

from __future__ import annotations

import argparse
import hashlib
import os
import re
import shlex
from collections import Counter
from collections.abc import Callable, Iterator, Sequence

from ..case import casefile, files
from ..case.files import journal_of, kept_of
from ..case.model import Case, Ending, Fault, Values
from ..case.picture import CLASH, Cells, Grid, Picture, grid_of, sentence
from ..hints import patterns, solver
from ..hints.foreseen import AGAIN, ALWAYS, CARRIED
from ..hints.sentences import Sentence, grouped
from ..program.talk import Clock, Program
from ..sitting import judging
from ..sitting.answers import BY, contradicted, yes_no
from ..sitting.session import Session
from .markup import Html, element, joined
from .style import STYLE

# how each page begins, by which desk knows its own
START = (
    '<!DOCTYPE html>\n<html lang="en"><head><meta charset="utf-8"><meta name="generator"'
    ' content="desk">'
)
# what a browser may do for a page: nothing but show it in its own style
POLICY = "default-src 'none'; style-src 'unsafe-inline'"
# how pages began before they had this mark: desk's title, and its own style right behind
OLD_START = re.compile(
    rb'<!DOCTYPE html>\n<html lang="en"><head><meta charset="utf-8"><meta name="viewport" '
    rb'content="width=device-width, initial-scale=1"><title>[^<]*</title><style>\n'
    rb":root\{color-scheme:light dark;--ground:#ffffff;--text:#1c2330;"
)
ENDS = (".case", ".journal", ".session", ".certificate")  # of files that are no pages
MOST_PLANS = 4
SECONDS_FOR_PLANS = 20.0  # that are looked for, all together
SECONDS_FOR_BROKEN = 40.0  # for those that break one rule alone, all together
MOST_COLUMNS = 10  # of a table on a page of paper; with more it is turned, or a list
MOST_ROWS = 12  # of a list in one column


def main(path: str, options: argparse.Namespace) -> int:
    """Writes the page of a case's session, and its certificate beside it."""
    case = casefile.read(path)
    beside = os.path.splitext(options.file)[0] + ".certificate"
    named_for_a_page(case.path, options.file)
    files.may_be_replaced(options.file, is_page, "a page")
    files.may_be_replaced(beside, is_certificate, "a certificate")
    with Session.opened(case, Program.found(options.acquire), make=False) as session:
        if session.against():
            raise contradicted(session)
        ending = session.state()
        certificate = certified(session, ending, beside)
        made = {certificate.name: certificate.content} if certificate else {}
        files.write_all({**made, options.file: page(session, ending, certificate).encode()})
    print(f"written: {options.file}" + (f" and {certificate.name}" if certificate else ""))
    return 0


def named_for_a_page(case: str, file: str) -> None:
    """A fault where the page would be called as a case or as what lies beside one."""
    own = [os.path.realpath(one) for one in (case, journal_of(case), kept_of(journal_of(case)))]
    if os.path.realpath(file) in own or file.endswith(ENDS):
        whose = "a case, its session or a certificate"
        raise Fault(
            f"{file} is called as {whose} is, so no page is written there: name it "
            f"{os.path.splitext(case)[0]}.html"
        )


def is_page(head: bytes) -> bool:
    """Whether a file that begins so is a page of desk's, also one that was written before pages had
    their mark."""
    return head.startswith(START.encode()) or OLD_START.match(head) is not None


def is_certificate(head: bytes) -> bool:
    """Whether a file that begins so is a certificate of the program's."""
    return head.startswith(b"QUACQCERT")


# ---------------------------------------------------------------- the certificate


class Certificate:
    """A file that another can check without trusting this session."""

    def __init__(self, name: str, content: bytes, program: str) -> None:
        self.name, self.content = name, content
        self.digest = hashlib.sha256(content).hexdigest()
        self.command = f"{program} :memory: check < {shlex.quote(os.path.basename(name))}"


def certified(session: Session, ending: Ending, name: str) -> Certificate | None:
    """The certificate of a session that has converged, where `check` confirms it."""
    if ending.word != "converged":
        return None
    reply = session.program.call([session.journal, "certify"])
    content = reply.text.encode()
    if reply.status != 0 or session.program.call([":memory:", "check"], content).status != 0:
        return None
    return Certificate(name, content, "acquire")


# ---------------------------------------------------------------- the page


def page(session: Session, ending: Ending, certificate: Certificate | None) -> str:
    """The whole page."""
    return whole(session.case.title, content(session, ending, certificate))


def content(
    session: Session,
    ending: Ending,
    certificate: Certificate | None,
    clock: Callable[[float], Clock] = Clock,
) -> Html:
    """What the page shows. Plans are looked for as long as a clock says, which is made for so many
    seconds."""
    done = ending.word == "converged"
    learned = (
        ending.learned if done else () if ending.word == "collapsed" else tuple(session.learned())
    )
    found = grouped(
        session.vocabulary, learned, session.reduced() if done else None, session.answers
    )
    ruled = (
        ()
        if ending.word == "collapsed"
        else (
            section("The rules" if done else "Rules so far", *rules(found)),
            *beside(session.case),
            *(plans(session, found, clock) if done else ()),
            *pattern_view(session),
        )
    )
    return joined(
        element("h1", session.case.title),
        element("p", state_text(session, ending), class_="dim"),
        *ruled,
        answers(session),
        proof(certificate, ending.word),
    )


def whole(title: str, body: Html) -> str:
    """A page of its own, in its own style."""
    head = joined(
        element("meta", http_equiv="Content-Security-Policy", content=POLICY),
        element("meta", name="viewport", content="width=device-width, initial-scale=1"),
        element("title", title),
        element("style", Html(STYLE)),
    )
    return START + head + "</head>" + element("body", element("main", body)) + "</html>\n"


def section(title: str, *inside: str) -> Html:
    """A part of the page with its heading."""
    return element("section", element("h2", title), *inside)


def state_text(session: Session, ending: Ending) -> str:
    """How far the session is."""
    count = len(session.answers)
    by = Counter(answer.said.by if answer.said else "" for answer in session.answers)
    said = f"{count} answer{'s' if count != 1 else ''}"
    if by[""] != count:
        said += f", {by['']} of them given one by one"
        said += f", {by[AGAIN]} again as before you went back" if by[AGAIN] else ""
        said += (
            f", {by[ALWAYS] + by[CARRIED]} said beforehand or carried over"
            if by[ALWAYS] + by[CARRIED]
            else ""
        )
    if ending.word == "converged":
        return f"Nothing is left open that the words of the case can say, after {said}."
    if ending.word == "collapsed":
        return f"The answers clash: no rules agree with all of them. There are {said}."
    possible = session.possible
    return f"Not finished: {said} so far; {possible.progress}."


def rules(found: Sequence[Sentence]) -> Iterator[Html]:
    """The rules in sentences."""
    if not found:
        yield element("p", "None.")
        return
    yield element("ul", *(rule(said) for said in found), class_="rules")


def rule(said: Sentence) -> Html:
    """A sentence, and what of it follows from others."""
    mark = said.whole.removeprefix(said.text)
    return element("li", said.text, *([element("span", mark, class_="dim")] if mark else []))


def beside(case: Case) -> Iterator[Html]:
    """What the case says beside its rules, in the person's own words."""
    if case.known:
        yield section(
            "Said, not learned",
            element("p", "These were never asked about. Sample plans keep them.", class_="dim"),
            element("ul", *(element("li", one.text) for one in case.known), class_="rules"),
        )
    if case.notes:
        yield section(
            "Notes",
            element(
                "p", "These are for people alone; no plan was held against them.", class_="dim"
            ),
            element("ul", *(element("li", note) for note in case.notes), class_="rules"),
        )


# ---------------------------------------------------------------- plans


def plans(
    session: Session, found: Sequence[Sentence], clock: Callable[[float], Clock]
) -> Iterator[Html]:
    """Plans that the rules allow, and for each sentence one that breaks it alone."""
    if solver.name() is None:
        yield section(
            "Plans",
            element(
                "p", "None are drawn, since no SAT solver is installed: cadical, minisat or clasp."
            ),
        )
        return
    some = solver.far(
        session.program, session.vocabulary, session.journal, MOST_PLANS, clock(SECONDS_FOR_PLANS)
    )
    shown = [
        drawn(session, plan.values, f"Plan {number}{judging.apart_text(plan)}")
        for number, plan in enumerate(some, 1)
    ]
    hint = element(
        "p",
        "If one of these is wrong, an answer was a slip, or the words of the case can't say why.",
        class_="dim",
    )
    yield section(
        "Plans that the rules allow",
        hint,
        (
            element("div", *shown, class_="side")
            if shown
            else element("p", "No plan was found that satisfies all rules.")
        ),
    )
    clauses = solver.clauses_of(session.program, session.vocabulary, session.journal)
    left = clock(SECONDS_FOR_BROKEN)
    left.doing("looking for plans that break one rule alone")
    broken, without = [], []
    for said in found:
        one = judging.broken_alone(session, said, found, clauses, left)
        if one is None:
            without.append(rule(said))
        else:
            broken.append(drawn(session, one.values, f"Refused: {one.rule.text}", one.marks))
    if broken:
        hint = element(
            "p",
            (
                "Each of these plans breaks one rule, in the marked cells, and keeps all others. If"
                " one is right, an answer was a slip, or the words of the case can't say why."
            ),
            class_="dim",
        )
        yield section("What each rule alone refuses", hint, element("div", *broken, class_="side"))
    if without:
        yield section(
            "Rules that no plan was found to break alone", element("ul", *without, class_="rules")
        )


def drawn(
    session: Session, values: Values, caption: str, marks: dict[int, str] | None = None
) -> Html:
    """A plan as a table or a list with its caption."""
    picture = Picture(session.case, values, marks or {})
    return element("figure", element("figcaption", caption), table(picture))


def table(picture: Picture) -> Html:
    """The picture's table."""
    grid = grid_of(picture, "", "")
    if grid and len(grid.heads) > MOST_COLUMNS:
        grid = grid.turned() if len(grid.rows) <= MOST_COLUMNS else None
    if grid:
        return grid_table(grid)
    cells = [
        (picture.case.things[thing].name, picture.label(thing), picture.marks.get(thing) == CLASH)
        for thing in sorted(picture.values)
    ]
    if len(cells) > MOST_ROWS:
        return element(
            "ul",
            *(
                element(
                    "li", f"{name}: ", element("span", label, class_="clash" if clash else None)
                )
                for name, label, clash in cells
            ),
            class_="cells",
        )
    rows = [
        element(
            "tr",
            element("th", name, scope="row"),
            element("td", label, class_="clash" if clash else None),
        )
        for name, label, clash in cells
    ]
    return element(
        "table",
        element(
            "thead",
            element("tr", element("th", "what", scope="col"), element("th", "value", scope="col")),
        ),
        element("tbody", *rows),
        class_="plan",
    )


def grid_table(grid: Grid) -> Html:
    """A table with heads at the top and at the left."""
    head = element("tr", element("td"), *(element("th", name, scope="col") for name in grid.heads))
    rows = []
    for name, cells in grid.rows:
        made = [grid_cell(cell) for cell in cells]
        rows.append(element("tr", element("th", name, scope="row"), *made))
    return element("table", element("thead", head), element("tbody", *rows), class_="plan")


def grid_cell(lines: Cells) -> Html:
    """What stands at one place, a line each; only what clashes is marked."""
    clash = [cell.kind == CLASH for cell in lines]
    if all(clash) or not any(clash):
        texts = [cell.text for cell in lines]
    else:
        texts = [
            element("span", cell.text, class_="clash") if marked else cell.text
            for cell, marked in zip(lines, clash, strict=True)
        ]
    inside = [piece for text in texts if text for piece in (element("br"), text)][1:]
    return element("td", *inside, class_="clash" if all(clash) else None)


# ---------------------------------------------------------------- the pattern view


def pattern_view(session: Session) -> Iterator[Html]:
    """In a grid case: each pattern's rules along the grid, the odd ones marked."""
    rows = patterns.rows(
        session.vocabulary, session.learned(), session.answers, session.possible.open
    )
    by_part: dict[int, list[patterns.Row]] = {}
    for row in rows:
        by_part.setdefault(row.part, []).append(row)
    if not rows:
        return
    tables = []
    for part, mine in by_part.items():
        members = session.case.thing_parts[part].members
        head = element("tr", element("td"), *(element("th", name, scope="col") for name in members))
        lines = [
            element(
                "tr",
                element("th", row.name, scope="row"),
                *(pattern_cell(row, place, member) for place, member in enumerate(members)),
            )
            for row in mine
        ]
        tables.append(
            element(
                "table", element("thead", head), element("tbody", *lines), class_="plan pattern"
            )
        )
    hint = element(
        "p",
        (
            "A marked cell is other than most of its row. That may be right; if it isn't, an answer"
            " was a slip, or the words of the case can't say it."
        ),
        class_="dim",
    )
    yield section(
        "The rules along the grid", hint, *(element("div", one, class_="wide") for one in tables)
    )


def pattern_cell(row: patterns.Row, place: int, member: str) -> Html:
    """The rules of a pattern at one place, which is named where the page is too narrow for its
    column."""
    cell = row.cells.get(place)
    if cell is None:
        return element("td", class_="none")
    return element(
        "td",
        element("span", f"{member}: ", class_="where"),
        cell.text + (" (odd)" if cell.odd else ""),
        class_="odd" if cell.odd else None,
    )


# ---------------------------------------------------------------- answers and certificate


def answers(session: Session) -> Html:
    """All answers, folded away on a screen. Paper has them unfolded, and a browser that can't do
    that by itself says what to do."""
    rows = []
    for answer in session.answers:
        word = yes_no(answer.yes)
        by = f"{BY[answer.said.by]}: {answer.said.why}" if answer.said else "asked"
        shown = sentence(Picture(session.case, answer.question.values))
        rows.append(
            element(
                "tr",
                element("th", str(answer.question.number), scope="row"),
                element("td", word, class_=word),
                element("td", shown),
                element("td", by),
            )
        )
    head = element(
        "tr",
        *(
            element("th", name, scope="col")
            for name in ("question", "answer", "what was shown", "how it came")
        ),
    )
    folded = element(
        "details",
        element("summary", f"All {len(rows)} answers"),
        element(
            "div",
            element("table", element("thead", head), element("tbody", *rows), class_="answers"),
            class_="wide",
        ),
    )
    hint = element("p", "Open this before you print, so that paper has it too.", class_="unfold")
    return section("What was asked", folded, hint)


def proof(certificate: Certificate | None, ended: str) -> Html:
    """How another can check it."""
    if certificate is None:
        why = {"converged": "it is too large", "collapsed": "the answers clash"}.get(
            ended, "the session isn't finished"
        )
        return section("Checking it", element("p", f"There is no certificate, since {why}."))
    says = (
        "Whoever has the program can check, without trusting this page, that these answers leave no"
        " other rules than those of the certificate's network:"
    )
    return section(
        "Checking it",
        element("p", says),
        element("pre", element("code", certificate.command)),
        element(
            "p",
            "The certificate is the file ",
            element("code", os.path.basename(certificate.name)),
            ", and its sha256 is",
        ),
        element("pre", element("code", certificate.digest), class_="digest"),
    )
