"""`desk check`: what is said of a case before the first question."""

from __future__ import annotations

import argparse
import importlib.util
import re
import shutil
import sys
import textwrap
from collections.abc import Iterable, Iterator, Sequence

from ..case import casefile
from ..case.model import MOST_RELATIONS, Case, Values
from ..case.picture import Picture, sentence
from ..faces import plain
from ..hints import offers, trials
from ..hints.along import and_list
from ..hints.trials import WAYS, Figures
from ..program import vocabulary
from ..program.talk import Clock, Program
from ..program.vocabulary import Vocabulary
from ..sitting import outlook
from ..sitting.outlook import Forecast, Seconds
from . import streams

SIZES = {1: "single things", 2: "pairs", 3: "groups of three", 4: "groups of four"}


class Moving:
    """A line at a terminal that says how far something is, and goes when it is done."""

    def __init__(self, width: int) -> None:
        self._width = width - 1
        self._shown = False

    def tell(self, text: str) -> None:
        """Puts the text in place of the one before."""
        if sys.stdout.isatty():
            print("\r" + text[: self._width].ljust(self._width), end="", flush=True)
            self._shown = True

    def gone(self) -> None:
        """Takes the line away."""
        if self._shown:
            print("\r" + " " * self._width + "\r", end="", flush=True)
            self._shown = False


def main(path: str, options: argparse.Namespace) -> int:
    """Prints it all; the exit status."""
    case = casefile.read(path)
    streams.can_show(case)
    program = Program.found(options.acquire)
    words = vocabulary.build(case)
    width = min(shutil.get_terminal_size((100, 24)).columns, 100)
    moving = Moving(width)
    seconds = Seconds.each(options.seconds)

    def put(lines: Iterable[str]) -> None:
        made = list(lines)
        moving.gone()
        for line in made:
            print_wrapped(line, width)

    def clock(most: float) -> Clock:
        return Clock(most, moving.tell)

    put((*overview(words), *cannot_say(words, width)))
    put(first_plans(words, outlook.first_plans(words, program, clock(seconds.plans)), width))
    forecast = outlook.forecast(words, program, clock(seconds.ways))
    put(compared(words, forecast, width))
    put(priced(forecast, outlook.prices(trials.prices(case, program, clock(seconds.prices)))))
    put(offered(case, forecast, offers.offers(case, program, clock(seconds.counts))))
    return 0


def print_wrapped(line: str, width: int) -> None:
    """Prints a line, broken between words where it is a sentence; tables and plans stay as they
    are."""
    if len(line) <= width or line.startswith("    "):
        print(line)
        return
    indent = "  " if line.startswith(("- ", "  ")) else ""
    print(
        "\n".join(
            textwrap.wrap(
                line,
                width,
                subsequent_indent=indent,
                break_long_words=False,
                break_on_hyphens=False,
            )
        )
    )


def overview(words: Vocabulary) -> Iterator[str]:
    """How large the case is."""
    case = words.case
    yield case.title
    yield "=" * len(case.title)
    made = outlook.combined(words)
    groups = " and ".join(f"{one.groups} {SIZES[one.arity]}" for one in made)
    yield (
        f"{len(case.things)} things, {len(case.values)} values, {len(case.words)} words; asked "
        f"about: {groups}"
        + (f"; {len(case.always)} rules said beforehand." if case.always else ".")
    )
    for one in made:
        without = [f"without `{text}` they make {rules}" for text, rules in one.without]
        yield (
            f"On {SIZES[one.arity]} the words, alone and several at once, make {one.rules} rules, "
            f"and the program takes {MOST_RELATIONS}"
            + (f"; {', '.join(without)}." if without else ".")
        )


# ---- what the case can't say


def cannot_say(words: Vocabulary, width: int) -> Iterator[str]:
    """What no answers can bring about, in words."""
    unsaid = outlook.unsaid(words)
    yield ""
    yield "What this case can't say"
    said = [f"`{text}`" for text in unsaid.counts]
    yield (
        '- Counts above three, as "at most five shifts each", and sums: no rule is about more than '
        "four things."
        + (f" The counts that it does say: {and_list(said)}." if said else "")
    )
    if unsaid.alone:
        yield f"- Nothing is learned of {_some(unsaid.alone)}: no `ask` line puts them in a group."
    if unsaid.apart is not None:
        yield (
            f"- Rules between things that aren't put together: {unsaid.apart.pairs} of "
            f"{unsaid.apart.of} pairs, such as {' and '.join(unsaid.apart.example)}."
        )
    for weak in unsaid.weak:
        yield from _weak(words.case, weak, width)
    yield (
        "- At the end nothing is left open of the rules that these words can say. What they can't "
        "say was never asked, so look at the sample plans."
    )


def _some(texts: Sequence[str], most: int = 4) -> str:
    """A few of them, and how many there are."""
    return ", ".join(texts[:most]) + (f" and {len(texts) - most} more" if len(texts) > most else "")


def _weak(case: Case, weak: outlook.Weak, width: int) -> Iterator[str]:
    """What the words can't refuse on a group, and what they can't refuse alone."""
    who = and_list([case.things[thing].name for thing in weak.things])
    if not weak.refuses:
        yield f"- On {who} no word refuses anything."
        return
    if weak.example is not None:
        yield (
            f"- On {SIZES[len(weak.things)]} such as {who}, {weak.never} of {weak.choices} "
            "choices can never be forbidden by these words. Is this one always all right? Else a "
            "word is missing:"
        )
        yield from ("    " + line for line in plan_lines(case, weak.example, width - 4))
    if weak.coarse is not None:
        others = weak.coarse.others
        yield (
            f"- Whatever forbids {_said(case, weak.coarse.values)} forbids {others} other "
            f"choice{'s' if others > 1 else ''} too, at the least; as "
            f"{_said(case, weak.coarse.example)}."
        )


def _said(case: Case, values: Values) -> str:
    """A choice in words."""
    return and_list(sentence(Picture(case, values)).split(", "))


# ---- plans before the first question

BY = {
    outlook.LEARNED: "Plans that the rules learned so far allow",
    outlook.BEFOREHAND: "Plans that the rules said beforehand allow",
    outlook.NOTHING: "Plans that are possible as long as no rule is known",
}


def first_plans(words: Vocabulary, found: outlook.FirstPlans | None, width: int) -> Iterator[str]:
    """Plans that all that is known so far allows."""
    yield ""
    if found is None:
        yield "No plans are shown here: no SAT solver is installed (cadical, minisat or clasp)."
        return
    yield BY[found.by]
    if not found.some:
        yield "The solver found none: the rules leave no plan, or it took too long."
    yield from pictures(words, found.some, width)
    if found.strictest is not None:
        yield ""
        yield (
            "A plan that no answers can rule out, since it keeps every rule that these words "
            "can say"
        )
        yield from pictures(words, [found.strictest], width)
        yield ""
        yield "If this one is wrong, the case needs other words or groups."


def pictures(words: Vocabulary, some: Sequence[Values], width: int) -> Iterator[str]:
    """Plans one below the other."""
    for values in some:
        yield ""
        yield from ("    " + line for line in plan_lines(words.case, values, width - 4))


def plan_lines(case: Case, values: Values, width: int) -> list[str]:
    """A plan as a table; where the library that draws tables isn't installed, a line for each
    thing."""
    if importlib.util.find_spec("rich") is None:
        return plain.picture_lines(Picture(case, values))
    from ..faces import drawing  # needs that library

    return drawing.plan_lines(case, values, width)


# ---- ways of asking


def compared(words: Vocabulary, found: Forecast, width: int) -> Iterator[str]:
    """The ways of asking side by side, and which one is advised."""
    yield ""
    yield "How many questions will come"
    ways = "; ".join(f"`{plan}`, {way}" for plan, way in WAYS.items())
    yield f"There are {len(WAYS)} ways of asking: {ways}."
    yield (
        f"Each was tried on {found.cases} made-up cases: some with rules here and "
        "there, some in which one thing has a rule with "
        "all others, some with two kinds of things that don't go together. Yours may need fewer "
        "questions or more."
    )
    yield ""
    rows: list[tuple[str, ...]] = [
        (
            "way of asking",
            "questions",
            "never more than",
            "values shown",
            "first question",
            "slips noticed",
        )
    ]
    rows += [_row(one) for one in found.ways]
    yield from table(rows, width)
    yield ""
    yield (
        f"Questions: the fewest, the middle and the most of {found.cases} made-up cases"
        + (", without those that your `always` lines answer" if words.case.always else "")
        + ". Values shown: in the middle question. Slips noticed: one of your answers was turned "
        "round in each case, and the session "
        "found that the answers clash. A session that doesn't isn't a sign of good answers."
    )
    yield (
        "`scopes` never notices a slip: each of its questions is about one group, so no two "
        "answers can disagree, and one wrong "
        "answer is one wrong rule."
    )
    best = found.best.plan
    longer = "`--seconds 60` tries for longer." if found.late else ""
    because = " ".join(filter(None, [found.because, longer, found.beside]))
    yield ""
    yield f"Advice: {best}, {WAYS[best]}, because {because}"
    yield (
        "If you hold a rule that your words can't say, a count above all, take `scopes` in any "
        "case: none of its questions shows more than one "
        "group, so a rule about more things can't make an answer wrong. And if something is wrong "
        "only because of what your "
        "words can't say, answer yes, and note it."
    )
    if words.case.plan and words.case.plan != best:
        yield f"The case says `plan: {words.case.plan}`, and that counts."


def _row(one: Figures) -> tuple[str, ...]:
    """A way of asking in the table."""
    slips = f"{one.noticed} of {one.slips}" if one.slips else "not tried"
    counts = f"{one.questions[0]} / {one.middle} / {one.questions[-1]}" if one.questions else ""
    if one.more_than is not None:
        counts += (
            f"{', in the next ' if counts else ''}more than {one.more_than} when the time was over"
        )
    elif one.late:
        counts += f"{', then the time was over' if counts else 'not tried: the time was over'}"
    shown = (f"{one.shown:g}", str(one.at_first)) if one.questions else ("?", "?")
    return (one.plan, counts, str(one.most), *shown, slips)


def priced(forecast: Forecast, prices: outlook.Prices) -> Iterator[str]:
    """What each word costs in questions, the dearest first."""
    whole = forecast.one_by_one
    if not (prices.known or prices.unknown) or whole.late:
        return
    yield ""
    yield "What a word costs in questions"
    if prices.known:
        said = ", ".join(f"without `{price.word}` {price.without}" for price in prices.known)
        yield (
            f"Asked one group at a time, in the middle case: {said}, in place of {whole.middle}. "
            "A word that you don't need can go."
        )
    if prices.unknown:
        left = ", ".join(f"`{word}`" for word in prices.unknown)
        yield f"Not reckoned, since the time was over: {left}."


def offered(case: Case, forecast: Forecast, counts: Iterable[offers.Offer]) -> Iterator[str]:
    """Counts that the case could say, with their price in questions."""
    whole = forecast.one_by_one
    yield ""
    yield "Counts"
    value = case.values[0]
    for one in counts:
        beside = (
            f"; beside your other words some {one.beside} in all, in place of {whole.middle}"
            if one.beside is not None and not whole.late
            else ""
        )
        row = re.match(r"same (\w+)", one.phrase)
        yield (
            f"- That no more than {offers.COUNTED[one.most]} of "
            f"{'one ' + row[1] if row else 'all'} {'is' if one.most == 1 else 'are'} {value}: "
            f"`words: {one.word}`, "
            f"`ask: {one.phrase}`. These are {one.groups} group{'s' if one.groups != 1 else ''}, "
            f"and as many questions in a case of its own{beside}."
        )
    yield (
        "- A count that you know costs no question, whatever its number: `known: at most 5 of "
        f"them {value}`. Sample plans keep it, and "
        "it is never learned."
    )
    yield "- `desk words` has the counts that begin with `at least`, and `the same`."


def table(rows: list[tuple[str, ...]], width: int) -> Iterator[str]:
    """A table, or where it doesn't fit a list with the heads before each figure."""
    wide = [max(len(row[k]) for row in rows) for k in range(len(rows[0]))]
    if sum(wide) + 2 * len(wide) <= width:
        for row in rows:
            yield "  " + "  ".join(
                cell.ljust(wide[k]) if k == 0 else cell.rjust(wide[k]) for k, cell in enumerate(row)
            )
        return
    for row in rows[1:]:
        yield f"  {row[0]}"
        for head, cell in zip(rows[0][1:], row[1:], strict=True):
            yield from textwrap.wrap(f"    {head}: {cell}", width, subsequent_indent="      ")
