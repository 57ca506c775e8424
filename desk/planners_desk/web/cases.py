"""The pages of cases: those of the folder, each as a form and as its text, and what it comes to."""

from __future__ import annotations

import dataclasses
import os
import re
from collections.abc import Mapping, Sequence

from flask import Blueprint, current_app, redirect, render_template, request, url_for
from werkzeug.exceptions import BadRequest, NotFound
from werkzeug.wrappers import Response as Answer

from ..case import casefile, letters
from ..case.model import Case, Fault
from ..commands import carry, handout
from ..program.talk import Program
from ..hints import trials
from . import choices, comes, faults, fields, forms, store
from .faults import At, Judged
from .forecast import SECONDS as forecasting
from .forecast import Forecasts, questions
from .pages import folder, sittings
from .standing import Carried, Standing, carried, standing
from .store import Newer, Stored

blueprint = Blueprint("cases", __name__)

# the parts of the form, as what is to be done there is told
HEADS = {
    "title": "What is it?",
    "things": "What gets a value?",
    "own": "Things with values of their own",
    "values": "Which values are there?",
    "only": "Some can't get every value",
    "ask": "Which of them go together?",
    "words": "Which rules may there be?",
    "always": "What do you know already?",
    "known": "What else do you know?",
    "notes": "Notes",
    "plan": "Which way of asking?",
    "other": "Other lines",
}
SECONDS = round(sum(forecasting.values()))
ASK = "ask"  # what the button does that leads to the questions


def program() -> Program:
    """The program that the server takes."""
    found = current_app.extensions["desk_program"]
    assert isinstance(found, Program)
    return found


def forecasts() -> Forecasts:
    """What is reckoned of cases."""
    found = current_app.extensions["desk_forecasts"]
    assert isinstance(found, Forecasts)
    return found


def path_of(name: str) -> str:
    """The path of a case; an error with a page where it isn't one of the folder's own files."""
    path = folder().path_of(name)
    if name != folder().first and not store.within(folder().path, path):
        raise NotFound(f"{name} leads out of the folder {folder().path}, so it isn't shown here.")
    return path


# ---------------------------------------------------------------- the cases of the folder


@blueprint.app_template_filter("quoted")
def quoted(text: str) -> str:
    """What is said of a case, with its words in quotes, as people write them."""
    return re.sub(r"`([^`]*)`", "\u201c\\1\u201d", text)


@dataclasses.dataclass(frozen=True)
class Entry:
    """A case in the list."""

    name: str
    title: str
    size: str
    state: str


@blueprint.get("/")
def index() -> str:
    """The cases of the folder."""
    return listed()


def listed(fault: str = "", sent: Mapping[str, str] | None = None) -> str:
    """The page of the folder, with what is wrong with a new name."""
    entries = [_entry(name) for name in folder().names()[: store.MOST_CASES]]
    samples = sorted(name for name in os.listdir(handout.CASES) if name.endswith(store.ENDING))
    return render_template(
        "cases.html",
        entries=entries,
        samples=samples,
        path=folder().path,
        fault=fault,
        sent=sent or {},
    )


def _entry(name: str) -> Entry:
    """A case of the list."""
    try:
        path = path_of(name)
        judged = faults.judged(store.load(path).text, name)
        now = standing(path, judged.case, judged.words)
    except (Fault, NotFound) as error:
        return Entry(
            name,
            "",
            "",
            f"can't be shown: {error.description if isinstance(error, NotFound) else error}",
        )
    if judged.words is None:
        count = len(judged.faults)
        state = f"{count} thing{'s' if count != 1 else ''} to mend"
    elif now.change:
        state = "changed since its questions began"
    else:
        state = "questions begun" if now.begun else "ready"
    case = judged.case
    size = f"{len(case.things)} things, {len(case.values)} values" if case else ""
    return Entry(name, judged.form.title or (case.title if case else ""), size, state)


@blueprint.post("/new")
def new() -> Answer | tuple[str, int]:
    """Makes a case: an empty one, a copy of one of the folder, or of one that comes with desk."""
    wanted, source = request.form.get("new", ""), request.form.get("from", "")
    try:
        text = _source(source) or f"title: {forms.plain(wanted).removesuffix(store.ENDING)}\n"
        name = store.create(folder().path, wanted, text)
    except Fault as fault:
        return listed(str(fault), request.form), 422
    return redirect(url_for("cases.show", name=name), 303)


def _source(name: str) -> str:
    """The text to begin with; "" of an empty case."""
    if not name:
        return ""
    kind, _, file = name.partition(":")
    if kind == "sample":
        if file not in os.listdir(handout.CASES):
            raise NotFound("There is no such case to begin with.")
        return store.load(os.path.join(handout.CASES, file)).text
    return store.load(path_of(file)).text


# ---------------------------------------------------------------- one case


@dataclasses.dataclass(frozen=True)
class Page:
    """What the page of a case is made of."""

    name: str
    stored: Stored
    judged: Judged
    sent: fields.Sent  # what the fields hold
    unwritten: tuple[At, ...] = ()  # faults for which it wasn't written
    saved: bool = False


@blueprint.get("/case/<name>")
def show(name: str) -> str:
    """A case as a form. With `add` a word is ticked that isn't written yet, and with `together`
    things that nothing asks about."""
    stored = store.load(path_of(name))
    judged = faults.judged(stored.text, name)
    form = judged.form
    add = tuple(
        word for word in map(forms.plain, request.args.getlist("add")) if word not in form.words
    )
    group = tuple(
        some for some in map(forms.plain, request.args.getlist("together")) if some not in form.ask
    )
    shown = dataclasses.replace(form, words=(*form.words, *add), ask=(*form.ask, *group))
    if add or group:
        text = forms.written(shown, stored.text)
        judged = dataclasses.replace(faults.judged(text, name), form=shown)
    return rendered(
        Page(name, stored, judged, fields.sent_of(shown), saved="saved" in request.args)
    )


def rendered(page: Page) -> str:
    """The page of a case."""
    judged, path = page.judged, folder().path_of(page.name)
    offered = choices.choices(judged.form, page.name)
    written = judged.text == page.stored.text
    now = standing(path, judged.case, judged.words) if written else Standing()
    return render_template(
        "case.html",
        name=page.name,
        page=page,
        form=judged.form,
        found=_Faults(judged, page.unwritten),
        offered=offered,
        sent=_Sent(page.sent),
        mark=page.stored.mark,
        text=page.stored.text,
        written=written,
        standing=now,
        carried=_carried(path, judged.case, now),
        forecast=forecasts().of(path, page.stored.mark),
        asked=questions,
        overview=comes.overview(judged.words) if judged.words else [],
        cant=comes.cannot_say(judged.words) if judged.words else [],
        heads=HEADS,
        ways=trials.WAYS,
        seconds=SECONDS,
        down=comes.down,
        sides=forms.MOST_SIDES,
        builders={one.name: one for one in fields.BUILDERS},
        how_many=fields.HOW_MANY,
    )


class _Faults:
    """The faults of a page, by their fields."""

    def __init__(self, judged: Judged, unwritten: Sequence[At]) -> None:
        self.every = [*unwritten, *judged.faults]

    def at(self, field: str, place: int | None = None) -> list[At]:
        """Those of a field, or of one of what it has several of."""
        return [one for one in self.every if one.field == field and place in (None, one.place)]

    def whole(self, field: str) -> list[At]:
        """Those of a field that are of none of what it has several of."""
        return [one for one in self.every if one.field == field and one.place is None]

    def half(self, builder: str) -> bool:
        """Whether only some of a builder's fields are filled in."""
        return any(one.builder == builder for one in self.every)


class _Sent:
    """What fields hold, by their names."""

    def __init__(self, sent: fields.Sent) -> None:
        self._sent = sent

    def one(self, name: str) -> str:
        """What a field holds."""
        return next(iter(self._sent.get(name, ())), "")

    def rows(self, name: str, spare: int) -> int:
        """How many rows of a field are shown: those filled in, and some more."""
        count = 0
        while f"{name}-{count}-name" in self._sent:
            count += 1
        filled = [
            k for k in range(count) if self.one(f"{name}-{k}-name") or self.one(f"{name}-{k}-text")
        ]
        return max(filled, default=-1) + 1 + spare


def _carried(path: str, case: Case | None, now: Standing) -> Carried | str | None:
    """What becomes of the answers of a session that can't go on; why that isn't known."""
    if not now.change or case is None:
        return None
    try:
        return carried(path, case, program())
    except Fault as fault:
        return str(fault)


@blueprint.post("/case/<name>")
def save(name: str) -> Answer | tuple[str, int]:
    """Writes what the fields hold."""
    path = path_of(name)
    stored = store.load(path)
    sent = request.form.to_dict(flat=False)
    form, halves = fields.posted(sent)
    # what was shown is what the fields are compared with, so that nothing of a newer file is lost
    wrong = [*halves, *faults.unwritable(form)]
    if wrong:
        judged = Judged(stored.text, form)
        return rendered(Page(name, stored, judged, fields.left(sent, form), tuple(wrong))), 422
    return _save(name, path, forms.written(form, stored.text), stored)


def _save(name: str, path: str, text: str, shown: Stored) -> Answer | tuple[str, int]:
    """Writes a text where the file is as it was shown; what comes next."""
    mark = request.form.get("mark", "")
    try:
        now = store.save(path, text, mark)
    except Newer as newer:
        return render_template("newer.html", name=name, mine=text, now=newer.now), 409
    if now.text != shown.text:
        sittings().stop(path)  # the next one takes the case as it is now
    if request.form.get("do") != ASK:
        return redirect(url_for("cases.show", name=name, saved=1), 303)
    judged = faults.judged(now.text, name)
    if judged.words is None or standing(path, judged.case, judged.words).change:
        return redirect(url_for("cases.show", name=name, saved=1, _anchor="comes"), 303)
    sittings().begin(path).settled()
    return redirect(url_for("sitting.show", name=name), 303)


@blueprint.post("/case/<name>/text")
def save_text(name: str) -> Answer | tuple[str, int]:
    """Writes the text of a case as it was typed."""
    path = path_of(name)
    stored = store.load(path)
    end = "\r\n" if "\r\n" in stored.text else "\n"
    lines = letters.lines_of(request.form.get("text", ""))
    while lines and not lines[-1].strip():
        lines.pop()
    return _save(name, path, "".join(line + end for line in lines), stored)


@blueprint.post("/case/<name>/preview")
def preview(name: str) -> str:
    """The page that the fields would come to; nothing is written."""
    stored = store.load(path_of(name))
    sent = request.form.to_dict(flat=False)
    form, _ = fields.posted(sent)
    text = forms.written(form, stored.text)
    judged = dataclasses.replace(faults.judged(text, name), form=form)
    return rendered(Page(name, stored, judged, fields.left(sent, form)))


@blueprint.post("/case/<name>/forecast")
def reckon(name: str) -> Answer:
    """Begins to reckon what a case comes to."""
    path = path_of(name)
    forecasts().begin(path, store.load(path).mark)
    return redirect(url_for("cases.show", name=name, _anchor="forecast"), 303)


@blueprint.get("/case/<name>/forecast")
def forecast(name: str) -> str:
    """How far that is, or what came of it, as a piece of the page."""
    path = path_of(name)
    return render_template(
        "forecast.html",
        name=name,
        seconds=SECONDS,
        ways=trials.WAYS,
        asked=questions,
        forecast=forecasts().of(path, store.load(path).mark),
    )


@blueprint.post("/case/<name>/carry")
def take_over(name: str) -> Answer | str:
    """Takes the answers of the session over into the case as it is now."""
    path = path_of(name)
    if store.load(path).mark != request.form.get("mark", ""):
        raise BadRequest("The case was changed since this page was shown. Nothing was taken over.")
    sittings().stop(path)
    told = carry.carried(path, casefile.read(path), program(), None)
    lines = [line.replace(folder().path + os.sep, "") for line in told]
    return render_template("carried.html", name=name, lines=lines)
