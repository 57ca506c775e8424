"""The pages of a sitting: what is shown now, and the forms that hand on what the person does."""

from __future__ import annotations

import os

from flask import (
    Blueprint,
    Response,
    current_app,
    jsonify,
    redirect,
    render_template,
    request,
    url_for,
)
from werkzeug.exceptions import BadRequest, NotFound
from werkzeug.wrappers import Response as Answer

from ..case import files
from . import sheets
from .folder import Folder
from .sittings import Owner, Sittings, State, Step

DOES = frozenset(("y", "n", "b", "q", "o", "back to", "plans", "report", "answers", "end"))
DIGITS = 9  # of a number in a form
LATE = (
    "That came too late: another answer stood already, perhaps from another tab. "
    "Nothing was changed by it."
)

blueprint = Blueprint("sitting", __name__, url_prefix="/ask/<name>")


def folder() -> Folder:
    """The folder of the server."""
    found = current_app.extensions["desk_folder"]
    assert isinstance(found, Folder)
    return found


def sittings() -> Sittings:
    """The sittings of the server."""
    found = current_app.extensions["desk_sittings"]
    assert isinstance(found, Sittings)
    return found


def number(text: str) -> int:
    """A number of a form; an error with a page where it is none."""
    if not (text.isascii() and text.isdecimal() and len(text) <= DIGITS + 1):
        raise BadRequest("A number of this form isn't one. Nothing was changed.")
    return int(text)


@blueprint.get("")
def show(name: str) -> str:
    """What is shown now."""
    path = folder().path_of(name)
    owner = sittings().of(path)
    if owner is None:
        begun = os.path.exists(files.journal_of(path))
        return render_template("begin.html", name=name, begun=begun)
    return shown(name, owner.settled())


def shown(name: str, state: State) -> str:
    """The page of a state."""
    sheet = (
        state.sheet
        if state.waits or state.over
        else state.sheet
        if isinstance(state.sheet, sheets.Busy)
        else sheets.Busy("One moment", "looking for the next question")
    )
    return render_template(
        sheet.template,
        name=name,
        sheet=sheet,
        number=state.number,
        over=state.over,
        late=LATE if "late" in request.args else "",
    )


@blueprint.post("/begin")
def begin(name: str) -> Answer:
    """Begins the sitting, or goes on with it."""
    sittings().begin(folder().path_of(name)).settled()
    return redirect(url_for("sitting.show", name=name), 303)


@blueprint.post("/step")
def step(name: str) -> Answer:
    """Hands on what the person does on the sheet of a number."""
    owner = owner_of(name)
    form = request.form
    do = form.get("do", "")
    if do not in DOES:
        raise BadRequest("This form says nothing that desk knows. Nothing was changed.")
    made = Step(
        do,
        number(form["place"]) if "place" in form else -1,
        tuple(number(text) for text in form.getlist("thing")),
    )
    taken = owner.take(number(form.get("sheet", "")), made)
    return redirect(url_for("sitting.show", name=name, late=None if taken else "1"), 303)


def owner_of(name: str) -> Owner:
    """The sitting of a case; an error with a page where there is none."""
    owner = sittings().of(folder().path_of(name))
    if owner is None:
        raise NotFound(
            "No questions of this case are put now. Go to the case, and on with its questions."
        )
    return owner


@blueprint.get("/state")
def state(name: str) -> Response:
    """The number of what is shown now, for a page that waits; how far it is, where something takes
    a while."""
    owner = sittings().of(folder().path_of(name))
    if owner is None:
        return jsonify(number=-1)
    now = owner.state()
    busy = now.sheet if isinstance(now.sheet, sheets.Busy) else None
    return jsonify(
        number=now.number,
        waits=now.waits or now.over,
        text=busy.text if busy else "",
        share=busy.share if busy else None,
    )


@blueprint.get("/report.html")
def saved(name: str) -> Response:
    """The report as a file."""
    return attached(
        report_of(name).page, "text/html; charset=utf-8", f"{name.removesuffix('.case')}.html"
    )


@blueprint.get("/report.certificate")
def certificate(name: str) -> Response:
    """Its certificate as a file."""
    content = report_of(name).certificate
    if content is None:
        raise NotFound("There is no certificate of this session.")
    return attached(
        content, "application/octet-stream", f"{name.removesuffix('.case')}.certificate"
    )


def report_of(name: str) -> sheets.Report:
    """The report that is shown; an error with a page where none is."""
    sheet = owner_of(name).state().sheet
    if not isinstance(sheet, sheets.Report):
        raise NotFound("The report isn't shown any more. Ask for it again with the button Report.")
    return sheet


def attached(content: bytes, kind: str, name: str) -> Response:
    """A file to be saved."""
    response = Response(content, content_type=kind)
    response.headers.set("Content-Disposition", "attachment", filename=name)
    return response
