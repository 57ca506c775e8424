"""The application behind the pages.

Its parts: `security` decides who may come in, `refusing` what is too large, `entrance` lets a
browser in, `cases` shows the cases of the folder and each as a form, `pages` shows a sitting. A
page is made of a template that extends `base.html`; it names its case as `name`, so that the head
leads to its form at `cases.show` and its questions at `sitting.show`. `cases.index` is the first
page. What a page says of a word that is missing leads to `cases.show` with `add=WORD`, which ticks
that word, and where nothing asks about its things with `together=THINGS`, which ticks them.
"""

from __future__ import annotations

import os

from flask import Flask, render_template, request
from markupsafe import Markup
from werkzeug.exceptions import HTTPException, InternalServerError

from ..case.model import Fault
from ..report.markup import Html
from . import cases, pages
from .entrance import Entrance
from .folder import Folder
from .refusing import refuse_larger
from .security import OUTSIDE, Secrets, guard
from .sittings import Sittings

WHAT_TO_DO = {
    400: "Go back to the page before, and try again from there.",
    403: "Open the file that `desk web` named when it began, or begin it again: "
    "all answers are kept.",
    404: "Go to the first page, and on from there.",
    405: "Go to the first page, and on from there.",
    413: "Go back to the page before, and take something out: a case has a million bytes at most.",
    421: "Open the file that `desk web` named when it began.",
    500: "All answers are kept. End desk with Ctrl-C where it was begun, and begin it again.",
}

# the same of a case with which something can't be done as it is
UNDONE = "See to that first. Then go back to the case, and do it again."

# what is said of a request where nothing else is told, in place of the library's name for it
SAID = {404: "There is no such page.", 405: "This address doesn't show a page by itself."}


def application(known: Secrets, folder: Folder, sittings: Sittings, entrance: Entrance) -> Flask:
    """The application of a server."""
    app = Flask(__name__)
    app.config["SEND_FILE_MAX_AGE_DEFAULT"] = 3600
    app.jinja_env.trim_blocks = app.jinja_env.lstrip_blocks = True
    app.jinja_env.filters["report"] = report
    app.extensions["desk_folder"], app.extensions["desk_sittings"] = folder, sittings
    guard(app, known)
    refuse_larger(app)
    app.register_blueprint(entrance.blueprint(folder.first))
    app.register_blueprint(cases.blueprint)
    app.register_blueprint(pages.blueprint)
    app.register_error_handler(HTTPException, wrong)
    app.register_error_handler(Fault, faulty)
    app.register_error_handler(Exception, broken)
    return app


def report(content: Html) -> Markup:
    """A piece of a report, in which each text is escaped already."""
    assert isinstance(content, Html)
    return Markup(content)


def wrong(error: HTTPException) -> tuple[str, int]:
    """The page of a request that can't be served, with what to do."""
    status = error.code or 500
    if error.response is not None:  # a redirect of the router's own
        return "", status
    own = type(error).description != error.description and status != 405
    said = error.description if own and error.description else SAID.get(status, f"{error.name}.")
    todo = WHAT_TO_DO.get(status, WHAT_TO_DO[400])
    if status in (403, 421) or request.environ.get(OUTSIDE):
        todo = WHAT_TO_DO[403] if status == 404 else todo
        return render_template("outside.html", status=status, said=said, todo=todo), status
    return render_template("wrong.html", status=status, said=said, todo=todo), status


def faulty(fault: Fault) -> tuple[str, int]:
    """The page of what the person has to mend, which names the case that was asked for. Files of
    the folder are called as its first page calls them."""
    name = (request.view_args or {}).get("name", "")
    undone = name != "" and request.method == "POST"
    page = render_template(
        "wrong.html",
        status=409,
        said="\n".join(fault.texts).replace(os.path.join(pages.folder().path, ""), ""),
        todo=UNDONE if undone else WHAT_TO_DO[404],
        name=name,
        undone=undone,
    )
    return page, 409


def broken(error: Exception) -> tuple[str, int]:
    """The page of an error of desk's own; nothing is traced to the terminal."""
    return wrong(
        InternalServerError(f"desk can't go on with this page, by an error of its own: {error!r}")
    )
