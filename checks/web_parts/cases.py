"""Cases by requests made by hand: names and links, a file that has changed meanwhile, faults at their fields, copies, the text beside
the form, and answers that are taken over."""

from __future__ import annotations

import contextlib
import fcntl
import html
import html.parser
import os
import random
import re
import time
import urllib.parse
from collections.abc import Iterator, Mapping

from served import PATIENCE, TICK, Reply, Web

THREE = """title: Three
things: a b c
values: 1 2 3
ask: all
words: different, before
plan: scopes
"""
ROSTER = """# A comment
title: Roster
things: day Mon .. Wed x shift early late
values: Ann Ben Cas  # who
only Mon: Ann Ben
ask: same day, late to next day early
words: different, never Ann
always: different on same day
note: keep
"""

Faults = Iterator[str]


def fields(page: str) -> list[tuple[str, str]]:
    """What a browser would send of the form on a page."""
    form = re.search(r'<form id="fields".*?</form>', page, re.DOTALL)
    assert form, page[:2000]
    found = []
    for tag in re.finditer(r"<input ([^>]*)>|<textarea ([^>]*)>\n?(.*?)</textarea>|<select ([^>]*)>(.*?)</select>", form[0], re.DOTALL):
        attributes = dict(re.findall(r'([\w-]+)="([^"]*)"', tag[1] or tag[2] or tag[4] or ""))
        name = html.unescape(attributes.get("name", ""))
        if tag[4]:
            chosen = re.search(r'<option value="([^"]*)" selected', tag[5])
            found.append((name, html.unescape(chosen[1]) if chosen else ""))
        elif tag[2]:
            found.append((name, html.unescape(tag[3])))
        elif attributes.get("type") not in ("checkbox", "radio") or re.search(r"\bchecked\b", tag[1]):
            found.append((name, html.unescape(attributes.get("value", ""))))
    return found


def changed(sent: list[tuple[str, str]], more: Mapping[str, str] | None = None, **now: str | None) -> list[tuple[str, str]]:
    """The fields, some of them with other texts; `_` stands for `-`, and None takes one out."""
    wanted = {name.replace("_", "-"): text for name, text in now.items()} | dict(more or {})
    kept = [(name, text) for name, text in sent if name not in wanted]
    return kept + [(name, text) for name, text in wanted.items() if text is not None]


def mark(page: str) -> str:
    """The mark of the file that a page shows."""
    found = re.search(r'name="mark" value="(\w+)"', page)
    return found[1] if found else ""


def text_of(web: Web, name: str) -> str:
    """What a file of the folder holds."""
    with open(os.path.join(web.folder, name), encoding="utf-8", newline="") as file:
        return file.read()


def faults_at(page: str, field: str) -> list[str]:
    """The faults that a page has at a field."""
    found = re.search(rf'<div id="{field}-faults" data-live>(.*?)</div>', page, re.DOTALL)
    told = [html.unescape(one) for one in re.findall(r'<p class="\w+">(.*?)</p>', found[1])] if found else []
    return [re.sub("[\u201c\u201d]", "`", one) for one in told]


def unchanged(program: str) -> Faults:
    """Saving what nobody has changed leaves the file byte for byte, with its comments."""
    for text in (THREE, ROSTER, ROSTER.replace("\n", "\r\n"), "things: a b\nhello\nask: al\n"):
        with Web(program, {}) as web:
            with open(os.path.join(web.folder, "x.case"), "w", encoding="utf-8", newline="") as file:
                file.write(text)
            web.enter()
            page = web.get("/case/x.case")
            reply = web.post("/case/x.case", fields(page.text))
            if reply.status != 303 or text_of(web, "x.case") != text:
                yield f"saved as it was, {text!r} is {text_of(web, 'x.case')!r}, after status {reply.status}"
            typed = re.search(r'id="text-all"[^>]*>\n(.*?)</textarea>', page.text, re.DOTALL)
            reply = web.post("/case/x.case/text", {"mark": mark(page.text), "text": html.unescape(typed[1]).replace("\r", "").replace("\n", "\r\n") if typed else ""})
            if reply.status != 303 or text_of(web, "x.case") != text:
                yield f"its text saved as it was, {text!r} is {text_of(web, 'x.case')!r}, after status {reply.status}"


def ticked(program: str) -> Faults:
    """A tick is written, one that is taken out isn't, and the rest stays as it stands."""
    with Web(program, {"x.case": ROSTER}) as web:
        web.enter()
        sent = fields(web.get("/case/x.case").text)
        web.post("/case/x.case", [*(one for one in sent if one != ("words", "never Ann")), ("words", "not next to"), ("ask", "next day")])
        due = ROSTER.replace("different, never Ann", "different, not next to").replace("next day early", "next day early, next day")
        if text_of(web, "x.case") != due:
            yield f"the file is {text_of(web, 'x.case')!r}, and not {due!r}"
        page = web.get("/case/x.case").text
        for word, on in (("different", True), ("not next to", True), ("never Ann", False), ("before", False)):
            if (("words", word) in fields(page)) != on:
                yield f"after it the page has `{word}` {'not ' if on else ''}ticked"
        page = web.get("/case/x.case?" + urllib.parse.urlencode({"add": "next to"})).text
        if ("words", "next to") not in fields(page) or "next to" in text_of(web, "x.case").replace("not next to", ""):
            yield "a word that another page names isn't ticked, or is written before anybody saves"


NAMES = ("Ann", "Bo Li", "Cas", "Dürr", "Eve")
DRAWN = 12
# whether things and values are grids, in turn; only lists have things with values of their own
GRIDS = ((False, False), (True, False), (False, True), (False, False), (True, True), (False, False))
ADDED: tuple[list[str], ...] = ([], ["iron"], ["red", "blue"])


def drawn(draw: random.Random, grid: bool, slots: bool) -> tuple[str, list[str], list[str]]:
    """A case in which some don't get every value: its text, and the things of its rows of `only` and of `thing`."""
    things = ["Mon", "Tue", "early", "Tue late"] if grid else ["a", "b c", "d"]
    values = ["Tue 7", "Tue 8", "Thu 7", "Thu 8"] if slots else list(NAMES)
    lines = ["things: day Mon Tue x shift early late" if grid else "things: a, b c, d",
             "values: evening Tue Thu x hour 7 8" if slots else "values: " + ", ".join(NAMES)]
    limited = draw.sample(things, 2)
    for thing in limited:
        some = draw.sample(values, draw.randint(2, len(values)))
        lines.append(f"only {thing}: " + draw.choice([", ".join(some), " ".join(sorted(some)), f"{values[0]} .. {values[-1]}", values[0].split()[0] if slots else some[0]]))
    own = [] if grid or slots else draw.sample(["frame", "the wheels"], draw.randint(1, 2))
    lines += [f"thing {thing}: " + draw.choice(["steel carbon", "steel, of wood", "1 .. 4", '"of wood"']) for thing in own]
    draw.shuffle(lines)
    return "\n".join([*lines, "ask: each", "words: same", ""]), limited, own


def by_ticks(program: str) -> Faults:
    """What some can't get and what has values of its own is ticked and added: each drawn case is kept as it stands, and as it is ticked."""
    draw = random.Random(11)
    with Web(program, {}) as web:
        web.enter()
        for turn in range(DRAWN):
            text, limited, own = drawn(draw, *GRIDS[turn % len(GRIDS)])
            with open(os.path.join(web.folder, "x.case"), "w", encoding="utf-8") as file:
                file.write(text)
            sent = fields(web.get("/case/x.case").text)
            if web.post("/case/x.case", sent).status != 303 or text_of(web, "x.case") != text:
                yield f"saved as it was, {text!r} is {text_of(web, 'x.case')!r}"
                continue
            for field, rows in (("only", limited), ("own", own)):
                for _ in rows:
                    for more in ADDED if field == "own" else ADDED[:1]:
                        yield from _ticked(web, field, more, draw)
            if rows := [(name, one) for name, one in fields(web.get("/case/x.case").text) if re.fullmatch("(only|own)-[0-9]+-name", name) and one]:
                name, one = draw.choice(rows)
                before = text_of(web, "x.case").splitlines()
                gone = [pair for pair in fields(web.get("/case/x.case").text) if pair[0] != name and not pair[0].startswith(name[:-4] + "tick")]
                web.post("/case/x.case", [*gone, (name, "")])
                row = f"{'only' if name.startswith('only') else 'thing'} {one}:"
                now = text_of(web, "x.case").splitlines()
                if now != [line for line in before if not line.startswith(row)]:
                    yield f"after the name and ticks of `{row}` were taken out, {before} is {now}"


def _ticked(web: Web, field: str, more: list[str], draw: random.Random) -> Faults:
    """Changes the ticks of a row, and adds values of its own: the page and the file have them then."""
    page = web.get("/case/x.case").text
    sent = fields(page)
    place = draw.randrange(sum(re.fullmatch(f"{field}-[0-9]+-name", name) is not None and text != "" for name, text in sent))
    key = f"{field}-{place}"
    every = [html.unescape(one) for one in re.findall(rf'name="{key}-tick" value="([^"]*)"', page)]
    wanted = draw.sample(every, draw.randint(1, len(every)))
    rest = [one for one in sent if one[0] not in (f"{key}-tick", f"{key}-more")]
    web.post("/case/x.case", [*rest, *((f"{key}-tick", one) for one in wanted), (f"{key}-more", " ".join(more))])
    now = [text for name, text in fields(web.get("/case/x.case").text) if name == f"{key}-tick"]
    if set(now) != {*wanted, *more} or not every:
        yield f"of {every} {wanted} were ticked and {more} added, and then it is {now}: {text_of(web, 'x.case')!r}"


def at_fields(program: str) -> Faults:
    """Each fault stands at its own field, in the form and at its line in the text, and nothing that was typed is lost."""
    rows = (
        ({"things-text": "talk 1 .. 8"}, "things", "is `talk` a heading"),
        ({"values-text": "1 2 1"}, "values", "the value `1` stands twice"),
        ({"only-0-name": "d", "only-0-text": "1"}, "only-0", "no such thing: d"),
        ({"own-0-name": "d", "own-0-text": "9 9"}, "own-0", "the value `9` stands twice"),
        ({"ask-other": "alll"}, "ask", "`alll` isn't a way to put things together"),
        ({"words-other": "diferent"}, "words", "the word `diferent` isn't in the catalogue"),
        ({"always-other": "before on all, same on a - d"}, "always-1", "no such thing: d"),
        ({"known-other": "at most 2 of them 9"}, "known-0", "no such value: 9"),
        ({"title": "Room # 3"}, "title", "a `#` behind a blank begins a comment"),
        ({"pair-form": "{0} not with {1}", "pair-v": "1"}, "words", "something is chosen by half"),
    )
    with Web(program, {"x.case": THREE}) as web:
        web.enter()
        for more, field, due in rows:
            with open(os.path.join(web.folder, "x.case"), "w", encoding="utf-8") as file:
                file.write(THREE)
            sent = changed(fields(web.get("/case/x.case").text), more)
            reply = web.post("/case/x.case", sent)
            page = web.get("/case/x.case").text if reply.status == 303 else reply.text
            told = faults_at(page, field)
            if not any(one.startswith(due) for one in told):
                yield f"{more}: at {field} stands {told}, and not {due!r}"
            for other in (one for _, one, _ in rows if one != field):
                if any(one.startswith(due) for one in faults_at(page, other)):
                    yield f"{more}: the fault of {field} stands at {other}"
            for text in more.values():
                if text.split(", ")[-1] not in html.unescape(page):
                    yield f"{more}: {text!r} isn't on the page any more"
            if reply.status != 303 and text_of(web, "x.case") != THREE:
                yield f"{more}: a form that can't be written was written: {text_of(web, 'x.case')!r}"


class Marked(html.parser.HTMLParser):
    """The fields of a page that are wrong, each with what is said of it."""

    def __init__(self, page: str) -> None:
        super().__init__()
        self.fields: list[dict[str, str]] = []
        self.texts: dict[str, str] = {}         # of what has a name on the page
        self._open: list[str] = []
        self.feed(page)

    def handle_starttag(self, tag: str, attrs: list[tuple[str, str | None]]) -> None:
        """One element."""
        of = {name: value or "" for name, value in attrs}
        if tag in ("input", "textarea", "select"):
            self.fields.append(of)
        if tag in ("div", "p"):
            self._open.append(of.get("id", ""))

    def handle_endtag(self, tag: str) -> None:
        """The end of one."""
        if tag in ("div", "p") and self._open:
            self._open.pop()

    def handle_data(self, data: str) -> None:
        """A text, of all that it is in."""
        for name in filter(None, self._open):
            self.texts[name] = self.texts.get(name, "") + data

    def wrong(self) -> dict[str, str]:
        """What is said of each field that is wrong, by its name on the page, and of each tick by
        what it ticks."""
        wrong = [of for of in self.fields if of.get("aria-invalid") == "true"]
        told = (self.texts.get(of["aria-describedby"], "") for of in wrong)
        said = (re.sub("[\u201c\u201d]", "`", text) for text in told)
        return dict(zip((of.get("id") or of["value"] for of in wrong), said, strict=True))


def marked(program: str) -> Faults:
    """What is wrong is marked at its own field or tick, with why, and what is right isn't."""
    grid = ROSTER.replace("only Mon: Ann Ben\n", "")
    faulty = grid
    for right, wrong in (("ask: same day,", "ask: same day, alll,"),
                         ("never Ann", "never Dan, diferent"),
                         ("always: different on same day",
                          "always: different on same day, same on nothing"),
                         ("note: keep", "known: at most 2 of them Zed")):
        faulty = faulty.replace(right, wrong)
    sides = [f"things-side-{k}-{what}" for k in range(2) for what in ("name", "text")]
    rows: tuple[tuple[str, dict[str, str], dict[str, str]], ...] = (
        (grid, {}, {}),
        (faulty, {}, {"alll": "`alll` isn't a way", "never Dan": "the word `never Dan`",
                      "diferent": "the word `diferent`", "always-1": "`nothing` isn't a way",
                      "known-0": "no such value: Zed"}),
        (grid.replace("same day, late", "same day triples, late"), {},
         {"same day triples": "no things of the case stand so"}),
        (grid, {"things-side-1-name": ""}, dict.fromkeys(sides[2:], "a side has no name")),
        (grid, {"things-side-0-text": "Mon Mon"}, dict.fromkeys(sides, "stands twice")),
        (grid, {"values-text": "Ann Ann"}, {"values-text": "stands twice"}),
        (grid, {"group-a": "Mon early"}, {f"group-{part}": "chosen by half" for part in "abcd"}),
        (grid, {"rule-word": "different"},
         dict.fromkeys(("rule-word", "rule-on"), "chosen by half")),
        (grid, {"notes": "a # b"}, {"notes-text": "a `#` behind a blank"}),
    )
    with Web(program, {"x.case": THREE}) as web:
        web.enter()
        for text, more, due in rows:
            with open(os.path.join(web.folder, "x.case"), "w", encoding="utf-8") as file:
                file.write(text)
            page = web.get("/case/x.case")
            if more:
                reply = web.post("/case/x.case", changed(fields(page.text), more))
                page = web.get("/case/x.case") if reply.status == 303 else reply
            found = Marked(page.text).wrong()
            if found.keys() != due.keys() or any(due[name] not in found[name] for name in due):
                yield f"{more or text!r}: marked as wrong are {found}, and not {due}"


def locked(program: str) -> Faults:
    """What can't be done since another desk works on the case is told with the case, and leads back
    to it."""
    name, path = "my%20ward.case", "/case/my%20ward.case"
    with Web(program, {"my ward.case": THREE}) as web:
        web.enter()
        web.does(name, "y", web.begin(name).number)
        web.does(name, "q", web.settled(name).number)
        web.post(path, [*fields(web.get(path).text), ("words", "next to")])
        sent = {"mark": mark(web.get(path).text)}
        with open(os.path.join(web.folder, "my ward.journal"), "rb+") as held:
            fcntl.flock(held, fcntl.LOCK_EX)
            reply = web.post(f"{path}/carry", sent)
        said = html.unescape(re.sub(r"<.*?>", " ", reply.text))
        if reply.status != 409 or "another desk works on it" not in said:
            yield f"beside another desk taking over has status {reply.status}: {said[-400:]!r}"
        if not reply.head.endswith(": my ward") or "<title>my ward.case: " not in reply.text:
            yield f"what can't be done doesn't name the case: {reply.head!r}"
        if web.folder in said or f'class="button" href="{web.path}{path}"' not in reply.text:
            yield f"what can't be done doesn't lead back to the case: {reply.text[-900:]!r}"
        reply = web.post(f"{path}/carry", sent)
        if reply.status != 200:
            yield f"after the other desk taking over has status {reply.status}: {reply.head!r}"


def as_text(program: str) -> Faults:
    """A text with a fault is kept as it was typed, and told at its line; one without fills the form."""
    with Web(program, {"x.case": THREE}) as web:
        web.enter()
        wrong = THREE.replace("ask: all", "ask: alll\nwhatever").replace("plan: scopes\n", "")
        web.post("/case/x.case/text", {"mark": mark(web.get("/case/x.case").text), "text": wrong})
        page = re.sub("[\u201c\u201d]", "`", html.unescape(web.get("/case/x.case").text))
        lines = dict(re.findall(r'data-line="(\d+)">[^<]*</a>: (.*?)</li>', page))
        if text_of(web, "x.case") != wrong or f">\n{wrong}</textarea>" not in page:
            yield f"a text with a fault is {text_of(web, 'x.case')!r}"
        if set(lines) != {"4", "5"} or not lines["5"].startswith("a line is `key: text`") or not lines["4"].startswith("`alll` isn't a way"):
            yield f"the faults of the text are told at {lines}"
        if ("other", "whatever") not in fields(page):
            yield "a line that nobody understands isn't in the form"
        web.post("/case/x.case/text", {"mark": mark(page), "text": wrong.replace("whatever\n", "")})
        if not any(one.startswith("`alll` isn't a way") for one in faults_at(web.get("/case/x.case").text, "ask")):
            yield "a fault of the text isn't at the form's field"
        web.post("/case/x.case/text", {"mark": mark(web.get("/case/x.case").text), "text": ROSTER})
        sent = fields(web.get("/case/x.case").text)
        if not {("title", "Roster"), ("words", "never Ann"), ("things-kind", "grid"), ("only-0-name", "Mon"), ("notes", "keep")} <= set(sent):
            yield f"the form of another text is {sent}"


def meanwhile(program: str) -> Faults:
    """A file that has changed on the disk is never overwritten unseen: both are shown."""
    with Web(program, {"x.case": THREE}) as web:
        web.enter()
        page = web.get("/case/x.case").text
        other = THREE.replace("title: Three", "title: From elsewhere")
        for path, form in (("/case/x.case", changed(fields(page), title="Mine")),
                           ("/case/x.case/text", [("mark", mark(page)), ("text", THREE.replace("Three", "Mine"))])):
            with open(os.path.join(web.folder, "x.case"), "w", encoding="utf-8") as file:
                file.write(other)
            reply = web.post(path, form)
            if reply.status != 409 or text_of(web, "x.case") != other:
                yield f"{path}: a newer file is {text_of(web, 'x.case')!r} after status {reply.status}"
            if "title: Mine" not in reply.text or "title: From elsewhere" not in reply.text:
                yield f"{path}: not both texts are shown"
            web.post("/case/x.case/text", {"mark": mark(reply.text), "text": THREE.replace("Three", "Both")})
            if "title: Both" not in text_of(web, "x.case"):
                yield f"{path}: what was put together of both isn't written"
        for wrong in ("", "0" * 64, "x"):
            if web.post("/case/x.case", changed(fields(page), mark=wrong, title="Worse")).status != 409 or "Worse" in text_of(web, "x.case"):
                yield f"a form with the mark {wrong!r} is written"


def names(program: str) -> Faults:
    """The name of a case stays within the folder, and replaces nothing."""
    with Web(program, {"x.case": THREE}) as web:
        web.enter()
        outside = os.path.join(os.path.dirname(web.folder), os.path.basename(web.folder) + "-outside.case")
        with open(outside, "w", encoding="utf-8") as file:
            file.write(THREE.replace("Three", "Outside"))
        try:
            yield from _names(web, outside)
        finally:
            os.unlink(outside)


def _names(web: Web, outside: str) -> Faults:
    os.symlink(outside, os.path.join(web.folder, "link.case"))
    os.symlink(os.path.join(web.folder, "x.case"), os.path.join(web.folder, "inside.case"))
    os.mkdir(os.path.join(web.folder, "folder.case"))
    before = sorted(os.listdir(web.folder)), sorted(os.listdir(os.path.dirname(outside)))
    name = os.path.basename(outside).removesuffix(".case")
    new = outside.removesuffix(".case") + "-new"
    for wrong in ("", "  ", "..", ".", ".hidden", "../" + name, "a/b", new, "a\\b", "x", "x.case", "a\x00b", "a\nb\x07", "a\u202eb", "z" * 101, "é" * 150):
        reply = web.post("/new", {"new": wrong, "from": ""})
        if reply.status != 422 or 'id="new-fault"' not in reply.text:
            yield f"the new name {wrong!r} has status {reply.status}"
    now = sorted(os.listdir(web.folder)), sorted(os.listdir(os.path.dirname(outside)))
    if now[0] != before[0] or any(one.endswith(".case") for one in set(now[1]) - set(before[1])):
        yield f"wrong names have left {set(now[0]) - set(before[0])}, or files beside the folder"
    with contextlib.suppress(FileNotFoundError):
        os.unlink(new + ".case")
    for wrong in ("link.case", f"..%2F{name}.case", f"%2e%2e/{name}.case", "folder.case", "nothing.case", urllib.parse.quote(outside, "")):
        for path in (f"/case/{wrong}", f"/ask/{wrong}"):
            reply = web.get(path)
            if reply.status == 200 and (path.startswith("/case") or "link" not in wrong):
                yield f"{path} is shown"
            if "Outside" in reply.text:
                yield f"{path} shows a file of another folder"
        reply = web.post(f"/case/{wrong}", [("mark", ""), ("title", "hit")])
        if reply.status not in (400, 404, 405, 409):
            yield f"a form is taken for {wrong}: {reply.status}"
    with open(outside, encoding="utf-8") as file:
        if file.read() != THREE.replace("Three", "Outside"):
            yield "a file of another folder was written"
    for source in ("case:link.case", f"case:../{name}.case", "sample:../README.md", "sample:nothing.case"):
        if web.post("/new", {"new": "copied", "from": source}).status == 303:
            yield f"a case was made of {source}"
    if web.get("/case/inside.case").status != 200:
        yield "a link within the folder isn't shown"


def copies(program: str) -> Faults:
    """A new case is empty, a copy of one, or one that comes with desk; and the list shows them."""
    with Web(program, {"x.case": THREE, "odd name <b>.case": THREE, "bad.case": "things: a\nhello\n"}) as web:
        web.enter()
        for name, source, has in (("my own", "", "title: my own\n"), ("Zweite Übung", "case:x.case", THREE), ("a ward", "sample:ward.case", "Mon .. Sun")):
            reply = web.post("/new", {"new": name, "from": source})
            if reply.status != 303 or has not in text_of(web, f"{name}.case"):
                yield f"{name}: status {reply.status}"
            if web.get(f"/case/{urllib.parse.quote(name)}.case").status != 200:
                yield f"{name}: its page isn't shown"
        page = web.get("/").text
        rows = [re.sub(r"<.*?>|\s+", " ", row).split() for row in re.findall(r"<tr\b.*?>(.*?)</tr>", page, re.DOTALL)[1:]]
        if len(rows) != 6 or "<b>" in page:
            yield f"the list has {rows}"
        states = {"x": "ready", "bad": "to mend", "my": "to mend"}
        for first, state in states.items():
            if not any(row[0] == first and state in " ".join(row) for row in rows):
                yield f"in the list {first} isn't {state}: {rows}"


def sizes(program: str) -> Faults:
    """What is too large is refused with a page, and the file stays."""
    with Web(program, {"x.case": THREE}) as web:
        web.enter()
        page = web.get("/case/x.case").text
        for path, form in (("/case/x.case/text", {"mark": mark(page), "text": "# " + "x" * 1_000_001}),
                           ("/case/x.case", changed(fields(page), notes="x" * 1_000_001)),
                           ("/case/x.case/text", {"mark": mark(page), "text": "x" * 4_100_000})):
            reply = web.post(path, form)
            if reply.status not in (409, 413) or text_of(web, "x.case") != THREE or "This can" not in reply.text:
                yield f"{path}: status {reply.status}"
        many = changed(fields(page), **{"things_text": " ".join(f"t{k}" for k in range(5000))})
        reply = web.post("/case/x.case", many)
        if not any("the program takes 128" in one for one in faults_at(web.get("/case/x.case").text, "things")):
            yield f"5,000 things have status {reply.status}"


def taken_over(program: str) -> Faults:
    """A case that has changed while it has a session leads to its answers being taken over, and the page says what comes of them."""
    with Web(program, {"x.case": THREE}) as web:
        web.enter()
        page = web.begin("x.case")
        for _ in range(3):
            page = web.does("x.case", "y", page.number)
        page = web.get("/case/x.case")
        if "On with the questions" not in page.text or "Take the answers over" in page.text:
            yield "a case that nobody changed doesn't lead on with its questions"
        web.post("/case/x.case", changed(fields(page.text), title="Another", notes="of mine"))
        page = web.get("/case/x.case")
        if "Take the answers over" in page.text or "On with the questions" not in page.text:
            yield "another title leads to the answers being taken over"
        reply = web.post("/case/x.case", [*changed(fields(page.text), do="ask"), ("words", "next to")])
        page = web.get("/case/x.case")
        said = " ".join(html.unescape(re.sub(r"<.*?>", " ", page.text)).split())
        if "#comes" not in reply.headers.get("location", "") or "its words are others" not in said or "You have given 3 answers" not in said:
            yield f"another word leads to {reply.headers.get('location')}, and the page says {said[-1500:]}"
        if len(web.shows("x.case")) != 3:
            yield "answers are gone before anybody took them over"
        if web.post("/case/x.case/carry", {"mark": "0" * 64}).status != 400:
            yield "the answers are taken over into a case that isn't the one shown"
        reply = web.post("/case/x.case/carry", {"mark": mark(page.text)})
        if reply.status != 200 or "3 answers were carried over" not in reply.text or "kept in" not in reply.text:
            yield f"taking over has status {reply.status}: {reply.text[-600:]}"
        if len(web.shows("x.1.case")) != 3 or "Take the answers over" in web.get("/case/x.case").text:
            yield "the session before isn't kept, or they are still to be taken over"


def reckoned(program: str) -> Faults:
    """What a case comes to is reckoned aside, while its page answers; another text's is never shown."""
    with Web(program, {"x.case": THREE}) as web:
        web.enter()
        reply = web.post("/case/x.case/forecast", {})
        piece: Reply | None = None
        end = time.monotonic() + PATIENCE
        while reply.status == 303 and time.monotonic() < end:
            piece = web.get("/case/x.case/forecast")
            if "<progress" not in piece.text:
                break
            time.sleep(TICK)
        text = html.unescape(piece.text) if piece else ""
        for due in ("one group at a time", "(advised)", "without <strong>different</strong>", "Plans that are possible"):
            if due not in text:
                yield f"what it comes to lacks {due!r}: {text[-1500:]}"
        if "(advised)" not in web.get("/case/x.case").text:
            yield "it isn't on the page of the case"
        page = web.get("/case/x.case").text
        web.post("/case/x.case", [*fields(page), ("words", "same")])
        if "(advised)" in web.get("/case/x.case").text:
            yield "what another text came to is shown"


class Labels(html.parser.HTMLParser):
    """The fields of a page, and what they are called."""

    def __init__(self, page: str) -> None:
        super().__init__()
        self.ids: list[str] = []
        self.called: set[str] = set()
        self.fields: list[tuple[str, str, bool]] = []      # tag, id, and whether a label is around it
        self.described: set[str] = set()
        self.links: set[str] = set()
        self._within = 0
        self.feed(page)

    def handle_starttag(self, tag: str, attrs: list[tuple[str, str | None]]) -> None:
        """One element."""
        of = {name: value or "" for name, value in attrs}
        self.ids += [of["id"]] if "id" in of else []
        self.described |= set(f"{of.get('aria-describedby', '')} {of.get('aria-labelledby', '')}".split())
        self.links |= {of["href"][1:]} if of.get("href", "").startswith("#") else set()
        if tag == "label":
            self._within += 1
            self.called |= {of["for"]} if "for" in of else set()
        if tag in ("input", "select", "textarea") and of.get("type") != "hidden":
            self.fields.append((tag, of.get("id", ""), self._within > 0))

    def handle_endtag(self, tag: str) -> None:
        """The end of one."""
        self._within -= tag == "label"


def labels(program: str) -> Faults:
    """Each field has a label, each name on a page stands once, and what is spoken of is there."""
    with Web(program, {"x.case": ROSTER, "bad.case": "hello\nthings: talk 1 .. 8\nthing a: 1 1\nalways: x on y\nknown: z\n", "empty.case": ""}) as web:
        web.enter()
        for path in ("/", "/case/x.case", "/case/bad.case", "/case/empty.case"):
            found = Labels(web.get(path).text)
            if twice := {one for one in found.ids if found.ids.count(one) > 1}:
                yield f"{path}: the names {sorted(twice)} stand twice"
            bare = [one for one in found.fields if not one[2] and one[1] not in found.called]
            if bare or not found.fields:
                yield f"{path}: fields without a label: {bare}"
            if gone := (found.described | found.links) - set(found.ids):
                yield f"{path}: what is spoken of isn't there: {sorted(gone)}"


TESTS = (labels, unchanged, ticked, by_ticks, at_fields, marked, locked, as_text, meanwhile, names,
         copies, sizes, taken_over, reckoned)
PLANTED = (
    # a field that nobody can name
    ("templates/fields.html", '<label for="{{ field }}">', "<label>", labels),
    # a word that is ticked isn't written
    ("forms.py", "new = [piece for piece in new if piece not in left]", "new = []", ticked),
    # what is ticked of some things isn't written, nor what is added; what nobody ticked is written
    # anew, and a row that is taken out stays
    ("fields.py", "            if now != list(had):\n", "            if False:\n", by_ticks),
    ("fields.py", "now = list(dict.fromkeys([*kept, *ticks, *more]))",
     "now = list(dict.fromkeys([*kept, *ticks]))", by_ticks),
    ("fields.py", "            if now != list(had):\n", "            if True:\n", by_ticks),
    ("fields.py", "        if row.name or row.text:\n", "        if True:\n", by_ticks),
    # a fault is shown at another field
    ("faults.py", "yield At(line.field or WHOLE, _place(", "yield At(WHOLE, _place(", at_fields),
    ("faults.py", "return sum(one.field == field for one in lines[:at])", "return 1", at_fields),
    ("templates/fields.html", "{%- for one in found.at(field, place) %}",
     "{%- for one in found.every %}", at_fields),
    # a tick, a side or a choice that is wrong looks like one that is right, and all do where one is
    ("templates/fields.html", "{% if on %} checked{% endif %}{{ is_wrong }}> <span>",
     "{% if on %} checked{% endif %}> <span>", marked),
    ("templates/fields.html", "{{ faults(field, place) }}</div>\n{% else %}", "</div>\n{% else %}",
     marked),
    ("templates/fields.html", "found.at(field, k) + (found.whole(field) if filled else [])",
     "found.at(field)", marked),
    ("templates/fields.html", '{% if kind == "grid" %} aria-describedby=',
     "{% if false %} aria-describedby=", marked),
    ("templates/fields.html", "{% if found.half(name) %}", "{% if false %}", marked),
    ("templates/fields.html", '<div class="pieces">\n{{ rest(field) }}\n',
     '<div class="pieces">\n<div id="{{ field }}-faults"></div>\n', marked),
    ("templates/case.html", 'rows="2"{{ make.wrong("notes") }}', 'rows="2"', marked),
    # what can't be done is told without the case
    ("app.py", '(request.view_args or {}).get("name", "")', '""', locked),
    ("app.py", '.replace(os.path.join(pages.folder().path, ""), "")', "", locked),
    ("templates/wrong.html", "{% if undone %}<a", "{% if false %}<a", locked),
    # the newer file of the disk is overwritten
    ("store.py", "if now.mark != mark:", "if False:", meanwhile),
    # names that lead out of the folder, and names that are there
    ("store.py", 'if name.startswith(".") or any(sign in name', "if any(sign in name", names),
    ("store.py", "any(sign in name for sign in '/\\\\:", "any(sign in name for sign in '\\\\:",
     names),
    ("store.py", "return os.path.dirname(os.path.realpath(path)) == os.path.realpath(folder)",
     "return True", names),
    ("store.py", "os.link(new, path)", "os.replace(new, path)", names),
    # comments are lost, lines that nobody understands are lost
    ("forms.py", "if form == old:\n        return before", "if form == old:\n        before = ''",
     unchanged),
    ("forms.py", "return Line(raw, OTHER, text=raw.strip())", "return Line(raw)", as_text),
    # a half chosen rule is passed over, a text that can't be written is written
    ("cases.py", "wrong = [*halves, *faults.unwritable(form)]", "wrong = [*halves]", at_fields),
    ("cases.py", "wrong = [*halves, *faults.unwritable(form)]", "wrong = faults.unwritable(form)",
     at_fields),
    # a changed case goes on as if it were the old one
    ("standing.py", "change = changed(case_in(journal, kept), case) if kept is not None else None",
     "return ''", taken_over),
    ("cases.py", 'if store.load(path).mark != request.form.get("mark", ""):', "if False:",
     taken_over),
    # what another text came to is shown
    ("forecast.py", "if found is None or found[0] != mark:", "if found is None:", reckoned),
)
