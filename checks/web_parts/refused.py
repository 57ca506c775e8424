"""Who may not: other pages, other names, other users, and requests that no form of desk's makes."""

from __future__ import annotations

import html.parser
import os
import re
import socket
import stat
import subprocess
import tempfile
import time
import urllib.parse
from collections.abc import Callable, Iterator

from served import PATIENCE, Reply, Web

CASE = """title: Three
things: a b c
values: 1 2 3
ask: all
words: different, before
plan: scopes
"""
EVIL = """title: <script>document.title='hit'</script> & "x" '
things: <script>alert(1)</script> "><img/src> 'b' {{7*7}}
values: <b>one</b> two &amp; "three
ask: all
words: different, before
plan: scopes
"""
HEADERS = {"content-security-policy": ("default-src 'none'", "script-src 'self'", "style-src 'self'", "frame-ancestors 'none'", "form-action 'self'",
                                       "base-uri 'none'"),
           "x-content-type-options": ("nosniff",), "x-frame-options": ("DENY",), "referrer-policy": ("same-origin",),
           "cross-origin-opener-policy": ("same-origin",), "cross-origin-resource-policy": ("same-origin",), "cache-control": ("no-store",)}

MOST_SENT = 4_000_000       # bytes of a form

Faults = Iterator[str]


def by_token(program: str) -> Faults:
    """Nobody comes in without the token, which works once and is in a file of this user alone."""
    with Web(program, {"x.case": CASE}) as web:
        for path in ("/", "/ask/x.case", "/case/x.case", "/ask/x.case/state", "/static/style.css"):
            if web.get(path).status != 403:
                yield f"{path} without a cookie has status {web.get(path).status}"
            if web.get(path, Cookie="desk=" + "A" * 43).status != 403:
                yield f"{path} with a wrong cookie has status {web.get(path).status}"
        if (reply := web.post("/ask/x.case/begin", {})).status != 403 or os.path.exists(os.path.join(web.folder, "x.journal")):
            yield f"a session is begun without a cookie: {reply.status}"
        for token in ("", "x", web.token[:-1], web.token + "x", "ÿ"):
            if (reply := web.ask("GET", f"{web.path}/enter?token=" + token.encode().hex() if token == "ÿ" else f"{web.path}/enter?token={token}")).status != 403 \
                    or "set-cookie" in reply.headers:
                yield f"the token {token!r} has status {reply.status}"
        first = web.token
        came = web.enter()
        cookie = came.headers.get("set-cookie", "")
        if came.status != 200 or not all(word in cookie for word in ("HttpOnly", "SameSite=Strict", f"Path={web.path}")):
            yield f"the token gives {came.status} and the cookie {cookie!r}"
        if web.get("/").status != 200:
            yield "the cookie doesn't let in"
        again = web.get(f"/enter?token={first}", Cookie=None)
        if again.status != 403 or "set-cookie" in again.headers:
            yield f"the token works twice: {again.status}"
        with open(web.file, encoding="utf-8") as file:
            if first in file.read():
                yield "the file still has the token that was used"
        before = web.cookie
        if web.enter().status != 200 or web.cookie != before:
            yield "another browser of this user doesn't get in by the file"


def by_file(program: str) -> Faults:
    """The file is this user's alone, goes with the server, and the token is among nobody's words."""
    with tempfile.TemporaryDirectory() as folder:
        seen = os.path.join(folder, "words")
        fake = os.path.join(folder, "browser")
        with open(fake, "w", encoding="utf-8") as file:
            file.write(f'#!/bin/sh\nprintf "%s\\n" "$@" > {seen}.new\nmv {seen}.new {seen}\n')
        os.chmod(fake, 0o755)
        with Web(program, {"x.case": CASE}, "--port", "0", environment={"BROWSER": fake}) as web:
            for path, mode in ((web.file, 0o600), (os.path.dirname(web.file), 0o700)):
                if stat.S_IMODE(os.stat(path).st_mode) != mode:
                    yield f"{path} has mode {stat.S_IMODE(os.stat(path).st_mode):o}"
            web.enter()
            if stat.S_IMODE(os.stat(web.file).st_mode) != 0o600:
                yield "the second file has another mode"
            for _ in range(600):
                if os.path.exists(seen):
                    break
                time.sleep(0.05)
            else:
                yield "no browser was begun"
            told = open(seen, encoding="utf-8").read() if os.path.exists(seen) else ""
            if web.file not in told or re.search("token|http", told):
                yield f"the browser was begun with {told!r}"
            with open(f"/proc/{web.process.pid}/cmdline", "rb") as file:
                if web.path.encode() in file.read():
                    yield "the server's path is among its words"
        if os.path.exists(os.path.dirname(web.file)):
            yield "the folder of the file is left behind"


def by_name(program: str) -> Faults:
    """No other name leads to it."""
    with Web(program, {"x.case": CASE}) as web:
        web.enter()
        for host in ("evil.example", f"evil.example:{web.port}", f"localhost:{web.port}", "127.0.0.1", f"127.0.0.1:{web.port + 1}", f"127.0.0.1:{web.port}.evil", None, ""):
            for path in (web.path + "/", web.path + "/ask/x.case", "/"):
                reply = web.ask("GET", path, Host=host)
                if reply.status not in ((421,) if host is not None else (400, 421)) or "x.case" in reply.text:
                    yield f"{path} with host {host!r} has status {reply.status}"
        reply = web.post("/ask/x.case/begin", {}, Host=f"evil.example:{web.port}", Origin=f"http://evil.example:{web.port}")
        if reply.status != 421:
            yield f"a form for another host has status {reply.status}"
        ran = subprocess.run(["ss", "-Hltn", f"sport = :{web.port}"], capture_output=True, text=True, check=False) if os.path.exists("/usr/bin/ss") or os.path.exists("/bin/ss") else None
        if ran and ran.returncode == 0 and f"127.0.0.1:{web.port}" not in ran.stdout:
            yield f"it listens at {ran.stdout!r}"


def by_page(program: str) -> Faults:
    """No other page can answer."""
    with Web(program, {"x.case": CASE}) as web:
        web.enter()
        page = web.begin("x.case")
        form = {"sheet": page.number, "do": "y"}
        own = f"http://{web.host}"
        for what, headers in (("a foreign origin", {"Origin": "http://evil.example"}), ("no origin", {"Origin": None}), ("origin null", {"Origin": "null"}),
                              ("another port's origin", {"Origin": f"http://127.0.0.1:{web.port + 1}", "Sec_Fetch_Site": "same-site"}),
                              ("our origin from another site", {"Origin": own, "Sec_Fetch_Site": "cross-site"}),
                              ("our origin from another port", {"Origin": own, "Sec_Fetch_Site": "same-site"}),
                              ("no cookie", {"Cookie": None})):
            reply = web.post("/ask/x.case/step", form, **headers)
            if reply.status != 403:
                yield f"a form with {what} has status {reply.status}"
            if web.shows("x.case"):
                yield f"a form with {what} has answered"
                return
        for site in ("cross-site", "same-site"):
            if (reply := web.get("/ask/x.case", Sec_Fetch_Site=site)).status != 403:
                yield f"a page is given to {site}: {reply.status}"
        for method in ("PUT", "DELETE", "TRACE", "PATCH"):
            if (reply := web.ask(method, web.path + "/ask/x.case/step", Origin=own)).status not in (400, 405, 501):
                yield f"{method} has status {reply.status}"
        if web.shows("x.case"):
            yield "something has answered"
        if (reply := web.does("x.case", "y", page.number)).status != 200 or len(web.shows("x.case")) != 1:
            yield f"desk's own form doesn't answer: {reply.status}"


def by_headers(program: str) -> Faults:
    """Each page, also one that refuses, says that a browser may do nothing with it but show it."""
    with Web(program, {"x.case": CASE}) as web:
        replies = {"refused": web.get("/")}
        web.enter()
        web.begin("x.case")
        replies |= {path: web.get(path) for path in ("/", "/ask/x.case", "/ask/x.case/state", "/case/x.case", "/nothing")}
        replies["outside"] = web.ask("GET", "/")
        for path, reply in replies.items():
            for name, words in HEADERS.items():
                if not all(word in reply.headers.get(name, "") for word in words):
                    yield f"{path}: {name} is {reply.headers.get(name)!r}"
            policy = reply.headers.get("content-security-policy", "")
            if "unsafe" in policy or "http" in policy:
                yield f"{path}: the policy allows more than its own files: {policy}"
            if re.search(r"<script(?![^>]*\bsrc=)|<style|\son\w+=|\sstyle=", reply.text):
                yield f"{path} has code or style of its own"
            if foreign := re.findall(r'(?:src|href|action)="(?!/|#)([^"]*)"', reply.text):
                yield f"{path} leads outside: {foreign}"
            if "server" in reply.headers and re.search(r"\d", reply.headers["server"]):
                yield f"{path} names its library: {reply.headers['server']}"


def by_names(program: str) -> Faults:
    """Names with markup in them are shown as they are."""
    with Web(program, {"x.case": EVIL, "<b>y.case": CASE}) as web:
        web.enter()
        pages = [web.get("/"), web.get("/case/x.case"), web.begin("x.case"), web.begin("%3Cb%3Ey.case"), web.get("/ask/%3Cscript%3E.case")]
        page = pages[2]
        for do in "ynynynynyn":
            page = web.does("x.case", do, page.number)
            pages.append(page)
        while "question" in page.head:
            page = web.does("x.case", "y", page.number)
        pages += [page, web.does("x.case", "report", page.number)]
        saved = web.get("/ask/x.case/report.html")
        pages.append(saved)
        if saved.status != 200 or "attachment" not in saved.headers.get("content-disposition", ""):
            yield f"the report isn't saved: {saved.status} {saved.headers.get('content-disposition')}"
        for number, page in enumerate(pages):
            for fault in markup(page.text, page is saved):
                yield f"page {number}: {fault}"
        if not all(any(name in text for text in map(read, pages)) for name in ("<script>alert(1)</script>", "{{7*7}}", "<b>one</b>", "two &amp;", "<b>y.case")):
            yield "a name isn't shown as it is"


class Tags(html.parser.HTMLParser):
    """The tags of a page, and what can be read."""

    def __init__(self, text: str) -> None:
        super().__init__(convert_charrefs=True)
        self.tags: list[tuple[str, dict[str, str | None]]] = []
        self.text = ""
        self.feed(text)
        self.close()

    def handle_starttag(self, tag: str, attrs: list[tuple[str, str | None]]) -> None:
        """Keeps a tag."""
        self.tags.append((tag, dict(attrs)))

    def handle_data(self, data: str) -> None:
        """Keeps a text."""
        self.text += data


def read(page: Reply) -> str:
    """What can be read on a page."""
    return Tags(page.text).text


def markup(text: str, alone: bool) -> Faults:
    """What of a page isn't from desk's own templates; a page that is saved has a style of its own."""
    for tag, attributes in Tags(text).tags:
        if tag in ("b", "img", "iframe", "object", "svg") or tag == "script" and (alone or "src" not in attributes):
            yield f"a name is taken as the tag {tag}"
        if wrong := [name for name in attributes if name.startswith("on") or name == "style"]:
            yield f"the tag {tag} has the attributes {wrong}"


def by_form(program: str) -> Faults:
    """A form that desk doesn't make gets a page that says what to do; nothing is changed, and nothing is traced to the terminal."""
    with Web(program, {"x.case": CASE}) as web:
        web.enter()
        page = web.begin("x.case")
        good = str(page.number)
        forms: list[tuple[object, int]] = [
            ({}, 400), ({"do": "y"}, 400), ({"sheet": good}, 400), ({"sheet": "x", "do": "y"}, 400), ({"sheet": "-1", "do": "y"}, 400),
            ({"sheet": "٣", "do": "y"}, 400), ({"sheet": "9" * 5000, "do": "y"}, 400), ({"sheet": good, "do": "rm"}, 400),
            ({"sheet": good, "do": "back to", "place": "x"}, 400), ({"sheet": good, "do": "o", "thing": "1e9"}, 400)]
        for form, status in forms:
            if (reply := web.post("/ask/x.case/step", form)).status != status or "To the first page" not in reply.text:
                yield f"{form} has status {reply.status}, and no page that says what to do"
        for form in ({"sheet": good, "do": "back to", "place": "7"}, {"sheet": good, "do": "back to"}, {"sheet": good, "do": "o", "thing": "99"},
                     {"sheet": good, "do": "plans"}):
            page = web.does("x.case", form["do"], web.settled("x.case").number, **{name: value for name, value in form.items() if name not in ("do", "sheet")})
            if page.status != 200 or "question 1" not in page.head:
                yield f"after {form} the page is {page.status} {page.head!r}"
        for path, status in (("/ask/none.case", 404), ("/ask/..%2f..%2fetc%2fpasswd", 404), ("/case/..%2fx.case", 404), ("/ask/x.case/step", 405),
                             ("/ask/x.case/report.html", 404), ("/%00", 404), ("/static/..%2fapp.py", 404), ("/ask/x.case/report.certificate", 404)):
            reply = web.get(path)
            if reply.status != status or "To the first page" not in reply.text or "Traceback" in reply.text:
                yield f"{path} has status {reply.status}"
            if re.search("Not Found|Not Allowed", reply.text):
                yield f"{path} says what only those understand who serve pages: {reply.text[-300:]!r}"
        if web.shows("x.case"):
            yield "a wrong form has answered"
        web.end()
        if web.errors or len(web.said.splitlines()) > 5:
            yield f"the terminal has {web.errors[:500]!r} {web.said!r}"


def bare(program: str) -> Faults:
    """The page of whoever isn't let in names no style and no page that would be refused too, is dark on a dark screen, and says what to do."""
    with Web(program, {"x.case": CASE}) as web:
        strange = {"a stranger's": web.get("/"), "outside": web.ask("GET", "/"), "another name's": web.get("/", Host=f"localhost:{web.port}")}
        for whose, reply in strange.items():
            if found := re.findall(r"<(?:a|link|script|img|form)\b[^>]*>", reply.text):
                yield f"{whose} page leads to {found}"
            if 'name="color-scheme" content="light dark"' not in reply.text or "Open the file that \u201cdesk web\u201d named" not in reply.text:
                yield f"{whose} page is {reply.text[-600:]!r}"


def by_size(program: str) -> Faults:
    """What is too large is refused by a page that says what to do, before it has come; a stranger gets a stranger's page."""
    with Web(program, {"x.case": CASE}) as web:
        stranger = opened(web, f"POST {web.path}/case/x.case/text HTTP/1.1", "Content-Length: 900000000")
        outside = opened(web, "POST /x HTTP/1.1", "Content-Length: 900000000")
        if " 403 " not in stranger or " 404 " not in outside or not all("Open the file that" in said for said in (stranger, outside)):
            yield f"900 million bytes of a stranger are answered by {stranger[:200]!r} and {outside[:200]!r}"
        web.enter()
        web.begin("x.case")
        own = (f"Cookie: desk={web.cookie}", f"Origin: http://{web.host}", "Sec-Fetch-Site: same-origin")
        for length in (MOST_SENT + 1, 8_000_001, 900_000_000):
            said = opened(web, f"POST {web.path}/ask/x.case/step HTTP/1.1", f"Content-Length: {length}", *own)
            if " 413 " not in said or "To the first page" not in said or "a million bytes at most" not in said or "connection: close" not in said.lower():
                yield f"{length} bytes that never come are answered by {said[:300]!r}"
            if lacking := [name for name in HEADERS if name not in said.lower()]:
                yield f"the page of what is too large hasn't {lacking}"
        chunk = b"f4240\r\n" + b"1" * 1_000_000 + b"\r\n"
        said = opened(web, f"POST {web.path}/ask/x.case/step HTTP/1.1", "Transfer-Encoding: chunked", *own, body=chunk * 12)
        if " 413 " not in said or "To the first page" not in said:
            yield f"12 million bytes in pieces are answered by {said[:300]!r}"
        hidden = f"GET {web.path}/ask/x.case HTTP/1.1\r\nHost: {web.host}\r\nCookie: desk={web.cookie}\r\n\r\n".encode()
        said = opened(web, f"POST {web.path}/ask/x.case/step HTTP/1.1", "Content-Length: 9000000", *own, body=hidden * 1000)
        if said.count("HTTP/1.1 ") != 1 or " 413 " not in said:
            yield f"what is thrown away is answered: {said.count('HTTP/1.1 ')} times"
        for length, status in ((MOST_SENT, 400), (MOST_SENT + 1, 413), (60_000_000, 413)):
            reply = web.ask("POST", web.path + "/ask/x.case/step", b"sheet=" + b"1" * (length - 6), Origin=f"http://{web.host}",
                            Content_Type="application/x-www-form-urlencoded")
            if reply.status != status or "To the first page" not in reply.text:
                yield f"{length} bytes of a form have status {reply.status}"
        if web.shows("x.case") or web.get("/ask/x.case").status != 200:
            yield "something too large has answered, or the server doesn't go on"


def opened(web: Web, line: str, *heads: str, body: bytes = b"") -> str:
    """What a request is answered by of which no more is sent than this."""
    with socket.create_connection(("127.0.0.1", web.port), timeout=PATIENCE) as connection:
        try:
            connection.sendall("\r\n".join([line, f"Host: {web.host}", *heads, "", ""]).encode() + body)
        except OSError:
            return "no more is taken, and nothing is answered"
        said = b""
        try:
            while part := connection.recv(1 << 16):
                said += part
        except OSError as error:        # as where the connection stays open
            return f"after {said.decode(errors='replace')[:200]!r} it doesn't end: {error}"
    return said.decode(errors="replace")


TESTS: tuple[Callable[[str], Faults], ...] = (by_token, by_file, by_name, by_page, by_headers, by_names, by_form, bare, by_size)

# a measure that is left out: the file, what stands there, what stands there instead, and the test that has to notice
PLANTED = (
    ("security.py", "    if not same(request.cookies.get(COOKIE, \"\"), known.key):\n",
     "    if False:\n", by_token),
    ("entrance.py", "                self._renew()\n", "                pass\n", by_token),
    ("entrance.py", "if not self._token or not same(token, self._token)", "if False", by_token),
    ("entrance.py", "httponly=True, ", "", by_token),
    ("entrance.py", 'samesite="Strict"', 'samesite="Lax"', by_token),
    ("entrance.py", "path=self._known.path, ", "", by_token),
    ("entrance.py", "0o600", "0o644", by_file),
    ("server.py", 'f"file://{file}"', 'f"file://{file}#token"', by_file),
    ("security.py", 'if request.headers.get("Host") != known.host:', "if False:", by_name),
    ("security.py", 'if request.headers.get("Origin") != known.origin or site != "same-origin":',
     'if site != "same-origin":', by_page),
    ("security.py", 'if request.headers.get("Origin") != known.origin or site != "same-origin":',
     'if request.headers.get("Origin") != known.origin:', by_page),
    ("security.py", 'elif site not in ("same-origin", "none"):', "elif False:", by_page),
    ("security.py", "    app.after_request(with_headers)\n", "", by_headers),
    ("templates/question.html", '<h1 id="head">{{ sheet.head }}</h1>',
     '<h1 id="head">{{ sheet.head|safe }}</h1>', by_names),
    ("pages.py", "    if not (text.isascii() and text.isdecimal() and len(text) <= DIGITS + 1):\n",
     "    if False:\n", by_form),
    ("lines.py", "0 <= step.place < len(session.answers)\n", "True\n", by_form),
    ("app.py", "else SAID.get(status, f\"{error.name}.\")", "else f\"{error.name}.\"", by_form),
    ("app.py", "    if status in (403, 421) or request.environ.get(OUTSIDE):\n", "    if False:\n",
     bare),
    ("templates/outside.html", "{{ todo|quoted }}", "{{ todo }}", bare),
    ("server.py",
     "            max_request_body_size=MOST_SENT + 1,  # from which on it is too large\n", "",
     by_size),
    ("server.py", "max_request_body_size=MOST_SENT + 1,", "max_request_body_size=MOST_SENT,",
     by_size),
    ("server.py", "    server.channel_class = Channel\n", "", by_size),
    ("refusing.py", "        self.close_on_finish = channel.refused = True\n",
     "        channel.refused = True\n", by_size),
    ("refusing.py", "        if self.refused and self.until is None:\n", "        if False:\n",
     by_size),
    ("app.py", "    guard(app, known)\n    refuse_larger(app)\n",
     "    refuse_larger(app)\n    guard(app, known)\n", by_size),
)
