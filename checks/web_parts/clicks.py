"""What happens in a real browser: one answer for one press, no other page's answer, and pages that everybody can read."""

from __future__ import annotations

import contextlib
import http.server
import importlib.util
import io
import os
import signal
import tempfile
import threading
import time
from collections.abc import Iterator

from browser import Browser, broke_off
from people import WARD
from refused import CASE, EVIL
from served import Web, processes

GRID = """title: Two days
things: day Mon Tue x shift early late night
values: Ann Ben
ask: same day
words: different, never Ann
always: different on Mon early - Mon late
plan: scopes
"""
LIST = """title: Weeks
things: Ana Bea Cem
values: week1 .. week3
ask: all
words: different, before
plan: scopes
"""
WEEK = """title: A week
things: day Mon .. Sun x shift early late night
values: Ann Ben Cas
ask: Mon early - Mon late
words: different
plan: scopes
"""
MONTH = """title: A month
things: day 1 .. 31 x shift early late
values: Ann Ben
ask: same day
words: different
plan: scopes
"""
REPORTED = """title: A week with long names
things: day Mon .. Sun x shift early late
values: Annegret Bernhard Cassandra
ask: same day
words: different, never Annegret
plan: scopes
"""
UNDECIDED = WARD.replace("plan: scopes", "plan: quacq")
QUARREL = """title: Seats
things: Ada Bo Cy Eve
values: table left right x seat 1 2
ask: all
words: different
plan: quacq
"""
WIDTHS = (360, 800, 1600)
LEAST_CONTRAST = 4.5
HELD = 3.0              # seconds that a key is held
FOLLOWS = 15.0          # seconds in which another tab follows

Faults = Iterator[str]


@contextlib.contextmanager
def opened(program: str, cases: dict[str, str], name: str, **words: object) -> Iterator[tuple[Web, Browser]]:
    """A server with a browser in front of the first question of a case."""
    with Web(program, cases) as web, Browser(**words) as browser:
        browser.go(f"file://{web.file}")
        browser.wait(browser.head)
        browser.go(f"http://{web.host}{web.path}/ask/{name}")
        browser.click("Begin the questions")
        browser.wait(lambda: "question" in browser.head())
        web.enter()
        yield web, browser


def yes(web: Web, name: str = "x.case") -> int:
    """How many answers the person has given with yes."""
    return sum(line.endswith("yes") for line in web.shows(name))


def presses(program: str) -> Faults:
    """Buttons and keys answer once: also held, pressed twice, and clicked twice."""
    with opened(program, {"x.case": WARD}, "x.case") as (web, browser):
        before = browser.number()
        browser.click("Yes")
        before = browser.next_sheet(before)
        if yes(web) != 1:
            yield f"a click on Yes has given {yes(web)} answers"
        time.sleep(0.3)
        browser.key("y")
        before = browser.next_sheet(before)
        if yes(web) != 2:
            yield f"the key y has given {yes(web) - 1} answers"
        time.sleep(0.3)
        browser.key("b")
        before = browser.next_sheet(before)
        if yes(web) != 1 or "taken back" not in browser.text():
            yield f"the key b doesn't go back: {browser.text()[:200]!r}"
        time.sleep(0.3)
        end = time.monotonic() + HELD
        first = True
        while time.monotonic() < end:           # a key that is held
            browser.driver.execute_cdp_cmd("Input.dispatchKeyEvent", {"type": "keyDown", "key": "y", "text": "y", "autoRepeat": not first})
            first = False
            time.sleep(0.03)
        browser.driver.execute_cdp_cmd("Input.dispatchKeyEvent", {"type": "keyUp", "key": "y"})
        browser.wait(lambda: browser.number() != before)
        if yes(web) != 2:
            yield f"a key that is held for {HELD:.0f} s has given {yes(web) - 1} answers"
        time.sleep(0.3)
        before, stand = browser.number(), len(web.shows("x.case"))
        browser.driver.execute_script("const b=document.querySelector('button.yes'); b.click(); b.click(); b.click();")
        browser.next_sheet(before)
        time.sleep(0.5)
        if yes(web) != 3 or "too late" in browser.text():
            yield f"three clicks at once have given {yes(web) - 2} answers: {browser.text()[:200]!r}"
        before, stand = browser.number(), len(web.shows("x.case"))
        browser.driver.execute_script("const f=document.querySelector('button.yes').form; f.submit(); f.submit();")
        browser.next_sheet(before)
        if yes(web) != 4:
            yield f"a form that is sent twice has given {yes(web) - 3} answers"
        before, stand = browser.number(), len(web.shows("x.case"))
        browser.driver.refresh()
        browser.wait(browser.head)
        if browser.number() != before or len(web.shows("x.case")) != stand:
            yield "a reload changes something"
        browser.driver.back()
        browser.wait(lambda: browser.number() == before)
        if len(web.shows("x.case")) != stand:
            yield "a page of the history changes something"
        if errors := browser.errors():
            yield f"the browser complains: {errors}"


def tabs(program: str) -> Faults:
    """Two tabs show one sitting, the other one follows by itself, and a form of a page that stood still counts for nothing."""
    with opened(program, {"x.case": WARD}, "x.case") as (web, browser):
        one = browser.driver.current_window_handle
        browser.driver.switch_to.new_window("tab")
        browser.go(f"http://{web.host}{web.path}/ask/x.case")
        two = browser.driver.current_window_handle
        old = browser.wait(browser.number)
        browser.driver.execute_script("window.fetch = () => new Promise(() => {});")    # this tab stands still from now on
        browser.driver.switch_to.window(one)
        browser.click("Yes")
        now = browser.next_sheet(old)
        stand = web.shows("x.case")
        browser.driver.switch_to.window(two)
        if browser.number() != old:
            yield "the tab doesn't stand still"
        browser.click("No")
        browser.next_sheet(old)
        if "too late" not in browser.text():
            yield f"a form that came too late leads to {browser.text()[:200]!r}"
        if web.shows("x.case") != stand or browser.number() != now:
            yield "a form that came too late has changed something"
        browser.go(f"http://{web.host}{web.path}/ask/x.case")
        browser.driver.switch_to.window(one)
        browser.does("Yes")
        now = browser.number()
        browser.driver.switch_to.window(two)
        try:
            browser.wait(lambda: browser.number() == now, FOLLOWS)
        except AssertionError:
            yield "the other tab doesn't follow"


class Foreign(http.server.BaseHTTPRequestHandler):
    """Another server of this machine, whose page tries what it can."""

    page = ""
    cookies: list[str] = []

    def do_GET(self) -> None:       # pylint: disable=invalid-name # the library's name
        """Gives the page, and keeps the cookies that came."""
        self.cookies.append(self.headers.get("Cookie", ""))
        self.send_response(200)
        self.send_header("Content-Type", "text/html; charset=utf-8")
        self.end_headers()
        self.wfile.write(self.page.encode())

    def log_message(self, *_: object) -> None:      # pylint: disable=arguments-differ
        """Nothing is logged."""


def foreign(program: str) -> Faults:
    """A page of another server, at another name and at another port of this machine, can't answer, see or frame; nor gets it the cookie."""
    with opened(program, {"x.case": WARD}, "x.case") as (web, browser), \
            http.server.ThreadingHTTPServer(("127.0.0.1", 0), Foreign) as server:
        threading.Thread(target=server.serve_forever, daemon=True).start()
        step = f"http://{web.host}{web.path}/ask/x.case/step"
        number = browser.number()
        Foreign.page = f"""<!DOCTYPE html><h1>foreign</h1><p id=said></p>
<iframe name=frame></iframe><iframe id=theirs src="http://{web.host}{web.path}/ask/x.case"></iframe>
<form id=f target=frame method=post action="{step}"><input name=sheet value="{number}"><input name=do value=y></form>
<script>
document.getElementById('f').submit();
const said=[];
const data=new URLSearchParams({{sheet:'{number}',do:'y'}});
Promise.allSettled([fetch('{step}',{{method:'POST',body:data,credentials:'include',mode:'no-cors'}}),
 fetch('{step}',{{method:'POST',body:data,credentials:'include'}}).then(()=>said.push('posted')),
 fetch('http://{web.host}{web.path}/ask/x.case',{{credentials:'include'}}).then(r=>r.text()).then(t=>said.push('read'))])
 .then(()=>setTimeout(()=>{{let inside='';try{{inside=document.getElementById('theirs').contentDocument.body.innerText}}catch(e){{}}
 document.getElementById('said').textContent='done '+said.join(' ')+(inside.includes('question')?' framed':'')}},500));
</script>"""
        stand = web.shows("x.case")
        for host in ("127.0.0.1", "localhost"):
            browser.go(f"http://{host}:{server.server_address[1]}/")
            said = browser.wait(lambda: browser.text("#said"))
            if said.strip() != "done":
                yield f"a page at {host} could do this: {said}"
            if web.shows("x.case") != stand:
                yield f"a page at {host} has answered"
        if any("desk=" in cookie for cookie in Foreign.cookies):
            yield f"another server of this machine gets the cookie: {Foreign.cookies}"
        browser.go(f"http://{web.host}{web.path}/ask/x.case")
        if browser.wait(browser.number) != number:
            yield "the sheet is another one"
        server.shutdown()


def names(program: str) -> Faults:
    """Names with scripts in them do nothing."""
    with opened(program, {"x.case": EVIL}, "x.case") as (_, browser):
        for says in ("Yes", "No", "Yes", "No"):
            if "question" in browser.head():
                browser.does(says)
        if browser.driver.title == "hit" or "<script>" not in browser.text():
            yield f"a name is a script: {browser.driver.title!r} {browser.text()[:200]!r}"
        if errors := browser.errors():
            yield f"the browser complains: {errors}"


def keyboard(program: str) -> Faults:
    """The page is used by the keyboard alone, and what has the focus can be seen."""
    from selenium.webdriver.common.keys import Keys
    with opened(program, {"x.case": CASE}, "x.case") as (web, browser):
        seen: list[str] = []
        for _ in range(40):
            browser.key(Keys.TAB)
            where = browser.driver.execute_script(
                "const e=document.activeElement, s=getComputedStyle(e); return [e.tagName, e.textContent.trim().split('\\n')[0], s.outlineStyle, s.outlineWidth];")
            seen.append(where[1])
            if where[0] in ("BUTTON", "A", "SUMMARY") and (where[2] == "none" or float(where[3].removesuffix("px")) < 2):
                yield f"the focus at {where[1]!r} can't be seen"
            if where[1].startswith("Yes"):
                break
        if not seen[0].startswith("To the content"):
            yield f"the first stop is {seen[0]!r}"
        if not seen[-1].startswith("Yes"):
            yield f"Yes isn't reached: {seen}"
            return
        before = browser.number()
        browser.key(Keys.ENTER)
        browser.next_sheet(before)
        if len(web.shows("x.case")) != 1:
            yield "the Enter key on Yes doesn't answer"
        while "question" in browser.head():
            browser.does("No")
            if "clash" in browser.head():
                break


READ = r"""
const out=[], seen=new Map();
const number=c=>{const m=c.match(/[\d.]+/g).map(Number);return m.length<4?[...m,1]:m;};
const light=([r,g,b])=>{const f=v=>{v/=255;return v<=.03928?v/12.92:((v+.055)/1.055)**2.4;};return .2126*f(r)+.7152*f(g)+.0722*f(b);};
const over=(a,b)=>{const t=a[3];return [0,1,2].map(i=>a[i]*t+b[i]*(1-t)).concat(1);};
const page=matchMedia('(prefers-color-scheme: dark)').matches?[0,0,0,1]:[255,255,255,1];
function ground(e){const all=[];for(;e;e=e.parentElement)all.unshift(number(getComputedStyle(e).backgroundColor));return all.reduce((b,c)=>over(c,b),page);}
const walk=document.createTreeWalker(document.body,NodeFilter.SHOW_TEXT);
while(walk.nextNode()){const e=walk.currentNode.parentElement;if(!walk.currentNode.textContent.trim()||!e.checkVisibility()||e.closest('.unseen,.skip,script,noscript'))continue;
 const s=getComputedStyle(e), b=ground(e), t=over(number(s.color),b), x=light(t), y=light(b), c=(Math.max(x,y)+.05)/(Math.min(x,y)+.05);
 if(c<LEAST)out.push(e.tagName+' "'+walk.currentNode.textContent.trim().slice(0,30)+'" has contrast '+c.toFixed(1));}
const heads=[...document.querySelectorAll('h1,h2,h3,h4')].filter(h=>h.checkVisibility()).map(h=>+h.tagName[1]);
if(heads.filter(h=>h===1).length!==1||heads[0]!==1)out.push('headings '+heads);
heads.forEach((h,i)=>{if(i&&h>heads[i-1]+1)out.push('heading '+h+' after '+heads[i-1]);});
if(document.documentElement.lang!=='en')out.push('no language');
for(const name of ['main','nav','header'])if(document.querySelectorAll(name).length<1)out.push('no '+name);
for(const e of document.querySelectorAll('input:not([type=hidden]),select,textarea'))if(!e.labels.length&&!e.getAttribute('aria-label')&&!e.getAttribute('aria-labelledby'))out.push('no label at '+e.outerHTML.slice(0,80));
for(const e of document.querySelectorAll('button,a,summary'))if(!e.textContent.trim()&&!e.getAttribute('aria-label'))out.push('no name at '+e.outerHTML.slice(0,80));
for(const e of document.querySelectorAll('th'))if(!e.scope)out.push('no scope at '+e.textContent);
for(const e of document.querySelectorAll('progress'))if(!e.labels.length&&!e.getAttribute('aria-labelledby')&&!e.getAttribute('aria-label'))out.push('no label at a bar');
const ids=[...document.querySelectorAll('[id]')].map(e=>e.id);ids.filter((id,i)=>ids.indexOf(id)!==i).forEach(id=>out.push('twice the id '+id));
for(const e of document.querySelectorAll('[aria-labelledby]'))for(const id of e.getAttribute('aria-labelledby').split(' '))if(!ids.includes(id))out.push('no '+id);
if(document.documentElement.scrollWidth>arguments[0])out.push('it is '+document.documentElement.scrollWidth+' wide in '+arguments[0]);
for(const e of document.querySelectorAll('button,a.button,summary,nav a,table.cases a,select,textarea,input[type=text],label.tick,label.cell,.kinds label'))if(e.checkVisibility()){
 const r=e.getBoundingClientRect();if(r.height<24||r.width<24)out.push('"'+e.textContent.trim().slice(0,30)+'" is '+r.width+' by '+r.height);}
if(document.querySelector('main').innerText.includes('`'))out.push('a backtick in '+document.querySelector('main').innerText.match(/.{0,20}`.{0,20}/)[0]);
const rem=parseFloat(getComputedStyle(document.documentElement).fontSize);
for(const e of document.querySelectorAll('main p:not(.buttons), main li'))if(e.checkVisibility()&&e.getBoundingClientRect().width>48*rem+1)out.push('a line of '+e.getBoundingClientRect().width+': '+e.textContent.trim().slice(0,30));
return out;
""".replace("LEAST", str(LEAST_CONTRAST))


def looked_at(browser: Browser, what: str) -> Faults:
    """A page at each width, light and dark. `innerWidth` says nothing on a phone, where it grows with
    a page that is wider."""
    for width in WIDTHS:
        for dark in (False, True):
            browser.sized(width, 900, dark)
            for fault in dict.fromkeys(browser.driver.execute_script(READ, width)):
                yield f"{what} at {width}{' dark' if dark else ''}: {fault}"
    browser.sized(1000, 900)


def read(program: str) -> Faults:
    """Each page of a sitting can be read at three widths, light and dark, by its headings and labels, and with contrast."""
    for text, answers, ends in ((GRID, "YYYN", "Done"), (LIST, "YN", "Done"), (QUARREL, "NYYYYYYYYYYY", "clash")):
        with opened(program, {"x.case": text}, "x.case") as (_, browser):
            yield from looked_at(browser, "the first question")
            turn = 0
            while "question" in browser.head():
                if turn == 3:
                    yield from looked_at(browser, "a question")
                browser.does("Yes" if answers[turn % len(answers)] == "Y" else "No")
                turn += 1
            yield from looked_at(browser, browser.head())
            if ends not in browser.head():
                yield f"the questions end with {browser.head()!r}, and {ends} is due"
            if "Done" in browser.head():
                yield from judged(browser)
            if errors := browser.errors():
                yield f"the browser complains: {errors}"


def cases(program: str) -> Faults:
    """So can the pages of cases: the list, a new name that is wrong, and a form, empty, filled in, and with faults."""
    with Web(program, {"x.case": WARD, "bad.case": "things: a\nhello\nask: al\nwords: diferent\n"}) as web, Browser() as browser:
        browser.go(f"file://{web.file}")
        browser.at("#new-name")
        yield from looked_at(browser, "the list")
        browser.sized(360, 900)
        wide = browser.driver.execute_script("const e=document.querySelector('table.cases').parentElement; return e.scrollWidth - e.clientWidth")
        if wide > 0:
            yield f"at 360 the list is {wide} wider than the page"
        browser.types("#new-name", "a/b")
        browser.leads(lambda: browser.click("Make it"))
        yield from looked_at(browser, "a wrong name")
        browser.types("#new-name", "new")
        browser.leads(lambda: browser.click("Make it"))
        yield from looked_at(browser, "an empty form")
        for name in ("x", "bad"):
            browser.go(f"http://{web.host}{web.path}/case/{name}.case")
            browser.settled()
            browser.driver.execute_script("document.querySelectorAll('details').forEach(one => { one.open = true; })")
            yield from looked_at(browser, f"the form of {name}")
        if errors := [one for one in browser.errors() if " 422 " not in one]:
            yield f"the browser complains: {errors}"


# what is wider than its place on the page, in pixels
SIDEWAYS = """return [...document.querySelectorAll('.wide, .report .side figure')].filter(one => one.checkVisibility())
    .map(one => one.scrollWidth - one.clientWidth).filter(more => more > 0);"""
NAV = "return document.querySelector('nav').getBoundingClientRect().height"
GROUNDS = """return ['td.asked, td .asked', 'tbody th', 'td:empty'].map(one => getComputedStyle(document.querySelector(one)).backgroundColor)"""
# pictures of plans that what is said above them makes wider, and beside each other don't end on one line
CAPTIONS = """return [...document.querySelectorAll('.report .side figure')].filter(one => one.offsetWidth > Math.max(
    one.querySelector('table').offsetWidth, 14 * parseFloat(getComputedStyle(document.documentElement).fontSize)) + 1).length;"""


def week(program: str) -> Faults:
    """A plan of a week can be seen as a whole on a phone, wherever it is shown; and what is asked is told from heads and from empty places."""
    with opened(program, {"ward.case": WEEK}, "ward.case") as (web, browser):
        def fits(what: str) -> Faults:
            browser.sized(360, 900)
            if wide := browser.driver.execute_script(SIDEWAYS):
                yield f"on a phone {what} is {wide} pixels wider than its place"
            if (high := browser.driver.execute_script(NAV)) > 50:
                yield f"on a phone the head of {what} is {high} high"
            browser.sized(1000, 900)

        for dark in (False, True):
            browser.sized(1000, 900, dark)
            if len(set(grounds := browser.driver.execute_script(GROUNDS))) < 3:
                yield f"what is asked, heads and empty places have the grounds {grounds}"
        yield from fits("a question")
        while "question" in browser.head():
            one, other = (part.split()[-1] for part in browser.text(".said").split(", "))
            browser.does("No" if one == other else "Yes")
        browser.does("Look at plans")
        for what, begins in (("a plan", "Plan "), ("a refused plan", "The rules refuse")):
            while "Done" not in browser.head() and not browser.head().startswith(begins):
                browser.does("Yes")
            yield from fits(what)
            browser.does("No")
            if "Which cells" in browser.head():
                yield from fits("a plan with cells to choose")
                for cell in browser.all("tbody tr:first-child label.cell")[:2]:
                    cell.click()
                browser.does("These are")
                yield from looked_at(browser, "what no word says")
                told = browser.driver.current_url
                browser.leads(lambda: browser.clicks("main li a"))
                if browser.all("input[name=ask]:checked")[-1].get_property("value") != "Mon early - Tue early" or "(1 ticked)" not in browser.text("#words"):
                    yield f"what would explain a wrong plan isn't ticked: {browser.text('#ask')[-300:]!r}"
                if "Not saved yet." not in browser.text("#comes-live"):
                    yield "a form with what would explain a wrong plan is shown as if it were saved"
                browser.go(told)
                browser.settled()
            elif not browser.all(".clash"):
                yield "where an answer behind a refused plan is looked for, no cell is marked"
            browser.does("Go on" if browser.button("Go on") is not None else "None of these")
        while "Done" not in browser.head():
            browser.does("Go on" if browser.button("Go on") is not None else "Enough")
        if "look at some plans now" in browser.text():
            yield "plans that were looked at are to be looked at now"
        browser.does("Report")
        yield from fits("the report")
        if wide := browser.driver.execute_script(CAPTIONS):
            yield f"in the report {wide} plans are made wider by what is said above them"
        browser.sized(800, 900)
        browser.go(f"http://{web.host}{web.path}/case/ward.case")
        browser.settled()
        if (top := browser.driver.execute_script("scrollTo(0, 1500); return document.querySelector('aside.right').getBoundingClientRect().top")) < 0:
            yield f"at 800 what the case comes to is {-top} above the page, and nothing beside the form"
        yield from fits("the form")
        browser.types("#values-text", "\n".join(f"name{k}" for k in range(8)))
        hidden = browser.driver.execute_script("const one = document.querySelector('#values-text'); return one.scrollHeight - one.clientHeight")
        if hidden > 4:
            yield f"of eight names {hidden} pixels are hidden"


# what of a report is wider than its place; whether its patterns name the day in a cell, whether the
# days stand at the top, and how wide their narrowest cell is
HIDDEN = """return [...document.querySelectorAll('figure, .wide')]
    .filter(one => one.checkVisibility() && one.scrollWidth > one.clientWidth)
    .map(one => one.innerText.slice(0, 60));"""
PATTERNS = """const every = [...document.querySelectorAll('table.pattern td:not(.none)')];
return [document.querySelector('table.pattern').innerText.includes('Sun:'),
    document.querySelector('table.pattern thead').checkVisibility(),
    Math.min(...every.map(one => one.offsetWidth || Infinity))];"""
LEAST_CELL = 64         # pixels, in which the word for a rule is whole
# how many answers there are, how many of them can be seen, and whether it is said what to do where
# a browser doesn't unfold them
SEEN = """const every = [...document.querySelectorAll('table.answers tbody tr')];
return [every.length, every.filter(one => one.checkVisibility()).length,
    document.querySelector('.unfold').checkVisibility()];"""


def paper(program: str) -> Faults:
    """The report of a week, as a page and as the file that is saved: on a phone nothing of it is
    hidden, and paper has all answers."""
    with opened(program, {"x.case": REPORTED}, "x.case") as (web, browser):
        while "question" in browser.head():
            one, other = (part.split()[-1] for part in browser.text(".said").split(", "))
            browser.does("No" if one == other else "Yes")
        browser.does("Report")
        saved = os.path.join(web.folder, "saved.html")
        with open(saved, "w", encoding="utf-8") as file:
            file.write(web.get("/ask/x.case/report.html").text)
        for what, address in (("the report", browser.driver.current_url),
                              ("the saved page", f"file://{saved}")):
            browser.go(address)
            browser.wait(lambda: browser.all("table.answers"))
            every, seen, hint = browser.driver.execute_script(SEEN)
            if every < 7 or seen or hint:
                yield f"{what} shows {seen} of {every} answers before they are unfolded; {hint}"
            browser.driver.execute_cdp_cmd("Emulation.setEmulatedMedia", {"media": "print"})
            every, seen, hint = browser.driver.execute_script(SEEN)
            if seen < every or hint:
                yield f"on paper {what} shows {seen} of {every} answers; {hint}"
            browser.driver.execute_script("document.querySelector('details').open = true")
            for width in WIDTHS:
                browser.sized(width, 900)
                if hidden := browser.driver.execute_script(HIDDEN):
                    yield f"at {width} of {what} this is hidden in part: {hidden}"
                *days, narrow = browser.driver.execute_script(PATTERNS)
                if days != [width == 360, width > 360]:
                    yield f"at {width} in {what} days are named in a cell, and at the top: {days}"
                if narrow < LEAST_CELL:
                    yield f"at {width} in {what} a cell of a pattern is {narrow} wide"


def columns(program: str) -> Faults:
    """What is said above small plans of a report doesn't pull them out of their columns, on the page
    nor in the file that is saved."""
    with opened(program, {"x.case": LIST}, "x.case") as (web, browser):
        while "question" in browser.head():
            browser.does("Yes")
        browser.does("Report")
        saved = os.path.join(web.folder, "saved.html")
        with open(saved, "w", encoding="utf-8") as file:
            file.write(web.get("/ask/x.case/report.html").text)
        for address in (browser.driver.current_url, f"file://{saved}"):
            browser.go(address)
            browser.wait(lambda: len(browser.all(".side figure")) > 2)
            if wide := browser.driver.execute_script(CAPTIONS.replace(".report ", "")):
                yield f"{wide} plans are made wider by what is said above them, at {address}"


REACHED = """return [...document.querySelectorAll('main .buttons button')]
    .map(one => one.checkVisibility() ? one.getBoundingClientRect().bottom : Infinity);"""


def undecided(program: str) -> Faults:
    """Where much isn't settled, the buttons are on the first screen all the same."""
    with Web(program, {"x.case": UNDECIDED}, "--no-browser", "--budget", "1") as web, \
            Browser() as browser:
        browser.go(f"file://{web.file}")
        browser.at("#new-name")
        browser.go(f"http://{web.host}{web.path}/ask/x.case")
        browser.click("Begin the questions")
        browser.wait(lambda: browser.stands() and browser.number() and not browser.all("#share"))
        while "question" in browser.head():
            browser.does("Yes")
        lines = len(browser.all("main li"))
        if "couldn't be settled" not in browser.head() or lines < 40:
            yield f"with a small budget the page is {browser.head()!r}, with {lines} lines"
            return
        yield from looked_at(browser, "rules that couldn't be settled")
        for width, height in ((360, 640), (1000, 500)):
            browser.sized(width, height)
            bottoms = browser.driver.execute_script(REACHED)
            if len(bottoms) != 2 or max(bottoms) > height:
                yield f"at {width} by {height} the buttons end at {bottoms}"


def month(program: str) -> Faults:
    """A plan of a month, which is wider than each page, moves in its own place: the page stands
    still, and its last day is reached."""
    with opened(program, {"x.case": MONTH}, "x.case") as (_, browser):
        for width in WIDTHS:
            browser.sized(width, 900)
            wide, hidden, last = browser.driver.execute_script("""
                const place = document.querySelector('main .wide');
                const hidden = place.scrollLeft = place.scrollWidth - place.clientWidth;
                const last = place.querySelector('thead th:last-child').getBoundingClientRect().right;
                return [document.documentElement.scrollWidth, hidden, last];""")
            if wide > width or hidden <= 0 or last > width:
                yield f"at {width} a month is {wide} wide, {hidden} of it hidden, and ends at {last}"


# what is left of the place of the ways of asking, were they as narrow as they can be
ROOM = """
const ways = document.querySelector('table.ways'), place = ways.parentElement.clientWidth;
ways.style.width = '1px';
const narrow = ways.getBoundingClientRect().width;
ways.style.width = '';
return place - narrow;"""
LEAST_ROOM = 40         # pixels: bars that move a page and a part of it take as many


def on_a_phone(program: str) -> Faults:
    """What is wrong stands on the first screen of a phone: a new name at its field, and that a form has something to mend at its top. No
    word is broken in a tick of the case's own."""
    bike = "thing frame: steel carbon\nthing motor: none hub\nwords: frame=carbon not with motor=hub\n"
    listed = {f"c{k}.case": CASE for k in range(9)} | {"bad.case": "things: a\nhello\nplan: scope\n", "bike.case": bike}
    with Web(program, listed) as web, Browser(360, 700) as browser:
        browser.go(f"file://{web.file}")
        browser.types("#new-name", "a/b")
        browser.leads(lambda: browser.click("Make it"))
        place = browser.driver.execute_script("const one = document.querySelector('#new-fault').getBoundingClientRect(); return [one.top, one.bottom]")
        if not 0 <= place[0] < place[1] <= 700:
            yield f"on a phone a fault of a new name stands at {place}"
        browser.go(f"http://{web.host}{web.path}/case/bad.case")
        browser.settled()
        count = len(browser.all("ul.todo li"))
        if browser.text("#jump") != f"{count} things to mend before the questions can begin":
            yield f"on a phone the form of a wrong case begins with {browser.text('#jump')!r}"
        browser.go(f"http://{web.host}{web.path}/case/c0.case")
        browser.click("Work it out")
        browser.wait(lambda: browser.all("table.ways"))
        for width in WIDTHS:
            browser.sized(width, 700)
            if wide := browser.driver.execute_script(SIDEWAYS):
                yield f"at {width} what the questions come to is {wide} wider than its place"
            if (room := browser.driver.execute_script(ROOM)) < LEAST_ROOM:
                yield f"at {width} the ways of asking leave {room} pixels of their place"
        browser.sized(360, 700)
        browser.go(f"http://{web.host}{web.path}/case/bad.case")
        browser.settled()
        browser.sized(1000, 900)
        if browser.text("#jump"):
            yield "beside the form the same is said twice"
        browser.go(f"http://{web.host}{web.path}/case/bike.case")
        if (high := browser.at("input[name=words]:checked + span").size["height"]) > 60:
            yield f"a tick of the case's own is {high} high"


def too_large(program: str) -> Faults:
    """A form that is too large leads to a page that says what to do, also while the browser still sends it."""
    with Web(program, {"x.case": CASE}) as web, Browser() as browser:
        browser.go(f"file://{web.file}")
        browser.at("#new-name")
        for letters in (5_000_000, 12_000_000):
            browser.go(f"http://{web.host}{web.path}/case/x.case")
            browser.settled()
            browser.driver.execute_script("document.querySelector('form[action$=\"/text\"] [name=mark]').value = 'x'.repeat(arguments[0])", letters)
            browser.leads(lambda: browser.click("Save the text"))
            if "This can't be shown" not in browser.head() or "a million bytes at most" not in browser.text():
                yield f"{letters} letters lead to {browser.head()!r} {browser.text()[:300]!r}"


STAND_IN = """
import os
from selenium.common.exceptions import NoSuchElementException, WebDriverException
def turns(program, error, most):
    with open(program, 'a') as file: file.write('x')
    if os.path.getsize(program) <= most: raise error
    return ()
def once(program): return turns(program, WebDriverException('it has died'), 1)
def always(program): return turns(program, WebDriverException('it has died'), 9)
def asserts(program): return turns(program, AssertionError('it is otherwise'), 9)
def lacks(program): return turns(program, NoSuchElementException('no such field'), 9)
def finds(program):
    yield 'something is wrong'
    turns(program, WebDriverException('it has died'), 9)
"""


def breaks_off(_: str) -> Faults:
    """A test in which the driver breaks off is run once more, which is said; one that finds something, or has an error of its own, isn't."""
    with Browser() as browser:
        browser.go("data:text/html,<h1>one</h1>")
        for number in processes(browser.home):
            os.kill(number, signal.SIGKILL)
        try:
            browser.wait(lambda: browser.all("h2"), 5)
        except Exception as error:      # pylint: disable=broad-exception-caught # which one it is is looked at
            if not broke_off(error):
                yield f"where the browser is killed the error is {error!r}"
    if broke_off(AssertionError()) or broke_off(OSError()):
        yield "an error of desk's is taken for one of the driver"
    path = os.path.join(os.path.dirname(os.path.dirname(os.path.realpath(__file__))), "web.py")
    spec = importlib.util.spec_from_file_location("web", path)
    assert spec and spec.loader
    web = importlib.util.module_from_spec(spec)
    spec.loader.exec_module(web)
    with tempfile.TemporaryDirectory() as folder:
        with open(os.path.join(folder, "stand_in.py"), "w", encoding="utf-8") as file:
            file.write(STAND_IN)
        before = os.environ.get("PYTHONPATH")
        os.environ["PYTHONPATH"] = folder
        for test, runs, faults in (("once", 2, 0), ("always", 2, 1), ("asserts", 1, 1), ("lacks", 1, 1), ("finds", 1, 1)):
            counted = os.path.join(folder, test)
            with contextlib.redirect_stdout(io.StringIO()) as said:
                found = web.tested("stand_in", test, counted)
            if (os.path.getsize(counted), len(found), "is run once more" in said.getvalue()) != (runs, faults, runs > 1):
                yield f"{test} is run {os.path.getsize(counted)} times, with {found}, and {said.getvalue()!r} is said"
        if before is None:
            del os.environ["PYTHONPATH"]
        else:
            os.environ["PYTHONPATH"] = before


def judged(browser: Browser) -> Faults:
    """The pages of the end: a plan that is said to be wrong, one that the rules refuse, and the report."""
    browser.does("Look at plans")
    kinds = set()
    while "Done" not in browser.head():
        kind = browser.head().rstrip("0123456789.")[:12]
        if kind not in kinds:
            kinds.add(kind)
            yield from looked_at(browser, browser.head())
            for says in ("No", "These are", "None of", "Go on"):
                if (found := browser.button(says)) is not None and found.tag_name == "button":
                    browser.does(says)
                    break
        else:
            browser.does("Enough")
    browser.does("Report")
    yield from looked_at(browser, "the report")


TESTS = (presses, tabs, foreign, names, keyboard, read, cases, week, paper, columns, undecided,
         month, on_a_phone, too_large, breaks_off)
PLANTED = (
    ("static/page.js", "event.repeat || ", "", presses),
    ("sittings.py", "            if number != self._number or self._over:\n",
     "            if self._over:\n", tabs),
    ("static/page.js", "location.replace(body.dataset.page);", "", tabs),
    ("security.py", 'if request.headers.get("Origin") != known.origin or site != "same-origin":',
     "if False:", foreign),
    ("entrance.py", "path=self._known.path, ", "", foreign),
    ("templates/question.html", '<h1 id="head">{{ sheet.head }}</h1>',
     '<h1 id="head">{{ sheet.head|safe }}</h1>', names),
    ("static/style.css", ":focus-visible { outline: 3px solid var(--link); outline-offset: 2px; }",
     ":focus-visible { outline: none; }", keyboard),
    ("static/style.css", "--dim: #566072", "--dim: #9aa3b0", read),
    ("templates/question.html", "<label for=\"bar\">", "<label>", read),
    ("static/style.css", ".wide { overflow-x: auto; max-width: 100%;", ".wide {", month),
    ("static/style.css", "h1, p, li, summary, .fault, .note, .taught { max-width: 48rem; }", "",
     cases),
    ("static/style.css",
     "button.small { padding: .1rem .5rem; font-size: .85rem; min-height: 1.7rem; }",
     "button.small { padding: 0; font-size: .85rem; min-height: 0; }", read),
    ("static/case.css", "table.cases td { display: block;", "table.cases td {", cases),
    ("static/style.css", ".plan .entry:only-child { margin: 0; padding: 0; }", "", week),
    ("static/style.css", "  label.cell { flex-direction: column;", "  label.cell {", week),
    ("static/style.css", "background: var(--asked-ground);", "background: var(--head);", week),
    ("static/style.css", ".report .side figcaption { width: 0; min-width: 100%; }", "", week),
    ("static/style.css", "@media (min-width: 46rem) {", "@media (min-width: 64rem) {", week),
    ("static/case.css", "#fields textarea { field-sizing: content;", "#fields textarea {", week),
    ("templates/forecast.html", '<tr><th scope="row">questions</th><td>',
     '<tr><th>questions</th><th>never more than</th><th>slips noticed</th><th>advised</th><td>',
     on_a_phone),
    # pictures that captions pull apart, what a phone hides, and paper without answers
    ("../report/style.py", ".side figcaption{{width:0;min-width:100%}}\n", "", columns),
    ("static/style.css", ".report .side figcaption { width: 0; min-width: 100%; }", "", columns),
    ("../report/style.py", "min-width:0;overflow-wrap:anywhere}}", "min-width:0}}", paper),
    ("../report/style.py", ".pattern td{{display:inline-block;", ".pattern td{{", paper),
    ("../report/style.py", ".where{{display:inline}}\n", "", paper),
    ("../report/style.py", "details::details-content{{content-visibility:visible}}\n", "", paper),
    ("../report/style.py",
     "@supports selector(details::details-content){{.unfold{{display:none}}}}\n", "", paper),
    ("static/style.css", "  .report .plan td, .report .plan th { overflow-wrap: anywhere; }\n", "",
     paper),
    ("static/style.css", "  .report .pattern td { display: inline-block;",
     "  .report .pattern td {", paper),
    ("static/style.css",
     "  .report details::details-content { content-visibility: visible; }\n", "", paper),
    # the buttons below all that isn't settled
    ("templates/undecided.html", "<h1>{{ sheet.head }}</h1>\n",
     "<h1>{{ sheet.head }}</h1>\n{% for one in sheet.open %}<p>{{ one }}</p>{% endfor %}\n",
     undecided),
    ("static/case.css",
     "  table.shape { font-size: .8rem; }\n  table.shape td, table.shape th { padding: .1rem .2rem; min-width: 1.4rem; }\n",
     "", week),
    ("templates/base.html", "{{ name.removesuffix('.case') }}", "{{ name }}", week),
    ("cases.py", "text = forms.written(shown, stored.text)", "text = stored.text", week),
    ("templates/unsayable.html", "{{ line|quoted }}", "{{ line }}", week),
    ("templates/done.html", "{% if sheet.judged %}.{% elif sheet.solver %}",
     "{% if sheet.solver %}", week),
    ("judging.py", '" - ".join(self.session.case.things[thing].name for thing in search.things)',
     '""', week),
    ("judging.py", " or shown.marks\n", "\n", week),
    ("templates/cases.html", " autofocus{% endif %}", "{% endif %}", on_a_phone),
    ("templates/case.html", '<div id="jump" data-live>', '<div id="jump" data-live hidden>',
     on_a_phone),
    ("templates/fields.html", "<h2>Also in this case</h2>\n<div class=\"ticks\">",
     "<h2>Also in this case</h2>\n<div class=\"ticks short\">", on_a_phone),
    ("static/case.css", "@media (min-width: 46rem) { #jump { display: none; } }", "", on_a_phone),
    ("server.py", "    server.channel_class = Channel\n", "", too_large),
)
