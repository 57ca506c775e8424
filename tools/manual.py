#!/usr/bin/env python3
"""Makes the manual page of the program from docs/formats.md.

usage: tools/manual.py > man/acquire.1

The sections below are taken as they stand there, so the page says nothing of its own but its head, its examples and where bugs are told.
The version and its date are those of CHANGELOG.md's first entry. It is in the macros of man(7). checks/manual.py holds man/acquire.1 to it.
"""

import os
import re

TOP = os.path.join(os.path.dirname(os.path.abspath(__file__)), "..")

# The sections of the page: its own title, and the headings of docs/formats.md whose text it has.
SECTIONS = [
    ("COMMANDS", ["Words"]),
    ("INPUT", ["Input", "Answers"]),
    ("VOCABULARY", ["Vocabulary", "Formulas"]),
    ("NETWORK", ["A network"]),
    ("OUTPUT", ["Output", "A refused journal"]),
    ("EXIT STATUS", ["Exit statuses"]),
]
HEAD = r""".\" Made by tools/manual.py from docs/formats.md, and not by hand.
.TH ACQUIRE 1 DATE "acquire VERSION" "User Commands"
.SH NAME
acquire \- learns constraints by asking which examples are acceptable
.SH SYNOPSIS
.B acquire
.I JOURNAL COMMAND
.RB [ \-\-plan
.IR P ]
.RB [ \-\-budget
.IR N ]
.RB [ \-\-number
.IR N ]
.SH DESCRIPTION
.B acquire
finds the constraints that somebody has in mind. It shows small examples, values for some of the variables, reads from its input
whether they are acceptable, and prints a network of constraints that has exactly the solutions which the answers describe, among
all networks of the given relations. A session can be kept in a file, its journal, and goes on where it was stopped.
.PP
What is called formats.md below is that document, which is installed beside this page in share/doc/acquire/docs."""
TAIL = r""".SH EXAMPLES
The input is a vocabulary on one line and then the answers:
.PP
.in +4n
.EX
acquire :memory: try
.EE
.in
.PP
The same in a file, in as many sittings as it takes, and then the constraints for a SAT solver:
.PP
.in +4n
.EX
acquire roster.journal new --plan scopes < vocabulary.json
acquire roster.journal run
acquire roster.journal cnf > roster.cnf
cadical roster.cnf | acquire roster.journal model
.EE
.in
.SH BUGS
Where the program does something else than these pages say, tell whoever gave it to you, with what \fBacquire \-\-version\fR prints, the
vocabulary, and the journal or the answers.
.SH SEE ALSO
docs/guide.md, docs/troubleshooting.md and docs/formats.md in share/doc/acquire"""


def escaped(text):
    """Plain text for roff."""
    text = text.replace("\\", "\\e").replace("-", "\\-")
    return "\\&" + text if text[:1] in (".", "'") else text


def inline(text, titles):
    """A line with its code, stress and links in roff. A link to what the page lacks says where it leads."""

    def link(found):
        name, to = found.groups()
        here = not to.startswith("#") or name in titles
        return name if here else f"{name} in formats.md"

    def styled(part):
        if part.startswith("`"):
            return f"\\fB{escaped(part[1:-1])}\\fP"
        if part.startswith("**"):
            return f"\\fI{escaped(part[2:-2])}\\fP"
        return escaped(part).replace("\\-", "-")

    text = re.sub(r"\[([^]\[]*)\]\(([^)]*)\)", link, text)
    line = "".join(styled(part) for part in re.split(r"(`[^`]*`|\*\*[^*]*\*\*)", text) if part)
    return "\\&" + line if line[:1] in (".", "'") else line


def sections():
    """The text under each heading of docs/formats.md, up to the next heading of any level."""
    found = {}
    with open(os.path.join(TOP, "docs/formats.md"), encoding="utf-8") as file:
        # (a heading within a fence would be none, and there is none)
        parts = re.split(r"(?m)^#+ (.*)\n", file.read())
    for name, text in zip(parts[1::2], parts[2::2]):
        found.setdefault(name, text)
    return found


def blocks(text):
    """The paragraphs, tables and fences of a text, each a list of lines."""
    for whole in re.findall(r"(?ms)^```.*?^```$|^\S.*?(?=\n\n|\n```|\Z)", text.strip()):
        yield whole.strip("\n").split("\n")


def table(lines, titles):
    """A table as a list: the first cell of a row is the tag, the second its text, and further ones are named by their column."""
    cells = [[it.strip() for it in re.split(r"(?<!\\)\|", line.strip().strip("|"))] for line in lines]
    heads, rows = cells[0], cells[2:]
    for tag, text, *more in rows:
        tag = inline(tag, titles)
        yield f".TP\n{tag}"
        yield inline(text, titles) or "\\&"
        for head, cell in zip(heads[2:], more):
            if cell:
                yield f"({inline(head, titles)}: {inline(cell, titles)})"


def version():
    """The number of the version and its date."""
    with open(os.path.join(TOP, "CHANGELOG.md"), encoding="utf-8") as file:
        return re.search(r"(?m)^## (\S+), (\S+)$", file.read()).groups()


def page():
    texts = sections()
    titles = {name for _, names in SECTIONS for name in names}
    number, date = version()
    yield HEAD.replace("DATE", date, 1).replace("VERSION", number, 1)
    for title, names in SECTIONS:
        yield f".SH {title}"
        for at, name in enumerate(names):
            if at:
                yield f".SS {name}"
            for number, lines in enumerate(blocks(texts[name])):
                if lines[0].startswith("```"):
                    yield "\n".join([".PP", ".in +4n", ".EX", *map(escaped, lines[1:-1]), ".EE", ".in"])
                elif lines[0].startswith("|"):
                    yield from table(lines, titles)
                elif lines[0].startswith("- "):
                    for item in re.split(r"\n(?=- )", "\n".join(lines)):
                        yield ".IP \\(bu 3\n" + inline(" ".join(item[2:].split()), titles)
                else:
                    # (a heading begins a paragraph)
                    yield ".PP\n" * (number > 0) + inline(" ".join(" ".join(lines).split()), titles)
    yield TAIL


print("\n".join(page()))
