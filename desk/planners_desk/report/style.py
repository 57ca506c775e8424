"""How the page looks: on paper of A4, on a light and on a dark screen. Each pair of colours has a
contrast of 4.5 and more."""

# name: (on a light screen and on paper, on a dark screen)
COLOURS = {
    "ground": ("#ffffff", "#14181f"),
    "text": ("#1c2330", "#e4e8ef"),
    "dim": ("#566072", "#a3adbd"),
    "line": ("#b4bcc9", "#475063"),
    "head": ("#eef1f6", "#232a36"),
    "clash": ("#a3211b", "#ff9d94"),
    "clash-ground": ("#fdeceb", "#3a1a18"),
    "yes": ("#176b32", "#7fd69a"),
    "no": ("#a3211b", "#ff9d94"),
    "odd-ground": ("#fff3c4", "#40350b"),
}
# text, and the grounds that it stands on
PAIRS = (
    ("text", "ground"),
    ("text", "head"),
    ("text", "odd-ground"),
    ("dim", "ground"),
    ("clash", "clash-ground"),
    ("yes", "ground"),
    ("no", "ground"),
)


def _colours(place: int) -> str:
    return "".join(f"--{name}:{both[place]};" for name, both in COLOURS.items())


STYLE = f"""
:root{{color-scheme:light dark;{_colours(0)}}}
@media screen and (prefers-color-scheme:dark){{:root{{{_colours(1)}}}}}
@page{{size:A4;margin:16mm}}
body{{font:16px/1.5 system-ui,sans-serif;margin:0;color:var(--text);background:var(--ground)}}
main{{max-width:62rem;margin:0 auto;padding:1rem}}
h1{{margin:1rem 0 0;font-size:1.7rem}}
h2{{margin:2.2rem 0 .6rem;font-size:1.25rem;border-bottom:1px solid var(--line)}}
.dim,figcaption{{color:var(--dim)}}
figcaption{{font-size:.9rem;margin-bottom:.3rem}}
figure{{margin:0;max-width:100%;overflow-x:auto}}
.side{{display:flex;flex-wrap:wrap;gap:1.2rem 2rem;align-items:flex-end}}
.side figure{{min-width:14rem}}
.side figcaption{{width:0;min-width:100%}}
.wide{{overflow-x:auto}}
table{{border-collapse:collapse;font-size:.9rem;margin-bottom:.8rem}}
td,th{{border:1px solid var(--line);padding:.15rem .5rem;text-align:left;vertical-align:top}}
.plan td,.plan thead th{{text-align:center;min-width:2.4rem}}
th{{background:var(--head);font-weight:600}}
thead td{{border:0}}
.clash{{color:var(--clash);background:var(--clash-ground);font-weight:700}}
.odd{{background:var(--odd-ground);font-weight:700}}
span.clash{{padding:0 .25rem}}
.none{{border-style:dotted}}
.where{{display:none}}
.yes{{color:var(--yes);font-weight:700}}
.no{{color:var(--no);font-weight:700}}
ul.rules li{{margin:.2rem 0}}
ul.cells{{columns:11rem;padding:0;list-style:none}}
pre{{white-space:pre-wrap;overflow-wrap:anywhere}}
summary{{cursor:pointer}}
.unfold{{color:var(--dim)}}
details[open]+.unfold{{display:none}}
@supports selector(details::details-content){{.unfold{{display:none}}}}
li,figcaption,h1,h2,p{{overflow-wrap:anywhere}}
td,th{{overflow-wrap:break-word}}
@media screen and (max-width:40rem){{.plan{{font-size:.75rem}}\
.plan td,.plan th,.plan thead th{{padding:.1rem .25rem;min-width:0;overflow-wrap:anywhere}}
.pattern thead,.pattern td.none{{display:none}}
.pattern,.pattern tbody,.pattern tr,.pattern th{{display:block}}
.pattern tr{{margin-bottom:.6rem}}
.pattern td{{display:inline-block;margin:.15rem .3rem .15rem 0}}
.where{{display:inline}}
.answers td,.answers th{{padding:.15rem .3rem;overflow-wrap:anywhere}}}}
@media print{{
body{{font-size:10.5pt}}main{{max-width:none;padding:0}}\
figure,tr,li{{break-inside:avoid}}h2{{break-after:avoid}}
thead{{display:table-header-group}}figure,.wide{{overflow:visible}}
details::details-content{{content-visibility:visible}}
.answers{{font-size:8.5pt}}
summary{{list-style:none}}.unfold{{display:none}}
}}
"""
