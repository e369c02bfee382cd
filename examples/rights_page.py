#!/usr/bin/env python3
"""Writes a page of who may find, read and change which entry of a data file.

usage: examples/rights_page.py [--program FILE] DATA WHO.. > PAGE.html

A WHO is a requester as `rights` takes one: `anonymous`, or a name that is known by a password. The page is one file
without any other: entries down, in the order of the tree, and requesters across. A cell says in a word and a colour what
the requester may do with the entry, and opens to the table of its rights, with the text that `explain` prints of finding
the entry and of reading each of its attributes. All of it can be reached by the keyboard alone: Tab goes from cell to
cell, Enter opens one and Escape closes it.

FILE is the program, and without the option that which `aclserver` at the top builds where it was not built yet. It is
asked for each cell and each attribute, and reads DATA each time: the page is for trees of some hundred entries.
"""

import base64
import concurrent.futures
import html
import os
import pathlib
import subprocess
import sys

TOP = pathlib.Path(__file__).resolve().parent.parent
CHANGES = {"Add", "Remove", "Modify", "Rename", "Export", "Import"}

STYLE = """
:root { color-scheme: light dark; --ink: #1d2329; --paper: #fff; --line: #c8ced4; --dim: #5b6670;
  --none: #eef0f2; --find: #f6e7b8; --read: #c4e3cd; --change: #f3c3b0; --panel: #fff; }
@media (prefers-color-scheme: dark) { :root { --ink: #e6eaee; --paper: #14181c; --line: #3a434b; --dim: #98a4ae;
  --none: #22282e; --find: #574a17; --read: #1f4d2e; --change: #6b3322; --panel: #1b2126; } }
* { box-sizing: border-box; }
body { margin: 1.5rem; font: 15px/1.45 system-ui, sans-serif; color: var(--ink); background: var(--paper); }
h1 { font-size: 1.35rem; margin: 0 0 .3rem; }
p { margin: .3rem 0 .8rem; max-width: 70ch; color: var(--dim); }
ul.key { display: flex; flex-wrap: wrap; gap: .4rem .9rem; padding: 0; margin: 0 0 1rem; list-style: none; }
ul.key span { display: inline-block; min-width: 5.2em; padding: .05rem .5rem; border-radius: .3rem; color: var(--ink); }
table.page { border-collapse: separate; border-spacing: 0; }
table.page > * > tr > * { border-bottom: 1px solid var(--line); padding: 0; text-align: left; vertical-align: top; }
table.page > thead > tr > th { position: sticky; top: 0; background: var(--paper); padding: .4rem .6rem; z-index: 2;
  max-width: 12rem; overflow-wrap: break-word; font-weight: 600; }
table.page > tbody > tr > th { font-weight: 400; padding: .25rem .8rem .25rem 0; white-space: nowrap; }
.find { background: var(--find); } .read { background: var(--read); }
.change { background: var(--change); } .none { background: var(--none); color: var(--dim); }
summary { cursor: pointer; padding: .25rem .6rem; min-width: 8.5rem; list-style: none; border-left: 2px solid var(--paper); }
summary::-webkit-details-marker { display: none; }
summary:hover { text-decoration: underline; }
summary:focus-visible { outline: 3px solid #2f6fde; outline-offset: -3px; }
.panel { position: fixed; z-index: 3; top: 1rem; right: 1rem; width: min(44rem, calc(100vw - 2rem));
  max-height: calc(100vh - 2rem); overflow: auto; padding: .8rem 1rem; background: var(--panel); color: var(--ink); border: 1px solid var(--line); border-radius: .4rem;
  box-shadow: 0 6px 24px rgba(0, 0, 0, .25); }
.panel h2 { font-size: 1rem; margin: 0 0 .1rem; overflow-wrap: anywhere; }
.panel h3 { font-size: .92rem; margin: .8rem 0 .2rem; }
.panel table { border-collapse: collapse; margin: .5rem 0; font-size: .88rem; }
.panel table th, .panel table td { padding: .12rem .6rem .12rem 0; white-space: normal; border-bottom: 1px solid var(--line); font-weight: 400; }
pre { margin: 0; padding: .4rem .6rem; background: var(--none); color: var(--ink); border-radius: .3rem;
  font-size: .8rem; white-space: pre-wrap; overflow-wrap: anywhere; }
"""

SCRIPT = """
document.addEventListener('keydown', (event) => {
  if (event.key !== 'Escape') return;
  const open = document.querySelector('details[open]');
  if (open) { open.open = false; open.querySelector('summary').focus(); }
});
"""


def run(program, *words):
    """What the program puts; its own words end this script where it fails."""
    ran = subprocess.run([program, *words], capture_output=True)
    if ran.returncode:
        sys.exit(f"{' '.join(words)}: {(ran.stdout or ran.stderr).decode(errors='replace').strip()}")
    return ran.stdout.decode(errors="replace")


def built():
    """The program, which the launcher has built. The launcher sums up all sources in each call, so it is called once."""
    if subprocess.run([TOP / "aclserver", "--version"], stdout=subprocess.DEVNULL).returncode:
        sys.exit(1)
    return str(TOP / "crates/aclserver/out/aclserver")


def names_of(program, data):
    """The names of the entries, in the order of the tree."""
    names = []
    for line in run(program, "dump", data).splitlines():
        if line.startswith("dn: "):
            names.append(line[4:])
        elif line.startswith("dn:: "):
            names.append(base64.b64decode(line[5:]).decode(errors="replace"))
    return names


def rights_of(program, data, who, name):
    """The lines of the table of rights: what each is of, and what is granted on it."""
    rights = []
    for line in run(program, "rights", data, who, name).splitlines():
        words = line.split(" ")
        taken = {"entry": 1, "type": 2, "value": 3}[words[0]]
        rights.append((words[:taken], words[taken:]))
    return rights


def what_may_be(rights):
    """What the requester may do with the entry: a word for the colour, and words for the cell."""
    of_entry = set(rights[0][1])
    of_parts = [set(granted) for _, granted in rights[1:]]
    values = [set(granted) for item, granted in rights if item[0] == "value"]
    read = sum("Read" in granted for granted in values)
    if CHANGES & of_entry or any(CHANGES & granted for granted in of_parts):
        kind = "change"
    elif read:
        kind = "read"
    elif {"Browse", "ReturnDN"} <= of_entry:
        kind = "find"
    else:
        return "none", "not found" if any(granted for _, granted in rights) else "nothing"
    verb = {"change": "changes, reads", "read": "reads", "find": "finds, reads"}[kind]
    return kind, f"{verb} {read} of {len(values)}"


def explanations(program, data, who, name, rights):
    """What `explain` says of finding the entry, and of reading each attribute."""
    items = [("found by a search", "entry", "Browse")]
    items += [(f"{item[1]} read", f"type:{item[1]}", "Read") for item, _ in rights if item[0] == "type"]
    return [(what, run(program, "explain", data, who, name, item, permission)) for what, item, permission in items]


def cell(program, data, who, name):
    """All that a cell shows."""
    rights = rights_of(program, data, who, name)
    return what_may_be(rights), rights, explanations(program, data, who, name, rights)


def row_of_rights(item, granted):
    """A row of the table in a cell."""
    what = {"entry": "the entry"}.get(item[0]) or (item[1] if item[0] == "type" else f"value {item[2]} of {item[1]}")
    return f"<tr><th scope=row>{html.escape(what)}</th><td>{html.escape(' '.join(granted)) or 'nothing'}</td></tr>"


def cell_text(found, who, name):
    """A cell of the page."""
    (kind, words), rights, explained = found
    rows = "".join(row_of_rights(item, granted) for item, granted in rights)
    texts = "".join(f"<h3>{html.escape(what)}?</h3><pre>{html.escape(text)}</pre>" for what, text in explained)
    return (f'<td><details name="cell"><summary class="{kind}">{html.escape(words)}</summary>'
            f'<div class="panel" tabindex="0"><h2>{html.escape(name)}</h2>asked by {html.escape(who)}'
            f"<table><tr><th scope=col>item</th><td>granted</td></tr>{rows}</table>{texts}</div></details></td>")


def page(data, names, whose, cells):
    """The page."""
    heads = "".join(f"<th scope=col>{html.escape(who).replace(',', ',<wbr>')}</th>" for who in whose)
    rows = []
    for name in names:
        depth = sum(name.endswith("," + above) for above in names if above != name)
        shown = html.escape(name.split(",")[0] if depth else name)
        found = "".join(cell_text(cells[name, who], who, name) for who in whose)
        rows.append(f'<tr><th scope=row style="padding-left:{1.1 * depth}rem">{shown}</th>{found}</tr>')
    title = f"Who may do what in {html.escape(os.path.basename(data))}"
    key = "".join(f"<li><span class={kind}>{kind}</span> {what}</li>" for kind, what in [
        ("none", "neither found nor read"), ("find", "found by a search, without any value"),
        ("read", "values are read"), ("change", "something may be changed")])
    return (f'<!doctype html><html lang="en"><head><meta charset="utf-8"><title>{title}</title>'
            f'<meta name="viewport" content="width=device-width"><style>{STYLE}</style></head><body><h1>{title}</h1>'
            "<p>Entries down, in the order of the tree; requesters across, each as one known by a password but for "
            "<em>anonymous</em>. A cell opens to all rights on the entry and to how the decisions on finding and reading "
            f"came about.</p><ul class=key>{key}</ul><table class=page><thead><tr><th scope=col>entry</th>{heads}</tr>"
            f"</thead><tbody>{''.join(rows)}</tbody></table><script>{SCRIPT}</script></body></html>\n")


def main(words):
    program = None
    if words[:1] == ["--program"]:
        program, words = words[1], words[2:]
    if len(words) < 2:
        sys.exit(__doc__)
    data, whose = words[0], words[1:]
    program = program or built()
    names = names_of(program, data)
    asked = [(name, who) for name in names for who in whose]
    with concurrent.futures.ThreadPoolExecutor(os.cpu_count()) as runs:
        found = runs.map(lambda pair: cell(program, data, pair[1], pair[0]), asked)
        print(page(data, names, whose, dict(zip(asked, found))), end="")


if __name__ == "__main__":
    main(sys.argv[1:])
