#!/usr/bin/env python3
"""Writes, as Markdown, what changed of signatures, clauses, ghost items and definitions between two trees, old and new side by side.

    python3 tools/side_by_side.py OLD_FOLDER NEW_FOLDER

It goes by the kit's lister, /opt/rattle/port/contracts.py, and lists all that this finds changed, gone or new, public or not.
"""
import json
import subprocess
import sys

KIT = "/opt/rattle/port/contracts.py"


def cell(text):
    return "`` " + text.replace("|", "\\|") + " ``" if text else ""


def rows(title, pairs):
    print("\n### " + title + "\n\n| what | old | new |\n|---|---|---|")
    for what, old, new in pairs:
        print("| %s | %s | %s |" % (what, "<br>".join(map(cell, old)), "<br>".join(map(cell, new))))


def main(old, new):
    lines = subprocess.run(["python3", KIT, old, new, "--json"], capture_output=True, text=True, check=True).stdout
    r = json.loads(lines)
    print("%d functions before and %d after, %d and %d with a promise." % (*r["functions"], *r["with ensures"]))
    for label in ("ensures all gone", "more requires", "no longer pub", "a new Wait or Threads"):
        print("%s: %s." % (label[0].upper() + label[1:], ", ".join(r[label]) or "none"))
    rows("Signatures", [(n, [a], [b]) for n, a, b in r["signatures changed"]])
    contracts = []
    for name, old_requires, old_ensures, new_requires, new_ensures in r["contracts changed"]:
        said = [["requires %s { %s }" % tuple(c) for c in a] + ["ensures %s { %s }" % tuple(c) for c in b] for a, b in ((old_requires, old_ensures), (new_requires, new_ensures))]
        contracts.append((name, [c for c in said[0] if c not in said[1]], [c for c in said[1] if c not in said[0]]))
    rows("Clauses that changed", contracts)
    for label in ("ghost items and constants", "definitions"):
        rows(label.capitalize(), [(" ".join(row[:-2]), [t for t in row[-2]], [t for t in row[-1]]) for row in r[label]["changed"]] + [(" ".join(row), ["gone"], [""]) for row in r[label]["gone"]])


main(*sys.argv[1:3])
