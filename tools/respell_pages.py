#!/usr/bin/env python3
"""Brings the names in README.md, docs/ and the headers of include/ to the spelling that tools/respell.py and port.py gave them in crates/.

usage: python3 tools/respell_pages.py [--show]       at the top, once, after tools/respell.py

It compares what was declared in specs/ and proofs/ before and after, and rewrites names that have a dash or are operators, where they stand
between backticks, and the folders that were raised. Words without a dash, as `step`, are also words of the code and of the paper: those are
mended by hand, and it lists the lines. docs/PORT.md, which has old and new side by side, is left as it is.
"""

import os
import re
import subprocess
import sys
import tempfile

import respell

BEFORE, AFTER = "f40c1aa165f486e4d0d4ecc2b780d64614575bbf", "9255d2283ad19dd26b1d34dc2ad3fdb47374607e"
PAGES = ("README.md", "bench/README.md", "include/locktable.h", "include/terminal.h")


def tree(commit, folder):
    """The crates of a commit, in a folder of their own."""
    to = os.path.join(folder, commit)
    os.mkdir(to)
    packed = subprocess.run(["git", "archive", commit, "crates"], check=True, stdout=subprocess.PIPE).stdout
    subprocess.run(["tar", "x", "-C", to], input=packed, check=True)
    return to


def raised(before, after):
    """The folders that group modules and got a capital, as they were named before."""
    found = set()
    for kind in ("specs", "proofs"):
        for crate in os.listdir(os.path.join(before, "crates")):
            old, new = (os.path.join(top, "crates", crate, kind) for top in (before, after))
            if not os.path.isdir(old) or not os.path.isdir(new):
                continue
            names = set(os.listdir(new))
            for name in os.listdir(old):
                if name not in names and respell.camel(name) in names and os.path.isdir(os.path.join(old, name)):
                    found.add(name)
    return found


def changed():
    """The names with their new spelling, and the raised folders."""
    with tempfile.TemporaryDirectory() as folder:
        before, after = tree(BEFORE, folder), tree(AFTER, folder)
        (old, types, _), (new, _, _) = respell.declared(before), respell.declared(after)
        names = {a: b for a, b in respell.renames(old, types).items() if b in new}
        for a in old:
            if a.startswith("_") or a.endswith("_"):
                b = a.replace("_", "◌")
                if b in new:
                    names[a] = b
        return names, raised(before, after)


def span(text, names, folders):
    text = respell.TOKEN.sub(lambda m: names.get(m.group(0), m.group(0)), text)
    return re.sub(r"\b((?:specs|proofs)/)(\w+)(?=/|$)", lambda m: m.group(1) + (respell.camel(m.group(2)) if m.group(2) in folders else m.group(2)), text)


def main():
    names, folders = changed()
    sure = {a: b for a, b in names.items() if "-" in a or "_" in a}
    plain = {a: b for a, b in names.items() if a not in sure}
    pages = [p for p in PAGES if os.path.exists(p)]
    for folder in ("docs", "docs/changes"):
        pages += sorted(os.path.join(folder, p) for p in os.listdir(folder) if p.endswith(".md") and p != "PORT.md")
    for page in pages:
        old = open(page, encoding="utf-8").read().split("\n")
        lines = [re.sub(r"`[^`]*`", lambda m: "`" + span(m.group(0)[1:-1], sure, folders) + "`", line) for line in old]
        for i, line in enumerate(lines):
            words = [w for s in re.findall(r"`[^`]*`", line) for w in respell.TOKEN.findall(s) if w in plain]
            if words:
                print(f"by hand? {page}:{i + 1}: {' '.join(words)}: {line.strip()}")
        if lines != old and "--show" not in sys.argv:
            open(page, "w", encoding="utf-8").write("\n".join(lines))


if __name__ == "__main__":
    main()
