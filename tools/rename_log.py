#!/usr/bin/env python3
"""Renames the crate `log` to `event_log`, since the library of today's Rattle has a `log` of its own.

usage: python3 tools/rename_log.py       at the top, once, after tools/respell.py

The folder, its lines in crates.txt, the paths in proofs and sources, and where README, docs/ and the header name the crate. Notes of
older changes (docs/changes/) keep the name that it had.
"""

import os
import re
import shutil
import subprocess
import sys

OLD, NEW = "log", "event_log"


def rewrite(path, rules):
    text = open(path, encoding="utf-8").read()
    new = text
    for pattern, to in rules:
        new = re.sub(pattern, to, new, flags=re.M)
    if new != text:
        open(path, "w", encoding="utf-8").write(new)
        return 1
    return 0


def main():
    if not os.path.isdir(f"crates/{OLD}") or os.path.exists(f"crates/{NEW}"):
        sys.exit(f"there is no crates/{OLD} to rename, or crates/{NEW} is there already")
    shutil.rmtree(f"crates/{OLD}/out", ignore_errors=True)
    subprocess.run(["git", "mv", f"crates/{OLD}", f"crates/{NEW}"], check=True)
    count = rewrite("crates.txt", [(rf"(?<![\w#]){OLD}(?=[:\s]|$)", NEW)])
    path = (rf"\bRattle\.{OLD}\.", f"Rattle.{NEW}.")
    for folder, dirs, names in os.walk("crates"):
        dirs[:] = sorted(d for d in dirs if d != "out")
        for name in sorted(names):
            if name.endswith(".antt"):
                count += rewrite(os.path.join(folder, name), [path, (rf"`{OLD}::", f"`{NEW}::")])
            elif name.endswith(".rt"):
                count += rewrite(os.path.join(folder, name), [path, (rf"(?<![\w.:]){OLD}::", f"{NEW}::")])
    place = (rf"\bcrates/{OLD}(?=/)", f"crates/{NEW}")
    for page in ("README.md", "docs/DECISIONS.md", "docs/statements.md"):
        count += rewrite(page, [path, place, (rf"`{OLD}`", f"`{NEW}`"), (rf"`{OLD}::", f"`{NEW}::")])
    count += rewrite("include/locktable.h", [place])
    print(f"{count} files changed")


if __name__ == "__main__":
    main()
