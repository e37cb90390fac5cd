#!/usr/bin/env python3
"""Brings the must-fail edits (crates/*/must-fail/*.edit) to today's spelling, over what port.py and tools/respell.py wrote.

usage: python3 tools/turn_edits.py WORK            at the top; WORK is a folder outside the checkout, for copies of the repository
       python3 tools/turn_edits.py --fits          says of each edit whether its text stands in the files as they are now

docs/PORT.md begins with two commits: the last one in the old spelling, and the one that turned it. (Without that page: the checkout's
commit, and its files as port.py and tools/respell.py just left them.) An edit is applied to its file in the old spelling, and the whole
is turned as it was turned without the edit: by port.py and by tools/respell.py. The lines in which the file then differs from the turned
one are what the edit says today. Many edits go in one copy, those whose lines lie close to one another in different ones. A copy that
stands in WORK already is not made again.

An edit that fits as it stands and then says the same keeps its text. Of a line that the edit changes, the new text has the changed
words and those beside them that the edit gave before, as far as they stand once in the file.
"""

import collections
import difflib
import glob
import os
import re
import shutil
import subprocess
import sys

# How a clause said what it says in other words now: only to see how much of a line an edit gave.
OLD_WORDS = [(r"\bnow \((\w+) \.exit\)", r"\1.new"), (r"\bnow \((\w+) \.entry\)", r"\1.old"), (r"\b[rd]( ≡|( \.\w+)? ⌝)", r"result\1")]
APART = 2  # lines between two edits in one file of a copy: their differences don't run together


def git(*words, at="."):
    r = subprocess.run(["git", *words], cwd=at, capture_output=True, text=True)
    if r.returncode:
        raise SystemExit(f"turn_edits: git {' '.join(words)}: {r.stderr.strip()}")
    return r.stdout


def shown(commit, path):
    r = subprocess.run(["git", "show", f"{commit}:{path}"], capture_output=True, text=True)
    return r.stdout if r.returncode == 0 else None


def read(path):
    with open(path, encoding="utf-8") as f:
        return f.read()


def pairs_of(text):
    """The pairs of an edit: (file, what stands there, what is put there)."""
    found, path, old = [], None, None
    for line in text.split("\n"):
        if line.startswith("file: "):
            path = line[6:].strip()
        elif line.startswith("old: "):
            old = line[5:]
        elif line.startswith("new: "):
            found.append((path, old, line[5:]))
        elif line.strip():
            raise SystemExit(f"turn_edits: not a line of an edit: {line}")
    return found


def applied(text, pairs):
    """The text with the pairs applied one after another, or None where one doesn't stand exactly once."""
    for _, old, new in pairs:
        if old == new or text.count(old) != 1:
            return None
        text = text.replace(old, new)
    return text


class Edit:
    def __init__(self, path, text):
        self.path, self.text, self.pairs = path, text, pairs_of(text)
        self.crate = path.split("/")[1]
        names = {f for f, _, _ in self.pairs}
        if len(names) != 1:
            raise SystemExit(f"turn_edits: {path} speaks of {len(names)} files")
        self.name = names.pop()
        self.file = f"crates/{self.crate}/{self.name}"


def landed_edits(landed):
    paths = [p for p in git("ls-tree", "-r", "--name-only", landed, "crates").split("\n") if re.search(r"/must-fail/[^/]*\.edit$", p)]
    edits = [Edit(p, shown(landed, p)) for p in paths]
    for e in edits:
        before = shown(landed, e.file)
        after = applied(before, e.pairs)
        if after is None:
            raise SystemExit(f"turn_edits: {e.path} didn't fit its own commit")
        e.lines = [i for i, _, _, _ in changes(before, after)] + [i + len(a) for i, a, _, _ in changes(before, after)]
    return edits


def changes(before, after):
    """The differing runs of lines: (index in before, lines there, index in after, lines there)."""
    a, b = before.split("\n"), after.split("\n")
    said = difflib.SequenceMatcher(None, a, b, autojunk=False).get_opcodes()
    return [(i, a[i:j], k, b[k:l]) for what, i, j, k, l in said if what != "equal"]


def put(before, runs):
    """The text with these runs of lines changed."""
    lines = before.split("\n")
    for i, old, _, new in sorted(runs, key=lambda r: -r[0]):
        lines[i : i + len(old)] = new
    return "\n".join(lines)


def in_copies(edits):
    """Which edits go into one copy."""
    copies = []
    for e in edits:
        for copy in copies:
            if all(o.file != e.file or all(abs(i - j) > APART for i in o.lines for j in e.lines) for o in copy):
                copy.append(e)
                break
        else:
            copies.append([e])
    return copies


def turn(copy, to, landed, respell):
    """A copy of the repository with these edits applied, turned."""
    mark = os.path.join(to, ".git", "turned")
    if os.path.exists(mark):
        return
    shutil.rmtree(to, ignore_errors=True)
    git("clone", "-q", ".", to)
    git("checkout", "-q", landed, at=to)
    for file in {e.file for e in copy}:
        path = os.path.join(to, file)
        before = read(path)
        runs = [r for e in copy if e.file == file for r in changes(before, applied(before, e.pairs))]
        with open(path, "w", encoding="utf-8") as f:
            f.write(put(before, runs))
    git("-c", "user.name=edits", "-c", "user.email=edits@localhost", "commit", "-qam", "edits", at=to)
    kit = os.path.dirname(os.path.dirname(os.path.realpath(shutil.which("rt") or "")))
    subprocess.run([sys.executable, os.path.join(kit, "port", "port.py")], cwd=to, check=True, stdout=subprocess.DEVNULL)
    os.makedirs(os.path.join(to, "tools"), exist_ok=True)
    with open(os.path.join(to, "tools", "respell.py"), "w", encoding="utf-8") as f:
        f.write(respell)
    subprocess.run([sys.executable, os.path.join("tools", "respell.py")], cwd=to, check=True)
    with open(mark, "w", encoding="utf-8") as f:
        f.write("\n".join(e.path for e in copy) + "\n")


class Turned:
    """The files as they were turned without an edit: those of a commit, or with no commit those of the checkout."""

    def __init__(self, commit):
        self.commit = commit
        self.paths = git("ls-tree", "-r", "--name-only", commit, "crates").split("\n") if commit else glob.glob("crates/**/*", recursive=True)

    def text(self, path):
        return shown(self.commit, path) if self.commit else read(path)

    def path(self, file):
        """A folder that only groups modules has a capital since."""
        same = [p for p in self.paths if p == file] or [p for p in self.paths if p.lower() == file.lower()]
        if len(same) != 1:
            raise SystemExit(f"turn_edits: {file} is gone")
        return same[0]


def place(edit, edits):
    """Where the edit stands now: its crate may have another name since."""
    if os.path.exists(edit.path):
        return edit.path
    known, name = {e.path for e in edits}, os.path.basename(edit.path)
    new = [p for p in glob.glob("crates/*/must-fail/" + name) if p not in known]
    if len(new) != 1:
        raise SystemExit(f"turn_edits: {edit.path} is gone")
    return new[0]


def words(line):
    """Where words begin and end in a line."""
    return sorted({i for m in re.finditer(r"[\w'′]+|\S", line) for i in m.span()})


def letters(text):
    """What a text says, whatever its spelling."""
    return re.sub(r"[\s_◌().'′-]", "", text).lower()


def closed(text):
    return sum(c in ")]}" for c in text) - sum(c in "([{" for c in text)


def whole(text):
    """Whether its brackets pair up."""
    return closed(text) == 0 and all(closed(text[:i]) <= 0 for i in range(len(text)))


def short(text, old, new, was):
    """The changed words of a line with those beside them that the edit gave before (was), as far as they stand once in the text."""
    i = 0
    while i < min(len(old), len(new)) and old[i] == new[i]:
        i += 1
    k = 0
    while k < min(len(old), len(new)) - i and old[-1 - k] == new[-1 - k]:
        k += 1
    for before, after in OLD_WORDS:
        was = re.sub(before, after, was)
    ends, found = words(old), []
    for low in [e for e in ends if e <= i]:
        for high in [e for e in ends if e >= len(old) - k]:
            a, b = old[low:high], new[low : len(new) - (len(old) - high)]
            if a and b and a.strip() == a and b.strip() == b and text.count(a) == 1:
                near = difflib.SequenceMatcher(None, letters(a), letters(was), autojunk=False).ratio()
                # brackets that don't pair up where they did are harder to read
                odd = abs(closed(a) - closed(was)) + (whole(a) != whole(was))
                found.append((-near, odd, len(a), a, b))
    return min(found)[3:] if found else (old, new)


def texts_of(edit, file, base, runs):
    """What the edit says today of the file, from the differing runs of lines in it; None where it has to be written by hand."""
    after = put(base, runs)
    # An edit that fits as it stands keeps its text.
    if applied(base, edit.pairs) == after:
        return edit.text
    lines = [(a, b) for _, old, _, new in runs for a, b in zip(old, new) if a != b]
    if any(len(old) != len(new) for _, old, _, new in runs):
        return None
    pairs, text = [], base
    for n, (a, b) in enumerate(lines):
        was = edit.pairs[n][1] if len(lines) == len(edit.pairs) else " ".join(old for _, old, _ in edit.pairs)
        pairs.append((edit.name, *short(text, a, b, was)))
        text = applied(text, pairs[-1:])
        if text is None:
            return None
    if text != after:
        return None
    name = os.path.relpath(file, os.path.join("crates", edit.crate))
    return f"file: {name}\n" + "".join(f"old: {x}\nnew: {y}\n" for _, x, y in pairs)


def fits():
    """Whether each edit's text stands exactly once in its file, pair after pair."""
    bad, n = 0, 0
    for path in sorted(glob.glob("crates/*/must-fail/*.edit")):
        n += 1
        e = Edit(path, read(path))
        if not os.path.exists(e.file) or applied(read(e.file), e.pairs) is None:
            bad += 1
            print("doesn't fit:", path)
    print(f"{n} edits, {bad} that don't fit")
    return 1 if bad else 0


def main():
    if sys.argv[1:] == ["--fits"]:
        return fits()
    if len(sys.argv) != 2:
        print(__doc__)
        return 2
    if os.path.exists("docs/PORT.md"):
        landed, commit = read("docs/PORT.md").split("\n")[:2]
    else:
        landed, commit = git("rev-parse", "HEAD").strip(), None
    turned = Turned(commit)
    respell = shown(commit, "tools/respell.py") if commit else read("tools/respell.py")
    work = os.path.abspath(sys.argv[1])
    os.makedirs(work, exist_ok=True)
    edits, said = landed_edits(landed), collections.Counter()
    for n, copy in enumerate(in_copies(edits)):
        to = os.path.join(work, str(n))
        turn(copy, to, landed, respell)
        for file in sorted({e.file for e in copy}):
            here = sorted((e for e in copy if e.file == file), key=lambda e: min(e.lines))
            before, now = shown(landed, file), turned.path(file)
            base = turned.text(now)
            runs = changes(base, read(os.path.join(to, now)))
            # The edits of a file stand in it in the order of their lines; so do the differences.
            sizes = [len(changes(before, applied(before, e.pairs))) for e in here]
            if len(here) == len(runs):
                sizes = [1] * len(here)
            if sum(sizes) != len(runs):
                print(f"by hand: {file}: {len(runs)} differences for {[os.path.basename(e.path) for e in here]}")
                said["by hand"] += len(here)
                continue
            for e, size in zip(here, sizes):
                mine, runs = runs[:size], runs[size:]
                text = texts_of(e, now, base, mine)
                if text is None:
                    print(f"by hand: {e.path}: {mine}")
                    said["by hand"] += 1
                    continue
                said["as it stood" if text == e.text else "turned"] += 1
                with open(place(e, edits), "w", encoding="utf-8") as f:
                    f.write(text)
    print(", ".join(f"{n} {what}" for what, n in sorted(said.items())))
    return 0


if __name__ == "__main__":
    raise SystemExit(main())
