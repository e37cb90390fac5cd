#!/usr/bin/env python3
"""Brings the names that this repository declares in specs/ and proofs/ to the library's spelling, over what port.py wrote.

usage: python3 tools/respell.py       at the top, once, right after port.py

A type (data, record, or a definition whose signature ends in Type) is in upper camel case, any other name is in snake case,
and a folder that only groups modules is in upper camel case. Names that Rattle makes (of goals and loops), functions of src/
and their parameters keep theirs. With --show it says which new names fall together with a name that stood there, and writes nothing.
"""

import collections
import os
import re
import shutil
import sys

DELIMITERS = r"\s(){}\[\],;.«»\"`"
TOKEN = re.compile(f"[^{DELIMITERS}]+")
WORDS = r"((?:(?:pub|abbrev|unfoldable)\s+)*)"
SIGNATURE = re.compile(rf"^(\s*){WORDS}([^{DELIMITERS}:=|]+)\s+:\s(.*)$")
FAMILY = re.compile(rf"^\s*{WORDS}(?:data|record)\s+([^{DELIMITERS}:]+)")
# A name that Rattle makes for a goal, as the hand-written walks declare it again.
MADE = re.compile(r"^(returns|loop|invariant|decreases|bounds|offset_bounds|overflow|overflow_\w+|if|then|else|in)-")


def files(top, endings):
    for folder, dirs, names in os.walk(os.path.join(top, "crates")):
        dirs[:] = sorted(d for d in dirs if d != "out")
        for name in sorted(names):
            if name.endswith(endings):
                yield os.path.join(folder, name)


def declared(top):
    """Each declared name with where it stands, and those that are types."""
    where, types, made = collections.defaultdict(set), set(), collections.defaultdict(set)
    for path in files(top, ".antt"):
        lines = open(path, encoding="utf-8").read().split("\n")
        for i, line in enumerate(lines):
            if line.lstrip().startswith("--"):
                continue
            m = FAMILY.match(line)
            if m:
                where[m.group(2)].add(path)
                types.add(m.group(2))
                continue
            m = SIGNATURE.match(line)
            if not m or m.group(3) in ("let", "λ"):
                continue
            indent, name, rest, j = len(m.group(1)), m.group(3), m.group(4), i + 1
            while j < len(lines) and lines[j].strip() and len(lines[j]) - len(lines[j].lstrip()) > indent and not lines[j].strip().startswith("where"):
                rest += " " + lines[j].strip()
                j += 1
            if re.match(r"(tie|goal|given)\.", rest):
                made[path].add(name)
                continue
            where[name].add(path)
            if re.search(r"(^|→ )Type \d$", rest.strip()):
                types.add(name)
    return where, types, made


def camel(name):
    parts = name.split("-")
    return parts[0][:1].upper() + parts[0][1:] + "".join(p[:1].upper() + p[1:] for p in parts[1:])


def renames(where, types):
    new = {}
    for name in where:
        if name in types and ("-" in name or name[0].islower()):
            new[name] = camel(name)
        elif "-" in name and name not in types:
            # a lemma that begins with a type keeps its capital, and the dash that joins them
            new[name] = name.replace("-", "_")
    return {a: b for a, b in new.items() if a != b}


def library_words():
    """The words of the kit's library that have a dash: they keep it."""
    kit = os.path.dirname(os.path.dirname(os.path.realpath(shutil.which("rt") or "")))
    found = set()
    for part in ("rattle", "logic"):
        for folder, _, names in os.walk(os.path.join(kit, part)):
            for name in names:
                if name.endswith(".antt"):
                    found.update(w for w in TOKEN.findall(open(os.path.join(folder, name), encoding="utf-8", errors="replace").read()) if "-" in w)
    return found


def bound(texts, new, made, top):
    """Bound names and other names under `as` that have a dash."""
    library, taken = library_words(), set().union(*made.values())
    more = {}
    for path, text in texts.items():
        if not path.endswith(".antt"):
            continue
        for line in text.split("\n"):
            for name in TOKEN.findall(line.split("--")[0]):
                if name in new or name in taken or name in library or MADE.match(name) or name.startswith("Need-"):
                    continue
                if re.match(r"^[a-z][\w']*(-[\w']+)+$", name):
                    more[name] = name.replace("-", "_")
        for m in re.finditer(rf"([^{DELIMITERS}]+) as ([^{DELIMITERS}]+)", text):
            if "-" in m.group(2) and m.group(2) not in new and m.group(2) not in library:
                is_type = m.group(1)[0].isupper() or new.get(m.group(1), "a")[0].isupper()
                more[m.group(2)] = camel(m.group(2)) if is_type else m.group(2).replace("-", "_")
    return more


def clause_lines(text):
    """The lines of a .rt file that are read by the prover: imports of ghosts, contracts, ghost fields."""
    on, depth = [], 0
    for line in text.split("\n"):
        bare = line.split("//")[0]
        start = re.match(r"\s*(ghost\b|requires\b|ensures\b|ensures\*|requires\*)", bare)
        if depth > 0 or start:
            on.append(True)
            depth += bare.count("{") - bare.count("}")
            depth = max(depth, 0)
        else:
            on.append(False)
    return on


def imports(text):
    """The names that a file imports, without those that come under another name."""
    found = set()
    for m in re.finditer(r"use ([^{};\n]+)\.\{([^}]*)\}", text):
        if not m.group(1).startswith("Rattle.") or m.group(1).startswith("Rattle.std"):
            continue
        for part in m.group(2).split(","):
            words = part.split()
            if words:
                found.add(words[0])
    return found


def groups(top):
    """The modules that only group others, as (file, crate, kind, name): a folder beside a file, with no proof of a function in it."""
    for path in files(top, ".antt"):
        folder, name = os.path.split(path)
        name = name[: -len(".antt")]
        inside = os.path.join(folder, name)
        if not name[0].islower() or not os.path.isdir(inside):
            continue
        if any("Proof.antt" in names for _, _, names in os.walk(inside)):
            continue
        crate, kind = os.path.relpath(folder, os.path.join(top, "crates")).split(os.sep)[:2]
        yield path, inside, crate, kind, name


def raise_groups(top):
    found = list(groups(top))
    for path, inside, crate, kind, name in found:
        new = camel(name)
        for old in (path, inside):
            to = os.path.join(os.path.dirname(old), new + (".antt" if old == path else ""))
            if os.path.exists(to):
                raise SystemExit(f"respell: {to} stands there already")
            os.rename(old, to)
    paths = {(crate, kind, name) for _, _, crate, kind, name in found}
    for path in files(top, (".antt", ".rt")):
        text = open(path, encoding="utf-8").read()
        new = re.sub(r"(Rattle\.(\w+)\.(specs|proofs)\.)(\w+)", lambda m: m.group(1) + (camel(m.group(4)) if (m.group(2), m.group(3), m.group(4)) in paths else m.group(4)), text)
        crate, kind = os.path.relpath(path, os.path.join(top, "crates")).split(os.sep)[:2]
        if os.path.basename(path) == "Lib.antt":
            new = re.sub(r"(?m)^((?:pub )?mod )(\w+)$", lambda m: m.group(1) + (camel(m.group(2)) if (crate, kind, m.group(2)) in paths else m.group(2)), new)
        if new != text:
            open(path, "w", encoding="utf-8").write(new)


def main():
    top = os.path.dirname(os.path.dirname(os.path.realpath(__file__)))
    where, types, made = declared(top)
    new = renames(where, types)
    plain = {a for a in new if "-" not in a}  # facts that were in lower case: renamed only where they are declared or imported
    everywhere = collections.Counter()
    texts = {p: open(p, encoding="utf-8").read() for p in files(top, (".antt", ".rt"))}
    for path, text in texts.items():
        for line in text.split("\n"):
            everywhere.update(TOKEN.findall(line.split("--")[0] if path.endswith(".antt") else line))
    new |= bound(texts, new, made, top)
    bad = []
    back = collections.defaultdict(list)
    for a, b in new.items():
        back[b].append(a)
    for b, olds in sorted(back.items()):
        if len(olds) > 1 or b in everywhere:
            bad.append((b, olds, everywhere.get(b, 0)))
    if "--show" in sys.argv:
        for b, olds, n in bad:
            print("falls together:", b, olds, n, sorted({os.path.relpath(p, top) for p, t in texts.items() if re.search(rf"(?<![^{DELIMITERS}]){re.escape(b)}(?![^{DELIMITERS}])", t)})[:6])
        left = [a for a in everywhere if re.match(r"^[A-Za-z][\w']*(-[\w']+)+$", a) and a not in new]
        print("hyphenated and left:", len(left), sorted(left)[:400])
        return 0
    for path, text in texts.items():
        own = {p for p in plain if path in where[p]} | (imports(text) & plain)
        skip = made.get(path, set())
        walk = os.path.basename(path) == "Proof.antt"
        ghost = clause_lines(text) if path.endswith(".rt") else None

        def word(m, line):
            name = m.group(0)
            if name not in new or name in skip:
                return name
            before, after = line[: m.start()], line[m.end() :]
            dotted = before.endswith(".")
            if walk and (dotted and re.search(r"(tie|goal|given)\.$", before) or MADE.match(name)):
                return name
            if name in plain:
                if name not in own or dotted or after.startswith("."):
                    return name
            return new[name]

        out = []
        for i, line in enumerate(text.split("\n")):
            if ghost is not None and not ghost[i]:
                out.append(line)
                continue
            mark = "//" if ghost is not None else "--"
            at = line.find(mark)
            code, said = (line, "") if at < 0 else (line[:at], line[at:])
            code = TOKEN.sub(lambda m: word(m, code), code)
            said = re.sub(r"`[^`]*`", lambda m: TOKEN.sub(lambda k: new[k.group(0)] if k.group(0) in new and k.group(0) not in plain else k.group(0), m.group(0)), said)
            out.append(code + said)
        new_text = "\n".join(out)
        if new_text != text:
            open(path, "w", encoding="utf-8").write(new_text)
    raise_groups(top)
    return 0


if __name__ == "__main__":
    raise SystemExit(main())
