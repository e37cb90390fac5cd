#!/usr/bin/env python3
"""Turns a crate's Proof.antt files of the older form into Invariants.antt and, with --answers, Answers.antt.

usage, in a crate's folder:  python3 ../../tools/turn_proofs.py [--answers] [FUNCTION-FOLDER..]

It reads the names that `rt check --generated DIR --old-names` gives of today's goals and steps. Without --answers it writes the
invariants alone and moves each Proof.antt to Proof.antt.old (which is not committed): the check then says which goals it does not
find by itself. With --answers it takes the goals that the last check left open (it runs the check), and writes for each what the
old proof said of it, with the steps' names of today; what does not fit is mended by hand.
"""

import json
import os
import re
import subprocess
import sys

D = r"\s(){}\[\],;.«»\"`"
TOKEN = re.compile(f"[^{D}]+")


def blocks(text):
    """(uses, list of [name, lines]): the declarations at the margin, with the comments above them."""
    uses, found, comments, cur = [], [], [], None
    for line in text.split("\n"):
        if line.startswith("use "):
            uses.append(line)
            comments = []
            continue
        if line.startswith("--"):
            comments.append(line)
            continue
        if not line.strip():
            if cur is not None and found:
                found[-1][1].append("")
            continue
        if not line[0].isspace():
            words = line.split()
            while words and words[0] in ("pub", "abbrev", "unfoldable"):
                words = words[1:]
            name = words[0].split("(")[0]
            if name == "module" or name in ("data", "record"):
                key = " ".join(words[:3])
                found.append([key, comments + [line]])
                cur = key
                comments = []
                continue
            if cur == name or name == "unfolding" or name == ")":
                found[-1][1].extend(comments + [line])
                comments = []
                continue
            found.append([name, comments + [line]])
            comments = []
            cur = name
        else:
            found[-1][1].extend(comments + [line])
            comments = []
    for f in found:
        while f[1] and not f[1][-1].strip():
            f[1].pop()
    return uses, found


def names_of(crate):
    out = f"/tmp/names-{crate}-{os.getuid()}"
    subprocess.run(["rt", "check", "--generated", out, "--old-names"], stdout=subprocess.DEVNULL, stderr=subprocess.DEVNULL)
    return json.load(open(os.path.join(out, "names.json")))


def entry(names, path):
    key = "-proofs." + path.replace("/", ".") + ".Lts"
    for k, v in names.items():
        if k.endswith(key) and isinstance(v, dict) and "needs" in v:
            return v
    return None


def steps(e):
    found = {}
    for p in e["places"]:
        old, new = p[2]
        if old and old != new:
            found.setdefault(old, new)
    for old_new, _ in e["loops"]:
        found[old_new[0]] = old_new[1]
        found[old_new[0] + "-test"] = old_new[1] + "-test"
    return found


def paths(text, e):
    """Drops `.before`, and gives steps after a dot their names of today."""
    text = re.sub(r"(\.before)+(?![\w'-])", "", text)
    known = steps(e)
    # names that stand for the whole of c once `.before` is gone
    whole = {"c"}
    for m in re.finditer(r"let (\w+) = (\w+) in", text):
        if m.group(2) in whole:
            whole.add(m.group(1))
    text = re.sub(rf"(?<![\w.'-])({'|'.join(sorted(whole))})\.([A-Za-z][\w'-]*)", lambda m: m.group(1) + "." + known.get(m.group(2), m.group(2)), text)
    text = re.sub(r"\.pre(?![\w'-])", ".requires", text)
    return re.sub(r"\.inv(?![\w'-])", ".invariant", text)


def invariants(module, uses, found, e):
    """The text of Invariants.antt, the names that it declares, and the old blocks that went into it."""
    out, took, helpers = [], [], []
    loops = {o[0][0]: o for o in zip([l[0] for l in e["loops"]], e["loops"])}
    table = {}
    for (old, new), variables in e["loops"]:
        table[old] = (new, variables)
    changed = {old_new[0]: c for (old_new, _), c in zip(e["loops"], e["changed"])}
    by_name = {b[0]: b for b in found}
    need = set()
    for old, (new, variables) in table.items():
        for kind in ("invariant", "decreases"):
            b = by_name.get(f"{kind}-{old}")
            if b is None:
                continue
            took.append(b[0])
            body = "\n".join(l for l in b[1] if not l.startswith("--"))
            m = re.search(rf"(?ms)^{re.escape(b[0])} ([^=]*)=(.*)$", body)
            params, right = m.group(1).split(), m.group(2)
            flags = changed[old]
            order = list(variables)
            slots = []
            starts = [("l.initial." if f else "l.") + v for v, f in zip(order, flags)]
            currents = ["l." + v for v, f in zip(order, flags) if f]
            slots = starts + currents
            if len(slots) != len(params):
                slots = [("l.initial." + p[:-1] if p.endswith("₀") else "l." + p) for p in params]
            sub = dict(zip(params, slots))
            right = re.sub(rf"(?<![^{D}])(?<!\.)([^{D}]+)", lambda m: sub.get(m.group(1), m.group(1)), right)
            out.append(f"abbrev pub {kind}-{new} : goal.{kind}-{new}\n{kind}-{new} l ={right.rstrip()}\n")
            need.update(TOKEN.findall(right))
    grow = True
    while grow:
        grow = False
        for b in found:
            if b[0] in need and b[0] not in helpers and not b[0].startswith(("invariant-", "decreases-")):
                helpers.append(b[0])
                new = set(TOKEN.findall("\n".join(b[1])))
                if not new <= need:
                    need |= new
                    grow = True
    text = "\n".join(u for u in uses if not re.search(r"\.(Statement|Tie|Reads|Lts)\b|Author\.Rules", u))
    text += f"\nuse {module}.Given as goal\n\n"
    for b in found:
        if b[0] in helpers:
            t = "\n".join(b[1])
            t = re.sub(rf"(?m)^((?:abbrev )?)(?!pub )({re.escape(b[0])} :)", r"\1pub \2", t)
            text += t + "\n\n"
    text += "\n".join(out)
    return text, helpers, took


def main():
    argv = [a for a in sys.argv[1:] if not a.startswith("--")]
    crate = os.path.basename(os.getcwd())
    names = names_of(crate)
    answers = "--answers" in sys.argv
    opened = {}
    if answers:
        said = subprocess.run(["rt", "check"], stdout=subprocess.PIPE, stderr=subprocess.STDOUT, text=True).stdout
        for m in re.finditer(r"expected answers in \./proofs/(\S+?)/(?:Answers|Invariants)\.antt; ([^\n]*)", said):
            opened[m.group(1)] = [n for n in re.findall(r"`([^`]+)`", m.group(2)) if "::" not in n]
        for m in re.finditer(r"(?m)^note: `([^`]+)` of proofs/(\S+?)/Answers\.antt must prove", said):
            opened.setdefault(m.group(2), []).append(m.group(1))
        for k, v in opened.items():
            print("open:", k, " ".join(sorted(set(v) - {"search"})))
    for folder, _, files in sorted(os.walk("proofs")):
        path = os.path.relpath(folder, "proofs")
        if argv and path not in argv:
            continue
        old = os.path.join(folder, "Proof.antt")
        kept = old + ".old"
        source = kept if os.path.exists(kept) else old
        if not os.path.exists(source):
            continue
        text = open(source, encoding="utf-8").read()
        if "Tie as tie" not in text:
            print("left:", path, "is no walk by tie")
            continue
        e = entry(names, path)
        if e is None:
            print("left:", path, "has no entry in the names")
            continue
        module = f"Rattle.{crate}.proofs." + path.replace("/", ".")
        uses, found = blocks(text)
        head = "\n".join(l for l in text.split("\n")[: text.split("\n").index(next(l for l in text.split("\n") if not l.startswith("--")))])
        inv, helpers, took = invariants(module, uses, found, e)
        if not answers:
            if took:
                open(os.path.join(folder, "Invariants.antt"), "w", encoding="utf-8").write(head + "\n" + inv)
            os.rename(old, kept) if source == old else None
            continue
        if path not in opened:
            continue
        goals = {}
        for b in found:
            m = re.search(r": tie\.Need-(\S+)", "\n".join(b[1]))
            if m:
                goals[b[0]] = m.group(1)
        renamed = {}
        for o, n in e["needs"]:
            renamed[o] = n
        out, used = [], False
        wanted = set(opened[path])
        for b in found:
            if b[0].endswith("_spec") or b[0] in took or b[0] in helpers:
                continue
            text_b = "\n".join(b[1])
            if b[0] in goals:
                old_goal = goals[b[0]].replace("overflow-", "", 1) if goals[b[0]] not in renamed else goals[b[0]]
                new = renamed.get(goals[b[0]]) or renamed.get(old_goal) or renamed.get(old_goal.replace("-copy-out-", "_copy_out-").replace("element-copy", "element_copy")) or goals[b[0]]
                if new not in wanted:
                    continue
                lines = [l for l in b[1] if not l.startswith("--")]
                notes = [l for l in b[1] if l.startswith("--")]
                unf = [l for l in lines if l.startswith("unfolding")]
                body = "\n".join(l for l in lines if not l.startswith("unfolding"))
                body = body[body.index("\n") + 1 :] if "\n" in body else body
                body = re.sub(rf"^{re.escape(b[0])} c( κs)?", f"{new} c", body)
                text_b = "\n".join(notes + [f"pub {new} : goal.{new}"] + unf + [paths(body, e)])
                wanted.discard(new)
                out.append(text_b)
            else:
                out.append(paths(text_b, e))
        for w in sorted(wanted - {"search"}):
            out.append(f"pub {w} : goal.{w}\n{w} c = ?")
        text = head + "\n" + "\n".join(u for u in uses if not re.search(r"\.(Statement|Tie|Reads|Lts)\b", u))
        if helpers:
            text += f"\nuse {module}.Invariants.{{{', '.join(h for h in helpers if ' ' not in h)}}}"
        text += f"\nuse {module}.Goals as goal\n\n" + "\n\n".join(out) + "\n"
        open(os.path.join(folder, "Answers.antt"), "w", encoding="utf-8").write(text)
    return 0


if __name__ == "__main__":
    raise SystemExit(main())
