#!/usr/bin/env python3
"""Turns the Proof.antt of a crate's functions, which tied each need by hand, to Invariants.antt and Answers.antt.

usage: python3 tools/answers.py CRATE NAMES [FUNCTION..]     at the top; NAMES is the names.json that
       `rt check --generated FOLDER --old-names` writes for the crate as it stands

A need that only searched goes, since the check searches by itself. A need that has no goal any more goes too, and is told. Steps have
the names of today; `c.before.before.f.ensures` is `c.f.ensures`. Only files in which every need has the old form are turned.
"""

import json
import os
import re
import sys

NAME = r"[A-Za-z_μ][\w'\-₀₁₂μ]*"
SOURCE = {"type-inv": "type_inv", "well-formed": "well_formed"}
plain = lambda it: re.sub("-+", "-", it.replace("_", "-"))


def read(path):
    with open(path, encoding="utf-8") as f:
        return f.read()


def blocks(text):
    """The declarations of a file at column 0, each with the comment lines above it."""
    out, here, fresh = [], [], True
    for line in text.split("\n"):
        head = re.match(r"^(?:(?:abbrev|unfoldable|pub)\s+)*(" + NAME + r")(?:\s+" + NAME + r")*\s+:(?=\s|$)", line)
        begins = line.startswith(("use ", "open ", "module ", "-- ")) or head
        if begins and (not here or not all(l.startswith("--") for l in here)):
            out.append(here)
            here = []
        here.append(line)
    out.append(here)
    return ["\n".join(b).strip("\n") for b in out if "\n".join(b).strip()]


def entry(names, path):
    for key, value in names.items():
        if key.endswith(".Lts") and key.split("-proofs.", 1)[1][: -len(".Lts")] == path:
            return value
    return None


def steps(it):
    """place -> the steps on the way to it, old name -> new name; and old paths into an arm -> new ones, as tuples"""
    by = {}
    for (old, parent, (o, n), callee, _), new, arm in zip(it["places"], it["places_by_name"], it["arms"]):
        way = dict(by.get(parent, {}))
        if o:
            way[plain(o)] = n
        if arm:
            for field, step, rest in arm[2]:
                way[(plain(step), *rest)] = (arm[0], field)
        by[old] = way
    return by


def paths(text, way, told):
    def one(m):
        head, rest = m.group(1), m.group(2)
        parts = [p for p in rest.split(".") if p and p != "before"]
        parts = [parts[0]] + [SOURCE.get(plain(p), p) for p in parts[1:]] if parts else parts
        long = max((k for k in way if isinstance(k, tuple) and tuple([plain(parts[0])] + parts[1 : len(k)]) == k), key=len, default=None) if parts else None
        if long:
            parts = list(way[long]) + parts[len(long) :]
        elif parts:
            first = plain(re.sub(r"_Is([A-Z])", lambda k: "-" + k.group(1).lower(), parts[0]))
            if first in way:
                parts[0] = way[first]
            elif first.lower() in way or first.lower().replace("-lem", "") in way:
                parts[0] = way.get(first.lower()) or way[first.lower().replace("-lem", "")]
            elif first == "well-formed":
                parts[0] = "well_formed"
            elif first not in ("type_inv", "well_formed", "args", "requires", "ranges", "type-inv", "utf8", "auto", "captures"):
                told.append(parts[0])
        return head + "".join("." + p for p in parts)

    return re.sub(r"(?<![\w.'\-])([cwd])((?:\.[A-Za-z0-9_][\w\-']*)+)", one, text)


def turn(crate, names, path):
    folder = f"crates/{crate}/proofs/" + path.replace(".", "/")
    file = folder + "/Proof.antt"
    text = read(file)
    if "tie.close" not in text:
        return "walk"
    it = entry(names, path)
    if it is None:
        return "no names"
    way = steps(it)
    everywhere = {}
    for w in way.values():
        everywhere.update(w)
    needs = {plain(o): (n, at) for (o, n), at in zip(it["needs"], it["asked_at"] + [None] * len(it["needs"]))}
    uses, answers, invariants, told, lost = [], [], [], [], []
    inlined = {}
    renamed = {}
    for b in blocks(text):
        lines = [l for l in b.split("\n")]
        code = "\n".join(l for l in lines if not l.startswith("--"))
        comment = "\n".join(l for l in lines if l.startswith("--"))
        if code.startswith("use ") or code.startswith("open "):
            if not re.search(r"\.(Statement|Tie)\b|borrow\.Author\.Needs", code):
                uses.append(b)
            continue
        if not code.strip():
            if not uses and not answers:
                uses.append(b)
            else:
                answers.append(b)
            continue
        m = re.match(r"^((?:(?:abbrev|unfoldable|pub)\s+)*)(" + NAME + r")\s+:\s+(.*)$", code, re.S)
        if not m:
            answers.append(b)
            continue
        name, rest = m.group(2), m.group(3)
        if "tie.close" in code:
            continue
        kind = re.match(r"tie\.((?:invariant|decreases|Inv|μ)\S*)", rest)
        if kind:
            invariants.append((comment, name, rest))
            continue
        need = re.match(r"tie\.Need-(\S+)[^\n]*\n(.*)$", rest, re.S)
        if need:
            if re.match(r"^\S+ c( κs)? = search (rules|needs)\s*$", need.group(2)):
                renamed[name] = None
                continue
            was = need.group(1)
            got = needs.get(plain(name))
            if got is None:
                tail = re.sub(r"^(overflow|nonzero)-", "", plain(was))
                got = needs.get(tail)
            if got is None:
                short = [n for n in needs if plain(needs[n][0]) == plain(was)]
                if short:
                    got = needs[short[0]]
            if got is None:
                lost.append(name)
                answers.append("-- LOST " + b.replace("\n", "\n-- "))
                continue
            new = got[0]
            at = way.get(got[1][0], {}) if got[1] else everywhere
            body = need.group(2)
            body = re.sub(r"(?m)^" + re.escape(name) + r" c κs\b", name + " c", body)
            body = re.sub(r"(?m)^" + re.escape(name) + r"(?=\s)", new, body)
            body = paths(body, at, told)
            renamed[name] = new
            answers.append((comment + "\n" if comment else "") + f"pub {new} : goal.{new}\n{body}")
            continue
        # a lemma of the file; one over the record of a place is written where it is used
        over = re.match(r"\(c : tie\.[^()]*\) → ([^\n]*)\n" + re.escape(name) + r" c =\s*(.*)$", rest, re.S)
        if over:
            inlined[name] = (paths(over.group(1), everywhere, told), paths(over.group(2), everywhere, told))
            continue
        code = re.sub(r"tie\.(After-\S+|Then\S*|Else\S*|Start|In\S*|Loop\S*)((?: (?:Inv|μ|invariant|decreases)-\S+?(?=[ )]))*)", lambda k: "goal." + k.group(1), code)
        code = paths(code, everywhere, told)
        answers.append((comment + "\n" if comment else "") + code)
    for _ in range(4):
        for name, (typ, body) in inlined.items():
            term = f"(let {name}' : {typ} = {body} in {name}')"
            use = re.compile(r"\(" + re.escape(name) + r" c\)|(?<![\w'\-.])" + re.escape(name) + r" c(?![\w'\-.])")
            answers = [use.sub(lambda m: term, a) for a in answers]
    goals = f"Rattle.{crate}.proofs.{path}"
    if invariants:
        kept = [u for u in uses if u.startswith("use ")]
        out = kept + [f"use {goals}.Given as goal", ""]
        for comment, name, rest in invariants:
            typ, _, body = rest.partition("\n")
            was = re.match(r"tie\.(\S+)", typ).group(1)
            loops = it.get("loops") or []
            m = re.match(r"^(\S+)((?:\s+[^\s=]+)*)\s+=\s*(.*)$", body, re.S)
            params = m.group(2).split()
            expr = m.group(3)
            kindname = "invariant" if was.startswith(("Inv", "invariant")) else "decreases"
            label = re.sub(r"^(invariant|decreases|Inv|μ)-", "", was)
            new = ([l[0][1] for l in loops if plain(l[0][0]) == plain(label)] + [label])[0]
            for p in sorted(params, key=len, reverse=True):
                to = "l.initial." + p[:-1] if p.endswith("₀") else "l." + p
                expr = re.sub(r"(?<![\w.'\-₀])" + re.escape(p) + r"(?![\w'\-₀])", to, expr)
            out.append((comment + "\n" if comment else "") + f"abbrev pub {kindname}-{new} : goal.{kindname}-{new}\n{kindname}-{new} l =" + (" " + expr if not expr.startswith("\n") else expr))
            out.append("")
        with open(folder + "/Invariants.antt", "w", encoding="utf-8") as f:
            f.write("\n".join(out).rstrip("\n") + "\n")
    if any(not a.startswith("--") or "LOST" in a for a in answers):
        out = [u for u in uses] + [f"use {goals}.Goals as goal", ""]
        text = "\n".join(out) + "\n" + "\n\n".join(answers) + "\n"
        with open(folder + "/Answers.antt", "w", encoding="utf-8") as f:
            f.write(text)
    os.remove(file)
    return "turned" + (f", lost {lost}" if lost else "") + (f", unknown {sorted(set(told))}" if told else "")


def main(argv):
    crate, names = argv[0], json.loads(read(argv[1]))
    for folder, _, files in os.walk(f"crates/{crate}/src"):
        for f in files:
            for word in re.findall(r"\b[a-z][a-z0-9]*(?:_[a-z0-9]+)+\b", read(os.path.join(folder, f))):
                SOURCE[plain(word)] = word
    root = f"crates/{crate}/proofs"
    for folder, dirs, files in sorted(os.walk(root)):
        if "Proof.antt" in files:
            path = os.path.relpath(folder, root).replace(os.sep, ".")
            if len(argv) > 2 and path not in argv[2:]:
                continue
            print(path, turn(crate, names, path))


if __name__ == "__main__":
    main(sys.argv[1:])
