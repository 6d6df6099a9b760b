#!/usr/bin/env python3
"""Brings the names of definitions and lemmas to snake case: run once, at the top, after the kit's port.py.

Words of specs/ and proofs/ that are written lineFeed or both-inv become line_feed and both_inv, wherever a file
imports them from a crate of this repository or states them. Types, modules, goals' names and the code keep theirs.
With --look it writes nothing and lists the names that would fall together.
"""
import os
import re
import sys

NAME = r"[^\s(){}\[\],;.:λ\"]+"
STATES = re.compile(r"^\s*(?:(?:abbrev|unfoldable|opaque|pub)\s+)*(?:pub\s+)?([a-z][\w'-]*)(?:\s+\{[^}]*\})*\s*:\s")
USE = re.compile(r"^(?:pub |ghost )?(?:ghost )?use\s+([\w.+'-]+)\.\{([^}]*)\}", re.M)
# A lemma and a definition whose names would fall together: the lemma's new name.
OTHER = {}
# The same where the kit's script has turned the lemma's name already.
FIRST = [("crates/encoding/proofs/Rows.antt", "tail_of"), ("crates/emitted/proofs/Steps.antt", "kept-to"), ("crates/demands/proofs/Inner.antt", "look_one")]


def snake(name):
    name = name.replace("-", "_")
    return re.sub(r"(?<=[a-z0-9])([A-Z])", lambda m: "_" + m.group(1).lower(), name)


def walk_part(path):
    """The files of a walk by hand: their own names are goals'."""
    parts = path.split("/")
    return path.endswith("/Proof.antt") or (parts[2] == "proofs" and len(parts) > 4)


def files():
    for folder, dirs, names in os.walk("crates"):
        dirs[:] = sorted(d for d in dirs if d != "out")
        for n in sorted(names):
            if n.endswith((".antt", ".rt")):
                yield os.path.join(folder, n)


def imports(text):
    for module, names in USE.findall(text):
        for item in names.split(","):
            item = item.strip()
            if item:
                yield module, item.split(" as ")[0].strip(), item.split(" as ")[-1].strip()


def changed(name):
    return name[:1].islower() and snake(name) != name


def own_module(module):
    return re.match(r"Rattle\.(\w+)\.(specs|proofs)\.", module) and os.path.isdir("crates/" + module.split(".")[1])


def whole(names):
    return re.compile(r"(?<![\w'-])(" + "|".join(re.escape(n) for n in sorted(names, key=len, reverse=True)) + r")(?![\w'-])")


def edits(renamed):
    """The must-fail edits, each by the names of the file that it changes."""
    for folder in sorted(os.listdir("crates")):
        at = os.path.join("crates", folder, "must-fail")
        for n in sorted(os.listdir(at)) if os.path.isdir(at) else ():
            p = os.path.join(at, n)
            with open(p, encoding="utf-8") as f:
                t = f.read()
            target = re.search(r"^file: (.*)$", t, re.M)
            names = renamed.get(os.path.join("crates", folder, target.group(1).strip()), {}) if target else {}
            if names:
                new = "\n".join(whole(names).sub(lambda m: names[m.group(1)], l) if l.startswith(("old:", "new:")) else l for l in t.split("\n"))
                if new != t:
                    with open(p, "w", encoding="utf-8") as f:
                        f.write(new)


def main():
    look = "--look" in sys.argv
    texts = {p: open(p, encoding="utf-8").read() for p in files()}
    for p, name in FIRST:
        texts[p] = whole([name]).sub(snake(name) + "_law", texts[p])
    stated = {}
    for p, t in texts.items():
        if p.endswith(".antt") and not walk_part(p):
            stated[p] = {m.group(1) for m in map(STATES.match, t.split("\n")) if m}
    every = set().union(*stated.values())
    trouble, everywhere = [], {}
    camel = {snake(n) for n in every if changed(n) and "-" not in n}
    for n in every:
        if "-" in n and snake(n) in camel:
            OTHER[n] = snake(n) + "_law"
    for p, t in texts.items():
        own, others = set(stated.get(p, ())), set()
        renamed = {}
        for module, name, seen in imports(t):
            if own_module(module) and name in every:
                own.add(name)
                if seen != name and changed(seen):
                    own.add(seen)
            elif not own_module(module):
                others.add(seen)
        for n in own:
            if changed(n) and n not in others:
                renamed[n] = OTHER.get(n, snake(n))
        tokens = set(re.findall(NAME, t)) if p.endswith(".antt") else set(re.findall(r"[\w'-]+", t))
        for n, new in renamed.items():
            if new in tokens or new in others:
                trouble.append((p, n, new))
        back = {}
        for n, new in renamed.items():
            back.setdefault(new, []).append(n)
        for new, ns in back.items():
            if len(ns) > 1:
                trouble.append((p, ns, new))
        everywhere[p] = renamed
        if not look:
            new_text = whole(renamed).sub(lambda m: renamed[m.group(1)], t) if renamed else t
            with open(p, "w", encoding="utf-8") as f:
                f.write(new_text)
    if not look:
        edits(everywhere)
    for x in trouble:
        print("falls together:", *x)


main()
