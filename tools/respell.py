#!/usr/bin/env python3
"""Brings the names of this repository's own definitions and lemmas to the spelling of today's Rattle.

usage: python3 tools/respell.py [--say]      at the top of the repository, once, right after port.py
       python3 tools/respell.py --pages      the same names in README.md, docs/ and comments, between backticks
       --say                                 prints each old name with its new one, and changes nothing

A type or a fact is in upper camel case; every other word is in snake case. A letter of the paper keeps its case. Names of Rattle source, strings, inputs and outputs
are not touched.
"""

import glob
import os
import re
import sys

WORD = re.compile(r"[^\s(){}\[\];,.`\"]+")
DECLARED = re.compile(r"^(\s*)((?:(?:unfoldable|abbrev|pub)\s+)*)(record\s+|data\s+)?([^\s:(){};,.]+)\s+(:|\(|\{)")
OWN = os.listdir("crates")
TYPE = re.compile(r"(→|:)\s*Type 0\s*$")


def files():
    found = [p for p in glob.glob("crates/*/specs/**/*.antt", recursive=True) + glob.glob("crates/*/proofs/**/*.antt", recursive=True)]
    return sorted(p for p in found if "/out/" not in p)


def declared():
    """The name of each definition, field, constructor and lemma: the folder that declares it, and whether it is a type."""
    names = {}
    for p in files():
        parts = p.split("/")
        lemma = parts[2] == "proofs"
        if lemma and len(parts) != 4 and not parts[-1][0].isupper():
            continue
        if lemma and os.path.basename(p) in ("Proof.antt", "Invariants.antt", "Answers.antt"):
            continue
        for line in open(p, encoding="utf-8"):
            if line.lstrip().startswith(("--", "use ", "infix", "module", "pub mod", "mod ", "elim", "let ")):
                continue
            m = DECLARED.match(line)
            if m and (m.group(5) == ":" or m.group(3)):
                kind = bool(m.group(3)) or bool(TYPE.search(line))
                old = names.get(m.group(4))
                names[m.group(4)] = ("P" if lemma and (old is None or old[0] == "P") else "S", kind or bool(old and old[1]))
    for p in files() + glob.glob("crates/*/src/**/*.rt", recursive=True):
        for line in open(p, encoding="utf-8"):
            if re.match(r"\s*(ghost )?use ", line):
                for a in re.findall(r"[\w'-]+ as ([\w'-]+)", line):
                    names.setdefault(a, ("S", a[0].isupper() and len(a) > 1 and "-" not in a))
    return names


def camel(name):
    return "".join(w[:1].upper() + w[1:] for w in re.split(r"[-_]", name) if w)


def snake(name):
    name = re.sub(r"(?<=[a-z0-9])([A-Z][a-z]+)", lambda m: "_" + m.group(1).lower(), name) if name[0].islower() else name
    return name.replace("-", "_")


def is_letter(name):
    return len(re.split(r"[-_]", name)[0]) == 1


def renamed(names):
    new = {}
    for n, (where, kind) in sorted(names.items()):
        if kind and (not is_letter(n) or n == "T_of"):
            to = "HasT" if n == "T_of" else camel(n) if re.search(r"[-_]", n) else n
        else:
            to = snake(n)
        if to != n:
            new[n] = to
    return new


def turn(text, new):
    return WORD.sub(lambda m: new.get(m.group(0), m.group(0)), text)


def is_theirs(root):
    return not (root.startswith("Rattle.") and root.split(".")[1] in OWN)


def turn_file(text, new, source=False):
    """Without the names that this file imports from the library, whose import lines stay as they are."""
    theirs, kept = set(), []
    for root, items in re.findall(r"^\s*(?:ghost |pub )?use ([^{;\n]*)\.\{([^}]*)\}", text, re.M):
        if is_theirs(root):
            theirs |= {i.strip() for i in items.split(",") if " as " not in i}
    ours = {n: to for n, to in new.items() if n not in theirs}
    got = (turn_source if source else turn)(text, ours).split("\n")
    for line, was in zip(got, text.split("\n")):
        m = re.match(r"\s*(?:ghost |pub )?use ([^{;\n]*)\.\{", was)
        # an alias is the file's own name
        kept.append(re.sub(r"(?<= as )[^,}\s]+", lambda a: ours.get(a.group(0), a.group(0)), was) if m and is_theirs(m.group(1)) else line)
    return "\n".join(kept)


def turn_source(text, new):
    """In a .rt file: the ghost imports and the clauses, and what stands between backticks in a comment."""
    out, clause = [], False
    for line in text.split("\n"):
        bare = line.strip()
        if bare.startswith("//"):
            line = re.sub(r"`[^`]*`", lambda m: turn(m.group(0), new), line)
        elif bare.startswith("ghost use "):
            line = turn(line, new)
        elif clause or bare.startswith(("requires", "ensures", "ghost")):
            line = turn(line, new)
            # a clause goes on until its braces close
            clause = (0 if not clause else clause) + line.count("{") - line.count("}")
        out.append(line)
    return "\n".join(out)


def main():
    kept = "tools/respelled.txt"
    if "--pages" in sys.argv:
        new = dict(line.rstrip("\n").split(" ") for line in open(kept, encoding="utf-8"))
        for p in ["README.md"] + glob.glob("docs/*.md") + glob.glob("crates/*/specs/**/*.antt", recursive=True) + glob.glob("crates/*/proofs/**/*.antt", recursive=True):
            text = open(p, encoding="utf-8").read()
            got = re.sub(r"`[^`\n]*`", lambda m: turn(m.group(0), new), text)
            if got != text:
                open(p, "w", encoding="utf-8").write(got)
        return
    names = declared()
    new = renamed(names)
    taken = set()
    for p in files():
        taken |= set(WORD.findall(open(p, encoding="utf-8").read()))
    by = {}
    for n, to in new.items():
        by.setdefault(to, []).append(n)
    clash = sorted((to, ns) for to, ns in by.items() if len(ns) > 1 or to in taken)
    for to, ns in clash:
        print("falls together:", to, ns, "in use" if to in taken else "")
    if "--say" in sys.argv:
        for n, to in sorted(new.items()):
            print(n, to)
        return
    for p in files():
        text = open(p, encoding="utf-8").read()
        got = turn_file(text, new)
        if got != text:
            open(p, "w", encoding="utf-8").write(got)
    for p in glob.glob("crates/*/src/**/*.rt", recursive=True):
        text = open(p, encoding="utf-8").read()
        got = turn_file(text, new, source=True)
        if got != text:
            open(p, "w", encoding="utf-8").write(got)
    with open(kept, "w", encoding="utf-8") as f:
        for n, to in sorted(new.items()):
            f.write(n + " " + to + "\n")


main()
