#!/usr/bin/env python3
"""Brings this repository's own names in specs/ and proofs/ to today's spelling.

usage: python3 tools/respell.py        at the top, once, right after the kit's port.py
       python3 tools/respell.py --say  only lists old and new names, and names that fall together

Words (definitions, lemmas, fields of records) become snake case, types upper camel case. A lemma that would
have the name of a definition gets `_lem` after it. Names of src/, goals, strings, inputs and outputs keep their spelling;
the ghost members of traits, which are definitions, go along.
"""
import os
import re
import sys

IDENT = r"[A-Za-z_α-ωℕℤ][\w'\-ℕℤ]*"
HEAD = re.compile(
    r"^\s*(?:(?:abbrev|unfoldable)\s+)?(?:pub\s+)?(?:(record|data|ruleset)\s+)?(" + IDENT + r")\s*(?:\{[^}]*\}\s*)?(?:\([^)]*\)\s*)*:(?=\s|$)(.*)"
)
GOAL = re.compile(r"^\s*(goal|need|needs)\.")
GHOST = re.compile(r"^\s*ghost (" + IDENT + r")(?::| =) ")
# Names that would fall together with another word in scope, or read badly, with what they are called instead.
BY_HAND = {
    "by_number": "by_number_lem",
    "closed_all": "closed_all_lem",
    "one_more": "one_more_lem",
    "read_answer": "read_answer_lem",
    "real_of": "real_of_lem",
}


def files(root="crates"):
    for folder, dirs, names in os.walk(root):
        dirs[:] = sorted(d for d in dirs if d != "out")
        for name in sorted(names):
            if name.endswith((".antt", ".rt")):
                yield os.path.join(folder, name)


def snake(name):
    name = name.replace("-", "_")
    name = re.sub(r"([a-z0-9])([A-Z])", lambda m: m.group(1) + "_" + m.group(2), name)
    return name.lower() if name[0].islower() else name


def camel(name):
    return "".join(part[0].upper() + part[1:] for part in name.split("-"))


def declared():
    """Each name of ours that is to change: where it stands, and whether a proof file alone has it."""
    found = {}
    for path in files():
        for line in open(path, encoding="utf-8"):
            if path.endswith(".rt"):
                m = GHOST.match(line)
                if m:
                    found.setdefault(m.group(1), []).append(path)
                continue
            m = HEAD.match(line)
            if m and not line.lstrip().startswith("--") and not GOAL.match(m.group(3)):
                found.setdefault(m.group(2), []).append(path)
    return found


def new_names(found):
    odd = {n: p for n, p in found.items() if "-" in n or re.search(r"[a-z0-9][A-Z]", n) and n[0].islower()}
    new = {n: (camel(n) if n[0].isupper() else snake(n)) for n in odd}
    by_new = {}
    for n in sorted(found):
        by_new.setdefault(new.get(n, n), []).append(n)
    for to, olds in sorted(by_new.items()):
        if len(olds) < 2:
            continue
        lemmas = [n for n in olds if n in new and all("/proofs/" in p for p in found[n])]
        for n in lemmas:
            if len(olds) > 1 and len([m for m in olds if new.get(m, m) == to]) > 1:
                new[n] = to + "_lem"
    new.update(BY_HAND)
    return new


def respell(text, new, rust):
    """Renames the identifiers of a text. In Rust, only in comments' quotes, clauses and ghost lines: no other place has such a word."""
    out, at = [], 0
    token = re.compile(r'"(?:[^"\\]|\\.)*"|' + IDENT) if rust else re.compile(IDENT)
    for m in token.finditer(text):
        word = m.group(0)
        if word in new:
            before = text[max(0, m.start() - 60) : m.start()]
            chain = re.search(r"([\w'\-]+(?:\.[\w'\-]+)*)\.$", before)
            if chain and re.match(r"(c|w|goal|need|needs)(\.|$)", chain.group(1)):
                continue
            out.append(text[at : m.start()])
            out.append(new[word])
            at = m.end()
    out.append(text[at:])
    return "".join(out)


def main():
    found = declared()
    new = new_names(found)
    if "--say" in sys.argv[1:]:
        by_new = {}
        for n in found:
            by_new.setdefault(new.get(n, n), []).append(n)
        for n in sorted(new):
            print(n, "->", new[n])
        for to, olds in sorted(by_new.items()):
            if len(olds) > 1:
                print("FALL TOGETHER:", to, olds, [found[o] for o in olds])
        return
    for path in files():
        old = open(path, encoding="utf-8").read()
        text = respell(old, new, path.endswith(".rt"))
        if text != old:
            with open(path, "w", encoding="utf-8") as f:
                f.write(text)


main()
