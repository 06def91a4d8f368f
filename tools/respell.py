#!/usr/bin/env python3
"""Spells this repository's own names of specs/, proofs/ and clauses as today's library spells its own.

usage: python3 tools/respell.py [--list]      at the top, once, right after port.py

A word loses its dashes: a definition, lemma, field or variable goes to snake case (list-of-prices: list_of_prices), and a
fact or type, which begins with a capital, to camel case (At-or-above: AtOrAbove). Names of the library, names that Rattle
makes for a proof (after `goal.`, and the goals that a file answers), comments, strings and Rust code stay as they are.
In README.md and docs/ a name in backticks goes along. It prints each name with its new spelling, and stops before any
write where two names would fall together.
"""

import os
import re
import sys

TOKEN = re.compile(r"[A-Za-z_\u0370-\u03ff\u2115][A-Za-z0-9_'\u2080-\u2089\u0370-\u03ff\u2115≡≢≤<-]*")
USE = re.compile(r"\b(?:ghost )?(?:pub )?use ([A-Za-z_.+'-]+?)(?:\.\{([^}]*)\})?(?: as [\w'-]+)?;?$", re.M)
GOAL = re.compile(r"^\s*(?:abbrev )?(?:pub )?([^\s:]+) : goal\.", re.M)


def files(root):
    for folder, dirs, names in os.walk(os.path.join(root, "crates")):
        dirs[:] = sorted(d for d in dirs if d != "out")
        for n in sorted(names):
            if n.endswith((".antt", ".rt")):
                yield os.path.join(folder, n)


def pieces(text, rust):
    """The text cut into (is code, piece): comments and strings are no code."""
    cut = re.compile(r'//[^\n]*|"(?:\\.|[^"\\])*"' if rust else r'(?<![^\s])--[^\n]*|"(?:\\.|[^"\\])*"')
    at = 0
    for m in cut.finditer(text):
        yield True, text[at : m.start()]
        yield False, m.group()
        at = m.end()
    yield True, text[at:]


def code(text, rust):
    return "".join(p for is_code, p in pieces(text, rust) if is_code)


def spelled(name):
    if name[0].isupper():
        first, *rest = name.split("-")
        return first + "".join(w[:1].upper() + w[1:] for w in rest)
    return name.replace("-", "_")


def gather(root, crates):
    """The repository's own names with a dash, and every name that stands in a file without one."""
    own, plain = set(), set()
    for path in files(root):
        text = open(path, encoding="utf-8").read()
        rust = path.endswith(".rt")
        body = code(text, rust)
        foreign = set()
        for m in USE.finditer(body):
            if m.group(1).split(".")[1:2] and m.group(1).split(".")[1] in crates:
                continue
            foreign.update(w.strip() for part in (m.group(2) or "").split(",") for w in part.split(" as ")[:1])
        answered = set(GOAL.findall(body))
        body = USE.sub("", body)
        for m in TOKEN.finditer(body):
            name = m.group()
            if "-" not in name:
                plain.add(name)
            elif rust or body[max(0, m.start() - 1) : m.start()] == ".":
                continue
            elif name not in foreign and name not in answered and not name.endswith("-"):
                own.add(name)
    return own, plain


def fields(root):
    """The names of record fields: they stand behind a dot."""
    found = set()
    for path in files(root):
        if path.endswith(".antt"):
            for m in re.finditer(r"^\s+(?:pub )?([^\s:()]+) :", code(open(path, encoding="utf-8").read(), False), re.M):
                found.add(m.group(1))
    return found


def main():
    root = "."
    crates = {c for c in os.listdir(os.path.join(root, "crates"))}
    own, plain = gather(root, crates)
    own |= {f for f in fields(root) if "-" in f}
    answered = set()
    for path in files(root):
        answered.update(GOAL.findall(open(path, encoding="utf-8").read()))
    turn = {n: spelled(n) for n in sorted(own - answered)}
    together = {}
    for old, new in turn.items():
        together.setdefault(new, []).append(old)
    bad = {n: o for n, o in together.items() if len(o) > 1}
    near = sorted(n for n in together if n in plain)
    for old, new in turn.items():
        print(f"{old} -> {new}")
    if near:
        print("stand there already:", ", ".join(near))
    if bad:
        print("fall together:", bad)
        raise SystemExit(1)
    if "--list" in sys.argv:
        return

    def swap(m):
        return turn.get(m.group(), m.group())

    for path in files(root):
        text = open(path, encoding="utf-8").read()
        new = "".join(TOKEN.sub(swap, p) if is_code else p for is_code, p in pieces(text, path.endswith(".rt")))
        if new != text:
            open(path, "w", encoding="utf-8").write(new)
    for path in ["README.md"] + [os.path.join("docs", n) for n in sorted(os.listdir("docs")) if n.endswith(".md")]:
        text = open(path, encoding="utf-8").read()
        new = re.sub(r"`[^`\n]*`", lambda m: TOKEN.sub(swap, m.group()), text)
        if new != text:
            open(path, "w", encoding="utf-8").write(new)


main()
