#!/usr/bin/env python3
"""Respells the names of this repository's definitions and lemmas: words in snake case, joined by '_'.

usage: python3 tools/respell.py [--dry]      at the top of a checkout, once, after the toolchain's own port script

A name is respelled where a file of specs/ or proofs/ declares it: a definition, a lemma, a field, a constructor or a local
function that is written in camel case or with a dash, as `claimedLength` or `length-here`. Types and facts keep their camel
case, the functions of src/, strings, inputs and outputs keep their names, and so does what the toolchain names itself (goals,
steps of a proof). Pages get the new names where they name them between backticks, and must-fail edits are left alone.
A lemma that would get the name of the function that it is about ends in `_lem`.
It says which old names fall together with another name.
"""

import glob
import os
import re
import sys

NAME = re.compile(r"(?<![\w'-])[A-Za-z_][\w']*(?:-[\w']+)*(?![\w'-])")
TOP = re.compile(r"^(?:abbrev |unfoldable )?(?:pub )?([a-z][\w'-]*)\s*(?:\([^:]*\)\s*)?:(?!:)")
INNER = re.compile(r"^\s+(?:\| )?(?:pub )?([a-z][\w'-]*(?: [a-z][\w'-]*)*)\s:\s")
BINDER = re.compile(r"[({]([a-z][\w'-]*(?: [a-z][\w'-]*)*)\s*:\s")


def camel(name):
    return bool(re.match(r"[a-z]", name)) and bool(re.search(r"[A-Z]", name))


def snake(name):
    return re.sub(r"(?<=[a-z0-9])([A-Z])", lambda m: "_" + m[1].lower(), name).replace("-", "_")


def own_files():
    return sorted(p for p in glob.glob("crates/*/specs/*.antt") + glob.glob("crates/*/proofs/*.antt"))


def declared():
    """The names to respell: declared in specs/ or in a file of lemmas, with a capital or a dash inside."""
    names = set()
    for path in own_files():
        for line in open(path, encoding="utf-8"):
            code = line.split("--")[0] if line.lstrip().startswith("--") else line
            for pattern in (TOP, INNER):
                m = pattern.match(code)
                if m:
                    names |= set(m[1].split())
            for m in BINDER.finditer(code):
                names |= set(m[1].split())
            names |= {w for w in NAME.findall(code) if camel(w)}
    return {n for n in names if camel(n) or "-" in n}


def definitions():
    """What stands at the left margin of a file: definitions and lemmas, and no fields."""
    found = set()
    for path in own_files():
        for line in open(path, encoding="utf-8"):
            m = TOP.match(line)
            if m:
                found.add(m[1])
    return found


def library_words():
    """What files import from the library, which keeps its own spelling."""
    words = set()
    for path in glob.glob("crates/**/*.antt", recursive=True) + glob.glob("crates/**/src/**/*.rt", recursive=True):
        for m in re.finditer(r"use (?!Rattle\.(?:%s)\.)[\w.+-]+\.\{([^}]*)\}" % "|".join(os.listdir("crates")), open(path, encoding="utf-8").read()):
            for item in m[1].split(","):
                words.add(item.split(" as ")[0].strip())
    return words


def respelled(text, table, pages=False):
    def one(m):
        before = text[max(0, m.start() - 5):m.start()]
        if before.endswith("goal.") or before.endswith("TheVar"):
            return m[0]
        return table.get(m[0], m[0])

    if not pages:
        return NAME.sub(one, text)
    return re.sub(r"`[^`\n]*`", lambda q: NAME.sub(lambda m: table.get(m[0], m[0]), q[0]), text)


def plain_imports(text):
    """A library's word that was brought in as `All`, the name of another of its words, goes by its own name."""
    if "AllByRecursion as All" not in text:
        return text
    text = text.replace("AllByRecursion as All", "AllByRecursion")
    return re.sub(r"(?<![\w'.-])All(?![\w'-])", "AllByRecursion", text)


def main():
    dry = "--dry" in sys.argv
    kept = library_words()
    table = {n: snake(n) for n in sorted(declared() - kept)}
    functions = {n for n in definitions() if camel(n)}
    for n in definitions():
        if "-" in n and n in table and any(table[f] == table[n] for f in functions if f in table):
            table[n] += "_lem"
    words = set()
    for path in glob.glob("crates/**/*.antt", recursive=True):
        words |= set(NAME.findall(open(path, encoding="utf-8").read()))
    for old, new in table.items():
        if new in words or new in kept or list(table.values()).count(new) > 1:
            print(f"falls together: {old} -> {new}")
    if dry:
        print(" ".join(f"{a}->{b}" for a, b in table.items()))
        return
    changed = 0
    files = glob.glob("crates/**/*.antt", recursive=True) + glob.glob("crates/*/src/**/*.rt", recursive=True)
    for path in sorted(set(files)):
        if "/out/" in path:
            continue
        text = open(path, encoding="utf-8").read()
        new = plain_imports(respelled(text, table))
        if new != text:
            open(path, "w", encoding="utf-8").write(new)
            changed += 1
    for path in sorted(glob.glob("docs/*.md") + ["README.md"]):
        text = open(path, encoding="utf-8").read()
        new = respelled(text, table, pages=True)
        if new != text:
            open(path, "w", encoding="utf-8").write(new)
            changed += 1
    print(f"{len(table)} names, {changed} files changed")


if __name__ == "__main__":
    main()
