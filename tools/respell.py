#!/usr/bin/env python3
"""Respells the repository's own definitions and lemmas: words in snake case, facts and types in camel case, primes as '.

  respell.py           rewrites crates/*/{specs,proofs}/**/*.antt and crates/*/src/**/*.rt
  respell.py --list    prints old and new names, and those that fall together with another word of the repository

Only names that some .antt file of the repository declares are respelt: definitions, lemmas, records, fields, constructors and
bound variables. Names that the checker makes (goals, steps) are left alone, and so is the code of src/ outside its clauses.
It was run once, right after the kit's own port.py.
"""
import collections, os, re, sys

WORD = r"[^\s()\[\]{};,.\"λ⌜⌝:]+"
PIECE = re.compile(r"[^\s()\[\]{};,.\"λ⌜⌝]+")
ODD = re.compile(r"[A-Za-z0-9]-|′")
# variables that only patterns bind
BOUND = {"asker-class", "holder-class"}


def files():
    for folder, dirs, names in os.walk("crates"):
        dirs[:] = sorted(d for d in dirs if d not in ("out", "must-fail"))
        for name in sorted(names):
            if name.endswith((".antt", ".rt")):
                yield os.path.join(folder, name)


def declared():
    found, made = set(BOUND), set()
    for path in files():
        if not path.endswith(".antt"):
            continue
        for line in open(path, encoding="utf-8"):
            line = re.sub(r"--.*$", "", line)
            m = re.match(r"\s*(?:pub |abbrev |unfoldable )*(" + WORD + r")((?: " + WORD + r")*) : (.*)$", line)
            if m and not re.match(r"\s*(pub )?(use|module|data|record) ", line):
                for name in [m.group(1)] + m.group(2).split():
                    (made if re.match(r"(need|goal)\.", m.group(3)) else found).add(name)
            m = re.match(r"\s*(?:pub )?(?:data|record) (" + WORD + ")", line)
            if m:
                found.add(m.group(1))
            for m in re.finditer(r"[({]((?:" + WORD + r" )+): ", line):
                found.update(m.group(1).split())
            for m in re.finditer(r"λ ([^.]*)\.", line):
                found.update(re.findall(WORD, m.group(1)))
            m = re.match(r"use .* as (" + WORD + ")$", line.strip())
            if m:
                found.add(m.group(1))
            for m in re.finditer(r" as (" + WORD + ")[,}]", line):
                found.add(m.group(1))
    return {n for n in found if ODD.search(n) and n not in made}


def respelt(name):
    name = name.replace("′", "'")
    if "-" not in name:
        return name
    if name[0].isupper():
        return "".join(p[:1].upper() + p[1:] for p in name.split("-"))
    return name.replace("-", "_").lower()


def clause_parts(text):
    """The parts of a .rt file that speak antt: ghost lines and members, laws, clauses, in order, as (start, end)."""
    spans, i = [], 0
    for m in re.finditer(r"\bghost use [^;]*;|\b(?:ghost|law|requires|ensures)\*? ?[\w«»]*(?:\s*:)?(?:\s*=)?\s*\{", text):
        if m.start() < i:
            continue
        end = m.end()
        if not m.group(0).endswith(";"):
            depth = 1
            while depth and end < len(text):
                depth += {"{": 1, "}": -1}.get(text[end], 0)
                end += 1
        spans.append((m.start(), end))
        i = end
    return spans


def turn(text, names):
    return PIECE.sub(lambda m: names.get(m.group(0), m.group(0)), text)


def main():
    names = {n: respelt(n) for n in declared()}
    names = {a: b for a, b in names.items() if a != b}
    if "--list" in sys.argv:
        words = collections.defaultdict(set)
        for path in files():
            text = open(path, encoding="utf-8").read()
            for m in re.finditer(r"[\w'-]+", text):
                words[m.group(0)].add(path)
        back = collections.defaultdict(list)
        for a, b in sorted(names.items()):
            back[b].append(a)
            print(a, b)
        for b, olds in sorted(back.items()):
            if len(olds) > 1 or b in words:
                print("FALLS TOGETHER", olds, b, sorted(words.get(b, ()))[:4])
        return
    for path in files():
        text = open(path, encoding="utf-8").read()
        if path.endswith(".antt"):
            new = turn(text, names)
        else:
            new, at = "", 0
            for a, b in clause_parts(text):
                new += text[at:a] + turn(text[a:b], names)
                at = b
            new += text[at:]
        if new != text:
            open(path, "w", encoding="utf-8").write(new)


main()
