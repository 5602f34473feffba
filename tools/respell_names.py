#!/usr/bin/env python3
"""Gives this repository's own definitions and lemmas the spelling of today's Rattle.

usage: tools/respell_names.py        at the top of a checkout that /opt/rattle/port/port.py has turned, once

Functions of specs/ and proofs/ are in snake case, facts and statements in upper camel case. A dash still joins the parts
of a lemma's name. Names of src/, strings, inputs and outputs stay. Rewritten are the files of specs/ and proofs/, and in
src/ what stands in clauses, ghost items and `ghost use` lines. It stops where two names would fall together.
"""
import os
import re
import sys

WORD = re.compile(r"[^\W\d][\w'-]*")
CAMEL = re.compile(r"[a-z0-9][A-Z]")
# parts of names that an older library gave
OLD = {"getD": "get_or", "putMid": "put_mid"}
# lemmas that would have the name of the definition that they are about
LEMMAS = {"first_way": "first_way_lem", "over_by": "over_by_lem", "pair_row": "pair_row_lem"}


def files(ending):
    for folder, dirs, names in os.walk("crates"):
        dirs[:] = sorted(d for d in dirs if d != "out")
        yield from (os.path.join(folder, n) for n in sorted(names) if n.endswith(ending))


def read(path):
    with open(path, encoding="utf-8") as f:
        return f.read()


def snake(word):
    return re.sub(r"(?<=[a-z0-9])([A-Z])", lambda m: "_" + m.group(1).lower(), word)


def camel(word):
    return "".join(part[:1].upper() + part[1:] for part in word.split("-"))


def defined():
    """Every name that a file of specs/ or proofs/ declares, aliases of imports too."""
    names = set()
    for path in files(".antt"):
        for line in read(path).split("\n"):
            m = re.match(r"\s*(?:abbrev |unfoldable )?(?:pub )?(?:data |record )?([^\s(){}:]+) : ", line)
            if m and not line.lstrip().startswith(("--", "let ")):
                names.add(m.group(1))
            if line.lstrip().startswith("use "):
                names.update(re.findall(r" as ([\w'-]+)", line))
    for path in files(".rt"):
        for line in read(path).split("\n"):
            if line.lstrip().startswith("ghost use "):
                names.update(re.findall(r" as ([\w'-]+)", line))
    return names


def respelled(name):
    if name in LEMMAS:
        return LEMMAS[name]
    if name[0].isupper():
        return camel(name) if "-" in name else name
    return "-".join(OLD.get(p) or (snake(p) if p[0].islower() and CAMEL.search(p) else p) for p in name.split("-"))


def ghost_spans(text):
    """The parts of a .rt file that are antt: `ghost use` lines, and the braces of clauses and ghost items."""
    for m in re.finditer(r"^\s*ghost use .*$", text, re.M):
        yield m.start(), m.end()
    for m in re.finditer(r"^\s*(?:pub )?(?:ghost \w+ ?[:=]|requires\*?(?: \w+)?|ensures\*?(?: \w+)?) ?\{", text, re.M):
        at, depth = m.end(), 1
        while depth:
            depth += {"{": 1, "}": -1}.get(text[at], 0)
            at += 1
        yield m.end(), at


def main():
    names = defined()
    new = {n: respelled(n) for n in names}
    turned = {a: b for a, b in new.items() if a != b}
    seen = {}
    for a, b in new.items():
        if b in seen and seen[b] != a:
            sys.exit(f"{a} and {seen[b]} fall together as {b}")
        seen[b] = a

    def swap(text):
        # a function of src/ has a folder of its name, which stays
        kept = lambda m: m.group() in LEMMAS and text[m.start() - 1 : m.start()] == "."
        return WORD.sub(lambda m: m.group() if kept(m) else turned.get(m.group(), m.group()), text)

    for path in files(".antt"):
        text = read(path)
        # a word of the library goes by its own name
        if "{AllByRecursion as All}" in text:
            text = re.sub(r"(?<![\w'-])All(?![\w'-])", "AllByRecursion", text.replace("{AllByRecursion as All}", "{AllByRecursion}"))
        done = swap(text)
        if done != read(path):
            with open(path, "w", encoding="utf-8") as f:
                f.write(done)
    for path in files(".rt"):
        text = read(path)
        done, at = [], 0
        for start, end in sorted(ghost_spans(text)):
            done += [text[at:start], swap(text[start:end])]
            at = end
        done = "".join(done) + text[at:]
        if done != text:
            with open(path, "w", encoding="utf-8") as f:
                f.write(done)
    for a, b in sorted(turned.items()):
        print(a, b)


if __name__ == "__main__":
    main()
