#!/usr/bin/env python3
"""Spells this repository's own definitions and lemmas as today's Rattle does: functions, lemmas, fields and variables in snake case.

usage: tools/respell.py [--check] [--pages] [--edits]      at the top of the repository

It turns names of specs/ and proofs/ (the lemma files, and where a function's proof cites them), of the clauses and the
`ghost use` lines of src/, and, with --pages, of code spans in README.md and docs/, with --edits of must-fail/*.edit, where
paths and projections get today's form too. Types, modules, functions of src/, exported C names and names of the library stay. A lemma that would have its function's name gets `_lem`.
It ends with 1, and writes nothing, where two names of one file would fall together. --check says what would turn and
writes nothing. A second run finds nothing to do.
"""
import collections
import glob
import os
import re
import sys

WORD = re.compile(r'[^\s(){}.;,@"«»]+')
USE = re.compile(r"(?:pub )?(?:ghost )?use ([^\s{]+?)\.\{(.*?)\}")
# Fields of this repository that would hide a definition of the same spelling: they say how long a slice is.
# And lemmas that would have the name of another definition that their file speaks of.
OTHERWISE = {
    "node-words": "nodes_length",
    "cell-words": "cells_length",
    "bit-and": "bit_of_and",
    "bit-or": "bit_of_or",
    "length-of": "length_of_lem",
}
CLAUSE = re.compile(r"^\s*(?:requires|ensures|ghost use)\b")


def snake(word):
    word = word.replace("-", "_").replace("′", "'")
    return re.sub(r"(?<=[a-z0-9])([A-Z])", lambda m: "_" + m[1].lower(), word)


def turns(word):
    return bool(re.match(r"[a-z]", word)) and bool(re.search(r"[a-z0-9][A-Z]|[a-z0-9']-[A-Za-z0-9]|′", word))


def read(path):
    with open(path, encoding="utf-8") as f:
        return f.read()


def own_crates():
    names = set()
    for line in read("crates.txt").splitlines():
        line = line.split("#")[0].strip()
        if line:
            names.add(line.split(":")[0].split()[0])
    return names


def files():
    lemmas = sorted(glob.glob("crates/*/specs/**/*.antt", recursive=True) + glob.glob("crates/*/proofs/*.antt"))
    answers = sorted(p for p in glob.glob("crates/*/proofs/**/*.antt", recursive=True) if p not in lemmas)
    return lemmas, answers, sorted(glob.glob("crates/*/src/**/*.rt", recursive=True))


def code_of(line):
    """A line of antt in two: its code, and its comment."""
    m = re.search(r"(?:^|\s)--(?:\s|$)", line)
    return (line, "") if m is None else (line[: m.start()], line[m.start() :])


def table(lemmas, own):
    """Each name of the lemma files that turns, and its new spelling."""
    library, words = set(), set()
    for path in lemmas:
        for line in read(path).splitlines():
            use = USE.match(line.strip())
            if use and not (use[1].startswith("Rattle.") and use[1].split(".")[1] in own):
                library |= {w.strip() for w in use[2].split(",")}
                continue
            words |= {w for w in WORD.findall(code_of(line)[0]) if turns(w)}
    words = {w for w in words if w not in library and not w.startswith("Need-")}
    camel = {snake(w) for w in words if "-" not in w}
    new = {}
    for w in words:
        to = OTHERWISE.get(w, snake(w))
        if "-" in w and w not in OTHERWISE and to in camel:
            to += "_lem"
        new[w] = to
    return new


def words_of(text, antt):
    lines = text.splitlines()
    parts = [code_of(x)[0] for x in lines] if antt else [x for x in lines if CLAUSE.match(x)]
    return {w for x in parts for w in WORD.findall(x)}


def turn(text, new, generated):
    """The text with the names turned. A comment's names turn where no plain English word has their form."""
    out = []
    if generated:  # there a call has the name of its function, and `_lem` is right for what the file imports alone
        taken = {w.strip() for m in USE.finditer(text) for w in m[2].split(",")}
        new = {w: to if w in taken or not to.endswith("_lem") else snake(w) for w, to in new.items()}
    for line in text.split("\n"):
        code, comment = code_of(line)
        tie = generated and re.match(r"\S+ : tie\.", code)

        def one(m):
            before = code[: m.start()]
            if tie or (generated and before.endswith("tie.")):
                return m[0]
            return new.get(m[0], m[0])

        code = WORD.sub(one, code)
        comment = re.sub(r"[\w'-]+", lambda m: new.get(m[0], m[0]) if "-" not in m[0] else m[0], comment)
        comment = re.sub(r"`[^`]*`", lambda m: WORD.sub(lambda k: new.get(k[0], k[0]), m[0]), comment)
        out.append(code + comment)
    return "\n".join(out)


def turn_source(text, new):
    out = []
    for line in text.split("\n"):
        if CLAUSE.match(line):
            line = WORD.sub(lambda m: new.get(m[0], m[0]), line)
        elif line.lstrip().startswith("//"):
            line = re.sub(r"[\w'-]+", lambda m: new.get(m[0], m[0]) if "-" not in m[0] else m[0], line)
        out.append(line)
    return "\n".join(out)


def spelled(word, new, have):
    """The new spelling of a name that a page or an edit shows: it may have been turned before, so what stands in the crates decides."""
    if word in new:
        return new[word]
    return snake(word) if turns(word) and snake(word) in have else word


def turn_page(text, new, have):
    return re.sub(r"`[^`\n]+`", lambda m: re.sub(r"[\w'-]+", lambda k: spelled(k[0], new, have), m[0]), text)


def turn_edit(line, new, have):
    line = re.sub(r"Rattle·(\w+)·(specs|proofs)\.\2", r"Rattle.\1.\2", line).replace("Rattle·", "Rattle.").replace("the-variants", "TheVariants")
    line = WORD.sub(lambda m: spelled(m[0], new, have), line)
    line = re.sub(r"\(([a-z]\w*)((?: \.[a-z0-9_]+)+)\)", lambda m: m[1] + m[2].replace(" ", ""), line)
    return re.sub(r"(?<=[a-z0-9_]) \.(?=[a-z0-9_]+)", ".", line)


def main():
    check, pages, edits = ("--" + w in sys.argv for w in ("check", "pages", "edits"))
    if not os.path.exists("crates.txt"):
        print("respell: run it at the top of the repository, where crates.txt is", file=sys.stderr)
        return 2
    lemmas, answers, sources = files()
    new = table(lemmas, own_crates())
    clash = []
    for path in lemmas + answers + sources:
        text = read(path)
        if path in answers:  # the function's own name stands there as a part of a path
            text = re.sub(r"Rattle\.[\w.]+", "", text)
        have = words_of(text, path.endswith(".antt"))
        came = collections.defaultdict(set)
        for w in have:
            came[new.get(w, w)].add(w)
        clash += [f"{path}: {' and '.join(sorted(v))} would both be {k}" for k, v in sorted(came.items()) if len(v) > 1]
    for line in clash:
        print("respell: " + line, file=sys.stderr)
    if check:
        for w in sorted(new):
            print(f"{w}\t{new[w]}")
        return 1 if clash else 0
    if clash:
        return 1
    changed, have = 0, set()
    for path in lemmas:
        have |= {new.get(w, w) for w in words_of(read(path), True)}
    for path in lemmas + answers + sources:
        text = read(path)
        to = turn_source(text, new) if path.endswith(".rt") else turn(text, new, path in answers)
        if to != text:
            changed += 1
            with open(path, "w", encoding="utf-8") as f:
                f.write(to)
    if pages:
        for path in ["README.md"] + sorted(glob.glob("docs/*.md")):
            text = read(path)
            to = turn_page(text, new, have)
            if to != text:
                changed += 1
                with open(path, "w", encoding="utf-8") as f:
                    f.write(to)
    if edits:
        for path in sorted(glob.glob("crates/*/must-fail/*.edit")):
            text = read(path)
            antt = False
            out = []
            for line in text.split("\n"):
                antt = line.endswith(".antt") if line.startswith("file: ") else antt
                out.append(turn_edit(line, new, have) if antt and not line.startswith("file: ") else line)
            to = "\n".join(out)
            if to != text:
                changed += 1
                with open(path, "w", encoding="utf-8") as f:
                    f.write(to)
    print(f"respell: {len(new)} names, {changed} files changed")
    return 0


if __name__ == "__main__":
    sys.exit(main())
