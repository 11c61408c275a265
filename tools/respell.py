#!/usr/bin/env python3
"""respell.py: spells this repository's own definitions, lemmas, record fields and variables in snake case, and its own
facts and records in camel case, in all of crates/. Run once, at the top, right after the toolchain's port.py.

A name counts as the repository's own where a .antt file of specs/ or proofs/ declares it with a dash in it. Names of the
toolchain (its library, and the goals and steps that it makes) keep their dashes, and so do strings and comments.
It prints each new spelling that a file has already, or that two names share.
"""
import os
import re
import sys

NAME = re.compile(r"(?<![\w'\-◌«·])[A-Za-z][\w']*(?:-[\w']+)+(?![\w'\-◌])")
DECLARED = re.compile(r"\s*(?:(?:abbrev|pub|unfoldable)\s+)*([A-Za-z][\w'-]*)\s*:(?:\s|$)")
TYPE = re.compile(r"\s*(?:(?:abbrev|pub)\s+)*(?:record|data)\s+([A-Za-z][\w'-]*)")
BOUND = re.compile(r"[({]([\w' -]+) :|λ ([\w' -]+)\.|\blet ([\w'-]+) [:=]")
LIBRARY = re.compile(r"use Rattle\.(?:std|denote)\.[\w.+-]*\{([^}]*)\}|use (?:borrow|denote)\.[\w.]*\{([^}]*)\}")


def sources():
    for folder, dirs, files in os.walk("crates"):
        dirs[:] = sorted(d for d in dirs if d != "out")
        for f in sorted(files):
            if f.endswith((".rt", ".antt")):
                yield os.path.join(folder, f)


def new(name):
    if name[0].isupper():
        return "".join(part[:1].upper() + part[1:] for part in name.split("-"))
    return name.replace("-", "_")


def own(texts):
    """The names declared with a dash, and those of them that are fields of records."""
    names, fields = set(), set()
    for path, text in texts.items():
        if not path.endswith(".antt"):
            continue
        record = False
        for line in text.split("\n"):
            if line.lstrip().startswith("--"):
                continue
            t = TYPE.match(line)
            if t:
                record = True
                names.add(t.group(1))
                continue
            if line and not line[0].isspace():
                record = False
            d = DECLARED.match(line)
            if d and " goal." not in line and " given." not in line:
                names.add(d.group(1))
                if record:
                    fields.add(d.group(1))
    return {n for n in names if "-" in n}, {f for f in fields if "-" in f}


def split(path, line):
    """The part of a line that is no comment, and the rest."""
    at = line.find("//" if path.endswith(".rt") else "--")
    return (line, "") if at < 0 else (line[:at], line[at:])


def bound(text):
    """The variables of a file that have a dash. One that is written with a capital is a variable all the same."""
    found = set()
    for line in text.split("\n"):
        for m in BOUND.finditer(line):
            found |= set((m.group(1) or m.group(2) or m.group(3)).split())
        clause = re.match(r"[ ]*[\w'-]+( .*?) = ?", line)
        if clause and " : " not in clause.group(1):
            found |= set(re.findall(r"(?<![\w'.-])[A-Za-z][\w'-]*", clause.group(1)))
    return {w for w in found if "-" in w}


def respelled(path, text, names, fields):
    theirs = set()
    for m in LIBRARY.finditer(text):
        theirs |= {w.strip() for w in (m.group(1) or m.group(2)).split(",")}
    variables = (bound(text) if path.endswith(".antt") else set()) - names - theirs

    def turn(m):
        name, before = m.group(0), m.string[: m.start()]
        if name in variables and not before.endswith("."):
            return new(name[0].lower() + name[1:])
        if name not in names or name in theirs:
            return name
        if before.endswith(".") and (name not in fields or re.search(r"(?<![\w.])[cl]\.$", before)):
            return name
        if before.count('"') % 2:
            return name
        return new(name)

    lines = []
    for line in text.split("\n"):
        code, rest = split(path, line)
        if not re.match(r"\s*(?:pub )?[\w+'-]+ : (?:goal|given)\.", code):
            code = NAME.sub(turn, code)
        lines.append(code + rest)
    return "\n".join(lines)


def together(texts, names):
    """Names that have one spelling afterwards, and new spellings that a file has already."""
    said = []
    spelled = {}
    for n in sorted(names):
        spelled.setdefault(new(n), []).append(n)
    said += [f"{s}: {', '.join(ns)}" for s, ns in spelled.items() if len(ns) > 1]
    for path, text in texts.items():
        code = "\n".join(split(path, line)[0] for line in text.split("\n"))
        words = set(re.findall(r"(?<![\w'\-◌.«])[A-Za-z][\w']*(?![\w'\-◌])", code))
        for n in sorted(names):
            if new(n) in words and re.search(rf"(?<![\w'-]){re.escape(n)}(?![\w'-])", code):
                said.append(f"{path}: {n} beside {new(n)}")
    return said


def main():
    texts = {p: open(p, encoding="utf-8").read() for p in sources()}
    names, fields = own(texts)
    met = together(texts, names)
    print("\n".join(met))
    if "--names" in sys.argv:
        print("\n".join(f"{n} {new(n)}" for n in sorted(names)))
        return
    n = 0
    for path, text in texts.items():
        turned = respelled(path, text, names, fields)
        if turned != text:
            n += 1
            with open(path, "w", encoding="utf-8") as f:
                f.write(turned)
    print(f"respell: {len(names)} names, {n} files")


main()
