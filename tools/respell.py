#!/usr/bin/env python3
"""Respells the repository's own names of definitions, fields, constructors and lemmas: `net-at` becomes `net_at`,
`granted?` becomes `is_granted`, and a type such as `The-tally` becomes `TheTally`.

usage: tools/respell.py [--dry]      at the top of the repository, once

It reads crates/**/*.antt and the clauses of crates/**/*.rt. Names that a file imports from elsewhere, and names that the
toolchain makes (they stand only in the folders of proofs/ that belong to one function), keep their spelling. It prints the
names that would fall together.
"""
import collections
import os
import re
import sys

DRY = "--dry" in sys.argv
CRATES = "crates"
WORD = r"[A-Za-z_][A-Za-z0-9_']*"
NAME = re.compile(r"(?<![A-Za-z0-9_'?-])[A-Za-z][A-Za-z0-9_'?]*(?:-[A-Za-z0-9_'?]+)*")
USE = re.compile(r"(?:ghost )?use ([^\s;{]+)\.\{([^}]*)\}")


def odd(name):
    return "-" in name or name.endswith("?")


# Names that would fall together with one of the library.
APART = {"bit-or": "bit_with"}


def respelt(name):
    if name in APART:
        return APART[name]
    if name.endswith("?") and name.count("?") == 1:
        name = "is_" + name[:-1]
    if name[0].isupper():
        parts = name.split("-")
        return "".join(p[:1].upper() + p[1:] for p in parts)
    return name.replace("-", "_")


def files():
    for folder, dirs, names in os.walk(CRATES):
        dirs[:] = sorted(d for d in dirs if d != "out")
        for name in sorted(names):
            if name.endswith((".antt", ".rt")):
                yield os.path.join(folder, name)


def of_function(path):
    """Whether a proof file belongs to one function, so that it may cite names that the toolchain makes."""
    parts = path.split("/")
    return path.endswith(".antt") and parts[2] == "proofs" and len(parts) > 4


def spans(path, text):
    """The parts of a file that are antt, not comments, strings or code."""
    if path.endswith(".antt"):
        at = 0
        for line in text.split("\n"):
            m = re.search(r"(?:^|\s)--(?:\s|$)", line)
            yield at, at + (m.start() if m else len(line))
            at += len(line) + 1
        return
    at, open_braces = 0, 0
    for line in text.split("\n"):
        bare = line.strip()
        if open_braces:
            yield at, at + len(line)
            open_braces += line.count("{") - line.count("}")
        elif bare.startswith("//"):
            pass
        elif bare.startswith("ghost use "):
            yield at, at + len(line)
        else:
            m = re.match(r"\s*(?:pub )?(?:ghost \w+\s*[:=]|requires\*?|ensures\*?)[^{]*\{", line)
            if m:
                yield at + m.end(), at + len(line)
                open_braces = line.count("{") - line.count("}")
        at += len(line) + 1


def own_module(path, owns):
    parts = path.split(".")
    return parts[0] == "Rattle" and len(parts) > 2 and parts[1] in owns and parts[-1] not in ("Goals", "Needs")


owns = set(os.listdir(CRATES))
texts = {p: open(p, encoding="utf-8").read() for p in files()}
declared, fields = set(), set()
foreign = {}
for path, text in texts.items():
    foreign[path] = {}
    for m in USE.finditer(text):
        for n in m.group(2).replace("\n", " ").split(","):
            n = n.strip().split(" as ")[0]
            if n:
                foreign[path][n] = own_module(m.group(1), owns)
    if path.endswith(".antt") and not of_function(path):
        for a, b in spans(path, text):
            for m in NAME.finditer(text, a, b):
                n = m.group()
                if odd(n) and foreign[path].get(n, True):
                    declared.add(n)
            m = re.match(r"\s*pub (" + NAME.pattern.split(")", 1)[1] + r")\s*:", text[a:b])
            if m:
                fields.add(m.group(1))

changed = 0
made = collections.defaultdict(lambda: collections.defaultdict(set))
for path, text in texts.items():
    out, at = [], 0
    for a, b in spans(path, text):
        for m in NAME.finditer(text, a, b):
            n = m.group()
            if not odd(n):
                continue
            known = foreign[path].get(n)
            after_dot = m.start() > 0 and text[m.start() - 1] == "." and text[m.start() - 2] not in " ("
            if known is False and not after_dot:
                continue
            if of_function(path):
                as_field = re.match(r"\s*=", text[m.end():]) and n in fields
                if after_dot:
                    take = n in fields
                else:
                    take = known is True or bool(as_field)
            elif path.endswith(".rt"):
                take = known is True or n in declared
            else:
                take = True
            if take:
                out.append(text[at:m.start()] + respelt(n))
                at = m.end()
                made[path][respelt(n)].add(n)
    out.append(text[at:])
    new = "".join(out)
    if new != text:
        changed += 1
        plain = {m.group() for a, b in spans(path, text) for m in NAME.finditer(text, a, b)}
        if path.endswith(".rt"):
            plain |= set(re.findall(WORD, re.sub(r"//.*", "", text)))
        for to, froms in made[path].items():
            if len(froms) > 1 or to in plain:
                print(f"falls together: {path}: {sorted(froms)} and {to if to in plain else ''}")
        if not DRY:
            open(path, "w", encoding="utf-8").write(new)
everything = collections.defaultdict(set)
for path in made:
    for to, froms in made[path].items():
        everything[to] |= froms
for to, froms in sorted(everything.items()):
    if len(froms) > 1:
        print(f"falls together: {sorted(froms)} are all {to}")
print(f"{changed} files, {len(everything)} names")
