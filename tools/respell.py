#!/usr/bin/env python3
"""Respells the repository's own definitions and lemmas, once, after port.py: words in snake case, facts and types in
camel case. Names that Rattle makes (of goals and of steps) stay as they are. usage: respell.py [--list] in the repository's top."""
import os
import re
import sys

DEFINED = re.compile(r"^\s*(?:(?:abbrev|unfoldable|pub|opaque|instance|record|data)\s+)*([A-Za-z_][\w'\u2080-\u2089-]*)\s*(?:$|(?:\([^)]*\)\s*|\{[^}]*\}\s*)*:)")
HEADS = re.compile(r"^\s*(?:unfoldable|abbrev|pub|record|data|module)\b")
TOKEN = re.compile(r"(?<![\w'\u2080-\u2089-])[A-Za-z_][\w'\u2080-\u2089]*(?:-[\w'\u2080-\u2089]+)+(?![\w'-])")


# A name that would fall together with another, or that keeps an older word of the library's.
OTHERWISE = {"No-order": "NoOrderPasses", "getD-marked": "get_or_marked"}


def files(top, ends):
    for folder, dirs, names in os.walk(top):
        dirs[:] = sorted(d for d in dirs if d not in ("out", "target", ".git"))
        for f in sorted(names):
            if f.endswith(ends):
                yield os.path.join(folder, f)


def text(path):
    with open(path, encoding="utf-8") as f:
        return f.read()


def own_names():
    """Names with a dash that a file of specs/ or proofs/ defines, other than answers to goals and invariants."""
    names = {}
    for path in files("crates", ".antt"):
        for line in text(path).split("\n"):
            if re.search(r":\s*goal\.", line):
                continue
            several = re.match(r"^\s*(?:pub\s+)?([A-Za-z_][\w'-]*(?:\s+[A-Za-z_][\w'-]*)+)\s*:", line)
            found = several[1].split() if several else [m[1]] if (m := DEFINED.match(line)) else []
            for name in found:
                if "-" in name:
                    names.setdefault(name, set()).add(path)
    return names


def respelled(name):
    if name in OTHERWISE:
        return OTHERWISE[name]
    parts = name.split("-")
    if parts[0][:1].isupper():
        return parts[0] + "".join(p[:1].upper() + p[1:] for p in parts[1:])
    return "_".join(parts)


def turned(source, names, steps=""):
    """The text with the names respelled, but for what follows one of the variables of `steps`: a name that Rattle makes."""

    def put(m):
        name = m[0]
        if name not in names:
            return name
        before = source[max(0, m.start() - 5) : m.start()]
        if steps and re.search(r"(?<![\w'-])(?:" + steps + r")\.$", before):
            return name
        return respelled(name)

    return TOKEN.sub(put, source)


def write(path, old, new):
    if new != old:
        with open(path, "w", encoding="utf-8") as f:
            f.write(new)


def main(argv):
    names = own_names()
    used = set()
    for path in files("crates", (".antt",)):
        used.update(re.findall(r"[A-Za-z_][\w'\u2080-\u2089-]*", text(path)))
    for name in sorted(names):
        to = respelled(name)
        clash = [n for n in used if n == to]
        if "--list" in argv or clash:
            print(f"{name} -> {to}{'   CLASH' if clash else ''}")
    if "--list" in argv:
        return
    for path in files("crates", (".antt", ".rt")):
        old = text(path)
        answers = os.path.basename(path) in ("Answers.antt", "Invariants.antt", "Proof.antt")
        write(path, old, turned(old, names, "c|l|w|goal|need" if answers else ""))
    for path in ["README.md", *files("docs", ".md")]:
        old = text(path)
        write(path, old, re.sub(r"`[^`\n]*`", lambda m: turned(m[0], names), old))


main(sys.argv[1:])
