#!/usr/bin/env python3
"""Respells the names of goals and steps in proof files as today's Rattle makes them, once, after respell.py: a name from
the source keeps its spelling, and Rattle's own words are in snake case. usage: goal_names.py in the repository's top."""
import os
import re

WORDS = [
    (r"type-inv", "type_inv"),
    (r"well-formed", "well_formed"),
    (r"invariant-of-", "invariant_of-"),
    (r"overflow-(add|sub|mul|shl|cast|step)(?=-)", r"overflow_\1"),
    (r"nonzero-(div|rem)(?=-)", r"nonzero_\1"),
    (r"slice-bounds", "slice_bounds"),
    (r"offset-bounds", "offset_bounds"),
    (r"in-(ok|err)(?![\w'])", r"in_\1"),
    (r"In-(ok|err)(?![\w'])", r"In_\1"),
    (r"in-default", "in_default"),
    (r"yielded-by", "yielded_by"),
]
TOKEN = re.compile(r"[A-Za-z_][\w'\u2080-\u2089]*(?:[-+][\w'\u2080-\u2089]+)+")


def files(top, ends):
    for folder, dirs, names in os.walk(top):
        dirs[:] = sorted(d for d in dirs if d not in ("out", "target", ".git"))
        for f in sorted(names):
            if f.endswith(ends):
                yield os.path.join(folder, f)


def text(path):
    with open(path, encoding="utf-8") as f:
        return f.read()


def main():
    source = set()
    for path in files("crates", (".rt",)):
        source.update(w for w in re.findall(r"\b[a-z][a-z0-9]*(?:_[a-z0-9]+)+\b", re.sub(r"//.*|ghost.*", "", text(path))))
    kebab = {w.replace("_", "-"): w for w in source}
    alone = re.compile(r"(?<![A-Za-z0-9_'])(?:" + "|".join(sorted((re.escape(k) for k in kebab), key=len, reverse=True)) + r")(?![A-Za-z0-9_'])")
    for path in files("crates", ("Answers.antt", "Invariants.antt", "Proof.antt")):
        if "/proofs/" not in path:
            continue
        old = text(path)
        imported = set()
        for line in re.findall(r"^use (?!.*\.(?:Goals|Given)\b)[^\n]*\{([^}]*)\}", old, re.M):
            imported.update(n.strip() for n in line.split(","))

        def put(m):
            token = m[0]
            if token in imported or any(p in imported for p in token.split("+")):
                return token
            for a, b in WORDS:
                token = re.sub(r"(?<![A-Za-z0-9_'])" + a, b, token)
            return alone.sub(lambda k: kebab[k[0]], token)

        new = TOKEN.sub(put, old)
        if new != old:
            with open(path, "w", encoding="utf-8") as f:
                f.write(new)


main()
