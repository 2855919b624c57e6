#!/usr/bin/env python3
"""Lists places in src/ and proofs/ that may be written as today's Rattle allows, by the points of docs/DESIGN-PASS.md.

    tools/places.py [POINT ..] [--at COMMIT]

prints each place that a rule below finds, and how many for each rule; without a point, only the counts. With --at it
reads the files of a commit. A rule finds candidates: docs/DESIGN-PASS.md says which of them are places.
"""
import collections
import difflib
import re
import subprocess
import sys


def sources(commit, part, ending):
    """The files below crates/*/PART, by name, as they are at the commit or in the work tree."""
    if commit:
        names = subprocess.check_output(["git", "ls-tree", "-r", "--name-only", commit, "crates"], text=True)
    else:
        names = subprocess.check_output(["git", "ls-files", "-co", "--exclude-standard", "crates"], text=True)
    found = {}
    for name in sorted(names.split("\n")):
        if f"/{part}/" in name and name.endswith(ending):
            if commit:
                found[name] = subprocess.check_output(["git", "show", f"{commit}:{name}"], text=True)
            else:
                try:
                    found[name] = open(name).read()
                except FileNotFoundError:
                    pass
    return found


def plain(text):
    """The text without comments and ghost lines."""
    text = re.sub(r"//[^\n]*", "", text)
    return re.sub(r"(?m)^\s*ghost [^\n]*$", "", text)


def short(name):
    return name.replace("crates/", "").replace("/src", "")


def parameters(head):
    """The parameters of a function, from what follows its name: its generics are passed over."""
    depth = 0
    for i, c in enumerate(head):
        if c == "<":
            depth += 1
        elif c == ">" and head[i - 1] != "-":
            depth -= 1
        elif c == "(" and depth == 0:
            return head[i:]
    return ""


def functions(files):
    """(file, name, parameters, clauses, body) of each function."""
    out = []
    for name, text in files.items():
        for m in re.finditer(r"(?m)^( *)(?:pub(?:\(crate\))? )?fn (\w+)", text):
            # the head ends where a line opens the body, or, in a trait, at a semicolon
            opened = re.compile(r"(?m)\{ *$|\{\} *$|; *$").search(text, m.end())
            head = text[m.start(): opened.start()]
            body = ""
            if opened.group().startswith("{") and "}" not in opened.group():
                closed = re.compile(rf"(?m)^{m.group(1)}\}}").search(text, opened.end())
                body = text[opened.end(): closed.start()]
            clauses = re.findall(r"(?m)^\s*(?:requires|ensures)\*?\s*\w*\s*\{(.*)\}\s*$", head)
            out.append((short(name), m.group(2), parameters(head[m.end() - m.start():]), [c.strip() for c in clauses], plain(body)))
    return out


def lines_with(files, pattern):
    found = []
    for name, text in files.items():
        for i, line in enumerate(text.split("\n"), 1):
            if re.search(pattern, re.sub(r"//.*", "", line)):
                found.append(f"{short(name)}:{i}: {line.strip()}")
    return found


def point_1(files):
    yield "enums with a variant of refusal or absence", lines_with(files, r"^\s+(Refused|Failed|Missing|Absent|Nothing|None|Err)(\(\w+\))?,$")
    yield "flags in structs", lines_with(files, r"^\s+(pub(\(crate\))? )?(\w*(sure|outcome|known|valid|ok)\w*): \w+,")
    yield "numbers that stand for none", lines_with(files, r"(_\)? => 0,|=> \(0, |return 0;|as u8 \+ 1$)")
    yield "numbers of kinds and refusals", lines_with(files, r"const (RULE|FLOW|RESERVE|PAIR|END|ADVANCE_OF_ZERO)\b|\btag: u8|refused\(number|^\s*\w+::\w+(\(.*\))? => \d+,$|^\s*[A-Z]+ => \d+,$|^\s*0x1\d,$|\[0x1\d,")


def tokens(body):
    word = re.compile(r"[A-Za-z_]\w*|\d+|[^\s\w]")
    keep = {"for", "in", "if", "else", "match", "let", "mut", "return", "while", "Some", "None", "Ok", "Err", "self", "Self", "as"}
    return [w if w in keep or not re.match(r"\w", w) else "x" for w in word.findall(body)]


def point_2(files):
    funcs = [(f, n, tokens(b)) for f, n, _, _, b in functions(files)]
    funcs = [x for x in funcs if len(x[2]) >= 24]
    found = []
    for i, a in enumerate(funcs):
        for b in funcs[i + 1:]:
            if 0.7 < len(a[2]) / len(b[2]) < 1.43:
                s = difflib.SequenceMatcher(None, a[2], b[2], autojunk=False)
                if s.real_quick_ratio() >= 0.9 and s.quick_ratio() >= 0.9 and s.ratio() >= 0.9:
                    found.append(f"{a[0]} {a[1]} ~ {b[0]} {b[1]} ({s.ratio():.2f})")
    yield "functions of one shape", found
    shapes = collections.defaultdict(list)
    for name, text in files.items():
        for m in re.finditer(r"(?m)^pub(?:\(crate\))? struct (\w+)[^{;]*\{(.*?)^\}", text, re.S):
            kinds = re.sub(r"\b\d+\b|\bu\d+\b|usize|\b[A-Z]\w*", "x", "".join(re.findall(r": ([^,{]+),", plain(m.group(2)))))
            shapes[kinds].append(f"{short(name)} {m.group(1)}")
    yield "types of one shape", [" ~ ".join(v) for v in shapes.values() if len(v) > 1]


def point_3(files):
    counted = []
    popped = []
    for f, n, _, _, body in functions(files):
        for m in re.finditer(r"^( *)(for|while) ([^\n]*)\{\n(.*?)^\1\}", body, re.S | re.M):
            head, inside = m.group(3), m.group(4)
            v = re.match(r"(\w+) in .*\.\.", head)
            if v and v.group(1) != "_" and re.search(rf"\b{v.group(1)}\b", inside):
                counted.append(f"{f} {n}: for {head.strip()}")
            elif m.group(2) == "while":
                popped.append(f"{f} {n}: while {head.strip()}")
    yield "loops that count an index", counted
    yield "other while loops", popped


def point_4(files):
    yield "impls of equality, order, copying or conversion", lines_with(files, r"^impl.* (PartialEq|Eq|PartialOrd|Ord|Clone|Copy|From<.*>|TryFrom<.*>) for ")
    yield "conversions by arithmetic", lines_with(files, r"/ (256|65536|16777216|\d{10,})\b|% 256|\* (256|65536)\b")
    yield "conversions and comparisons by name", lines_with(files, r"fn (from_char|as_char|number|same|same_\w+|\w+_told|numbered)\b")
    yield "values printed part by part", lines_with(files, r"print(ln)?!\(rt; .*\{\w+\}.*\{\w+\}|refused \{")


def point_5(files):
    clauses = collections.defaultdict(list)
    params = collections.defaultdict(set)
    for f, n, ps, cs, _ in functions(files):
        for c in cs:
            for part in re.split(r" × (?![^(]*\))", c):
                part = part.strip()
                if len(part) > 8 and not part.startswith("result"):
                    clauses[part].append(f"{f} {n}")
        names = re.findall(r"(\w+): ([^,)]+(?:<[^>]*>)?)", ps[: ps.find(")\n") if ")\n" in ps else ps.find(")")])
        for i, a in enumerate(names):
            for b in names[i + 1:]:
                params[(f.split("/")[0],) + tuple(sorted([f"{a[0]}: {a[1]}", f"{b[0]}: {b[1]}"]))].add(n)
    yield "facts in three or more contracts", [f"{len(v)} times: {k}" for k, v in sorted(clauses.items(), key=lambda x: -len(x[1])) if len(v) > 2]
    yield "parameters that travel together in three or more functions", [
        f"{len(v)} times: {' '.join(k)}" for k, v in sorted(params.items(), key=lambda x: -len(x[1])) if len(v) > 2 and "rt: &HostRuntime" not in " ".join(k)
    ]


def point_6(files):
    found = []
    for name, text in files.items():
        for m in re.finditer(r"(?m)^(?:pub(?:\(crate\))? )?struct (\w+)[^{;]*\{(.*?)^\}", text, re.S):
            fields = re.findall(r"(?m)^\s+(?:pub(?:\(crate\))? )?(\w+): ([^\n]*),$", m.group(2))
            arrays = [n for n, t in fields if t.startswith("[")]
            counts = [n for n, _ in fields if n in ("count", "len")]
            if arrays and counts:
                found.append(f"{short(name)} {m.group(1)}: {', '.join(arrays)} with {', '.join(counts)}")
            if len(arrays) > 1:
                found.append(f"{short(name)} {m.group(1)}: parallel {', '.join(arrays)}")
    yield "buffers with a length beside, parallel arrays", found
    yield "arrays handed on whole", lines_with(files, r"fn .*(-> (Option<)?\[[^\]]*; (20|16|4)\]|: &?\[\w+; (20|16)\])")


def point_7(files):
    yield "matches that call in each arm", lines_with(files, r"match (side|self|due\(w\)|call|number|i|place) \{")


def point_8(files):
    per = collections.Counter()
    size = collections.Counter()
    for name, text in files.items():
        crate = name.split("/")[1]
        per[crate] += len(re.findall(r"(?m)^pub [\w-]+ : goal\.", text))
        size[crate] += text.count("\n")
    yield "answers", [f"{c}: {n} answers, {size[c]} lines of proofs" for c, n in sorted(per.items()) for _ in range(1)]


def main():
    words = sys.argv[1:]
    commit = None
    if "--at" in words:
        i = words.index("--at")
        commit = words[i + 1]
        del words[i: i + 2]
    files = sources(commit, "src", ".rt")
    proofs = sources(commit, "proofs", ".antt")
    points = [point_1, point_2, point_3, point_4, point_5, point_6, point_7]
    for i, point in enumerate(points + [point_8], 1):
        for title, found in point(proofs if i == 8 else files):
            if not words or str(i) in words:
                print(f"{i}  {len(found):3d}  {title}")
                if str(i) in words:
                    print("".join(f"        {f}\n" for f in found), end="")


if __name__ == "__main__":
    main()
