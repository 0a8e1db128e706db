#!/usr/bin/env python3
"""Lists places in the sources that read like an older language, by plain patterns.

    python3 tools/places.py [FOLDER]

FOLDER is a checkout, by default this one. Each heading is a point of
docs/DESIGN-PASS.md; under it stand the places, and behind it how many they are.
A pattern finds what looks so: what each place is and why it stays says the page.
"""

import re
import sys
from collections import defaultdict
from pathlib import Path

root = Path(sys.argv[1]) if len(sys.argv) > 1 else Path(__file__).parent.parent
files = sorted((root / "crates").glob("*/src/**/*.rt"))
texts = {f: f.read_text() for f in files}
NUMBER = r"(?:u8|u16|u32|u64|u128|usize|i8|i16|i32|i64)"


def name(f):
    return str(f.relative_to(root / "crates"))


def heading(point, title, rows):
    print(f"{point} {title}: {len(rows)}")
    for row in rows:
        print("    " + row)


def lines(pattern, keep=lambda line: True):
    """Each line of code, no comment, that the pattern meets."""
    rows = []
    for f, text in texts.items():
        for n, line in enumerate(text.splitlines(), 1):
            bare = line.strip()
            if bare.startswith("//") or bare.startswith("ghost ") or "ensures" in bare:
                continue
            if re.search(pattern, line) and keep(line):
                rows.append(f"{name(f)}:{n}: {bare}")
    return rows


def functions():
    """File, name, parameters, result and clauses of each function."""
    for f, text in texts.items():
        for m in re.finditer(r"\bfn (\w+)(<[^(]*?>)?\(", text):
            depth, at = 1, m.end()
            while depth:
                depth += {"(": 1, ")": -1}.get(text[at], 0)
                at += 1
            params = re.sub(r"\s+", " ", text[m.end():at - 1]).strip()
            rest = text[at:]
            head = re.split(r"\n\s*\{\n|\n\s*\{\}|;\n|\{\n", rest, maxsplit=1)[0]
            result = re.match(r"\s*->\s*([^\n{;]*)", head)
            clauses = re.findall(r"(?:requires|ensures)[^{]*\{ (.*) \}", head)
            yield f, m.group(1), params, result.group(1).strip() if result else "", clauses


everything = list(functions())


def parts(params):
    out, depth, last = [], 0, 0
    for i, c in enumerate(params):
        depth += {"(": 1, "<": 1, "[": 1, ")": -1, ">": -1, "]": -1}.get(c, 0)
        if c == "," and depth == 0:
            out.append(params[last:i].strip())
            last = i + 1
    out.append(params[last:].strip())
    return [p for p in out if p]


# 1
heading(1, "enums of the repository", lines(r"^\s*(pub(\(crate\))? )?enum "))
heading(1, "a number as an error, or a refusal as an option",
        [f"{name(f)}: {n} -> {r}" for f, n, p, r, c in everything
         if re.search(rf"Result<.*, {NUMBER}>|Option<Refusal>", r)])
heading(1, "a flag as the result, with a buffer that it speaks of",
        [f"{name(f)}: {n} -> {r}" for f, n, p, r, c in everything
         if r == "bool" and re.search(r"&('\w+ )?mut \w*\[|&mut \[", p)])
heading(1, "numbers that stand for a kind, a refusal, a suite or a round count",
        [f"{name(f)}: {n}({p}) -> {r}" for f, n, p, r, c in everything
         if re.search(rf"\b(kind|number|suite|rounds): {NUMBER}", p)
         or re.search(r"number|rounds|code", n) and re.fullmatch(NUMBER, r)])
# 2
twins = defaultdict(set)
for f, n, p, r, c in everything:
    if n not in ("main", "run", "new"):
        twins[n].add(name(f))
heading(2, "functions of one name in several files, but for those of a trait",
        [f"{n}: {', '.join(sorted(w))}" for n, w in sorted(twins.items()) if len(w) > 1])


def shape(text):
    text = re.sub(r"//.*", "", text)
    text = re.sub(r"\b(?!(?:for|while|if|else|match|let|mut|return|fn|Some|None|Ok|Err|in)\b)[A-Za-z_]\w*", "N", text)
    return re.sub(r"\b\d[\w_]*|b?\"[^\"]*\"|b'.{1,2}'", "0", re.sub(r"\s+", " ", text))


bodies = defaultdict(list)
for f, text in texts.items():
    for m in re.finditer(r"\bfn (\w+)", text):
        stop = re.compile(r";\n|\{\n").search(text, m.end())
        while stop and re.search(r"(requires|ensures)[^\n]*$", text[:stop.start()].rsplit("\n", 1)[-1]):
            stop = re.compile(r";\n|\{\n").search(text, stop.end())
        if not stop or text[stop.start()] == ";":
            continue
        depth, at = 1, stop.end()
        while depth:
            depth += {"{": 1, "}": -1}.get(text[at], 0)
            at += 1
        body = text[stop.end():at - 1].strip()
        if len(body) > 60:
            bodies[shape(body)].append(f"{name(f)}: {m.group(1)}")
heading(2, "functions whose bodies differ in names and numbers alone",
        [" ~ ".join(sorted(w)) for b, w in sorted(bodies.items()) if len(w) > 1])
# 3
heading(3, "loops that count", lines(rf"^\s*(for \w+ in [^{{]*\.\.|while )"))
# 4
heading(4, "casts by `as`", lines(rf"\bas {NUMBER}\b"))
heading(4, "conversions, comparisons and printing by a function of their own",
        [f"{name(f)}: {n}" for f, n, p, r, c in everything
         if re.fullmatch(r"(by_\w+|number|name|words|same\w*|equals|\w+_line|\w*digit|nibble|decode|encode|code|zero\w*|is_hex|array|nonce\w*|serialise|word)", n)])
# 5
clauses = defaultdict(set)
for f, n, p, r, c in everything:
    for k in c:
        for piece in re.split(r"\) × \(|^\(|\)$", k):
            if len(piece.strip()) > 8:
                clauses[piece.strip().replace(".old", ".now").replace(".new", ".now")].add(f"{name(f)}: {n}")
heading(5, "facts that stand in the contracts of three functions or more",
        [f"{len(w)}: {k}" for k, w in sorted(clauses.items(), key=lambda e: -len(e[1])) if len(w) > 2])
single, pairs = defaultdict(set), defaultdict(set)
for f, n, p, r, c in everything:
    crate = name(f).split("/")[0]
    have = [re.sub(r"\s*:.*", "", q).removeprefix("mut ") for q in parts(p) if ":" in q]
    for i, a in enumerate(have):
        single[crate, a].add(n)
        for b in have[i + 1:]:
            pairs[crate, a, b].add(n)
heading(5, "pairs of parameters that travel together in a crate: in three functions or more, and in three quarters of those that have either",
        [f"{crate}: {a}, {b}: {len(w)}" for (crate, a, b), w in sorted(pairs.items())
         if len(w) > 2 and 4 * len(w) >= 3 * len(single[crate, a] | single[crate, b])])
# 6
heading(6, "fields and parameters that count or point into what stands beside them",
        lines(r"\b(len|count|fill|at|next|end|place|index): (usize|u8|u32)\b"))
heading(6, "fields that are arrays", lines(r"^\s+(pub(\(crate\))? )?\w+: \[.*; \d+\],"))
# 7
heading(7, "a match or an if that picks a step",
        lines(r"^\s*(match (self|suite|named|strength|what|name|field|why)\b|^\s*match \(what, kind\)|^\s*match fields)"))
heading(7, "function pointers and trait objects", lines(r"\bdyn \w|: fn\("))
# 8
proofs = sorted((root / "crates").glob("*/proofs/**/*.antt"))
heading(8, "files of proofs, and their lines",
        [f"{c.name}: {len(list((c / 'proofs').glob('**/*.antt')))} files, "
         f"{sum(len(p.read_text().splitlines()) for p in (c / 'proofs').glob('**/*.antt'))} lines"
         for c in sorted((root / "crates").iterdir()) if (c / "proofs").is_dir()])
blocks = []
for p in sorted(q for q in (root / "crates").glob("*/*/**/*.antt") if "out" not in q.parts):
    text = "\n".join(q for q in p.read_text().splitlines() if not q.startswith(("use ", "--")))
    blocks += [(p, q) for q in re.split(r"\n\s*\n", text) if q.strip()]
blocks += [(f, re.sub(r"^\s*//.*$", "", text, flags=re.M)) for f, text in texts.items()]
seen = defaultdict(set)
for i, (p, text) in enumerate(blocks):
    for w in set(re.findall(r"[A-Za-z][\w-]*", text)):
        seen[w].add(i)
fixed = ("Answers.antt", "Invariants.antt", "Proof.antt", "Lib.antt")
unused = []
for i, (p, text) in enumerate(blocks):
    m = re.match(r"(?:abbrev )?(?:pub )?([a-z][\w-]*)\s*:", text.strip())
    if m and p.suffix == ".antt" and p.name not in fixed and seen[m.group(1)] == {i}:
        unused.append(f"{p.relative_to(root / 'crates')}: {m.group(1)}")
heading(8, "lemmas that nothing names", unused)
