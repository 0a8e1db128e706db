#!/usr/bin/env python3
"""Brings the names of this repository's own definitions and lemmas to today's spelling.

usage: python3 tools/respell.py [FOLDER]      in the repository (or the folder of a checkout), once, after port.py

Words are in snake case, types in camel case. Only names that specs/ and proofs/ of this repository
define are turned, wherever they stand in .antt files, in ghost text of .rt files, in must-fail edits,
and between backquotes in comments and pages. Names that Rattle makes, as the goals' names and the
steps of a proof, stay, and so do functions of src/, strings, inputs and outputs.

`All` by recursion has the library's name for it, AllByRecursion: no import may stand under the
name of another word of the library.

One word for one thing where contracts and definitions speak of lists: slice_index_or and slice_set,
and not get_or and set as well, which proofs use.

Crate `hash` defined a word `result`, which now names what a function returns: it is `result_of`
here, and the clauses of that crate lose their λ.
"""

import glob
import os
import re
import sys

WORD = r"[^\W\d][\w'-]*"
SIGNATURE = re.compile(r"^\s*((?:(?:abbrev|unfoldable|pub|record|data)\s+)*)(%s)\s*(?=[:({]|where\b)" % WORD)
TOKEN = re.compile(r"(?<![\w'-])%s" % WORD)
# names that Rattle makes and that a proof also gives to a value of its own
MADE = {"at-is"}
# names that do not follow the rule alone
NAMED = {"getD-run": "get_or_run", "getD-ints": "get_or_ints", "getD-below60": "get_or_below60"}


def antt():
    return sorted(glob.glob("crates/*/specs/**/*.antt", recursive=True) + glob.glob("crates/*/proofs/**/*.antt", recursive=True))


def read(path):
    with open(path, encoding="utf-8") as f:
        return f.read()


def write(path, text):
    if read(path) != text:
        with open(path, "w", encoding="utf-8") as f:
            f.write(text)


def own_names():
    """Every name that a specs/ or proofs/ file gives to something."""
    names, made = set(), set(MADE)
    for path in antt():
        text = read(path)
        for line in text.split("\n"):
            if re.match(r"\s*(--|use |open |let )", line):
                continue
            m = SIGNATURE.match(line)
            if m:
                names.add(m.group(2))
                if re.match(r"\s*:\s*goal\.", line[m.end():]):
                    made.add(m.group(2))
        for m in re.finditer(r"\blet (%s)\s*[:=]" % WORD, text):
            names.add(m.group(1))
        for m in re.finditer(r"[(λ]\s*((?:%s\s+)+)[:.]" % WORD, text):
            names |= set(m.group(1).split())
    return names - made


def borrowed(text):
    """The names that a file takes from the toolchain's library: they keep their spelling there."""
    crates, names = set(os.listdir("crates")), set()
    for m in re.finditer(r"^(?:ghost )?use ([\w.+'-]+)\.\{([^}]*)\}", text, re.M):
        path = m.group(1).split(".")
        if path[0] != "Rattle" or path[1] not in crates:
            names |= {x.split()[0] for x in m.group(2).split(",") if x.strip()}
    return names


def snake(name):
    return re.sub(r"(?<=[a-z0-9])([A-Z])", lambda m: "_" + m.group(1).lower(), name)


def respelt(name):
    if name in NAMED:
        return NAMED[name]
    if name[0].isupper():
        first, *rest = name.split("-")
        return first + "".join(x[:1].upper() + x[1:] for x in rest) if rest else name
    if "-" in name:
        return "_".join(snake(x) for x in name.split("-"))
    # one or two letters and a capital are a letter of the standard's: kP, kN, kA
    return snake(name) if re.match(r"[a-z]{3,}\d*[A-Z]", name) else name


def turned(text, table):
    return TOKEN.sub(lambda m: table.get(m.group(0), m.group(0)), text)


def outside_strings(text, table):
    parts = re.split(r'("(?:[^"\\\n]|\\.)*")', text)
    return "".join(p if i % 2 else turned(p, table) for i, p in enumerate(parts))


def backquoted(text, table):
    return re.sub(r"`[^`\n]*`", lambda m: turned(m.group(0), table), text)


def by_line(text, table, comment, code):
    out = []
    for line in text.split("\n"):
        at = line.find(comment)
        head, tail = (line, "") if at < 0 else (line[:at], line[at:])
        out.append(code(head, table) + backquoted(tail, table))
    return "\n".join(out)


def hash_result(text):
    """In crate hash: `result` of specs/Hash.antt becomes `result_of`, and clauses lose their λ."""
    return re.sub(r"(?<![\w'.-])result(?![\w'-])", "result_of", text)


def clause(m):
    """A clause of crate hash without its λ."""
    label, binder, fact = m.groups()
    fact = hash_result(fact)
    if binder != "_":
        fact = re.sub(r"(?<![\w'.-])%s(?![\w'-])" % binder, "result", fact)
    return "ensures%s { %s }" % (label, fact)


def all_by_recursion(text):
    """In a file that takes the library's AllByRecursion under the name All: it goes by its own name."""
    if "AllByRecursion as All" not in text:
        return text
    text = text.replace("AllByRecursion as All", "AllByRecursion")
    return re.sub(r"(?<![\w'.-])All(?![\w'-])", "AllByRecursion", text)


def alias_names(text):
    """A name that a file gives to an import, as `suite as suiteOf`: snake case too."""
    for m in set(re.findall(r"\b\w+ as ([a-z]+[A-Z]\w*)(?=[,}])", text)):
        text = re.sub(r"(?<![\w'-])%s(?![\w'-])" % m, snake(m), text)
    return text


def list_words(path, text):
    """In specs/ and src/, get_or and set (in specs/ alone) of the library are slice_index_or and slice_set."""
    words = {"get_or": "slice_index_or"}
    if "/specs/" in path:
        words["set"] = "slice_set"
    words = {a: b for a, b in words.items() if re.search(r"Prelude\.\{[^}]*(?<![\w'-])%s(?![\w'-])" % a, text)}
    if not words:
        return text
    text = by_line(text, words, "//" if path.endswith(".rt") else "--", turned)

    def once(m):
        names = [x.strip() for x in m.group(2).split(",")]
        return m.group(1) + ", ".join(dict.fromkeys(names)) + "}"

    return re.sub(r"(Prelude\.\{)([^}]*)\}", once, text)


def main():
    if len(sys.argv) > 1:
        os.chdir(sys.argv[1])
    for path in antt():
        if path.startswith("crates/hash/"):
            write(path, hash_result(read(path)))
    path = "crates/hash/src/lib.rt"
    text = re.sub(r"(ghost use Rattle\.hash\.specs\.Hash\.\{[^}]*\})", lambda m: hash_result(m.group(1)), read(path))
    text = re.sub(r"ensures\*((?: \w+)?) \{ λ (\w+)\. ⌜ (.*) ⌝ \}$", clause, text, flags=re.M)
    write(path, text)
    table = {n: respelt(n) for n in own_names()}
    table = {a: b for a, b in table.items() if a != b}
    for path in antt():
        text = read(path)
        kept = borrowed(text)
        write(path, by_line(text, {a: b for a, b in table.items() if a not in kept}, "--", turned))
    for path in sorted(glob.glob("crates/*/src/**/*.rt", recursive=True)):
        write(path, by_line(read(path), table, "//", outside_strings))
    for path in antt() + sorted(glob.glob("crates/*/src/**/*.rt", recursive=True)):
        write(path, all_by_recursion(read(path)))
    for path in sorted(glob.glob("crates/*/src/**/*.rt", recursive=True)):
        write(path, alias_names(read(path)))
    for path in sorted(glob.glob("crates/*/specs/*.antt") + glob.glob("crates/*/src/**/*.rt", recursive=True)):
        write(path, list_words(path, read(path)))
    for path in sorted(glob.glob("crates/*/must-fail/*.edit") + glob.glob("misuse/*/*.edit")):
        write(path, outside_strings(read(path), table))
    for path in ["README.md"] + sorted(glob.glob("docs/*.md")):
        write(path, backquoted(read(path), table))


if __name__ == "__main__":
    main()
