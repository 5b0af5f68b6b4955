#!/usr/bin/env python3
"""Brings the repository's own definitions and lemmas to snake case: near-small and nearSmall become near_small, in specs/, proofs/, clauses of src/, must-fail/ and the pages.

usage: python3 tools/respell.py [--dry]      at the top of the repository, once, right behind port.py

Functions of src/, exported names, strings, types and modules keep their names. Names that Rattle makes (goals, places, fields of places) are no names of the repository.
Where the new name stood already in a file that has the old one, or two old names would fall together, OTHER below has another name.
"""
import glob
import re
import sys
import os
from collections import defaultdict

# names that would fall together with another, or hide one: the new name by hand
OTHER = {}


def snake(n):
    n = n.replace("′", "'")
    n = n.replace("-", "_")
    if n[:1].islower():
        n = re.sub(r"(?<=[a-z0-9])([A-Z])", lambda m: "_" + m.group(1).lower(), n)
        n = re.sub(r"([A-Z])", lambda m: m.group(1).lower(), n)
    return n


def declared(path, text):
    """Names that a file declares: top level, fields of records, constructors."""
    names = set()
    ties = set()
    lines = text.split("\n")
    block = None
    for i, l in enumerate(lines):
        m = re.match(r"^(\s*)(?:(?:abbrev|unfoldable|pub|private|infix[lr]? \d+) )*([^\s:(){},.]+) :(?: |$)", l)
        head = re.match(r"^(\s*)(?:pub )?(record|data|class)\s+([^\s:({]+)", l)
        if head:
            block = (len(head.group(1)), head.group(2))
            continue
        if l.strip() and block and len(l) - len(l.lstrip()) <= block[0]:
            block = None
        if not m:
            continue
        inside = len(m.group(1)) > 0
        if inside and not (block or re.match(r"^\s*pub ", l) or module_block(lines, i)):
            continue
        n = m.group(2)
        if n.startswith("--"):
            continue
        if " tie." in l or " goal." in l or n.endswith("_spec") or n.endswith("-spec"):
            ties.add(n)
        else:
            names.add(n)
    return names, ties


def module_block(lines, i):
    """Whether line i is a declaration of a section (module _ .. where)."""
    depth = len(lines[i]) - len(lines[i].lstrip())
    j = i
    while j >= 0:
        l = lines[j]
        if l.strip():
            d = len(l) - len(l.lstrip())
            if d < depth:
                return bool(re.match(r"^\s*module _", l))
        j -= 1
    return False


def parts(name):
    return [p for p in name.split("◌") if p]


def split_code(text, antt):
    """Yields (is_code, piece): comments and strings are not code."""
    pat = re.compile(r'--[^\n]*|"(?:[^"\\\n]|\\.)*"' if antt else r'//[^\n]*|"(?:[^"\\\n]|\\.)*"')
    at = 0
    for m in pat.finditer(text):
        if antt and m.group(0).startswith("--") and m.start() > 0 and not text[m.start() - 1].isspace():
            continue
        yield True, text[at:m.start()]
        yield False, m.group(0)
        at = m.end()
    yield True, text[at:]


def main():
    dry = "--dry" in sys.argv
    files = sorted(p for p in glob.glob("crates/*/**/*", recursive=True) if p.endswith((".rt", ".antt")) and "/out/" not in p)
    texts = {p: open(p, encoding="utf-8").read() for p in files}
    own, made = set(), defaultdict(set)
    for p, t in texts.items():
        if not p.endswith(".antt"):
            continue
        names, ties = declared(p, t)
        own |= names
        made[p] = ties
    table = {}
    every = {part for n in own for part in parts(n)}
    camel = {snake(q) for q in every if "-" not in q}
    for n in sorted(own):
        for part in parts(n):
            # a lemma that would have its function's name
            s = OTHER.get(part, snake(part) + ("_lem" if "-" in part and snake(part) in camel else ""))
            if s != part and re.fullmatch(r"[A-Za-z_][A-Za-z0-9_'′₀₁₂₃-]*[A-Za-z0-9_'′₀₁₂₃≤<-]*", part):
                table[part] = s
    # names of a library that are spelled alike stay where a file brings them from there
    lib = defaultdict(set)
    for p, t in texts.items():
        for m in re.finditer(r"(?:ghost )?use ([\w.·+']+)\.\{([^}]*)\}", t):
            mod = m.group(1)
            first = mod.split(".")
            mine = first[0] == "Rattle" and len(first) > 1 and os.path.isdir("crates/" + first[1])
            if not mine:
                for n in m.group(2).split(","):
                    n = n.strip().split(" as ")[0].strip()
                    for q in parts(n):
                        lib[p].add(q)
    word = re.compile(r"[A-Za-z_][A-Za-z0-9_'′₀₁₂₃]*(?:-[A-Za-z0-9_'′₀₁₂₃≤<]+)*")
    # what falls together
    clash = defaultdict(set)
    for p, t in texts.items():
        toks = set()
        for code, piece in split_code(t, p.endswith(".antt")):
            if code:
                toks |= set(word.findall(piece))
        new = defaultdict(set)
        for k in toks:
            if k in table and k not in lib[p] and k not in made[p]:
                new[table[k]].add(k)
            else:
                new[k].add(k)
        for n, olds in new.items():
            if len(olds) > 1:
                clash[(n, tuple(sorted(olds)))].add(p)
    if dry:
        for (n, olds), ps in sorted(clash.items()):
            print("CLASH", n, olds, len(ps), sorted(ps)[:3])
        print(len(table), "names;", len(clash), "clashes")
        used = [(p, k) for p in texts for k in lib[p] if k in table]
        print("library names spelled alike:", sorted({k for _, k in used}))
        return
    for p, t in texts.items():
        out = []
        for code, piece in split_code(t, p.endswith(".antt")):
            if code:
                piece = word.sub(lambda m: table[m.group(0)] if m.group(0) in table and m.group(0) not in lib[p] and m.group(0) not in made[p] else m.group(0), piece)
            elif not piece.startswith('"'):
                piece = re.sub(r"`([^`\n]*)`", lambda m: "`" + word.sub(lambda w: table.get(w.group(0), w.group(0)), m.group(1)) + "`", piece)
                piece = re.sub(r"\b[a-z]+[A-Z]\w*", lambda m: table.get(m.group(0), m.group(0)), piece)
            out.append(piece)
        n = "".join(out)
        if n != t:
            open(p, "w", encoding="utf-8").write(n)
    for p in sorted(glob.glob("crates/*/must-fail/*.edit")):
        t = open(p, encoding="utf-8").read()
        n = word.sub(lambda m: table.get(m.group(0), m.group(0)), t)
        if n != t:
            open(p, "w", encoding="utf-8").write(n)
    for p in ["README.md", "CONTRIBUTING.md"] + sorted(glob.glob("docs/**/*.md", recursive=True)):
        t = open(p, encoding="utf-8").read()
        n = re.sub(r"`([^`\n]*)`", lambda m: "`" + word.sub(lambda w: table.get(w.group(0), w.group(0)), m.group(1)) + "`", t)
        if n != t:
            open(p, "w", encoding="utf-8").write(n)


main()
