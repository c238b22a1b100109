#!/usr/bin/env python3
"""Brings the repository's own definitions, lemmas and crate names to the spelling of rattle-kit-13f.

usage: python3 tools/port/respell.py        at the top of the repository, once, after the kit's port.py

- Names that specs/ and proofs/ declare are in snake case: a dash in them becomes an underscore, there, where they are cited, and in the clauses of src/.
  Names of functions and fields of src/, what a check generates from them, strings, and text of comments outside backquotes stay.
- A crate whose name the kit's library has gets another one.
- Where port.py put an underscore into a word of a comment, the dash comes back.
It prints the names that fall together with another name, if any, and then changes nothing.
"""
import os
import re
import subprocess
import sys

CRATES = {"bytes": "byte_parts"}
# where the plain spelling is taken by a function whose proof the lemma is, or by a field
OTHERWISE = {"worked-examples": "worked_examples_lem", "build-id": "build_id"}
# bound variables
VARIABLES = ["old-first", "old-second", "old-source", "old-entries", "old-entry", "old-len", "old-place", "name-place", "name-size", "desc-size", "key-from", "value-from", "zero-rows"]
WORDS = {"little_endian": "little-endian", "called.gnu_debuglink": "called .gnu_debuglink"}
# lines of src/ that hold a clause, or import for clauses
GHOST = re.compile(r"\s*(ensures|requires|ghost) ")
IMPORT = re.compile(r"^(pub )?use ")
DECLARED = re.compile(r"^\s*(?:abbrev pub|unfoldable pub|pub record|pub data|pub|record|data|abbrev|unfoldable|let|module)?\s*([^\s:(){}]+)\s*:")
LET = re.compile(r"let ([^\s:(){}=]+)")


def texts(ending):
    for folder, dirs, files in os.walk("crates"):
        dirs[:] = sorted(d for d in dirs if d != "out")
        for f in sorted(files):
            if f.endswith(ending):
                yield os.path.join(folder, f)


def parted(line, mark):
    """The code of a line, and its comment."""
    at = 0 if line.startswith(mark) else line.find(" " + mark)
    if mark == "//" and line.lstrip().startswith(mark):
        at = line.find(mark)
    return (line, "") if at < 0 else (line[:at], line[at:])


def declared():
    names, goals = set(), set()
    for p in texts(".antt"):
        for line in open(p, encoding="utf-8"):
            code = parted(line, "--")[0]
            if IMPORT.match(code):
                continue
            m = DECLARED.match(code)
            if m and "-" in m.group(1):
                (goals if re.search(r": goal\.", code) else names).add(m.group(1))
            names.update(m.group(1) for m in LET.finditer(code) if "-" in m.group(1))
    return names - goals


def pattern(names):
    return re.compile(r"(?<![\w'-])(" + "|".join(sorted(map(re.escape, names), key=len, reverse=True)) + r")(?![\w'-])")


def turned(text, find, new):
    return find.sub(lambda m: new[m.group(1)], text)


def outside_strings(code, find, new):
    return "".join(t if i % 2 else turned(t, find, new) for i, t in enumerate(re.split(r'("(?:[^"\\]|\\.)*")', code)))


def in_backquotes(comment, find, new):
    return re.sub(r"`[^`]*`", lambda m: turned(m.group(0), find, new), comment)


def words_back(comment):
    for wrong, right in WORDS.items():
        comment = re.sub(r"(?<!`)\b" + re.escape(wrong) + r"\b(?!`)", right, comment)
    return comment


def respell(names):
    new = {n: OTHERWISE.get(n, n.replace("-", "_")) for n in names}
    find = pattern(names)
    free = {n: n.replace("-", "_") for n in VARIABLES}
    variables = re.compile(r"(?<![\w'.-])(" + "|".join(map(re.escape, VARIABLES)) + r")(?![\w'-])")
    for ending, mark in ((".antt", "--"), (".rt", "//")):
        for p in texts(ending):
            out = []
            for line in open(p, encoding="utf-8"):
                code, comment = parted(line, mark)
                if ending == ".antt" or GHOST.match(code):
                    code = outside_strings(code, find, new)
                    code = outside_strings(code, variables, free)
                out.append(code + words_back(in_backquotes(comment, find, new)))
            with open(p, "w", encoding="utf-8") as f:
                f.write("".join(out))


def rename_crates():
    for old, new in CRATES.items():
        if not os.path.isdir(os.path.join("crates", old)):
            continue
        subprocess.run(["git", "mv", f"crates/{old}", f"crates/{new}"], check=True)
        text = open("crates.txt").read()
        text = "".join(line if line.startswith("#") else re.sub(rf"\b{old}\b", new, line) for line in text.splitlines(keepends=True))
        open("crates.txt", "w").write(text)
        for ending in (".antt", ".rt"):
            for p in texts(ending):
                t = open(p, encoding="utf-8").read()
                u = re.sub(rf"\bRattle\.{old}\.", f"Rattle.{new}.", t)
                if ending == ".rt":
                    u = re.sub(rf"(?<![\w:]){old}::(?=[a-z_]+::)", f"{new}::", u)
                if u != t:
                    open(p, "w", encoding="utf-8").write(u)


def together(names):
    """Names whose new spelling a definition or a lemma of the repository has already."""
    had = set()
    for p in texts(".antt"):
        for line in open(p, encoding="utf-8"):
            m = DECLARED.match(parted(line, "--")[0])
            if m:
                had.add(m.group(1))
    return sorted(n for n in names if n not in OTHERWISE and n.replace("-", "_") in had)


def main():
    if not os.path.isdir("crates"):
        sys.exit("respell: run it at the top of the repository")
    names = declared()
    both = together(names)
    if both:
        sys.exit("respell: names that fall together: " + ", ".join(both))
    if names:
        respell(names)
    rename_crates()
    for crate in sorted(os.listdir("crates")):
        subprocess.run(["rt", "fmt"], cwd=os.path.join("crates", crate), check=False, capture_output=True)
    print(f"respell: {len(names)} names in snake case")


main()
