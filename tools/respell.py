#!/usr/bin/env python3
"""Turns the repository's own names of definitions and lemmas to today's spelling.

usage: python3 tools/respell.py [--check]      at the top of the repository, once, after the toolchain's port.py

A name that begins with a capital letter joins its words in camel case, as At-place to AtPlace; every other
name joins them by an underscore, as fields-of to fields_of. Only names turn that a file of specs/ or proofs/
declares with a dash; names that the toolchain makes (the goals of a proof, and what stands behind goal. or a
step of the code) stay, and so does a name in a file that takes it from a library. Comments, strings and the
names of functions in src/ stay. It stops, and writes nothing, where two names would fall together.
"""

import os
import re
import sys

WORD = r'[^\s(){}.;,@"«»]+'
DECLARED = re.compile(rf'^[ \t]*(?:(?:pub|abbrev|unfoldable|data|record)[ \t]+)*({WORD})(?=[ \t][^:=\n]*:|[ \t]*:)[^\n]*', re.M)
NOT_NAMES = {"let", "in", "elim", "use", "pub", "mod", "module", "where", "do", "λ", "--", "|", "[", "open", "infix", "infixl", "infixr"}
GOAL = re.compile(rf":\s*(?:goal|need)\.")
LIBRARY = re.compile(r"use (?:Rattle\.(?:std|core)|borrow|denote|mathlib|lib|Prim)[^\s{]*\.\{([^}]*)\}")
PATH = re.compile(r"use [^\s{;]*")
HEADS = re.compile(r"(?:^|[\s(){};,])(?:goal|need|c|w|l)$")
QUIET_ANTT = re.compile(r"--[^\n]*|\{-.*?-\}|\"(?:[^\"\\\n]|\\.)*\"", re.S)
QUIET_RT = re.compile(r"//[^\n]*|\"(?:[^\"\\\n]|\\.)*\"|'(?:[^'\\\n]|\\.)'", re.S)


def files(endings):
    for folder, dirs, names in os.walk("crates"):
        dirs[:] = sorted(d for d in dirs if d != "out")
        for name in sorted(names):
            if name.endswith(endings):
                yield os.path.join(folder, name)


def read(path):
    with open(path, encoding="utf-8") as f:
        return f.read()


def quiet(path):
    return QUIET_RT if path.endswith((".rt", ".edit")) else QUIET_ANTT


def blanked(path, text):
    return quiet(path).sub(lambda m: re.sub(r"[^\n]", " ", m[0]), text)


def respelled(name):
    name = name.replace("′", "'")
    parts = name.split("-")
    if not name[:1].isalpha() or len(parts) < 2 or not all(parts):
        return name
    if name[0].isupper():
        return "".join(p[0].upper() + p[1:] for p in parts)
    return "_".join(parts)


def main():
    declared, kept = {}, set()
    texts = {p: read(p) for p in files((".antt", ".rt", ".edit"))}
    for path, text in texts.items():
        if not path.endswith(".antt"):
            continue
        for m in DECLARED.finditer(blanked(path, text)):
            name = m[1]
            if name in NOT_NAMES or ("-" not in name and "′" not in name):
                continue
            (kept.add(name) if GOAL.search(m[0]) else declared.setdefault(name, path))
    turned = {n: respelled(n) for n in declared if n not in kept and respelled(n) != n}

    meets = {}
    for old, new in turned.items():
        meets.setdefault(new, []).append(old)
    wrong = [f"{new}: {' and '.join(olds)}" for new, olds in meets.items() if len(olds) > 1]
    word = re.compile(WORD)
    for path, text in texts.items():
        words = set(word.findall(PATH.sub("use ", blanked(path, text))))
        wrong += [f"{path} has {n} and {turned[n]}" for n in turned if n in words and turned[n] in words]
    if wrong:
        sys.exit("respell: names fall together:\n" + "\n".join(sorted(wrong)))

    for path, text in texts.items():
        taken = {n.split(" as ")[-1].strip() for m in LIBRARY.finditer(text) for n in m[1].split(",")}
        still = [(m.start(), m.end()) for m in quiet(path).finditer(text)]

        def turn(m):
            name = m[0]
            if name not in turned or name in taken or any(a <= m.start() < b for a, b in still):
                return name
            if m.string[m.start() - 1 : m.start()] == "." and HEADS.search(m.string[max(0, m.start() - 40) : m.start() - 1]):
                print(f"stays: {path}: {name}", file=sys.stderr)
                return name
            return turned[name]

        new = word.sub(turn, text)
        if new != text and "--check" not in sys.argv:
            with open(path, "w", encoding="utf-8") as f:
                f.write(new)
    for old in sorted(turned):
        print(f"{old}\t{turned[old]}")


main()
