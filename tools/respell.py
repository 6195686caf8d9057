#!/usr/bin/env python3
"""Brings the repository's own definitions and lemmas to the library's spelling: words in snake case, types in upper camel case.

usage: tools/respell.py [--check]

A name that begins small gets an underscore where a small letter or a digit meets a capital: keyZero becomes key_zero, and in a lemma's name each
part between dashes is turned by itself. A type's name loses its dashes: Found-in becomes FoundIn. Names that would fall together with another
name, or that the table below names, get the name that stands there. --check prints the table of names and writes nothing.
"""
import glob
import re
import sys

TOKEN = re.compile(r"[^\s(){}.;,@\"«»\[\]\\`|'/:!?<>+*&=#]+'*")
DECL = re.compile(r"(?m)^\s*(?:(?:abbrev|unfoldable|pub|data|record) )*(?:\{-)?([^\s:(){};,=.|←λ→]+)(?=[^=\n]*? : )")
WORDS = set("use mod module where let infixl infixr infix unfolding open ruleset in".split())

# Names whose turned form stands already, with the name that they get.
BY_HAND = {
    "digitValue": "digit_value_of",
    "foundIn": "found_in_table",
    "joinedTo": "joined_onto",
    "noKey": "without_key",
    "noLead": "empty_lead",
    "notCarried": "those_not_carried",
    "ownKey": "own_key_of",
    "triesOf": "tries_of_all",
}


def read(path):
    with open(path, encoding="utf-8") as f:
        return f.read()


def antt():
    return sorted(glob.glob("crates/*/specs/**/*.antt", recursive=True) + glob.glob("crates/*/proofs/**/*.antt", recursive=True))


def rust():
    return sorted(glob.glob("crates/*/src/**/*.rt", recursive=True))


def snake(part):
    if not part or part[0].isupper():
        return part
    return re.sub(r"(?<=[a-z0-9])(?=[A-Z])", "_", part).lower() if part.isascii() else re.sub(
        r"(?<=[a-z0-9])([A-Z])", lambda m: "_" + m[1].lower(), part)


def turned(name):
    if name[0].isupper() and re.fullmatch(r"[A-Z][A-Za-z0-9]*(-[a-z0-9]+)+", name) and name in TYPES:
        return "".join(p[0].upper() + p[1:] for p in name.split("-"))
    return "-".join(snake(p) for p in name.split("-"))


TYPES = {"Done-at", "Found-in", "Held-so-far", "Passed-by", "Root-is"}


def table():
    declared, seen = set(), set()
    for path in antt():
        text = re.sub(r"--[^\n]*", "", read(path))
        declared |= {m for m in DECL.findall(text) if m not in WORDS}
        seen |= set(re.findall(r"[^\s(){}.;,@\"«»\[\]\\]+", text))
    for path in rust():
        seen |= set(re.findall(r"\w+", read(path)))
    names = {n: BY_HAND.get(n, turned(n)) for n in declared if re.fullmatch(r"[^\W\d_][\w'-]*", n)}
    names = {a: b for a, b in names.items() if a != b}
    return names, seen


def turn(text, names):
    return re.sub(r"(?<![\w'-])[^\W\d_][\w]*(?:-\w+)*'*(?![\w-])", lambda m: names.get(m[0], m[0]), text)


def main():
    names, seen = table()
    clash = sorted((a, b) for a, b in names.items() if b in seen and a not in BY_HAND)
    new = {}
    for a, b in names.items():
        new.setdefault(b, []).append(a)
    twice = sorted(v for v in new.values() if len(v) > 1)
    if "--check" in sys.argv:
        for a, b in sorted(names.items()):
            print(a, b)
        print("clash:", clash, file=sys.stderr)
        print("twice:", twice, file=sys.stderr)
        return
    for path in antt() + rust():
        text = read(path)
        done = turn(text, names)
        if done != text:
            with open(path, "w", encoding="utf-8") as f:
                f.write(done)


main()
