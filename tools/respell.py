#!/usr/bin/env python3
"""Brings the repository's own names of definitions, types and lemmas to one spelling: snake case for what is no type, camel case for
types, an apostrophe for a prime. Names that Rattle makes (goals, steps of the code) and names of the library stay as they are.

usage: tools/respell.py [--list]     at the top of the repository; --list prints the renamings and changes nothing
"""

import os
import re
import sys

LETTER = r"A-Za-z0-9_\u0370-\u03ff\u2070-\u2089\u207f\u2032'"
NAME = rf"[{LETTER}](?:[{LETTER}]|[-*](?=[{LETTER}]))*"
TOKEN = re.compile(NAME)
# a comment, a string, a path of a goal or of a step of the code, or a name
PIECE = re.compile(rf'(?:(?<=\s)|^)(?:--|//).*|"(?:[^"\\]|\\.)*"|\b(?:goal|c)\.{NAME}|{NAME}', re.M)
MARKS = {"pattern", "unfoldable", "abbrev", "pub", "data", "record", "module"}
ANSWER = re.compile(r"^ *(?:abbrev )?(?:pub )?(\S+) : goal\.", re.M)
AS = re.compile(rf"\bas ({NAME})")
USE = re.compile(r"\buse ([\w.]+)\.\{([^}]*)\}")
LET = re.compile(rf"\blet ({NAME}) [:=]")
BINDER = re.compile(rf"[λ({{] ?({NAME}(?: {NAME})*) ?[:.({{]")


def declared(line):
    """The name that a line declares, if it does: the first word after the marks, before ` : ` or a parameter."""
    words = line.split()
    while words and words[0] in MARKS:
        words.pop(0)
    if len(words) < 2 or not TOKEN.fullmatch(words[0]) or line.lstrip().startswith("--"):
        return None
    return words[0] if words[1] in (":", "=") or words[1][0] in "({" or " : " in line or " = " in line else None


def files(root):
    for folder, dirs, names in os.walk(os.path.join(root, "crates")):
        dirs[:] = sorted(d for d in dirs if d != "out")
        for n in sorted(names):
            if n.endswith((".rt", ".antt", ".edit")):
                yield os.path.join(folder, n)


def spelled(name):
    name = name.replace("′", "'")
    parts = name.split("-")
    if name[:1].isupper():
        return parts[0] + "".join(p[:1].upper() + p[1:] for p in parts[1:])
    return "_".join(parts)


def brought(texts):
    """The names that come from the library."""
    crates = set(os.listdir("crates"))
    found = set()
    for text in texts.values():
        for module, names in USE.findall(text):
            if module.split(".")[1:2] and module.startswith("Rattle.") and module.split(".")[1] in crates:
                continue
            found.update(n.split(" as ")[0].strip() for n in names.split(","))
    return found


def own(texts):
    """The names with a dash or an old prime that specs/ and proofs/ declare, but for the goals that answers are for."""
    found, made = set(), set()
    for path, text in texts.items():
        if path.endswith(".rt"):
            found.update(AS.findall(text))
        if not path.endswith(".antt"):
            continue
        made.update(ANSWER.findall(text))
        found.update(n for n in map(declared, text.split("\n")) if n)
        found.update(LET.findall(text))
        found.update(AS.findall(text))
        for m in BINDER.finditer(text):
            found.update(m.group(1).split())
    return {n for n in found - brought(texts) if ("-" in n or "′" in n) and n not in made}, made


def main():
    texts = {}
    for path in files("."):
        with open(path, encoding="utf-8") as f:
            texts[path] = f.read()
    names, made = own(texts)
    to = {n: spelled(n) for n in sorted(names)}
    if "--list" in sys.argv:
        for a, b in to.items():
            print(a, b)
        return
    for path, text in texts.items():
        out = PIECE.sub(lambda m: to.get(m.group(0), m.group(0)), text)
        if out != text:
            with open(path, "w", encoding="utf-8") as f:
                f.write(out)


main()
