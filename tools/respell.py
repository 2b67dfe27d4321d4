#!/usr/bin/env python3
"""Respells the repository's own definitions and lemmas: types in camel case, all else in snake case.

usage: python3 tools/respell.py          at the top of the repository, once, after the kit's port script: by the table beside it
       python3 tools/respell.py --table  writes that table, tools/respell.txt, from the definitions that are there

A dash stays where it joins two words in the name of a lemma, as in 'seen-append'. Names that the checker makes
(goals, steps, invariants) keep their dashes, as do names of the library. Strings and Rust code are left alone.
"""

import os
import re
import sys

NAME = r"[\w'?]+(?:-[\w'?]+)+"
TOKEN = re.compile(r"(?<![\w'?-])[\w'?]+(?:-[\w'?]+)*(?![\w'?-])")
HEAD = re.compile(r"^(\s*)((?:(?:abbrev|unfoldable|pub|record|data|mutual)\s+)*)(" + NAME + r")((?:\s+(?:\([^)]*\)|\{[^}]*\}))*)\s*:\s*(\S*)")
HEADS = re.compile(r"^(\s*)((?:(?:abbrev|unfoldable|pub)\s+)*)([\w'?-]+(?:\s+[\w'?-]+)*)\s*:\s")
PLAIN = re.compile(r"^(\s*)(?:(?:abbrev|unfoldable)\s+(?:pub\s+)?)([\w'?]+)\s*:\s")
# files of proofs of functions
STEPS = ("Answers.antt", "Invariants.antt", "Choices.antt", "Proof.antt")
# words of the library that lemmas are named after
STD = set("append map length take drop reverse set replicate cons nil zero suc add sub mul div rem min max and or xor".split())


def files(root):
    for folder, dirs, names in os.walk(os.path.join(root, "crates")):
        dirs[:] = sorted(d for d in dirs if d not in ("out", ".git"))
        for n in sorted(names):
            if n.endswith((".rt", ".antt", ".edit")):
                yield os.path.join(folder, n)


def definitions(paths):
    """Each dashed name that the repository defines: whether it is a lemma, that is neither computed nor a field."""
    found, words = {}, set(STD)
    for p in paths:
        if not p.endswith(".antt"):
            continue
        inside = None
        for line in open(p, encoding="utf-8"):
            code = line.split("--")[0] if line.lstrip().startswith("--") else line
            if not code.strip() or code.lstrip().startswith("use "):
                continue
            depth = len(code) - len(code.lstrip())
            plain = PLAIN.match(code)
            if plain:
                words.add(plain.group(2))
            if inside is not None and depth <= inside:
                inside = None
            m = HEAD.match(code)
            if m and not m.group(5).startswith(("goal.", "need.")) and m.group(3) != "where":
                kind, name = m.group(2), m.group(3)
                computed = any(k in kind for k in ("abbrev", "unfoldable", "record", "data"))
                lemma = not computed and inside is None
                found[name] = found.get(name, True) and lemma
                if computed and name[0].islower():
                    words.add(name.replace("-", "_"))
            if re.match(r"\s*(?:pub\s+)?(?:record|data)\s", code):
                inside = depth
    return found, words


# named after its function
OWN = {"Not-foretold": "NotForetold"}


def spelled(name, lemma, words):
    if name in OWN:
        return OWN[name]
    name = name.replace("getD", "get_or")
    parts = name.split("-")
    if name[0].isupper():
        return "".join(p[0].upper() + p[1:] for p in parts)
    if lemma:
        for i in range(1, len(parts)):
            left, right = "_".join(parts[:i]), "_".join(parts[i:])
            if left in words and right in words:
                return left + "-" + right
    return "_".join(parts)


def respelled(text, names, steps):
    def one(m):
        word, before = m.group(0), text[max(0, m.start() - 9) : m.start()]
        # a step of a function's proof, right behind its context, is named by the checker
        if steps and re.search(r"(?<![\w'])(c|w|l|l'|g|goal|need)\.$", before):
            return word
        return names.get(word, word)

    return TOKEN.sub(one, text)


def in_rust(text, names):
    parts = re.split(r'("(?:[^"\\\n]|\\.)*")', text)
    return "".join(p if i % 2 else respelled(p, names, False) for i, p in enumerate(parts))


def main():
    table = os.path.join(os.path.dirname(os.path.realpath(__file__)), "respell.txt")
    paths = list(files("."))
    if "--table" in sys.argv:
        found, words = definitions(paths)
        with open(table, "w", encoding="utf-8") as out:
            for name in sorted(found):
                new = spelled(name, found[name], words)
                if new != name:
                    out.write(name + " " + new + "\n")
        return
    names = dict(line.split() for line in open(table, encoding="utf-8"))
    for p in paths:
        text = open(p, encoding="utf-8").read()
        if p.endswith(".antt"):
            new = respelled(text, names, os.path.basename(p) in STEPS)
        else:
            new = in_rust(text, names)
        if new != text:
            open(p, "w", encoding="utf-8").write(new)


main()
