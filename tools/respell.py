#!/usr/bin/env python3
"""Brings the definitions and lemmas of specs/ and proofs/ to the spelling that the language's library has today.

usage: python3 tools/respell.py [FOLDER]     in a repository whose files port.py has turned; rewrites crates/ in place

Words, fields and constructors go in snake case, facts, types and records in upper camel case; a lemma keeps its dashes,
but for a defined word in it, which is spelled as that word. Names that the source or the check gives to steps and
goals stay as they are. Prints each change, and each name that two old names would share.
"""

import glob
import os
import re
import sys

NAME = r"[^\s.:;,(){}\[\]«»⌜⌝]+"
HEAD = re.compile(r"^((?:(?:abbrev|unfoldable|data|record|pub|package) )*)(" + NAME + r")((?: [({].*)?) : (.*)$")
FIELD = re.compile(r"^  (?:pub )?(" + NAME + r") :")
# Fields, constructors and facts that stand in a module inside a file, where the reading by lines does not see them.
NESTED = {"in-range": "in_range", "no-path": "no_path", "Sent-so-far": "SentSoFar"}
GENERATED = re.compile(r"^(invariant|decreases|returns|overflow|loop|ghost)-|-requires(-\d+)?$|^invariant$")


def files(root):
    for kind in ("specs", "proofs", "src"):
        for ending in ("antt", "rt"):
            yield from glob.glob(os.path.join(root, "crates", "*", kind, "**", "*." + ending), recursive=True)


def snake(name):
    return name.replace("-", "_")


def camel(name):
    return "".join(p[:1].upper() + p[1:] for p in re.split("[-_]", name))


def gather(root):
    words, lemmas = {}, set()
    for path in sorted(files(root)):
        if not path.endswith(".antt"):
            continue
        with open(path, encoding="utf-8") as f:
            lines = f.read().split("\n")
        inside = False
        for at, line in enumerate(lines):
            m = HEAD.match(line)
            if m:
                marks, name = m.group(1).split(), m.group(2)
                inside = "record" in marks or "data" in marks
                if GENERATED.search(name) or name in ("use", "mod"):
                    continue
                if {"abbrev", "unfoldable", "record", "data"} & set(marks):
                    if "-" in name:
                        words[name] = camel(name) if name[0].isupper() else snake(name)
                    else:
                        words.setdefault(name, name)
                else:
                    lemmas.add(name)
                continue
            if line and not line.startswith((" ", "--")):
                inside = False
            m = FIELD.match(line)
            if inside and m and "-" in m.group(1):
                words[m.group(1)] = snake(m.group(1))
    return words, lemmas


def lemma(name, words):
    """A lemma's name with each run of its parts that is a word spelled as that word."""
    parts, out, at = name.split("-"), [], 0
    while at < len(parts):
        for end in range(len(parts), at, -1):
            run = "-".join(parts[at:end])
            if end - at > 1 and words.get(run, run) != run and words[run] != run:
                out.append(words[run])
                at = end
                break
        else:
            out.append(parts[at])
            at += 1
    return "-".join(out)


TOKEN = re.compile(r"(?<![^\s.:;,(){}\[\]«»⌜⌝])" + NAME)


def turn(text, change, goals):
    def one(m):
        name = m.group(0)
        if name not in change:
            return name
        before = text[max(0, m.start() - 7):m.start()]
        if goals and re.search(r"(?<![\w'.-])(goal|c|w)\.$", before):
            return name
        return change[name]

    return TOKEN.sub(one, text)


def main():
    root = sys.argv[1] if len(sys.argv) > 1 else "."
    words, lemmas = gather(root)
    words.update(NESTED)
    change = {a: b for a, b in words.items() if a != b}
    for name in lemmas:
        if name not in change and "-" in name and not GENERATED.search(name):
            new = lemma(name, words)
            if new != name:
                change[name] = new
    for a, b in sorted(change.items()):
        print(f"{a} -> {b}")
    taken = {}
    for a in sorted(set(words) | lemmas | set(change)):
        taken.setdefault(change.get(a, a), []).append(a)
    for b, olds in sorted(taken.items()):
        if len(olds) > 1:
            print(f"look: {' and '.join(olds)} fall together as {b}")
    for path in sorted(files(root)):
        with open(path, encoding="utf-8") as f:
            old = f.read()
        new = turn(old, change, os.path.basename(path) in ("Answers.antt", "Invariants.antt"))
        if new != old:
            with open(path, "w", encoding="utf-8") as f:
                f.write(new)


main()
