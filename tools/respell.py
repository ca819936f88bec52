#!/usr/bin/env python3
"""Spells this repository's own definitions and lemmas in snake case, by respell.tsv beside this file.

usage: python3 tools/respell.py [FOLDER]    (default: the repository's root)

It turns whole names in crates/: the code of .antt files, and in .rt files and comments the names in camel case, which only
clauses and `ghost use` items have. A label of one function's proof (a name with a dash that its file declares, or one behind a
dot that is no field of ours) stays, since Rattle makes those.
"""

import os
import re
import sys

HERE = os.path.dirname(os.path.realpath(__file__))
WORD = re.compile(r'[^\s(){}.;,@"«»]+')
SPAN = re.compile(r"`[^`\n]*`")
DECLARED = re.compile(r"(?m)^\s*(?:(?:abbrev|unfoldable|pub|data|record) )*([^\s(){}.;,@\"«»]+)(?: \([^)]*\)| \{[^}]*\})* :(?: |$)")


def table():
    with open(os.path.join(HERE, "respell.tsv"), encoding="utf-8") as f:
        return dict(line.rstrip("\n").split("\t") for line in f if line.strip())


def files(root):
    for folder, dirs, names in os.walk(os.path.join(root, "crates")):
        dirs[:] = sorted(d for d in dirs if d != "out")
        for name in sorted(names):
            if name.endswith((".rt", ".antt")):
                yield os.path.join(folder, name)


def of_one_function(path):
    return "/proofs/" in path and os.path.basename(path) in ("Proof.antt", "Answers.antt", "Invariants.antt")


def fields(root):
    """The fields of the records that specs/ and the lemma files declare."""
    found = set()
    for path in files(root):
        if path.endswith(".antt") and not of_one_function(path):
            with open(path, encoding="utf-8") as f:
                found |= set(re.findall(r"(?m)^ +pub ([^\s(){}.;,@\"«»]+) :", f.read()))
    return found


def turn(text, names, path, ours):
    rust = path.endswith(".rt")
    local = set(DECLARED.findall(text)) if of_one_function(path) else set()

    def word(m, where):
        old = m.group()
        new = names.get(old)
        if new is None or rust and "-" in old:
            return old
        if "-" in old and of_one_function(path):
            if old in local or m.start() > 0 and where[m.start() - 1] == "." and old not in ours:
                return old
        return new

    def code(part):
        # a text in quotes stays
        pieces = re.split(r'("(?:\\.|[^"\\])*")', part)
        return "".join(p if k % 2 else WORD.sub(lambda m, p=p: word(m, p), p) for k, p in enumerate(pieces))

    def remark(part):
        part = SPAN.sub(lambda m: code(m.group().replace("`", " ` ")).replace(" ` ", "`"), part)
        return re.sub(r"(?<![\w'`-])[a-z][\w']*[A-Z][\w']*", lambda m: names.get(m.group(), m.group()), part)

    out = []
    mark = "//" if rust else "--"
    for line in text.split("\n"):
        at = re.search(r"(?:^|(?<=\s))" + mark, line)
        cut = at.start() if at else len(line)
        out.append(code(line[:cut]) + remark(line[cut:]))
    return "\n".join(out)


def main():
    root = os.path.abspath(sys.argv[1]) if len(sys.argv) > 1 else os.path.dirname(HERE)
    names = table()
    ours = fields(root)
    changed = 0
    for path in files(root):
        with open(path, encoding="utf-8") as f:
            text = f.read()
        new = turn(text, names, path, ours)
        if new != text:
            with open(path, "w", encoding="utf-8") as f:
                f.write(new)
            changed += 1
    print(f"respell: {changed} files changed")


if __name__ == "__main__":
    main()
