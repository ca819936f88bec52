#!/usr/bin/env python3
"""Old and new of each public signature with its clauses, type, definition and theorem that two commits have otherwise.

    python3 tools/sides.py OLD NEW      run at the top of the repository

Functions, types and constants are those of crates/*/src, definitions those of specs/, theorems the statements of the
public names in proofs/*.antt. White space and comments do not count.
"""
import re
import subprocess
import sys


def git(*words):
    return subprocess.run(["git", *words], capture_output=True, text=True).stdout


def files(commit, pattern):
    return [f for f in git("ls-tree", "-r", "--name-only", commit, "crates").split("\n") if re.search(pattern, f)]


def declarations(text):
    """The declarations of an antt file by name, also those in its modules without a name; local ones are left out."""
    found, name, lines, modules = {}, None, [], []
    for line in text.split("\n") + ["--"]:
        indent = len(line) - len(line.lstrip(" "))
        while line.strip() and modules and indent <= modules[-1]:
            modules.pop()
        level = modules[-1] + 2 if modules else 0
        line = line[level:] if indent >= level else line
        head = re.match(r"(?:(?:abbrev|unfoldable|pub) )*(?:record |data )?(\S+)(?: \(.*?\))* :(?: |$)", line)
        head = head or re.match(r"(?:pub )?(?:record|data) (\S+)", line)
        module = re.match(r"module _", line)
        if line.startswith(("--", "use ", "pub use ")) or head or module:
            if name:
                found.setdefault(name, "\n".join(lines).rstrip())
            name, lines = (head.group(1), [line]) if head else (None, [])
            modules += [level] if module else []
        elif name:
            lines.append(line)
    return found


def statement(text):
    """A theorem without its proof."""
    lines = text.split("\n")
    kept = lines[:1]
    for line in lines[1:]:
        if re.match(r"\S", line):
            break
        kept.append(line)
    return "\n".join(kept).rstrip()


def signatures(text):
    """The public functions of a .rt file with their clauses, and its public types and constants."""
    found = {}
    text = re.sub(r"^\s*//.*\n", "", text, flags=re.M)
    impls = [(m.start(), m.group(1)) for m in re.finditer(r"^impl(?:<[^>]*>)? ([^\n{]+) \{", text, re.M)]
    for m in re.finditer(r"^( *)pub (?:extern \"C\" )?fn (\w+)", text, re.M):
        head = []
        for line in text[m.start():].split("\n"):
            if line.strip() == "{":
                break
            head.append(line.removeprefix(m.group(1)))
            if line.rstrip().endswith("{") and "requires" not in line and "ensures" not in line:
                head[-1] = head[-1].rstrip()[:-1].rstrip()
                break
        owner = [name + "::" for start, name in impls if m.group(1) and start < m.start()][-1:]
        found["".join(owner) + m.group(2)] = "\n".join(head)
    attributes = r"((?:^#\[[^\n]*\]\n)*)"
    for kind, end in (("struct|enum|trait", r"(?:^\}|\);)\n"), ("const|type", r";\n")):
        for m in re.finditer(attributes + r"^pub (%s) (\w+)(.*?)%s" % (kind, end), text, re.M | re.S):
            if len(m.group(0)) < 2000:
                found[m.group(2) + " " + m.group(3)] = m.group(0).rstrip()
    return found


def collected(commit):
    functions, definitions, theorems = {}, {}, {}
    for f in files(commit, r"/src/.*\.rt$"):
        crate, module = f.split("/")[1], f.split("/")[-1][:-3]
        for name, text in signatures(git("show", f"{commit}:{f}")).items():
            functions[(crate + "::" + module, name)] = text
    for f in files(commit, r"/specs/.*\.antt$"):
        for name, text in declarations(git("show", f"{commit}:{f}")).items():
            definitions[(f.split("/")[1], name)] = text
    for f in files(commit, r"/proofs/[^/]+\.antt$"):
        for name, text in declarations(git("show", f"{commit}:{f}")).items():
            if re.match(r"(?:(?:abbrev|unfoldable) )?pub ", text):
                theorems[(f.split("/")[1] + "/" + f.split("/")[-1][:-5], name)] = statement(text)
    return {"Functions, types and constants": functions, "Definitions": definitions, "Theorems": theorems}


def flat(text):
    return re.sub(r"\s+", " ", text)


def main(old, new):
    before, after = collected(old), collected(new)
    for title, a in before.items():
        b = after[title]
        changed = [x for x in a if x in b and flat(a[x]) != flat(b[x])]
        gone = [x for x in a if x not in b]
        added = [x for x in b if x not in a]
        print(f"\n### {title}: {len(changed)} changed, {len(gone)} gone or moved, {len(added)} new\n")
        for x in changed:
            print(f"`{x[0]}` `{x[1]}`\n\n```text\n{a[x]}\n```\n```text\n{b[x]}\n```\n")
        for label, names, texts in (("Gone or moved", gone, a), ("New", added, b)):
            if names:
                print(f"{label}:\n")
                for x in names:
                    print(f"- `{x[0]}` `{x[1]}`: `{flat(texts[x])[:400]}`")
                print()


if __name__ == "__main__":
    main(*sys.argv[1:3])
