#!/usr/bin/env python3
"""Lists the places of src/ whose form docs/DESIGN-PASS.md speaks of: run at the top of the repository.

    python3 tools/forms.py          how many of each kind
    python3 tools/forms.py KIND     the places of one kind

Kinds: enums, flags, codes, twins, loops, counted, matches, facts, parameters. What a line stands for is decided by
reading it; docs/DESIGN-PASS.md says which count.
"""
import difflib
import glob
import re
import sys

KEYWORDS = set("""as break const continue else enum fn for if impl in let loop match mod mut pub ref return self Self struct
trait true false type unsafe use where while requires ensures""".split())


def sources():
    return sorted(glob.glob("crates/*/src/*.rt"))


def code(path):
    """The lines of a file without comments and string bodies, so that words in texts do not count."""
    text = open(path, encoding="utf-8").read()
    text = re.sub(r'b?"(?:[^"\\]|\\.)*"', lambda m: '""' + "\n" * m.group(0).count("\n"), text, flags=re.S)
    return [re.sub(r"//.*", "", line) for line in text.split("\n")]


def grep(pattern, where=lambda path: True):
    found = []
    for path in sources():
        if where(path):
            for n, line in enumerate(code(path), 1):
                if re.search(pattern, line):
                    found.append(f"{path}:{n}: {line.strip()}")
    return found


def block_end(text, i):
    """The place of the brace that closes the one at i."""
    depth = 0
    for j in range(i, len(text)):
        depth += {"{": 1, "}": -1}.get(text[j], 0)
        if depth == 0:
            return j
    return len(text)


def functions():
    """Each function: file, line, name, the text up to its body, and the body."""
    found = []
    for path in sources():
        lines = code(path)
        text = "\n".join(lines)
        for m in re.finditer(r"\bfn (\w+)", text):
            inner = re.compile(r"\n\s*\{\n|\) (?:-> [^\n{]+ )?\{\n").search(text, m.start())
            if not inner:
                continue
            i = text.find("{", inner.start())
            line = text.count("\n", 0, m.start()) + 1
            found.append((path, line, m.group(1), text[m.start():i], text[i:block_end(text, i) + 1]))
    return found


def shape(body):
    tokens = re.findall(r"[A-Za-z_]\w*|\d\w*|\S", body)
    return [t if t in KEYWORDS or not re.match(r"\w", t) else ("0" if t[0].isdigit() else "x") for t in tokens]


def twins():
    all_of = [(f, shape(f[4])) for f in functions()]
    all_of = [(f, s) for f, s in all_of if len(s) >= 24]
    found = []
    for i, (f, s) in enumerate(all_of):
        for g, t in all_of[i + 1:]:
            if abs(len(s) - len(t)) <= 0.1 * len(s):
                same = difflib.SequenceMatcher(None, s, t, autojunk=False)
                if same.real_quick_ratio() > 0.92 and same.quick_ratio() > 0.92 and same.ratio() > 0.92:
                    found.append(f"{f[0]}:{f[1]} {f[2]} ~ {g[0]}:{g[1]} {g[2]}")
    return found


def loops():
    """Every loop that is no `for`."""
    return grep(r"^\s*(while\b|loop\b|let \w+ = loop\b)")


def counted():
    """Those of them that add 1 to, or take 1 from, what the condition compares."""
    found = []
    for path, line, name, head, body in functions():
        for m in re.finditer(r"while ([^\n{]+)\{", body):
            names = set(re.findall(r"[a-z_]\w*", m.group(1)))
            i = m.end() - 1
            moved = set(re.findall(r"\b([a-z_]\w*) [+-]= 1;", body[i:block_end(body, i)]))
            if names & moved:
                found.append(f"{path}: {name}: while {m.group(1).strip()}")
    return found


def matches():
    """A match with every arm a literal true or false, and small functions that a library method is."""
    found = []
    for path, line, name, head, body in functions():
        arms = re.findall(r"=> ([^,{\n]+),", body)
        if len(arms) >= 2 and all(a.strip() in ("true", "false") for a in arms):
            found.append(f"{path}:{line} {name}: a match of truths")
        if re.fullmatch(r"\{\s*if (\w+) < (\w+) \{\s*(return )?\w+;?\s*\}\s*(else \{ )?\w+\s*\}?\s*\}", body.strip()):
            found.append(f"{path}:{line} {name}: least or largest")
        if re.fullmatch(r"\{\s*if a \{ (true|b) \} else \{ (b|false) \}\s*\}", body.strip()):
            found.append(f"{path}:{line} {name}: and, or")
    return found


def facts():
    """Facts over one value in the `requires` of three or more functions of a crate."""
    count = {}
    for path in sources():
        text = open(path, encoding="utf-8").read()
        for m in re.finditer(r"requires (?:\w+ )?\{ ([A-Z]\w+(?: [\w.]+)+|[a-z_]\w* \w+ ≡ [a-z_]\w* [\w.]+|\(\w+ ≡ \d+\) ⊎ \(\w+ ≡ \d+\)|\w+ ≡ true) \}", text):
            key = (path.split("/")[1], m.group(1))
            count[key] = count.get(key, 0) + 1
    return [f"{c}: {fact}: {n}" for (c, fact), n in sorted(count.items()) if n >= 3]


def parameters():
    """Four parameters or more, of the same names, in a row in three or more functions of a crate."""
    count = {}
    for path, line, name, head, body in functions():
        names = [p for p in re.findall(r"(\w+): ", head.split(")")[0])]
        for size in (3, 4, 5):
            for i in range(len(names) - size + 1):
                key = (path.split("/")[1], " ".join(names[i:i + size]))
                count.setdefault(key, set()).add(name)
    keys = [k for k in count if len(count[k]) >= 3]
    longest = [k for k in keys if not any(k != o and k[0] == o[0] and k[1] in o[1] and count[k] <= count[o] for o in keys)]
    return [f"{c}: {names}: {len(count[(c, names)])}" for c, names in sorted(longest)]


KINDS = {
    "enums": lambda: grep(r"^\s*(pub |pub\(crate\) )?enum \w+"),
    "flags": lambda: grep(r"^\s*pub has_\w+: bool"),
    "codes": lambda: grep(r"^(pub )?const [A-Z_0-9]+: (usize|u32|u64) = ", lambda p: "leaves" not in p)
    + grep(r"\b(refusal|number|outcome|status|fault|kind)\b: u32")
    + grep(r"fn \w*(number|fault|outcome|mode_of|answer_of)\w*\b.*-> (usize|u32)"),
    "twins": twins,
    "loops": loops,
    "counted": counted,
    "matches": matches,
    "facts": facts,
    "parameters": parameters,
}

if __name__ == "__main__":
    if len(sys.argv) > 1:
        print("\n".join(KINDS[sys.argv[1]]()))
    else:
        for kind, places in KINDS.items():
            print(f"{kind}: {len(places())}")
