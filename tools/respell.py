#!/usr/bin/env python3
"""Brings the repository's own definitions, fields, constructors and lemmas to snake case: a name with a dash or an inner capital.

usage: python3 tools/respell.py      once, at the top of the repository, behind the kit's port.py

Types and modules keep their capitals, names of src/ their spelling. A name that would fall together with another of the repository's, or
with one that a file brings in from the kit, gets `_lem`, as a lemma that would have its function's name. In a comment a name with a dash is
turned only between backticks. It prints what it renamed.
"""

import collections
import os
import re
import sys

W = r"[^\s(){}.;,@\"«»\[\]\\`]+"
WORDS = re.compile(W)
USE = re.compile(r"^[ \t]*(?:pub |ghost |unfoldable )*use ([^\s{;]+?)(?:\.\{([^}]*)\})?(?: as ([^\s;]+))?;?[ \t]*$", re.M)
DEF = re.compile(
    r"^[ \t]*(?:(?:abbrev|unfoldable|pub|mutual|instance|private)[ \t]+)*(?:(?:data|record|ruleset)[ \t]+)?"
    r"(" + W + r"(?:, *" + W + r")*)[ \t]*(?:(?:\{[^}]*\}|\([^)]*\))[ \t]*)*:(?!=)",
    re.M,
)
SKIP = {"out", ".git", "target"}


def files(root, *endings):
    for folder, dirs, names in os.walk(os.path.join(root, "crates")):
        dirs[:] = sorted(d for d in dirs if d not in SKIP)
        for name in sorted(names):
            if name.endswith(endings):
                yield os.path.join(folder, name)


def read(path):
    with open(path, encoding="utf-8", newline="") as it:
        return it.read()


def code(text):
    return re.sub(r"--[^\n]*", "", text)


def turned(name):
    """The name in snake case, or the name itself: a type's or a module's name keeps its capitals."""
    if not re.match(r"[a-z]", name) or not re.search(r"-|[a-z0-9'][A-Z]", name) or re.search(r"[^\w'-]", name):
        return name
    parts = name.split("-")
    parts = [p if re.match(r"[A-Z]", p) else re.sub(r"(?<=[a-z0-9'])([A-Z])", lambda m: "_" + m[1].lower(), p) for p in parts]
    return "_".join(parts)


def is_own(path, crates):
    return path.startswith("Rattle.") and path.split(".")[1] in crates


def main():
    root = os.getcwd()
    crates = set(os.listdir(os.path.join(root, "crates")))
    own, kit, taken = set(), set(), set()
    for path in files(root, ".antt"):
        text = code(read(path))
        is_walk = re.search(r"/proofs/\+?[a-z_A-Z0-9/+]+/(Proof|Answers|Invariants)\.antt$", path)
        for m in DEF.finditer(text):
            for name in re.split(r", *", m[1]):
                (taken if is_walk else own).add(name)
        for m in USE.finditer(text):
            if not is_own(m[1], crates):
                kit |= {n.split(" as ")[0].strip() for n in (m[2] or "").split(",")}
    for path in files(root, ".rt"):
        for m in USE.finditer(read(path)):
            if not is_own(m[1], crates):
                kit |= {n.split(" as ")[0].strip() for n in (m[2] or "").split(",")}
    texts = {p: read(p) for p in files(root, ".antt", ".rt")}
    words = {p: set(WORDS.findall(code(t) if p.endswith(".antt") else t)) for p, t in texts.items()}
    together = lambda a, b: any(a in it and b in it for it in words.values())
    to, by = {}, collections.defaultdict(list)
    for name in sorted(own):
        new = turned(name)
        if new != name:
            by[new].append(name)
    for new, names in sorted(by.items()):
        names = [n for n in names if n not in kit or print(f"kept: {n}, which the kit has too")]
        # a function, by its inner capital, keeps the plain name before a lemma
        names.sort(key=lambda n: ("-" in n, n))
        if new in own and new not in kit and names and "-" not in names[0] and together(names[0], new):
            to[new] = new + "_lem"
            to[names.pop(0)] = new
        for name in names:
            others = [n for n in (*own, *kit) if n != name and (n == new or to.get(n) == new) and together(name, n)]
            to[name] = new + "_lem" * bool(others)
    sources = collections.defaultdict(list)
    for name, new in to.items():
        sources[new].append(name)
    for new, names in sorted(sources.items()):
        if any(together(a, b) for a in names for b in names if a < b):
            sys.exit(f"names fall together: {names}")
        if len(names) > 1:
            print(f"apart in every file: {', '.join(names)}")

    # a lemma that port.py turned, whose name a Rust function may have too
    plain = {n for n in to if not re.search(r"-|[A-Z]", n)}

    def word(m):
        if m[0] in plain and (is_code or m.string[: m.start()].endswith(".proofs.")):
            return m[0]
        return to.get(m[0], m[0])

    def line_of(text):
        at = text.find("--")
        head, tail = (text, "") if at < 0 else (text[:at], text[at:])
        head = WORDS.sub(word, head)
        tail = re.sub(r"`[^`]*`", lambda m: WORDS.sub(word, m[0]), tail)
        return head + WORDS.sub(lambda m: m[0] if "-" in m[0] else word(m), tail)

    for path in files(root, ".antt", ".rt"):
        text = read(path)
        is_code = path.endswith(".rt") or re.search(r"/proofs/.*/(Proof|Answers|Invariants)\.antt$", path)
        if path.endswith(".antt"):
            new = "\n".join(map(line_of, text.split("\n")))
        else:
            new = WORDS.sub(word, text)
        if new != text:
            with open(path, "w", encoding="utf-8", newline="") as it:
                it.write(new)
    for name in sorted(to):
        print(f"{name} -> {to[name]}")
    print(f"{len(to)} names")


if __name__ == "__main__":
    main()
