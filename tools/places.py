#!/usr/bin/env python3
"""Places that the points of docs/DESIGN-PASS.md look for in crates/*/src: `python3 tools/places.py` prints how many each pattern finds,
with an argument (a pattern's name) where they stand. What a pattern finds is a place to look at, not always one to change."""
import glob
import re
import sys

FILES = sorted(glob.glob("crates/*/src/**/*.rt", recursive=True))
FUNCTION = re.compile(r"^ *(?:pub )?(?:extern \"C\" )?fn (\w+)[^\n]*(?:\n(?!\s*\{)[^\n]*)*?\n? *\{\n|^ *(?:pub )?fn (\w+)[^{;]*\{", re.M)


def functions(text):
    """Name, line, head (signature and clauses) and body of each function."""
    lines = text.split("\n")
    found = []
    i = 0
    while i < len(lines):
        m = re.match(r"^( *)(?:pub(?:\([a-z]+\))? )?(?:const )?(?:extern \"C\" )?fn (\w+)", lines[i])
        if not m:
            i += 1
            continue
        indent = m.group(1)
        j = i
        while j < len(lines) and not (lines[j] == indent + "{" or lines[j].endswith("{")) and not lines[j].endswith(";"):
            j += 1
        k = j
        while k < len(lines) and lines[k] != indent + "}":
            k += 1
        found.append((m.group(2), i + 1, "\n".join(lines[i:j + 1]), "\n".join(lines[j + 1:k])))
        i = k + 1
    return found


def parameters(head):
    """The parameters of a signature, as `name: type`."""
    m = re.search(r"fn \w+(?:<[^>(]*(?:\([^)]*\)[^>(]*)*>)?\((.*?)\)\s*(?:->|requires|ensures|\{|$)", head, re.S)
    inner = m.group(1) if m else ""
    return [re.sub(r"&'\w+ ", "&", p.strip()) for p in re.split(r",\s*(?![^<(]*[>)])", inner) if p.strip()]


def shape(body):
    """A body with each name, number and text put as one sign: two functions of one shape differ in these alone."""
    body = re.sub(r"//[^\n]*", "", body)
    body = re.sub(r"b?'(?:\\.|[^'\\])'|b?\"[^\"]*\"|\b\d\w*\b", "#", body)
    keep = {"let", "mut", "if", "else", "while", "loop", "for", "in", "return", "match", "as"}
    body = re.sub(r"\b[A-Za-z_]\w*\b", lambda m: m.group(0) if m.group(0) in keep else "x", body)
    return re.sub(r"\s+", " ", body).strip()


def conjuncts(head):
    """The parts of each requires clause, each by its first word and its arguments' count."""
    parts = []
    for m in re.finditer(r"requires(?: \w+)? \{(.*?)\}\s*(?=\n|$)", head, re.S):
        depth, part = 0, ""
        for c in re.sub(r"\s+", " ", m.group(1)):
            depth += c in "([" and 1 or c in ")]" and -1 or 0
            if c == "×" and depth == 0:
                parts.append(part.strip())
                part = ""
            else:
                part += c
        parts.append(part.strip())
    return parts


def main():
    finds = {}

    def found(name, path, line, text):
        finds.setdefault(name, []).append(f"{path}:{line}: {text.strip()}")

    shapes, facts, together = {}, {}, {}
    for path in FILES:
        text = open(path).read()
        for n, line in enumerate(text.split("\n"), 1):
            if re.match(r"^\s*(pub )?enum ", line):
                found("1 enum", path, n, line)
            if re.match(r"^\s+(pub )?(ok|formed|ended|off|last|question|met): (bool|usize)", line):
                found("1 flag or number in a struct", path, n, line)
            if re.search(r"Refused\(", line):
                found("1 refusal of an own enum", path, n, line)
            if re.search(r"(return|=>) 1?[0-9][;,]|^ +1?[0-9]$|\bq != 0|question != 0", line):
                found("1 number handed back or tested", path, n, line)
            if re.match(r"^\s*(while |loop \{)", line):
                found("3 while or loop", path, n, line)
            if re.match(r"^\s*(\w+) \+= 1;|^\s*(\w+) = \2 \+ 1;", line):
                found("3 index or count stepped", path, n, line)
            if re.match(r"^\s+(\w+): \w+\.\1,$", line):
                found("4 field copied to a field of its name", path, n, line)
            if re.match(r"^\s+(\w+): \1,$", line):
                found("4 field written twice", path, n, line)
            if re.search(r"\[usize; MOST_NAMES\]|: Places|&'a Places", line):
                found("6 parallel arrays", path, n, line)
        for name, n, head, body in functions(text):
            ps = parameters(head)
            names = [p.split(":")[0] for p in ps]
            types = {p.split(":")[0]: p.split(":")[-1].strip() for p in ps if ":" in p}
            if re.search(r"->\s*usize", head) and re.search(r"question|unmet|Told|Read n|questions8and9|only_comments", head):
                found("1 function that hands back a question's number", path, n, name)
            if len(re.findall(r"if !?[^\n]*\{\n\s*return (?:false|true);", body)) > 0:
                found("4 test that returns true or false", path, n, name)
            if "s" in names and "a" in names and "b" in names:
                found("6 a part as (s, a, b)", path, n, name)
            if "out" in names and "at" in names or "text" in names and "at" in names:
                found("6 a place in a buffer as (out, at)", path, n, name)
            if "cells" in names and "n" in names or "digits" in names and "n" in names or "bytes" in names and "n" in names:
                found("6 a length beside a buffer", path, n, name)
            for a, b in (("ws", "ix"), ("start", "size"), ("file", "own"), ("ws", "tree")):
                if a in names and b in names:
                    together.setdefault((a, b), []).append((path, n, name))
            for p in set(re.sub(r"\s+", " ", re.sub(r"\w+\.(now|old)", "v", c)) for c in conjuncts(head)):
                if p and not re.match(r"^\(?(\d|v|\w+) ?[≤<≡]", p) and not re.match(r"^\(?\w+ \+", p):
                    facts.setdefault(p.split()[0].strip("("), set()).add((path, n, name))
            if re.search(r"match (r|g|y|k|self\.rule|c\.group) \{|: bool\b", head + body) and re.search(r"\brising\b|match (r|g|y|k) \{", head + body):
                found("7 switch on a number or a flag", path, n, name)
            s = shape(body)
            if len(s) > 60:
                shapes.setdefault(s, []).append((path, n, name))
    for s, fs in shapes.items():
        if len(fs) > 1:
            found("2 bodies of one shape", fs[0][0], fs[0][1], ", ".join(f"{p.split('/')[1]}::{f}" for p, _, f in fs))
    for w, fs in sorted(facts.items()):
        if len(fs) >= 3:
            found("5 fact required by three functions or more", "", len(fs), w)
    for (a, b), fs in together.items():
        for p, n, f in fs:
            found("5 parameters that travel together", p, n, f"{f} ({a}, {b})")
    for name in sorted(finds):
        print(f"{len(finds[name]):5} {name}")
        if len(sys.argv) > 1 and sys.argv[1] in name:
            print("\n".join("      " + x for x in finds[name]))


main()
