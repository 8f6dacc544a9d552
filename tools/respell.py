#!/usr/bin/env python3
"""Brings the repository's own definitions and lemmas to the spelling of the Rattle that docs/PORT.md names: words in snake case, a dash only between
the names of two definitions, types as they are.

usage: python3 tools/respell.py [--dry]      at the top, once, right behind the kit's port.py

A definition loses its capitals (cropNeed: crop_need). A lemma's or a field's dash stays between two names (length-encode) and else becomes an
underscore (first-that-holds: first_that_holds). A lemma that would get a definition's name gets `_lem` behind it. Names of src/, of std and of
what the check makes keep their spelling, and so does all prose outside backquotes.
"""
import os
import re
import sys

DRY = "--dry" in sys.argv
ID = r"[^\W\d][\w']*(?:-[\w']+)*"
TOKEN = re.compile(r"(?<![\w'-])" + ID, re.U)
DECL = re.compile(r"^\s*(?:unfoldable |abbrev |pub )*([a-z][\w']*(?:-[\w']+)*) :(?!:)", re.U)
USE = re.compile(r"\buse ([\w.']+(?:-[\w']+)*)\.\{([^}]*)\}", re.U)
# words of std that lemmas of ours are made of
STD = set("length take drop map sum append replicate get_or set min max suc concat".split())
OURS = [d for d in os.listdir("crates") if os.path.isdir(os.path.join("crates", d))]


def files():
    for top in ("crates", "docs"):
        for folder, dirs, names in os.walk(top):
            dirs[:] = sorted(d for d in dirs if d not in ("out", "changes", "data"))
            for n in sorted(names):
                if n.endswith((".antt", ".rt", ".edit", ".md")):
                    yield os.path.join(folder, n)
    yield "README.md"


def snake(word):
    return re.sub(r"(?<=[a-z0-9'])([A-Z])", lambda m: "_" + m.group(1).lower(), word)


texts = {}
for p in files():
    with open(p, encoding="utf-8") as f:
        texts[p] = f.read()


def made(p):
    return p.endswith("Proof.antt")


declared, theirs, specs = {}, set(), set()
for p, t in texts.items():
    if p.endswith(".antt"):
        for m in USE.finditer(t):
            first = m.group(1).split(".")
            if not (first[0] == "Rattle" and first[1] in OURS):
                theirs.update(x.strip() for x in m.group(2).split(","))
        if made(p):
            continue
        for line in t.split("\n"):
            m = DECL.match(line)
            if m:
                declared.setdefault(m.group(1), set()).add(p)
                if "/specs/" in p and line[0] != " ":
                    specs.add(snake(m.group(1)))


def is_name(w):
    return w in STD or (w in specs and ("_" in w or w in ("encode", "decode", "joined", "plan")))


def spelled(n):
    parts = [snake(x) for x in n.split("-")]
    out = parts[0]
    for a, b in zip(parts, parts[1:]):
        out += ("-" if is_name(a) and is_name(b) else "_") + b
    return out


new = {n: spelled(n) for n in declared if n not in theirs}
new = {a: b for a, b in new.items() if a != b}
definitions = {b for a, b in new.items() if "-" not in a}
seen = set()
for p, t in texts.items():
    if p.endswith(".antt") and not made(p):
        for line in t.split("\n"):
            seen.update(TOKEN.findall(line.split("--")[0]))
# a lemma with a definition's name, also one that port.py had spelled already
for a, b in list(new.items()):
    if "-" in a and (b in definitions or b in seen or b in theirs):
        new[a] = b + "_lem"
fields = set(w for p, t in texts.items() if p.endswith(".rt") for w in re.findall(r"\w+", t))
for b in sorted(definitions - fields):
    if b in declared and b not in new:
        new[b] = b + "_lem"
back = {}
for a, b in new.items():
    back.setdefault(b, []).append(a)
bad = [(b, a) for b, a in back.items() if len(a) > 1] + [(b, [a]) for a, b in new.items() if b in seen and b not in new]
for b, a in sorted(bad):
    print("look:", a, "->", b, [sorted(declared[x])[0] for x in a])
lem = sorted((a, b) for a, b in new.items() if b.endswith("_lem"))
print(len(declared), "declared,", len(new), "respelled,", len(lem), "lemmas with a definition's name,", len(bad), "to look at;",
      len([n for n in declared if n in theirs and spelled(n) != n]), "kept that std has")
if DRY:
    for a, b in lem:
        print("  ", a, b)
    for n in sorted(declared):
        if n in theirs and spelled(n) != n:
            print("   std's:", n, sorted(declared[n]))
    sys.exit(0)


def turn(text, dashed=True):
    return TOKEN.sub(lambda m: new.get(m.group(0), m.group(0)) if dashed or "-" not in m.group(0) else m.group(0), text)


def quoted(text, dashed=True):
    parts = re.split(r"(`[^`]*`)", text)
    return "".join(turn(x) if x.startswith("`") else (x if not dashed else x) for x in parts)


def line_of(p, line):
    if p.endswith(".md"):
        return quoted(line)
    if p.endswith(".edit"):
        return quoted(line) if line.startswith("#") else line
    mark = "--" if p.endswith(".antt") else "//"
    code, sep, said = line.partition(mark)
    if p.endswith(".antt"):
        return turn(code) + sep + quoted(said)
    return turn(code, False) + sep + quoted(said)


changed = 0
for p, t in texts.items():
    if p.endswith(".edit"):
        at_antt = ".antt" in "".join(x for x in t.split("\n") if x.startswith("file:"))
        lines = []
        for x in t.split("\n"):
            lines.append(quoted(x) if x.startswith("#") else turn(x, at_antt) if x.startswith(("old:", "new:")) else x)
        u = "\n".join(lines)
    else:
        u = "\n".join(line_of(p, x) for x in t.split("\n"))
    if u != t:
        changed += 1
        with open(p, "w", encoding="utf-8") as f:
            f.write(u)
print(changed, "files")
