#!/usr/bin/env python3
"""Brings this repository's own definitions, lemmas, fields and local facts to the spelling of today's Rattle.

    python3 tools/respell.py          at the top of the repository, once, after the toolchain's own script

Words are in snake case, types and facts in upper camel case. A dash stays only where it joins the names of two
definitions, as in 'length-closes'. Names that Rattle makes (of goals and of steps), names of the library, functions of
src/, strings, inputs and outputs keep their spelling. It stops where two names would fall together, and prints each
name that it changed.
"""
import re
import subprocess
import sys
from pathlib import Path

WORD = r"[A-Za-z0-9_'′₁₂ℕ]+"
NAME_IN_TEXT = re.compile(r"(?<![\w'′·«-])(" + WORD + r"(?:-" + WORD + r")+)(?![\w'′·»-])")
SIGNATURE = re.compile(r"^(?:abbrev |pub |unfoldable |mutual |ruleset |axiom )*(?:data |record )?(" + WORD + r"(?:-" + WORD + r")*)(?: |$)")
FIELD = re.compile(r"^\s+(?:abbrev |pub |unfoldable |data |record )*(" + WORD + r"(?:-" + WORD + r")+) (?:\(|:)")
GOAL = re.compile(r"^(?:abbrev )?(?:pub )?(" + WORD + r"(?:-" + WORD + r")+) : goal\.")
BINDER = re.compile(r"[({]((?:" + WORD + r"(?:-" + WORD + r")* )+):")
LET = re.compile(r"\blet (" + WORD + r"(?:-" + WORD + r")+)(?: :| =)")

root = Path(".")
listed = subprocess.run(["git", "ls-files", "-co", "--exclude-standard", "crates", "README.md", "docs"], capture_output=True, text=True, check=True).stdout
files = [Path(f) for f in listed.split("\n") if f and Path(f).is_file() and "/out/" not in f]
antt = [f for f in files if f.suffix == ".antt"]
answers = {"Answers.antt", "Invariants.antt", "Proof.antt", "Choices.antt"}


def strip(line):
    at = line.find("--")
    while at >= 0:
        if at == 0 or line[at - 1] == " ":
            return line[:at]
        at = line.find("--", at + 2)
    return line


defined = {}       # old name -> set of files
plain = set()      # names without a dash, of definitions
made = set()       # names of goals
for f in antt:
    for raw in f.read_text().split("\n"):
        line = strip(raw)
        g = GOAL.match(line)
        if g:
            made.add(g.group(1))
            continue
        if re.match(r"\s*(use|pub use|open) ", line):
            continue
        m = SIGNATURE.match(line)
        if m and (":" in line or line.startswith(("data", "pub data", "record", "pub record"))):
            name = m.group(1)
            if "-" in name:
                defined.setdefault(name, set()).add(str(f))
            elif f.parent.name == "specs":
                plain.add(name)
        m = FIELD.match(line)
        if m:
            defined.setdefault(m.group(1), set()).add(str(f))
        for m in LET.finditer(line):
            defined.setdefault(m.group(1), set()).add(str(f))
        for m in BINDER.finditer(line):
            for name in m.group(1).split():
                if "-" in name:
                    defined.setdefault(name, set()).add(str(f))
for name in made:
    defined.pop(name, None)

# Names of the library that own files import stay: whatever a 'use Rattle.std' or another library's line brings in.
library = set()
for f in antt + [f for f in files if f.suffix == ".rt"]:
    for m in re.finditer(r"use ((?:Rattle\.std|Prim|borrow|logic|denote|mathlib|native|lib)[\w.·′'-]*)\.\{([^}]*)\}", f.read_text()):
        for item in m.group(2).split(","):
            library.add(item.strip().split(" as ")[0].strip())
for name in library:
    defined.pop(name, None)

def is_made(name):
    """A name that Rattle makes: of a goal, a step or a variable of a step."""
    return re.match(r"(loop|returns|in|then|else|if|overflow|bounds|invariant|decreases|offset|nonzero|slice|ghost)-", name) and name not in specs_like
specs_like = {n for n, fs in defined.items() if any("/specs/" in x or (("/proofs/" in x) and Path(x).name not in answers) for x in fs)}

known = {n for n in plain} | {n for n in library if "-" not in n} | {"length", "append", "take", "drop", "nth", "map", "reverse", "replicate", "set", "cond"}
for n, fs in defined.items():
    if any("/specs/" in x for x in fs):
        known.add(n.replace("-", "_"))


def respelled(name):
    parts = name.split("-")
    in_specs = any("/specs/" in x for x in defined[name])
    if name[0].isupper():
        if in_specs or len(parts) == 1:
            return "".join(p[0].upper() + p[1:] for p in parts)
        head = "".join(p[0].upper() + p[1:] for p in parts)
        return head
    if in_specs:
        return "_".join(parts)
    out, i = [], 0
    while i < len(parts):
        for j in range(len(parts), i, -1):
            if "_".join(parts[i:j]) in known:
                out.append(("name", "_".join(parts[i:j])))
                i = j
                break
        else:
            out.append(("word", parts[i]))
            i += 1
    text = out[0][1]
    for (a, _), (b, w) in zip(out, out[1:]):
        text += ("-" if a == "name" and b == "name" else "_") + w
    return text


renames = {n: respelled(n) for n in sorted(defined) if not is_made(n)}
renames = {a: b for a, b in renames.items() if a != b}

# Two names that fall together would mean one thing where two were meant.
seen = {}
for old, new in renames.items():
    if new in seen or new in defined or new in plain:
        sys.exit(f"fall together: {old} and {seen.get(new, new)} -> {new}")
    seen[new] = old
if "--list" in sys.argv:
    for old, new in renames.items():
        print(old, new)
    sys.exit(0)


def turned(text):
    return NAME_IN_TEXT.sub(lambda m: renames.get(m.group(1), m.group(1)), text)


def by_line(text, comment, strings):
    """Each line without its comment, and, where asked, without its string literals."""
    lines = []
    for line in text.split("\n"):
        at = len(line)
        for m in re.finditer(r"(^|(?<= ))" + comment + r"(?= |$)", line):
            at = m.start()
            break
        code = line[:at]
        if strings:
            parts = re.split(r'(b?"(?:[^"\\]|\\.)*")', code)
            code = "".join(p if i % 2 else turned(p) for i, p in enumerate(parts))
        else:
            code = turned(code)
        lines.append(code + line[at:])
    return "\n".join(lines)


for f in files:
    text = f.read_text() if f.suffix in {".antt", ".rt", ".edit", ".md"} else ""
    if f.suffix == ".antt":
        new = by_line(text, "--", False)
    elif f.suffix in {".rt", ".edit"}:
        new = by_line(text, "//", True)
    else:
        new = re.sub(r"`[^`\n]*`", lambda m: turned(m.group(0)), text)
    if new != text:
        f.write_text(new)
for old, new in renames.items():
    print(old, new)
