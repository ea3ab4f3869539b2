#!/usr/bin/env python3
"""Counts the places of older forms in crates/*/src, point by point.

    python3 tools/forms.py            counts, a line for each point
    python3 tools/forms.py -l         each place, by its file and line
    python3 tools/forms.py -l 3       those of one point

A place that a pattern finds is a place to look at, and docs/DESIGN-PASS.md says what became of it. It goes by the text, so it also lists what
is meant to stay. A number for a kind counts where it is declared: in a struct, a constant or a public function; private functions only pass it on. The allocator
`heap` is handed to each function that allocates, as the language asks, and is no parameter that travels with another. Points: 1 own Options and Results, flags, numbers for kinds; 2 twins; 3 loops counted by hand; 4 equality, copying, conversion
and printing by hand; 5 facts and parameters that are repeated; 6 buffers with lengths, parallel arrays; 7 switches on a step.
"""
import re
import subprocess
import sys
from collections import defaultdict

FILES = subprocess.run(["git", "ls-files", "crates/*/src/*.rt"], capture_output=True, text=True, check=True).stdout.split()


def numbered(text):
    return list(enumerate(text.split("\n"), 1))


def functions(text):
    """Each function: its name, line, parameters, result, clauses and body."""
    found = []
    for m in re.finditer(r"^( *)(?:pub(?:\(crate\))? )?(?:extern \"C\" )?fn (\w+)", text, re.M):
        indent = m.group(1)
        rest = text[m.start():]
        end = re.search(r"^%s\}" % indent, rest, re.M)
        semi = re.search(r";\n", rest)
        one = rest.split("\n", 1)[0]
        if one.endswith("}") and "{" in one and "ensures" not in one:
            body_end = len(one)
        else:
            body_end = end.end() if end else (semi.end() if semi else len(rest))
        whole = rest[:body_end]
        head = re.split(r"\n%s\{\n" % indent, whole, maxsplit=1)
        signature = head[0]
        body = head[1] if len(head) > 1 else ""
        line = text[: m.start()].count("\n") + 1
        params = re.search(r"\((.*?)\)(?: -> |\s*$|\n| \{)", signature, re.S)
        clauses = re.findall(r"(requires|ensures)( \w+)? \{ (.*) \}$", signature, re.M)
        found.append((m.group(2), line, params.group(1) if params else "", signature, clauses, body))
    return found


def shape(body):
    """A body with its names, numbers and strings left out, to find twins."""
    body = re.sub(r"//.*", "", body)
    body = re.sub(r"\"[^\"]*\"|b?'[^']*'|\b0[ox][0-9a-fA-F]+\b|\b\d+\b", "#", body)
    body = re.sub(r"\b(?!fn|let|mut|match|if|else|for|in|while|loop|return|Ok|Err|Some|None|self|Self\b)[A-Za-z_]\w*", "n", body)
    return re.sub(r"\s+", " ", body).strip()


places = defaultdict(list)


def note(point, path, line, what):
    places[point].append((path, line, what))


texts = {path: open(path).read() for path in FILES}
by_shape = defaultdict(list)
by_name = defaultdict(list)
clause_uses = defaultdict(set)
together = defaultdict(set)

for path, text in texts.items():
    # 1: variants and types
    for m in re.finditer(r"^(?:pub )?enum (\w+)[^{]*\{(.*?)^\}", text, re.M | re.S):
        variants = re.findall(r"^\s+(\w+)(\([^)]*\))?,", m.group(2), re.M)
        names = [v for v, _ in variants]
        line = text[: m.start()].count("\n") + 1
        bare = {"Absent", "Nothing", "Finished", "Zero", "None", "Empty"} & set(names)
        if bare and not m.group(1).endswith("Fault"):
            note(1, path, line, f"enum {m.group(1)}: the variant {sorted(bare)[0]} stands for nothing")
        elif {"Refused", "Failed"} & set(names) and len(names) == 2:
            note(1, path, line, f"enum {m.group(1)}: a result or a refusal")
    for n, row in numbered(text):
        if re.match(r"\s*pub (kind|form|what|mission|turners|code|band|codes): (\[?u8.*|u\d+),", row):
            note(1, path, n, "a number for a kind, in a struct: " + row.strip())
        if re.match(r"\s*pub \w+: bool,", row):
            note(1, path, n, "a flag in a struct: " + row.strip())
        if re.match(r"pub const \w+: u\d+ = (0o|u64::MAX)", row):
            note(1, path, n, "a number for a kind or a failure: " + row.strip())
    # 3: loops
    for n, row in numbered(text):
        if re.match(r"\s*(while|loop)\b", row):
            note(3, path, n, row.strip())
        elif re.search(r"for \w+ in \w[\w.]*\.\.[\w.]", row):
            note(3, path, n, row.strip())
    for name, line, params, signature, clauses, body in functions(text):
        public = re.match(r"\s*pub (?:extern \"C\" )?fn", signature)
        numbers = re.findall(r"\b(kind|form|what|mission|turners|code|band): u\d+", params)
        if public and numbers:
            note(1, path, line, f"numbers for kinds, asked of callers: {name}({', '.join(numbers)})")
        for m in re.finditer(r"for [^{]+ in [^{]+\{\n(.*?)\n( +)\}", body, re.S):
            if re.search(r"^\s+(count|sum|mask|place|blocks|before|all) (\+|\|)= |^\s+(place|sum|before) = ", m.group(1), re.M) and not re.search(r" in \w[\w.]*\.\.", m.group(0).split("{")[0]):
                note(3, path, line, f"a sum kept by hand in {name}")
        # 4: conversions by hand: a body that is one match on the parameter, from or to a plain value
        flat = body.strip()
        one = re.match(r"match (\(?[\w., ]+\)?|\*?self) \{.*\}\s*\}?$", flat, re.S)
        result = re.search(r"-> (.*?)\n", signature + "\n")
        result = result.group(1) if result else ""
        by = re.match(r"\w+: (u8|u16|u32|char|\(u8, u8\))$", params.strip()) or re.match(r"\w+: u8, \w+: u8$", params.strip())
        if one and ("&'static str" in result or by or re.match(r"u(8|32)$", result) and params.strip() == "self"):
            note(4, path, line, f"{name}: {params.strip()} -> {result}")
        elif one and re.match(r"(self|\w+: [A-Z]\w+)$", params.strip()) and re.match(r"[A-Z(]", result) and not result.startswith(("Result<Str", "Option", "Result<Turned")):
            note(4, path, line, f"{name}: {params.strip()} -> {result}")
        # 2: twins by the shape of their bodies
        key = shape(body)
        if len(key) > 60 and "::tests" not in path:
            by_shape[key].append((path, line, name))
        by_name[name].append((path, line, shape(body), len(key)))
        # 5: clauses and parameters that are repeated
        for kind, _, clause in clauses:
            clause_uses[clause.strip()].add((path, line, name))
        ps = [p.strip() for p in re.sub(r"\s+", " ", params).split(",") if ":" in p]
        ps = [p for p in ps if not p.startswith(("buffer:", "rt:", "heap:"))]
        for i in range(len(ps)):
            for j in range(i + 1, len(ps)):
                together[(ps[i], ps[j])].add((path, line, name))
    for n, row in numbered(text):
        if re.match(r"\s*impl(<[^>]*>)? (PartialEq|Eq|Ord|PartialOrd|Clone|Default)\b", row):
            note(4, path, n, row.strip())
    # 6: buffers and tables
    for m in re.finditer(r"^(?:pub )?struct (\w+)[^{;]*\{(.*?)^\}", text, re.M | re.S):
        line = text[: m.start()].count("\n") + 1
        fields = re.findall(r"^\s+(?:pub )?(\w+): ([^,\n]+(?:; \w+\])?),", m.group(2), re.M)
        arrays = [f for f, t in fields if t.startswith("[") and not t.startswith("[u8; 18") and "LONGEST" not in t and "LENGTH" not in t]
        counts = [f for f, t in fields if t == "usize"]
        vecs = [f for f, t in fields if t.startswith("Vec<")]
        if arrays and counts:
            note(6, path, line, f"struct {m.group(1)}: {', '.join(arrays)} with {', '.join(counts)} beside")
        elif len(arrays) > 1 or len(vecs) > 1:
            note(6, path, line, f"struct {m.group(1)}: {', '.join(arrays or vecs)} side by side")
    for m in re.finditer(r"^\s+Record\(usize, usize\)", text, re.M):
        note(6, path, text[: m.start()].count("\n") + 1, "a place with a length beside it, in place of a slice")
    # 7: switches
    for n, row in numbered(text):
        m = re.match(r"\s*(?:let .* = )?match (\w+|\w+\.what|run\.image) \{", row)
        if m and (m.group(1) in ("ask.what", "run.image") or re.search(r"\b%s: (u8|&str)\b" % m.group(1), text)) and m.group(1) not in ("digit", "letter", "code", "band"):
            note(7, path, n, row.strip())
        if re.search(r"\bfn\(", row):
            note(7, path, n, row.strip())

for key, uses in by_shape.items():
    if len(uses) > 1:
        path, line, name = uses[0]
        note(2, path, line, "one shape: " + ", ".join(f"{n} ({p.split('/')[1]})" for p, _, n in uses))
for name, uses in by_name.items():
    for i in range(1, len(uses)):
        if uses[i][2] and uses[i][2] == uses[0][2] and uses[0][3] <= 60 and uses[i][0] != uses[0][0] and uses[0][3] > 10:
            note(2, uses[i][0], uses[i][1], f"{name}, as in {uses[0][0]}")
enums = defaultdict(list)
for path, text in texts.items():
    for m in re.finditer(r"^(?:pub )?enum (\w+)[^{]*\{(.*?)^\}", text, re.M | re.S):
        names = tuple(sorted(v for v in re.findall(r"^\s+(\w+)(?:\([^)]*\))?,", m.group(2), re.M) if v != "Absent"))
        enums[names].append((path, text[: m.start()].count("\n") + 1, m.group(1)))
for names, uses in enums.items():
    if len(uses) > 1:
        note(2, uses[0][0], uses[0][1], "enums of the same cases: " + ", ".join(n for _, _, n in uses))
consts = defaultdict(list)
for path, text in texts.items():
    for m in re.finditer(r"const (\w+): \w+ = ([^;]+);", text):
        consts[(m.group(1), m.group(2))].append(path)
for (name, value), uses in consts.items():
    if len(uses) > 1:
        note(2, uses[1], 0, f"the constant {name} stands {len(uses)} times")
for clause, uses in clause_uses.items():
    about = re.sub(r"\s+", " ", clause)
    if len(uses) >= 3:
        path, line, name = sorted(uses)[0]
        note(5, path, line, f"{len(uses)} times: {about}")
for pair, uses in together.items():
    if len(uses) >= 3:
        path, line, name = sorted(uses)[0]
        note(5, path, line, f"{len(uses)} functions: {pair[0]}, {pair[1]}")

listing = "-l" in sys.argv
only = [int(a) for a in sys.argv[1:] if a.isdigit()]
for point in only or range(1, 8):
    found = sorted(places[point], key=lambda p: (FILES.index(p[0]), p[1]))
    print(f"point {point}: {len(found)}")
    if listing:
        for path, line, what in found:
            print(f"  {path}:{line}: {what}")
