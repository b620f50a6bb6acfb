#!/usr/bin/env python3
"""The places of each point of docs/DESIGN-PASS.md in crates/*/src, counted: python3 tools/places.py [TREE]"""
import pathlib
import re
import sys

TREE = pathlib.Path(sys.argv[1] if len(sys.argv) > 1 else ".")
FILES = sorted(TREE.glob("crates/*/src/**/*.rt"))
CODE = {}
for file in FILES:
    lines = file.read_text(encoding="utf-8").split("\n")
    CODE[str(file.relative_to(TREE))] = [re.sub(r"//.*", "", line) for line in lines]


def items(word):
    """Each item `word NAME .. { .. }` as (file, line, name, text of its braces or parentheses)."""
    for file, lines in CODE.items():
        text = "\n".join(lines)
        for m in re.finditer(r"\b" + word + r" (\w+)", text):
            start = m.end()
            brace = text.find("(" if word == "fn" else "{", start)
            if brace < 0 or (word != "fn" and ";" in text[start:brace]):
                continue
            depth, end = 0, brace
            while end < len(text):
                depth += text[end] in "({["
                depth -= text[end] in ")}]"
                end += 1
                if depth == 0:
                    break
            yield file, text.count("\n", 0, m.start()) + 1, m.group(1), text[brace + 1:end - 1]


def parts(body):
    """What commas part at the outermost level."""
    out, depth, part = [], 0, ""
    for c in body:
        depth += c in "({[<"
        depth -= c in ")}]>"
        if c == "," and depth == 0:
            out.append(part.strip())
            part = ""
        else:
            part += c
    return [p for p in out + [part.strip()] if p]


def matches(pattern):
    return [(f, i + 1, l.strip()) for f, ls in CODE.items() for i, l in enumerate(ls) if re.search(pattern, l)]


def show(title, rows):
    print(f"{title}: {len(rows)}")
    for row in rows:
        print("    " + " ".join(str(x) for x in row))


enums = [(f, n, name, " | ".join(parts(body))) for f, n, name, body in items("enum")]
show("1 enums (of the shape of Option or Result: by eye)", enums)
structs = list(items("struct"))
show("1 flags in structs", [(f, n, name + "." + p.replace("pub ", "").split(":")[0]) for f, n, name, body in structs
                            for p in parts(body) if p.endswith(": bool")])
show("1 numbers of classes and states", matches(r"^pub const [A-Z_]+: u8 = \d+;"))
show("1 kinds and rules by number", [(f, n, name) for f, n, name, body in items("fn")
                                     if re.search(r"\b(rank|rule|refusal): (u8|usize|u64)|j: u8, k: u8", body)])
show("1 the kind of text by a flag", [(f, n, name) for f, n, name, body in items("fn") if re.search(r"\bslip: bool", body)])
show("3 loops by while", matches(r"^\s*while "))
show("4 by hand what the library or a derive does", matches(
    r"\bfn (at_most|left_over|larger|down|find|copy|is_digit|same_bytes|same|same_kind|same_integer|number|rank|kind_at\(i"
    r"|choose\(on|choose_bool|used|cap|whole_of)\b"))
show("4 calls of at_most and left_over", matches(r"(?<!fn )\b(at_most|left_over)\("))
show("5 functions of seven parameters or more", [(f, n, name, len(parts(body))) for f, n, name, body in items("fn")
                                                 if len(parts(body)) >= 7])
show("5 row and texts side by side", [(f, n, name) for f, n, name, body in items("fn")
                                      if re.search(r"row: &[^,]*, *\s*texts: &", body)])
show("5 out and at side by side", [(f, n, name) for f, n, name, body in items("fn")
                                   if re.search(r"out: &mut \[u8\], *\s*at: usize", body)])
show("6 arrays with a count beside them", [(f, n, name) for f, n, name, body in structs
                                           if re.search(r"\bn: usize", body) and re.search(r": \[", body)])
show("6 parallel arrays", [(f, n, name) for f, n, name, body in structs if body.count(": [") > 1])
show("7 a switch on which step to run", matches(r"match rule\b(?!\.)|\bif slip \{|^\s*if s\.writing\b|BRINGS: "))
