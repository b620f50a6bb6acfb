#!/usr/bin/env python3
"""Spells the names that this repository declares in specs/ and proofs/ in snake case: `all-mem` and `answerOf` become `all_mem` and `answer_of`.

usage: spell_names.py [--check]     at the top of the repository

It turns the .antt files, the clauses and ghost items of the .rt files, code spans of comments and pages, and the texts of must-fail and wrong edits.
Names that Rattle makes (`returns-2`, `in-Ok`, a goal's) and those of its library stay, and so do names of Rust. Two names that would fall together are told
apart by `_lem` at the one that had a dash. What a file imports from a library keeps its spelling there.
"""
import collections
import os
import re
import sys

NAME = r"[A-Za-z_0-9'₀-₉?≢≡≤<>ᴰℕ+*∷∪∩⊆∈-]+"
WORD = re.compile(r'[^\s(){}.;,@"«»`]+')
UNQUALIFIED = re.compile(r'(?<![^\s(){};,@«»])[^\s(){}.;,@"«»`]+')
QUIET = re.compile(r'"(?:[^"\\\n]|\\.)*"|(?<![^\s(){}.;,@"«»])--[^\n]*|\{-.*?-\}', re.S)
USE = re.compile(r"\buse ([^\s;{]+)(\{[^;]*?\}(?=;|[ \t]*$))?", re.M)
DECL = re.compile(r"(?m)^[ \t]*(?:(?:abbrev|unfoldable|pub|mutual|private|where|let|instance|ghost) +)*([^\s:(){}]+)(?: \{[^{}\n]*\})* :(?= |$)")
HEADS = re.compile(r"(?m)^[ \t]*(?:pub )?(?:data|record|ruleset|module) +([^\s:(){}]+)")
TIED = re.compile(r"(?m)^ *(?:abbrev |pub )*(\S+)(?: \{[^{}\n]*\})* : (?:tie|goal)\.(\S+)")
CLAUSES = re.compile(r"(?:requires|ensures)\s*\*?\s*(?:\w+\s*)?\{|ghost\s*(?:\w+\s*(?::\s*(?:(?:owns|lends)\s*)?|=\s*))?\{")
GHOST_USE = re.compile(r"ghost\s+use\b[^;]*;")
SPAN = re.compile(r"`[^`\n]+`")

# Lemmas that port.py had respelled already, each spelled as the definition that its files use beside it is now.
BESIDE = {
    "all_lines": ["overlap_list/proofs/Lists.antt", "overlap_list/proofs/Rules.antt"],
    "go_on": ["match_rules/proofs/Agree.antt"],
    "in_field": ["overlap_spec/proofs/Variables.antt"],
    "is_digit": ["text_scan/proofs/Runs.antt", "text_scan/proofs/digits_from/Proof.antt"],
    "is_open": ["search_problems/proofs/Holds.antt"],
    "made_by": ["search_rules/proofs/Moving.antt"],
    "names_in": ["math_search/proofs/Used.antt"],
    "one_field": ["print_solve/proofs/Fields.antt"],
    "pass_all": ["math_terms/proofs/Compared.antt"],
    "same_bytes": ["text_values/proofs/constants/Constants.antt"],
    "same_from": ["pair_table/proofs/PairsCells.antt"],
    "too_long": ["apply_rules/proofs/Answers.antt"],
}


def snake(name):
    it = re.sub(r"(?<=[a-z0-9])[A-Z]", lambda m: "_" + m[0].lower(), name)
    return it.replace("-", "_")


def turns(name):
    return name[:1].islower() and ("-" in name or re.search(r"[a-z0-9][A-Z]", name)) and re.fullmatch(r"[A-Za-z0-9'₀-₉ₐ-ₜ?_-]+", name)


def files(ending):
    for top, dirs, names in os.walk("crates"):
        dirs[:] = sorted(d for d in dirs if d != "out")
        for it in sorted(names):
            if it.endswith(ending):
                yield os.path.join(top, it)


def read(path):
    with open(path, encoding="utf-8") as f:
        return f.read()


def bare(text):
    return QUIET.sub(" ", text)


def declared():
    found = collections.Counter()
    for path in files(".antt"):
        text = bare(read(path))
        made = {m[1] for m in TIED.finditer(text)} if path.endswith("/Proof.antt") else set()
        for how in (DECL, HEADS):
            for m in how.finditer(text):
                if turns(m[1]) and m[1] not in made:
                    found[m[1]] += 1
    return found


def is_lib(path):
    steps = path.strip(".").split(".")
    if steps[0] == "Rattle":
        return len(steps) < 2 or not os.path.isdir(os.path.join("crates", steps[1]))
    return True


def lib_words():
    """Words that files bring in from libraries."""
    words = set()
    for path in [*files(".antt"), *files(".rt")]:
        for m in USE.finditer(bare(read(path)) if path.endswith(".antt") else read(path)):
            if is_lib(m[1]):
                words.update(WORD.findall(m[2]) if m[2] else [])
    return words


def table():
    found = declared()
    theirs = lib_words()
    words = set()
    for path in files(".antt"):
        text = re.sub(r"\buse [^\s;{]+", " ", bare(read(path)))
        words.update(UNQUALIFIED.findall(text))
    by_new = collections.defaultdict(set)
    for it in found:
        by_new[snake(it)].add(it)
    rows = {}
    told = []
    for new, olds in sorted(by_new.items()):
        taken = {new} if new in words or new in theirs else set()
        # a definition keeps the plain name before a lemma
        for old in sorted(olds, key=lambda it: ("-" in it, it)):
            name = new
            if name in taken and "-" in old and (len(olds) > 1 or name in words or name in theirs):
                name = new + "_lem"
            if name in taken and "-" in old:
                name = name + "_2"
            taken.add(name)
            rows[old] = name
            if name != new:
                told.append((old, name))
    return rows, theirs, told


def main():
    check = "--check" in sys.argv
    rows, theirs, told = table()
    for old, new in told:
        print(f"told apart: {old} is {new}")
    print(len(rows), "names")
    if check:
        return
    for word, where in BESIDE.items():
        for it in where:
            path = os.path.join("crates", it)
            text = read(path)
            with open(path, "w", encoding="utf-8") as f:
                f.write(re.sub(rf"(?<![\w.'-]){word}(?![\w'.-])", word + "_lem", text))
    turner = Turner(rows)
    for path in files(".antt"):
        turner.file(path, turner.antt)
    for path in files(".rt"):
        turner.file(path, turner.rt)
    for path in files(".edit"):
        turner.file(path, turner.edit)
    for top, dirs, names in os.walk("docs"):
        for it in names:
            if it.endswith(".md"):
                turner.file(os.path.join(top, it), turner.page)
    turner.file("README.md", turner.page)


class Turner:
    def __init__(self, rows):
        self.rows = rows

    def file(self, path, how):
        text = read(path)
        new = how(text, path)
        if new != text:
            with open(path, "w", encoding="utf-8") as f:
                f.write(new)

    def kept(self, text, path):
        """The names that stay in a file: goals that Rattle makes, and what it brings in from a library."""
        stay = set()
        if path.endswith("/Proof.antt"):
            stay |= {m[1] for m in TIED.finditer(text)}
        for m in USE.finditer(text):
            if is_lib(m[1]) and m[2]:
                stay |= set(WORD.findall(m[2]))
        # a record that Rattle makes: c.step.field
        return stay

    def words(self, text, stay):
        def turn(m):
            it = m[0]
            if it in stay or it not in self.rows:
                return it
            before = text[: m.start()]
            if before.endswith("."):
                head = re.search(r"([^\s(){},;@]+)\.$", before[-200:])
                first = head[1].split(".")[0] if head else ""
                last = head[1].split(".")[-1] if head else ""
                if first in ("tie", "goal") or re.fullmatch(r"[a-z]\w{0,3}[₀-₉']*", first) and re.search(r"-(is|requires|test|index|end|fits|bits)$|^(returns|loop|in|if|then|else|match|call)-", it):
                    return it
            return self.rows[it]

        return WORD.sub(turn, text)

    def antt(self, text, path):
        stay = self.kept(bare(text), path)
        out, at = [], 0
        for m in QUIET.finditer(text):
            out.append(self.words(text[at : m.start()], stay))
            quiet = m[0]
            out.append(quiet if quiet.startswith('"') else self.comment(quiet, stay))
            at = m.end()
        out.append(self.words(text[at:], stay))
        return "".join(out)

    def comment(self, text, stay=()):
        def span(m):
            it = m[0]
            return it if it in stay or "-" in it and not it in self.rows else self.rows.get(it, it)

        # a name with a dash or in camel case is a name in prose too
        return re.sub(r"[A-Za-z][\w'₀-₉?-]*[\w'₀-₉?]", lambda m: self.rows[m[0]] if m[0] in self.rows and m[0] not in stay and (re.search(r"[a-z][A-Z]", m[0]) or is_span(text, m)) else m[0], text)

    def rt(self, text, path):
        out, at = [], 0
        for a, b, kind in regions(text):
            out.append(text[at:a])
            part = text[a:b]
            out.append(self.comment(part) if kind == "comment" else self.words(part, set(lib_part(part))))
            at = b
        out.append(text[at:])
        return "".join(out)

    def edit(self, text, path):
        lines = text.split("\n")
        file = next((l[5:].strip() for l in lines if l.startswith("file:")), "")
        out = []
        for l in lines:
            if l.startswith(("old:", "new:")):
                if file.endswith(".antt"):
                    l = l[:4] + self.antt(l[4:], file)
                elif re.search(r"\b(requires|ensures|ghost)\b|⌜|≡", l):
                    l = l[:4] + self.words(l[4:], set())
            else:
                l = self.comment(l)
            out.append(l)
        return "\n".join(out)

    def page(self, text, path):
        return SPAN.sub(lambda m: WORD.sub(lambda w: self.rows.get(w[0], w[0]), m[0]), text)


def is_span(text, m):
    """Whether a word of a comment stands in a code span."""
    return text[: m.start()].count("`") % 2 == 1


def lib_part(part):
    words = set()
    for m in USE.finditer(part):
        if is_lib(m[1]) and m[2]:
            words.update(WORD.findall(m[2]))
    return words


def regions(text):
    """The parts of a .rt file that speak of specs: clauses, ghost items, comments."""
    found = []
    i = 0
    n = len(text)
    while i < n:
        if text.startswith("//", i):
            j = text.find("\n", i)
            j = n if j < 0 else j
            found.append((i, j, "comment"))
            i = j
            continue
        if text[i] == '"':
            m = re.compile(r'"(?:\\.|[^"\\])*"', re.S).match(text, i)
            i = m.end() if m else i + 1
            continue
        m = GHOST_USE.match(text, i)
        if m:
            found.append((i, m.end(), "code"))
            i = m.end()
            continue
        m = CLAUSES.match(text, i) if (i == 0 or not (text[i - 1].isalnum() or text[i - 1] == "_")) else None
        if m:
            depth, j = 1, m.end()
            while depth and j < n:
                depth += {"{": 1, "}": -1}.get(text[j], 0)
                j += 1
            found.append((m.end(), j, "code"))
            i = j
            continue
        i += 1
    return found


if __name__ == "__main__":
    main()
