#!/usr/bin/env python3
"""Spells the repository's own ghost names (definitions, lemmas, fields, parameters) in snake case.

usage: python3 tools/respell.py [--check]      at the top of the repository, once, after /opt/rattle/port/port.py

A name that an .antt file of this repository declares and that has a capital inside or a dash becomes words joined by underscores:
vertexCount is vertex_count, bits-half is bits_half. Types, modules and facts, which begin with a capital, keep their names, and so
do functions, fields, labels and strings of Rust, names of libraries, and names that Rattle makes of goals and loops.
With --check nothing is written: names that would fall together are listed.
It stops where docs/PORT.md stands, since it would turn names that Rattle makes in the proofs of today.
"""

import collections
import glob
import os
import re
import sys

WORD = r"[^\s(){}.;,@\"«»]+"
TOKEN = re.compile(WORD)
MARKS = r"(?:(?:pub|abbrev|unfoldable|opaque|private|instance|elim)\s+)*"
TOP = re.compile(rf"(?m)^ *{MARKS}(?P<name>[^\s(){{}}.;,@\"«»:]+)(?: +[^:\n]*?)? :(?= |$)")
# A name alone on a line, its type on the next.
ALONE = re.compile(r"(?m)^ *(?:pub|abbrev) (?P<name>[^\s(){}.;,@\"«»:]+)$")
# What an equation or a let takes apart.
TAKEN_APART = re.compile(rf"(?m)^ *[^\s:=(){{}}]+(?P<names>(?: {WORD})+) =(?= |$)|\blet \((?P<parts>[^()=:]*)\) =")
# Constructors of one type, declared in one line.
MANY = re.compile(rf"(?m)^  (?P<names>{WORD}(?: {WORD})+) : ")
BOUND = re.compile(rf"[({{](?P<names>{WORD}(?: {WORD})*) : ")
LET = re.compile(rf"\blet (?P<name>{WORD})(?= |$)")
FIELD = re.compile(rf"[{{;]\s*(?P<name>{WORD}) :(?= )")
USE = re.compile(r"\buse ([^\s;{]+)(\{[^;]*?\}(?=;|[ \t]*$))?(?: as ([^\s;]+))?", re.M)
# The type of a local proof whose name follows a goal that Rattle names.
MADE = re.compile(rf"(?m)^(?P<name>{WORD}) : (?:\(\w+ : ℕ\) → )?(?:tie|goal|[\w-]*lts)\.")
# Names that port.py respelled to the name of a definition that the same file cites.
LATE = {
    "same_point": ("same_point_lem", r"Repeats\.antt$|use Rattle\.theory\.proofs\.Repeats\.\{[^}]*same_point"),
    "in_order": ("in_order_lem", r"line/proofs/Placing\.antt$|theory/proofs/ChainCovers\.antt$"),
}
KEPT = re.compile(r"(invariant|decreases)-")


def is_old(name):
    return bool(re.search(r"[a-z0-9'][A-Z]", name) or re.search(r"\w-\w", name)) and not name[0].isupper() and re.match(r"[a-zα-ω+_]", name) is not None


# A lemma that would have the name of a definition is named after it with _lem.
TAKEN = set()


def spelled(name):
    words = in_words(name)
    return words + "_lem" if re.search(r"\w-\w", name) and words in TAKEN else words


def in_words(name):
    name = re.sub(r"(?<=[a-z0-9'])[A-Z](?=[A-Z])", lambda m: "_" + m[0].lower(), name)
    name = re.sub(r"(?<=[a-z0-9'])[A-Z]", lambda m: "_" + m[0].lower(), name)
    return re.sub(r"(?<=\w)-(?=\w)", "_", name)


def quiet(text):
    return re.sub(r"--[^\n]*|\"(?:\\.|[^\"\\])*\"", lambda m: " " * len(m[0]), text)


def declared(code):
    names = {m["name"] for m in TOP.finditer(code)}
    names |= {m["name"] for m in FIELD.finditer(code)}
    names |= {m["name"] for m in LET.finditer(code)}
    names |= {m["name"] for m in ALONE.finditer(code)}
    for m in TAKEN_APART.finditer(code):
        names.update(re.findall(WORD, m["names"] or m["parts"]))
    for m in MANY.finditer(code):
        names.update(m["names"].split())
    for m in BOUND.finditer(code):
        names.update(m["names"].split())
    for m in re.finditer(r"λ ([^.()]+)\.", code):
        names.update(m[1].split())
    return {it for it in names if is_old(it)}


def library(path):
    return not path.startswith("Rattle.") or re.match(r"Rattle\.(std|core|io|os|libc)\b", path)


def main():
    if os.path.exists("docs/PORT.md"):
        print("respell: docs/PORT.md says that this repository was ported; nothing is written", file=sys.stderr)
        raise SystemExit(2)
    check = "--check" in sys.argv
    antt = sorted(glob.glob("crates/**/*.antt", recursive=True))
    rt = sorted(glob.glob("crates/**/*.rt", recursive=True))
    edits = sorted(glob.glob("crates/**/must-fail/*.edit", recursive=True)) + sorted(glob.glob("tests/**/*.edit", recursive=True))
    read = {}
    for f in antt + rt + edits:
        with open(f, encoding="utf-8") as file:
            read[f] = file.read()
    for f in antt:
        for old, (new, where) in LATE.items():
            if re.search(where, f) or re.search(where, read[f]):
                read[f] = re.sub(rf"(?<![^\s(){{}};,.]){old}(?![^\s(){{}};,.])", new, read[f])
    own = collections.Counter()
    for f in antt:
        own.update(declared(quiet(read[f])))
    own = {it for it in own if not KEPT.match(it)}
    TAKEN.update(in_words(it) for it in own if not re.search(r"\w-\w", it))
    for f in antt:
        code = quiet(read[f])
        TAKEN.update(m["name"] for m in TOP.finditer(code))
        TAKEN.update(TOKEN.findall(" ".join(items for _, items, _ in USE.findall(code))))
    count = 0
    for f, text in read.items():
        code = quiet(text) if f.endswith(".antt") else text
        stay = set()
        if f.endswith(".antt"):
            stay = {m["name"] for m in MADE.finditer(code)}
            for path, items, _ in USE.findall(code):
                if library(path):
                    stay.update(TOKEN.findall(items) or [path.split(".")[-1]])
        if f.endswith(".rt"):
            new = rust(text, own)
        elif f.endswith(".edit"):
            new = turned(text, text, own, stay)
        else:
            new = turned(text, code, own, stay)
        if f.endswith(".antt"):
            clash(f, code, own, stay)
        if new != text:
            count += 1
            if not check:
                with open(f, "w", encoding="utf-8") as file:
                    file.write(new)
    print(f"respell: {len(own)} names, {count} files")


def clash(f, code, own, stay):
    tokens = {m[0] for m in TOKEN.finditer(code)}
    met = collections.defaultdict(set)
    for it in tokens:
        met[spelled(it) if it in own and it not in stay else it].add(it)
    for new, olds in sorted(met.items()):
        if len(olds) > 1:
            print(f"clash: {f}: {new} <- {' '.join(sorted(olds))}")


def turned(text, code, own, stay):
    """The text with own names respelled, where the code (the text with comments and strings blank) has them."""
    out, at = [], 0
    for m in TOKEN.finditer(code):
        if m[0] in own and m[0] not in stay:
            before = code[max(0, m.start() - 40) : m.start()]
            if re.search(r"\b(tie|goal|\w*lts|needs)\.$", before):
                continue
            out.append(text[at : m.start()])
            out.append(spelled(m[0]))
            at = m.end()
    return "".join(out) + text[at:]


def rust(text, own):
    """A Rust file: only ghost use lines and what stands in clauses."""
    out, at = [], 0
    for start, end in ghosts(text):
        out.append(text[at:start])
        part = text[start:end]
        names = {m[0] for m in TOKEN.finditer(part)}
        for it in sorted(names):
            if it in own and re.search(rf"\b{re.escape(spelled(it))}\b(?!\()", re.sub(r"//[^\n]*|\b(?:pub )?use [^;]*;", "", text)):
                print(f"look: {spelled(it)} <- {it} in Rust: {text[max(0,start-60):start]!r}")
        out.append(turned(part, part, own, set()))
        at = end
    return "".join(out) + text[at:]


def ghosts(text):
    """The places of ghost use lines and of the braces of clauses and ghost items."""
    for m in re.finditer(r"(?m)^\s*(?:pub )?ghost use [^;]*;|\b(?:requires|ensures)\*?(?: \w+)? \{|\bghost (?:pub )?\w+(?:: | = )\{", text):
        if m[0].rstrip().endswith("{"):
            depth, i = 1, m.end()
            while depth and i < len(text):
                depth += {"{": 1, "}": -1}.get(text[i], 0)
                i += 1
            yield m.end(), i - 1
        else:
            yield m.start(), m.end()


if __name__ == "__main__":
    main()
