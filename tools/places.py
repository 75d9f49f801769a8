#!/usr/bin/env python3
"""Counts the places of docs/DESIGN-PASS.md in src/: tools/places.py [COMMIT] [-v]. With no commit it reads the files as they stand; -v lists each place."""
import collections
import re
import subprocess
import sys

FIVE = {"west", "east", "vertices", "edges", "zones"}
TRAVEL = [
    ("vertices and edges", {"vertices", "edges"}),
    ("index and zones", {"index", "zones"}),
    ("an order and where its groups begin", {"order", "begin"}),
    ("an order and its starts", {"order", "starts"}),
    ("a side's edges and its starts", {"eastern", "estarts"}),
    ("marks and queue", {"marks", "queue"}),
    ("a text and a place in it", {"text", "at"}),
    ("kinds and values", {"kinds", "values"}),
    ("permits and zones", {"permits", "zones"}),
]
NONE = re.compile(r"\b(where|if) (none|all|nothing|no such|it places all|there is (none|no))\b|`zones` where|, and the number of .* where")


def files(commit):
    if commit:
        names = subprocess.run(["git", "ls-tree", "-r", "--name-only", commit, "crates"], capture_output=True, text=True, check=True).stdout.split()
    else:
        names = subprocess.run(["git", "ls-files", "crates"], capture_output=True, text=True, check=True).stdout.split()
    for name in names:
        if re.match(r"crates/\w+/src/.*\.rt$", name):
            if commit:
                text = subprocess.run(["git", "show", f"{commit}:{name}"], capture_output=True, text=True, check=True).stdout
            else:
                text = open(name, encoding="utf-8").read()
            yield name, text.split("\n")


def functions(lines):
    """(line, name, comment, signature, clauses, body) of each function."""
    i = 0
    while i < len(lines):
        m = re.match(r"(\s*)(pub(\(crate\))? )?(extern \"C\" )?fn (\w+)", lines[i])
        if not m:
            i += 1
            continue
        indent, start = m.group(1), i
        comment = []
        k = i - 1
        while k >= 0 and re.match(r"\s*(//|#\[)", lines[k]):
            comment.insert(0, lines[k].strip())
            k -= 1
        while i < len(lines) and not lines[i].rstrip().endswith("{"):
            i += 1
        head = lines[start : i + 1]
        clauses = [l.strip() for l in head if re.match(r"\s*(requires|ensures|ghost)\b", l)]
        sign = " ".join(l.strip() for l in head if not re.match(r"\s*(requires|ensures|ghost)\b", l))
        b = i + 1
        while i < len(lines) and not lines[i].startswith(indent + "}"):
            i += 1
        yield start + 1, m.group(5), " ".join(comment), sign, clauses, lines[b:i]
        i += 1


def shape(body):
    """A body with its names and numbers taken out, for twins; None where it is shorter than three lines."""
    text = " ".join(l.strip() for l in body if not l.strip().startswith("//"))
    if len([l for l in body if l.strip()]) < 3:
        return None
    names = {}
    return re.sub(r"\b[A-Za-z_]\w*\b|\b\d+\b", lambda m: m.group(0) if m.group(0) in ("if", "while", "return", "let", "mut", "for", "in", "match", "true", "false") else names.setdefault(m.group(0), f"n{len(names)}"), text)


def main():
    args = [a for a in sys.argv[1:] if a != "-v"]
    verbose = "-v" in sys.argv
    found = collections.OrderedDict()

    def put(point, where):
        found.setdefault(point, []).append(where)

    shapes = collections.defaultdict(list)
    facts = collections.defaultdict(list)
    for name, lines in files(args[0] if args else None):
        text = "\n".join(lines)
        for m in re.finditer(r"enum (\w+)[^{]*\{(.*?)\n\}", text, re.S):
            variants = re.findall(r"^    (\w+)", m.group(2), re.M)
            if {"Refused", "Missing", "Damaged", "Unknown"} & set(variants):
                put("1a own enums of the shape of Option or Result", f"{name} {m.group(1)}")
        for n, l in enumerate(lines, 1):
            if re.search(r"return \w+::Refused\(number, item\)|::Refused\(number, \w+\) => \w+::Refused", l):
                put("1b refusals handed up by hand", f"{name}:{n}")
            if re.match(r"\s*pub const (WESTERN_VERTEX|EASTERN_VERTEX|ZONE_ABOVE|ZONE_BELOW|UNTAKEN|BOUNDARY|OFF_SHEET|DAMAGED)\b", l) or re.search(r"\bkind (==|!=|>=) \d", l):
                put("1d numbers for kinds", f"{name}:{n}")
        for line, fn, comment, sign, clauses, body in functions(lines):
            where = f"{name}:{line} {fn}"
            params = set(re.findall(r"(\w+): ", sign))
            result = sign.split("->")[-1] if "->" in sign else ""
            if NONE.search(comment) and re.search(r"\b(u32|usize)\b", result) and "Option" not in result:
                put("1c a count or a number for none", where)
            s = shape(body)
            if s:
                shapes[s].append(where)
            code = "\n".join(body)
            for m in re.finditer(r"^\s*(?:'\w+: )?(while|loop)\b", code, re.M):
                rest = code[m.start() :]
                if re.search(r"\b(\w+) [+-]= 1;", rest):
                    put("3 loops that count an index by hand", where)
            if len(re.findall(r"return (?:true|false);", code)) >= 1 and "while" not in code and "for " not in code and "bool" in result:
                put("4a ladders of tests by hand", where)
            if re.search(r"\b(\w+): \1\b", code):
                put("4b fields copied by hand", where)
            if len(FIVE & params) >= 3:
                put("5a three or more of west, east, vertices, edges, zones", where)
            for label, names in TRAVEL:
                if names <= params:
                    put(f"5b {label}", where)
            for c in clauses:
                m = re.match(r"requires(?: \w+)? \{ (.*) \}", c)
                if m:
                    for part in re.split(r" × ", m.group(1).replace("(", "").replace(")", "")):
                        facts[part.strip()].append(where)
            if re.search(r"\bbool\b", sign.split("->")[0]) and "extern" not in sign:
                put("7 a flag that picks a step", where)
            if re.search(r"\[\d\w*; ", code):
                put("6 fixed buffers", where)
    for s, places in shapes.items():
        if len(places) > 1:
            for p in places:
                put("2 twins: bodies alike but for names and numbers", p)
    for f, places in facts.items():
        if len(places) >= 3:
            put("5c facts in three or more contracts", f"{len(places)}: {f}")
    for point in sorted(found):
        print(f"{len(found[point]):4} {point}")
        if verbose:
            for where in found[point]:
                print(f"       {where}")


main()
