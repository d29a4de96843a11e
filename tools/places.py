#!/usr/bin/env python3
"""Counts, in crates/*/src, the places of the eight points of docs/DESIGN-PASS.md. Run at the top: tools/places.py [POINT]; with a point it lists the places."""
import glob
import re
import sys
from collections import Counter, defaultdict

LIST = sys.argv[1] if len(sys.argv) > 1 else None


def sources():
    for path in sorted(glob.glob("crates/*/src/**/*.rt", recursive=True)):
        yield path, open(path, encoding="utf-8").read()


def close(text, at, left, right):
    """The place after the bracket that closes the one before `at`."""
    depth = 1
    while depth and at < len(text):
        depth += (text[at] == left) - (text[at] == right)
        at += 1
    return at


def functions():
    """Path, name, parameter names, clauses, body and line of each function."""
    for path, text in sources():
        for m in re.finditer(r"\bfn (\w+)(?:<[^>(]*>)?\(", text):
            end = close(text, m.end(), "(", ")")
            names = re.findall(r"(?:^|,)\s*(?:mut )?(\w+):", text[m.end():end - 1])
            at = end
            clauses = []
            while at < len(text) and text[at] not in "{;":
                c = re.compile(r"\s*(?:->[^{;]*?\n\s*)?(requires|ensures)\*?\s*(\w*)\s*\{").match(text, at)
                if c:
                    stop = close(text, c.end(), "{", "}")
                    clauses.append((c.group(1), " ".join(text[c.end():stop - 1].split())))
                    at = stop
                    continue
                n = re.compile(r"\s*->[^{;]*?(?=\{|\brequires\b|\bensures\b|;)|\s+").match(text, at)
                at = n.end() if n and n.end() > at else at + 1
            body = text[at + 1:close(text, at + 1, "{", "}") - 1] if at < len(text) and text[at] == "{" else ""
            yield path, m.group(1), names, clauses, body, text.count("\n", 0, m.start()) + 1


def report(point, what, places):
    places = list(places)
    print(f"{point}  {len(places):4}  {what}")
    if LIST and point.startswith(LIST):
        for p in places:
            print("         ", p)


def lines(pattern):
    for path, text in sources():
        for i, line in enumerate(text.split("\n"), 1):
            if re.search(pattern, line) and not line.lstrip().startswith("//"):
                yield f"{path}:{i}: {line.strip()}"


def enums():
    """Enums with two or more variants of which at least one carries a value, or with a variant named as a refusal."""
    for path, text in sources():
        for m in re.finditer(r"\benum (\w+)[^{]*\{", text):
            body = text[m.end():close(text, m.end(), "{", "}")]
            yield f"{path}: {m.group(1)}: " + ", ".join(re.findall(r"^\s{4}(\w+[^,\n]*)", body, re.M))


def flagged():
    """Structs with a flag beside other values."""
    for path, text in sources():
        for m in re.finditer(r"\bstruct (\w+)[^{;]*\{", text):
            body = text[m.end():close(text, m.end(), "{", "}")]
            if ": bool" in body and body.count(":") > 1:
                yield f"{path}: {m.group(1)}"


def twins():
    """Functions of at least two lines that are the same but for names, types and numbers."""
    seen = defaultdict(list)
    for path, name, params, clauses, body, line in functions():
        code = re.sub(r"//[^\n]*", "", body)
        words = re.findall(r"[A-Za-z_][A-Za-z_0-9:]*|\d[\w.]*|[^\sA-Za-z_0-9]", code)
        order = {}
        shape = []
        for w in words:
            if re.match(r"[A-Za-z_]", w) and w not in ("if", "else", "while", "for", "in", "let", "mut", "return", "match", "as"):
                shape.append("n%d" % order.setdefault(w, len(order)))
            elif re.match(r"\d", w):
                shape.append("0")
            else:
                shape.append(w)
        if len(words) >= 12:
            seen[" ".join(shape)].append(f"{path}:{line} {name}")
    return ["; ".join(v) for v in seen.values() if len(v) > 1]


TRAVELLERS = {
    "a store": {"heads", "free", "floors", "ceilings", "areas", "nexts", "marks"},
    "a mesh": {"vertices", "indices", "triangle_areas", "shades"},
    "a compact result": {"cell_indices", "cell_counts", "ys", "data", "span_areas", "firsts", "counts", "links", "grounds"},
    "a polygon": {"xs", "ys", "zs"},
    "a size": {"width", "height", "depth"},
}


def travellers():
    for path, name, params, clauses, body, line in functions():
        for what, names in TRAVELLERS.items():
            n = len(names & set(params))
            if n >= 3 or (what == "a size" and n >= 2):
                yield f"{path}:{line} {name}: {what}"


def repeated():
    """Parts of clauses that stand in the contracts of three or more functions."""
    where = defaultdict(set)
    for path, name, params, clauses, body, line in functions():
        for kind, clause in clauses:
            if kind != "requires":
                continue
            for part in re.split(r" × ", clause):
                part = re.sub(r"^\(+|\)+$", "", part.strip())
                if len(part) > 8 and "→" not in part:
                    where[part].add(f"{path}:{name}")
    return [f"{len(v)} functions: {part}" for part, v in sorted(where.items(), key=lambda e: -len(e[1])) if len(v) >= 3]


report("1a", "enums of the repository's own", enums())
report("1b", "structs with a flag beside other values", flagged())
report("1c", "constants that are codes or stand for 'none'", lines(r"\bconst [A-Z_]+: (u8|u16|u32|u64|usize) = \d+;"))
report("2 ", "groups of functions that differ only in names, types and numbers", twins())
report("3 ", "while loops that count an index or a rest", lines(r"^\s*while \w+ *(<|<=|>) "))
report("3x", "other while loops, which follow a chain or wait", [x for x in lines(r"^\s*while ") if not re.search(r"while \w+ *(<|<=|>) ", x)])
report("4 ", "equality, conversion and printing by hand", (f"{p}:{l} {n}" for p, n, _, _, b, l in functions()
       if re.match(r"(same|say|wide|index|short|byte|word|whole_|low_word|height_at|word_at|byte_at|number$|lesser|greater|shorter|least$)", n)))
report("5a", "functions with parameters that always travel together", travellers())
report("5b", "facts that three or more contracts ask for", repeated())
report("6 ", "functions over parallel arrays of fixed length, structs with a length beside", [x for x in lines(r"\b\w+: (&mut |&)?\[(f32|u8|u16|u32|Corner); \d+\]")])
report("7 ", "choices by a number of what to run", lines(r"commands::[A-Z_]+( \||$| =>)|c\.code|\bcode =="))
