#!/usr/bin/env python3
"""Gives the definitions and lemmas of specs/ and proofs/ the spelling of today's Rattle: words in snake case, types and facts in camel case.

Run once, at the top, after the toolchain's own script. It collects every name with a small first letter that specs/ or proofs/ declare in camel case,
and writes it in snake case wherever it stands in clauses, specifications, proofs, edits that must fail, and pages. Names of src/, text in quotes,
inputs and outputs are left. A lemma that would fall together with the definition it speaks of gets _lem. A definition may have the name of the function
of src/ that it describes; where two names of specs/ and proofs/ would fall together, the script stops and writes nothing.
"""
import glob
import re
import sys

DECLARED = re.compile(r"^\s*((?:abbrev |unfoldable |pub |data |record )*)([^\s(){}:]+) :(?: |$)")
TOKEN = re.compile(r"[A-Za-z0-9_'-]+")
# lemmas whose names are those that a definition gets
LEMMAS = ["beside_at", "size_ok", "walk_from", "read_back", "columns_of"]
LEMMA = re.compile(r"(?<![A-Za-z0-9_'.-])(" + "|".join(LEMMAS) + r")(?![A-Za-z0-9_'-])")
STRING = re.compile(r'"(?:[^"\\]|\\.)*"')


def texts(*kinds):
    for kind in kinds:
        yield from glob.glob(f"crates/**/*{kind}", recursive=True)


def snake(name):
    name = re.sub(r"(?<=[a-z0-9])([A-Z])", lambda m: "_" + m.group(1).lower(), name)
    return name


def main():
    declared = set()
    for path in texts(".antt"):
        with open(path, encoding="utf-8") as f:
            text = f.read()
        for line in text.splitlines():
            found = DECLARED.match(line)
            if found:
                declared.add(found.group(2))
    declared -= set(LEMMAS)
    to = {n: snake(n) for n in declared if n[0].islower() and re.search(r"[a-z0-9][A-Z]", n)}
    clash = [f"{a} and {b}" for a, b in to.items() if b in declared] + [b for b in to.values() if list(to.values()).count(b) > 1]
    for c in sorted(set(clash)):
        print("falls together:", c, file=sys.stderr)
    if clash and "--anyway" not in sys.argv:
        return 1
    turn = lambda m: to.get(m.group(0), m.group(0))
    pages = glob.glob("docs/*.md") + glob.glob("docs/landings/*.md") + ["README.md"]
    for path in list(texts(".antt", ".rt", ".edit")) + pages:
        with open(path, encoding="utf-8") as f:
            text = kept = f.read()
        if path.endswith(".rt"):
            parts, at = [], 0
            for s in STRING.finditer(text):
                parts += [TOKEN.sub(turn, text[at:s.start()]), s.group(0)]
                at = s.end()
            new = "".join(parts) + TOKEN.sub(turn, text[at:])
        else:
            if path.endswith(".antt"):
                text = "".join(l if l.startswith("--") else LEMMA.sub(r"\1_lem", l) for l in text.splitlines(keepends=True))
            new = TOKEN.sub(turn, text)
        if new != kept:
            with open(path, "w", encoding="utf-8") as f:
                f.write(new)
    print(len(to), "names turned")
    return 0


if __name__ == "__main__":
    sys.exit(main())
