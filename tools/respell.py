#!/usr/bin/env python3
"""Respells the names of the repository's own definitions and lemmas as today's Rattle does: words in snake case, and a
dash only where it joins the names of two definitions, functions, fields or operators (as in `length-append`); all other
dashes of a declared name become `_`. It goes over crates/, README.md and docs/, from the top of the repository:

    python3 tools/respell.py            respell
    python3 tools/respell.py --list     print each old and new name, and the new names that some text had already
"""
import collections
import glob
import re
import sys

# Operators and words of the library that names of lemmas cite.
LIBRARY = set(
    "and or not add sub mul div mod pow zero suc one eqb ltb leb eq lt le length append take drop slice map flat_map cond mem "
    "count first least all any mask list true false has power shift min max".split()
)
WORD = r"[^\s(){}\[\];,.:`\"|λ@?=<>+*/&!#]+"
DECLARED = re.compile(
    r"^\s*(?:(?:unfoldable|abbrev|pub|axiom)\s+)*(" + WORD + r")(?:\s+\{[^}]*\})?\s*:\s"
)
PARAMETERS = re.compile(r"[({]([^(){}:]+) : ")
# A lemma that would have its function's name.
FUNCTIONS = {"first_below": "first_below_lem", "goes_on": "goes_on_lem", "row-lines": "row_lines_lem"}
CAMEL = re.compile(r"(?<![0-9A-Za-z_'])[a-z_][a-z0-9_]*[A-Z][A-Za-z0-9]*(?![A-Za-z0-9])")


def files(*patterns):
    found = []
    for p in patterns:
        found += sorted(glob.glob(p, recursive=True))
    return found


def snake(word):
    return re.sub(r"(?<=[a-z0-9])([A-Z])", lambda m: "_" + m.group(1).lower(), word)


def code(line):
    """The part of a line of antt that is no comment."""
    at = re.search(r"(^|\s)--(\s|$)", line)
    return line if at is None else line[: at.start()]


def declared(text):
    for line in text.split("\n"):
        if re.match(r"\s*(use|module|mod|pub mod|in|elim|let|--)\b", line):
            continue
        m = DECLARED.match(code(line))
        if m and len(line) - len(line.lstrip()) <= 4:
            yield m.group(1)


def known_names():
    names = set(LIBRARY)
    for f in files("crates/*/specs/**/*.antt"):
        for n in declared(open(f).read()):
            if "-" not in n:
                names.add(snake(n))
    for f in files("crates/*/src/**/*.rt"):
        names.update(re.findall(r"\bfn ([a-z0-9_]+)", open(f).read()))
    return names


def dashes():
    """Each declared name with a dash, and its new name."""
    known = known_names()
    made = {}
    for f in files("crates/*/specs/**/*.antt", "crates/*/proofs/**/*.antt"):
        for n in declared(open(f).read()):
            if "-" not in n or n.startswith(("Need-", "After-", "+")):
                continue
            # a proof answers Rattle's own names in these files: those change with the proof
            if n.endswith("-spec"):
                made[n] = snake(n).replace("-", "_")
                continue
            parts = [snake(p) for p in n.split("-")]
            new = parts[0]
            last = parts[0]
            for p in parts[1:]:
                new += ("-" if last in known and p in known else "_") + p
                last = p
            if new != n:
                made[n] = new
    return made


def main():
    made = dashes()
    tokens = re.compile(r"[^\s(){}\[\];,.:`\"|λ@?=<>+*/&!#→≡⊎×]+")
    camel = collections.OrderedDict()
    all_words = set()
    sources = files("crates/*/specs/**/*.antt", "crates/*/proofs/**/*.antt", "crates/*/src/**/*.rt")
    for f in sources:
        text = open(f).read()
        all_words.update(tokens.findall(text))
        for m in CAMEL.finditer(text):
            camel[m.group()] = snake(m.group())
    if "--list" in sys.argv:
        for old, new in sorted(list(camel.items()) + list(made.items())):
            print(old, new, "(there already)" if new in all_words else "")
        twice = collections.defaultdict(list)
        for old, new in list(camel.items()) + list(made.items()):
            twice[new].append(old)
        for new, olds in twice.items():
            if len(olds) > 1:
                print("fall together:", new, olds)
        return

    def respelt(text):
        return CAMEL.sub(lambda m: snake(m.group()), text)

    def undashed(text):
        return tokens.sub(lambda m: made.get(m.group(), m.group()), text)

    def ticked(text):
        return re.sub(r"`[^`\n]*`", lambda m: undashed(m.group()), text)

    def lemmas(text):
        return tokens.sub(lambda m: FUNCTIONS.get(m.group(), m.group()), text)

    for f in sources + files("crates/*/must-fail/*.edit"):
        text = open(f).read()
        out = respelt(lemmas(text) if f.endswith(".antt") else text)
        if f.endswith(".antt"):
            lines = []
            for line in out.split("\n"):
                c = code(line)
                lines.append(undashed(c) + ticked(line[len(c):]))
            out = "\n".join(lines)
        else:
            out = "\n".join(undashed(l) if l.startswith("ghost use") else ticked(l) for l in out.split("\n"))
        if out != text:
            open(f, "w").write(out)
    for f in files("README.md", "docs/**/*.md"):
        text = open(f).read()
        out = re.sub(r"`[^`\n]*`", lambda m: undashed(respelt(m.group())), text)
        if out != text:
            open(f, "w").write(out)


main()
