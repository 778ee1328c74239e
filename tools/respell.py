#!/usr/bin/env python3
"""Respells the definitions and lemmas that this repository declares: types in camel case, all else in snake case.

usage: python3 tools/respell.py [--list]      at the top of the repository; --list prints the table and writes nothing

A dash stays where a law joins a definition to a function of std's that it is taken with, as in weigh-map, or to an operator, as in lengths-++; else it
becomes an underscore.
Names come from the declarations of specs/ and of the lemma files of proofs/. They turn in .antt files, in the clauses, ghost members and 'ghost use' lines of
.rt files, and in the code spans of the pages. Names that Rattle makes of the source (goals, steps, answers) stay. It runs once: what is written after it has
the new spelling already.
"""

import collections
import glob
import re
import sys

WORD = r'[^\s(){}.;,@"«»]+'
DECLARED = re.compile(r"(?m)^ *(?:where +)?((?:(?:pub|abbrev|unfoldable|pattern|data|record) +)*)(" + WORD + r")(?: +\{[^{}\n]*\}| +\([^()\n]*\))* +:(?= |$)")
COMMENT = re.compile(r"(?m)(?<![^\s(){}.;,@\"«»])--(?![^\s(){}.;,@\"«»])[^\n]*")
MADE = re.compile(r"/(Answers|Invariants|Proof|Choices)\.antt$")
CLAUSE = re.compile(r"\b(?:requires\*?|ensures\*?|ghost)\b[^{;]*\{[^{}]*(?:\{[^{}]*\}[^{}]*)*\}|ghost use [^;]*;")
LABEL = re.compile(r"^(returns|loop|if|in|decreases|invariant|bounds|overflow|invariant_of|break|else|then)(-|$)|-requires(-|$)|-returns(-|$)")
# Functions of std's that a dash may join to a definition's name.
STD = set("append cons snoc map reverse length drop take set range sum replicate filter".split())
# Names that would meet another in some file, or read badly: their spelling by hand.
BY_HAND = {
    "patch-writes": "patch_writes_lem",
    "slice-writes": "slice_writes_lem",
    "patch-faces": "patch_faces_lem",
    "patch-strips": "patch_strips_lem",
    "patch-closing": "patch_closing_lem",
    "edge-of": "edge_of_lem",
    "first-use": "first_use_lem",
    "first-no": "first_no_lem",
    "first-lack": "first_lack_lem",
    "major-breaks": "major_breaks_lem",
    "major-numbers": "major_numbers_lem",
    "all-breaks": "all_breaks_lem",
    "all-numbers": "all_numbers_lem",
    "all-places": "all_places_lem",
    "blank-at": "blank_at_lem",
    "closing-sides": "closing_sides_lem",
    "Faces-counted": "FacesAreCounted",
    "Lines-counted": "LinesAreCounted",
    "Numbers-below": "NumbersAreBelow",
    "isP": "is_P",
    "isQ": "is_Q",
    "eE": "unused_edge_is",
    "eP": "unused_point_is",
}
# A name that is brought in by 'as', and declared nowhere.
BROUGHT = {"floatShare": "float_share"}
# Lemmas that would meet their function's name in one file alone.
IN_FILE = {
    "crates/questions/proofs/OneWay.antt": {"same_way": "same_way_lem"},
    "crates/mesh/proofs/Amounts.antt": {"all-faces": "all_faces_lem"},
}


def files():
    return sorted(glob.glob("crates/*/specs/**/*.antt", recursive=True) + glob.glob("crates/*/proofs/**/*.antt", recursive=True))


def declared():
    """Each declared name with the files that declare it."""
    found = collections.defaultdict(set)
    for path in files():
        with open(path) as f:
            text = COMMENT.sub("", f.read())
        for m in DECLARED.finditer(text):
            if MADE.search(path) and (LABEL.search(m[2]) or re.match(r" *(goal|need)\.", text[m.end() :])):
                continue
            found[m[2]].add(path)
    return found


def snake(word):
    word = re.sub(r"(?<=[a-z0-9])([A-Z])(?=[a-z])", lambda m: "_" + m[1].lower(), word)
    return re.sub(r"(?<=[a-z0-9])([A-Z]+)(?![a-z])", lambda m: "_" + m[1].lower(), word)


def spelled(name, definitions):
    if name in BY_HAND:
        return BY_HAND[name]
    if re.match("[A-Z]", name) and not re.fullmatch("[A-Z]+(-.*)?", name):
        return "".join(part[:1].upper() + part[1:] for part in name.split("-"))
    parts = [snake(part) for part in name.split("-")]
    out = parts[0]
    for at in range(1, len(parts)):
        left, right = "-".join(name.split("-")[:at]), name.split("-")[at]
        operator = not re.match(r"\w", right)
        joins = left in definitions and right in STD
        out += ("-" if operator or joins else "_") + parts[at]
    return out


def table():
    found = declared()
    definitions = {n for n in found if "-" not in n and not re.match("[A-Z]", n) and any("/specs/" in p for p in found[n])}
    return {**{n: spelled(n, definitions) for n in found if spelled(n, definitions) != n}, **BROUGHT}


def turn(text, names, made):
    def word(m):
        behind = text[max(0, m.start() - 8) : m.start()]
        if made and re.search(r"(?<![\w'-])(c|w|goal|given)\.$", behind):
            return m[0]
        return names.get(m[0], m[0])

    return re.sub(WORD, word, text)


def turned(path, text, names):
    if path.endswith(".antt"):
        return turn(text, names, bool(MADE.search(path)))
    if path.endswith(".rt"):
        return CLAUSE.sub(lambda m: turn(m[0], names, False), text)
    return re.sub(r"`[^`\n]+`", lambda m: "`" + turn(m[0][1:-1], names, False) + "`", text)


def clashes(names):
    """Files in which two names become one."""
    said = []
    for path in files() + sorted(glob.glob("crates/*/src/*.rt")):
        with open(path) as f:
            text = f.read()
        if path.endswith(".antt"):
            text = COMMENT.sub("", text)
        else:
            text = " ".join(CLAUSE.findall(text)) + " " + " ".join(re.findall(r"\bfn \w+|\b\w+(?=:)", text))
        words = set(re.findall(WORD, text))
        new = collections.defaultdict(set)
        for w in words:
            new[names.get(w, w)].add(w)
        said += [f"{path}: {' and '.join(sorted(ws))} would be {n}" for n, ws in sorted(new.items()) if len(ws) > 1]
    return said


def main(argv):
    names = table()
    if argv:
        for old, new in sorted(names.items()):
            print(f"{old}\t{new}")
        print("\n".join(clashes(names)), file=sys.stderr)
        return
    for path in files() + sorted(glob.glob("crates/*/src/*.rt")) + ["README.md"] + sorted(glob.glob("docs/*.md")):
        with open(path) as f:
            text = f.read()
        new = turned(path, text, {**names, **IN_FILE.get(path, {})})
        if new != text:
            with open(path, "w") as f:
                f.write(new)


if __name__ == "__main__":
    main(sys.argv[1:])
