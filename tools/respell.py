#!/usr/bin/env python3
"""Brings the names that this repository's own antt files declare to today's spelling: words in snake case, types in camel case.

usage: tools/respell.py [FOLDER]     in a repository after port.py has run; FOLDER is its top, '.' if none

port.py respells the names that Rattle's libraries have too. This does the rest of ours, by the same rule: a hump or a dash inside a
word of ours becomes an underscore. Names of functions in src/, exported names, strings and what the check generates stay. A new
spelling that another name has already keeps the old one; such names are printed, in lines that begin 'left:'.
"""

import os
import re
import sys

ROOT = sys.argv[1] if len(sys.argv) > 1 else "."
# How antt cuts a text into words.
WORD = re.compile(r"[^\s(){}\[\].;,@\"⌜⌝]+")
PLAIN = re.compile(r"[A-Za-z][A-Za-z0-9_'-]*")
DECLARED = re.compile(
    r"^\s*(?:(?:abbrev|unfoldable|opaque|pub|private|ghost)\s+)*(?:(?:data|record|ruleset)\s+)?([A-Za-z][^\s:(){}.;,]*)(?:\s+\{[^}]*\}|\s+\([^)]*\))*\s+(?:[:=]|where)(?:\s|$)"
)
# What the check makes of the source, as loop-preserved and returns-2: such words are no names of ours.
GENERATED = re.compile(r"(?:invariant|decreases|loop|returns|overflow|bounds|the)-")
# Words that definitions have already, which a lemma does not get.
DEFINED = set()
OURS = set(os.listdir(os.path.join(ROOT, "crates")))
# Types whose names began with a small letter.
TYPES = {"advances": "AdvancesBy", "within": "WithinBy"}
TYPES_IN = "crates/console/"
# Two definitions that would fall together, and lemmas that port.py gave the name that a definition now gets.
APART = {"textAt": "numbered_text"}
LEMMAS_IN = {
    "digit_value": ["crates/glyph_told/"],
    "first_kind": ["crates/written/", "crates/glyph_told/"],
    "not_own": ["crates/demands_jobs/"],
    "string_bytes": ["crates/message/"],
}
# These are met only by functions and crates of their name.
FINE = {"splitFor", "stationOf", "lookupAnswer", "digitValue", "firstKind", "notOwn", "stringBytes"}


def files(suffixes):
    for folder, dirs, names in os.walk(os.path.join(ROOT, "crates")):
        dirs[:] = sorted(d for d in dirs if d != "out")
        for name in sorted(names):
            if name.endswith(suffixes):
                yield os.path.join(folder, name)


def read(path):
    with open(path, encoding="utf-8", newline="") as f:
        return f.read()


def in_snake_case(name):
    name = re.sub(r"(?<=[a-z0-9])[A-Z]", lambda m: "_" + m[0].lower(), name)
    return name.replace("-", "_")


def of_a_function(path):
    return re.search(r"/proofs/.+/[^/]+\.antt$", path) is not None


def declared():
    """The names that our texts declare: in specs/, in lemma files, and beside a function's proof."""
    found = set()
    for path in files((".antt",)):
        for line in read(path).split("\n"):
            if line.lstrip().startswith("--"):
                continue
            m = DECLARED.match(line)
            if not m or not PLAIN.fullmatch(m[1]):
                continue
            if "-" not in m[1] and not of_a_function(path):
                DEFINED.add(m[1])
            if of_a_function(path) and (GENERATED.match(m[1]) or not path.endswith("Proof.antt")):
                continue
            found.add(m[1])
    return found


def words_of(path):
    """The words of a file that a new spelling could meet: of Rust not the names of functions, which no clause can name."""
    text = read(path)
    if path.endswith(".rt"):
        text = re.sub(r"//.*", "", text)
        text = re.sub(r"\b\w+(?=(?:<[^()\n]*>)?\()|\b\w+(?=::)|(?<=::)\w+|\b(?:mod|use) \w+", " ", text)
        text = re.sub(r"(?<=[A-Za-z0-9_])[:?&*!]", " ", text)
    else:
        text = re.sub(r"(?m)^use [^\s{]+", "", text)
        text = re.sub(r"(?m)(^|\s)--\s.*", "", text)
    return {w.rstrip(":") for w in WORD.findall(text)}


def table():
    words = {path: words_of(path) for path in files((".antt", ".rt"))}
    users = {}
    for path, found in words.items():
        for w in found:
            users.setdefault(w, set()).add(path)
    rows, taken = {}, {}
    names = [n for n in declared() if n[0].islower() and in_snake_case(n) != n]
    # Definitions first: a lemma that would have a definition's name ends in _lem.
    for name in sorted(names, key=lambda n: ("-" in n, n)):
        new = APART.get(name, in_snake_case(name))
        for new in (new, new + "_lem"):
            # A module may have the name of the function beside it.
            met = set() if name in FINE else users.get(name, set()) & users.get(new, set())
            if new not in taken and not met and not ("-" in name and new in DEFINED):
                rows[name], taken[new] = new, name
                break
        else:
            print(f"left: {name}, since {new} is there: {taken.get(new) or sorted(met)[:2]}")
            continue
        if "-" not in name and new.endswith("_lem"):
            del rows[name], taken[new]
            print(f"left: {name}, since {in_snake_case(name)} is there: {sorted(met)[:2]}")
    return rows


def imported(text):
    """The names that a file imports from a library, which keep the library's spelling there."""
    found = set()
    for m in re.finditer(r"(?:^|\n)(?:ghost )?use ([^\s{;]+)\.\{([^}]*)\}", text):
        steps = m[1].split(".")
        if steps[0] != "Rattle" or steps[1] not in OURS:
            found.update(WORD.findall(m[2]))
    return found


def turn(text, rows):
    lines = text.split("\n")
    for i, line in enumerate(lines):
        code, dashes, comment = line, "", ""
        m = re.search(r"(?:^|(?<=\s))--(?=\s|$)", line)
        if m:
            code, dashes, comment = line[: m.start()], "--", line[m.end():]
        # What stands between quotes stays.
        parts = re.split(r'("(?:[^"\\]|\\.)*")', code)
        code = "".join(p if p.startswith('"') else WORD.sub(lambda w: rows.get(w[0], w[0]), p) for p in parts)
        # In a comment a word with a dash may be English.
        comment = WORD.sub(lambda w: rows.get(w[0], w[0]) if "-" not in w[0] else w[0], comment)
        lines[i] = code + dashes + comment
    return "\n".join(lines)


def main():
    rows = table()
    n = 0
    for path in files((".antt", ".rt")):
        old = read(path)
        kept = imported(old)
        mine = {k: v for k, v in rows.items() if k not in kept}
        if TYPES_IN in path:
            mine.update(TYPES)
        for name, crates in LEMMAS_IN.items():
            if any(it in path for it in crates):
                mine[name] = name + "_lem"
        if path.endswith(".rt"):
            # In Rust a dash is a sign, and a string stays.
            mine = {k: v for k, v in mine.items() if "-" not in k}
        new = turn(old, mine)
        if new != old:
            n += 1
            with open(path, "w", encoding="utf-8", newline="") as f:
                f.write(new)
    print(f"respell: {len(rows)} names in {n} files")


main()
