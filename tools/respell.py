#!/usr/bin/env python3
"""Brings the names of definitions and lemmas to one spelling, once, right after the repository was turned to
the Rattle of docs/PORT.md.

usage: python3 tools/respell.py        at the top of the repository

Definitions, lemmas, fields and constructors that the files of specs/ and proofs/ declare are in snake case
afterwards, as `isDigit` becomes `is_digit` and `left-past` becomes `left_past`; types and facts keep their capital.
Names that Rattle makes (goals, invariants, measures) and everything that src/ declares stay as they are.
It prints each name that it turned, and stops where two names would fall together.
"""

import glob
import re
import sys

# names that their plain respelling would bring onto a word of the language or of the library, or that name a fact
OTHER = {"first_of": "front_number", "within": "Within", "has-byte": "token_has_byte", "head-note": "head_of_notes", "kind-is": "known_kind"}
# their new spelling is that of a field of a record of src/, which stands at another place in a term
LIKE_A_FIELD = {"close-line", "content-line", "open-line", "firstOneLine"}
# a name is turned only in these crates; elsewhere it is another word
ONLY_IN = {"within": ["cut"]}

WORD = re.compile(r"[A-Za-z_][A-Za-z0-9_'-]*")
DECLARED = re.compile(r"^(?:pub |abbrev |unfoldable )*([A-Za-z_][A-Za-z0-9_'-]*) :(?:\s|$)")
INNER = re.compile(r"^ +(?:pub |abbrev )*([A-Za-z_][A-Za-z0-9_'-]*) :(?:\s|$)")
BOUND = re.compile(r"[({]([a-z][A-Za-z0-9_']*-[A-Za-z0-9_'-]*) : ")
MADE = re.compile(r"goal\.|^(pub )?(returns|loop|invariant|decreases)-")


def antt_files():
    return sorted(glob.glob("crates/*/specs/**/*.antt", recursive=True) + glob.glob("crates/*/proofs/**/*.antt", recursive=True))


def declared():
    names = set()
    for path in antt_files():
        for line in open(path, encoding="utf-8"):
            text = line.rstrip("\n")
            m = DECLARED.match(text) or INNER.match(text)
            if m and not text.lstrip().startswith("--") and not MADE.search(text):
                names.add(m.group(1))
            names.update(BOUND.findall(text))
    return names


def snake(name):
    if name in OTHER:
        return OTHER[name]
    if name[0].isupper():
        return name
    return re.sub(r"([A-Z])", lambda m: "_" + m.group(1).lower(), name).replace("-", "_")


def plain(word):
    """Whether a word can stand in the code of a source file too."""
    return re.fullmatch(r"[a-z0-9_]+", word)


def turn_line(line, names, crate, clause=True):
    def one(m):
        word, before, after = m.group(0), line[: m.start()], line[m.end():]
        if word not in names or crate not in ONLY_IN.get(word, [crate]) or plain(word) and not clause:
            return word
        if word == "within" and (before.endswith((".", "ensures ")) or re.match(r" (=|:) ", after) and before.strip() in ("", "pub", "record {") and " : Role" not in after):
            return word
        return names[word]

    return WORD.sub(one, line)


def parts_of_source(line):
    """A line of a source file without its strings: the pieces that may hold names of clauses."""
    at = 0
    for m in re.finditer(r'b?"(?:[^"\\]|\\.)*"', line):
        yield line[at : m.start()], True
        yield m.group(0), False
        at = m.end()
    yield line[at:], True


def main():
    names = {n: snake(n) for n in declared() if snake(n) != n}
    seen = {}
    for path in antt_files():
        text = open(path, encoding="utf-8").read()
        for m in WORD.finditer(text):
            if "." not in (text[m.start() - 1 : m.start()], text[m.end() : m.end() + 1]):
                seen.setdefault(m.group(0), set()).add(path)
    bad = 0
    turned = {}
    for old, new in sorted(names.items()):
        turned.setdefault(new, []).append(old)
        if new in seen and old not in ONLY_IN and old not in LIKE_A_FIELD:
            print(f"falls together: {old} -> {new}, which stands in {sorted(seen[new])[:4]}")
            bad += 1
    for new, olds in turned.items():
        if len(olds) > 1:
            print(f"falls together: {olds} -> {new}")
            bad += 1
    if bad:
        return 1
    for path in antt_files():
        crate = path.split("/")[1]
        lines = open(path, encoding="utf-8").read().split("\n")
        open(path, "w", encoding="utf-8").write("\n".join(turn_line(x, names, crate) for x in lines))
    for path in sorted(glob.glob("crates/*/src/**/*.rt", recursive=True)):
        crate = path.split("/")[1]
        out = []
        for line in open(path, encoding="utf-8").read().split("\n"):
            clause = re.match(r"\s*(ghost|requires|ensures|\|) ?", line) is not None
            out.append("".join(turn_line(x, names, crate, clause) if own else x for x, own in parts_of_source(line)))
        open(path, "w", encoding="utf-8").write("\n".join(out))
    for old, new in sorted(names.items()):
        print(f"{old} {new}")
    return 0


if __name__ == "__main__":
    sys.exit(main())
