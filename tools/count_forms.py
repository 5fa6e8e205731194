#!/usr/bin/env python3
"""Counts the places in src/ that are written in forms which a newer Rattle lets one write better.

usage: count_forms.py [-l] [FOLDER]

FOLDER is a checkout (default: the current folder). With -l each place is printed. docs/DESIGN-PASS.md has the counts
before and after the pass, and says of each place that is left why it is. The patterns go by text: they find more than
is wrong, and a place can stand under two letters.
"""
import re
import sys
from collections import defaultdict
from pathlib import Path

NAME = r"[A-Za-z_][A-Za-z_0-9]*"


def sources(root):
    for path in sorted(Path(root).glob("crates/*/src/**/*.rt")):
        if path.name != "tests.rt":
            yield path.relative_to(root), path.read_text()


def line_of(text, at):
    return text.count("\n", 0, at) + 1


def find(pattern, flags=re.M):
    made = re.compile(pattern, flags)

    def places(path, text):
        for hit in made.finditer(text):
            yield f"{path}:{line_of(text, hit.start())}", " ".join(hit.group(0).split())[:90]

    return places


def functions(text):
    """Each function with a body: where it begins, its name, its signature, its clauses and its body."""
    for hit in re.finditer(r"^[ ]*(?:pub(?:\([a-z]+\))? )?(?:const )?(?:final )?fn (" + NAME + ")", text, re.M):
        at, since, clauses = hit.end(), hit.end(), None
        while at < len(text) and text[at] not in "{;":
            at = closing(text, at, "()") + 1 if text[at] == "(" else at + 1
            if at < len(text) and text[at] == "{" and re.search(r"\b(?:requires|ensures)\*?(?:\s+" + NAME + r")?\s*$", text[since:at]):
                if clauses is None:
                    clauses = since + re.search(r"\b(?:requires|ensures)", text[since:at]).start()
                at = since = closing(text, at) + 1
        if at >= len(text) or text[at] == ";":
            continue
        end = clauses if clauses is not None else at
        yield hit.start(), hit.group(1), text[hit.start():end], text[end:at], text[at:closing(text, at) + 1]


def closing(text, at, pair="{}"):
    depth = 0
    for i in range(at, len(text)):
        if text[i] == pair[0]:
            depth += 1
        elif text[i] == pair[1]:
            depth -= 1
            if depth == 0:
                return i
    return len(text) - 1


KEYWORDS = {"let", "else", "return", "if", "match", "for", "in", "while", "loop", "true", "false", "None", "Some", "Ok", "Err", "self", "mut", "fn", "continue", "break"}


def shape(text):
    words = re.findall(NAME + r"|\d[\d_]*|'.'|b'.{1,2}'|\"[^\"]*\"|[^\s\w]", text)
    return tuple(w if w in KEYWORDS or not (w[0].isalnum() or w[0] in "_'\"") else "x" for w in words)


def twins(root):
    groups = defaultdict(list)
    for path, text in sources(root):
        for at, name, signature, _, body in functions(text):
            key = shape(body)
            if len(key) >= 12:
                groups[key].append((f"{path}:{line_of(text, at)}", f"fn {name}"))
    for group in groups.values():
        if len(group) > 1:
            yield from group


def parameters(root):
    seen = defaultdict(list)
    for path, text in sources(root):
        for at, name, signature, _, _ in functions(text):
            listed = re.search(r"\((.*?)\)\s*(?:->|where|$)", signature.strip() + " ", re.S)
            if not listed:
                continue
            names = [re.sub(r"\s+", " ", p).strip() for p in re.split(r",(?![^<(\[]*[>)\]])", listed.group(1))]
            names = [p for p in names if ":" in p and not p.startswith("rt")]
            for i in range(len(names)):
                for j in range(i + 1, len(names)):
                    seen[(names[i], names[j], str(path).split("/")[1])].append((f"{path}:{line_of(text, at)}", f"fn {name}"))
    for (a, b, _), where in sorted(seen.items()):
        if len(where) >= 3:
            for place, name in where:
                yield place, f"{name}: {a}, {b}"


def facts(root):
    seen = defaultdict(list)
    for path, text in sources(root):
        for at, name, _, clauses, _ in functions(text):
            for clause in re.findall(r"requires(?: \w+)? \{(.*?)\}\s*(?=\n|$)", clauses, re.S):
                for part in re.split(r"×", clause):
                    fact = re.sub(r"\s+", " ", part).strip(" ()")
                    seen[(fact, str(path).split("/")[1])].append((f"{path}:{line_of(text, at)}", f"fn {name}"))
    for (fact, _), where in sorted(seen.items()):
        if len(where) >= 3:
            for place, name in where:
                yield place, f"{name}: {fact}"


SEARCHES = [
    ("1a", "numbers as constants for kinds, styles and notes", find(r"^\s*(?:pub )?const [A-Z_]+: u8 = ")),
    ("1b", "a kind, a style or a number of a refusal or a note held as u8",
     find(r"\b(?:kind|style|sign|number)\b\s*: (?:Option<)?u8|styles?: \[u8|^\s*Kind\(u8\)|fn " + NAME + r"(?:kind|style)" + NAME + r"?\([^)]*\)[^{;]*?-> (?:Option<)?&?\[?u8")),
    ("1c", "let .. else that hands on a None, a false or an Err",
     find(r"let [^;{}]*?\belse \{\s*return (?:None|Err\([^;]*\)|Ok\(None\));\s*\};", re.S)),
    ("1d", "a bool that says whether a call did its work", find(r"-> io::Result<bool>|fn fill<|if !fill\(|if !print_")),
    ("1e", "a number that stands for none", find(r"^\s*/// .*(?:0 where|where there (?:is|are) (?:none|0))")),
    ("1f", "an enum with a variant for none of the others", find(r"^\s*(?:Other|Nothing|TooMany|Unclosed),")),
    ("3a", "while over an index or a count", find(r"\bwhile [^\n]*[<>][^\n]*\{")),
    ("3b", "for over a range of indices", find(r"\bfor " + NAME + r" in [^\n]*\.\.[^\n]*\{")),
    ("3c", "an index beside each element", find(r"\.enumerate\(\)")),
    ("3d", "a count by hand", find(r"\+= 1;|= " + NAME + r"\.saturating_add\(1\)")),
    ("3e", "a loop that goes through a list to answer early", find(r"for [^\n]*\{\s*if [^\n]*\{\s*return [^\n]*;\s*\}\s*\}\s*(?:true|false|None|" + NAME + r"\.len\(\))\s*\}", re.S)),
    ("4a", "a test of a variant by match", find(r"match " + NAME + r" \{[^{}]*=> (?:true|false),[^{}]*=> (?:true|false),?\s*\}", re.S)),
    ("4b", "words of a value by a function", find(r"^\s*(?:pub )?fn " + NAME + r"(?:_name|_words|_mark|_letter)\([^)]*\)[^{;]*-> &'static str")),
    ("4c", "printing of a value by a function", find(r"^\s*(?:pub )?fn print_(?:specifier|pieces|notes|bytes|end|fault|sheet_refusal|cutter_refusal|cut_refusal)\b")),
    ("4d", "a comparison written out", find(r"\bfn same\(|bytes\[0\] == [^\n]*bytes\[1\] ==")),
    ("4e", "a conversion written out", find(r"(?:Place|Position) \{\s*token: (?:" + NAME + r"\.)+token(?: \+ 1)?,\s*offset: [^,]*,", re.S)),
    ("4f", "a front of a token written out", find(r"Place \{\s*token: [^,]*,\s*offset: 0,?\s*\}", re.S)),
    ("6a", "a buffer with a length beside it", find(r"pub (?:used|count): usize,")),
    ("6b", "an array of a fixed size in a struct", find(r"pub " + NAME + r": \[[^\]]*; [A-Z_0-9]+\]")),
    ("7a", "a switch on a format that picks what runs", find(r"match (?:" + NAME + r"\.)*format \{\n\s*Format::Prefix => (?:\{|match|[a-z_.]+\()")),
]


def main():
    args = sys.argv[1:]
    listing = "-l" in args
    folders = [a for a in args if a != "-l"]
    root = Path(folders[0] if folders else ".")
    rows = []
    for key, what, places in SEARCHES:
        rows.append((key, what, [p for path, text in sources(root) for p in places(path, text)]))
    rows.append(("2a", "functions of one shape (bodies alike but for names and numbers)", list(twins(root))))
    rows.append(("5a", "a fact in the requires of three or more functions of a crate", list(facts(root))))
    rows.append(("5b", "two parameters that travel together in three or more functions of a crate", list(parameters(root))))
    for key, what, where in sorted(rows):
        print(f"{key} {len(where):4}  {what}")
        if listing:
            for place, text in where:
                print(f"          {place}: {text}")


if __name__ == "__main__":
    main()
