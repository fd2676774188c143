#!/usr/bin/env python3
"""Brings the names of this repository's own definitions, lemmas and fields to one spelling: words in
snake case, types in camel case. Run once, at the top, after the kit's port.py:

    python3 tools/respell.py

It turns a name wherever it stands as a whole word in specs/, proofs/ and the clauses of src/. Comments,
strings and the names of goals stay. A new name that stands somewhere else already is printed, to be
looked at; two that would be confused in one crate are turned apart by the table APART.
"""
import glob
import re

WORD = r"[A-Za-z_][A-Za-z0-9_']*(?:-[A-Za-z0-9_'ℕℤ]+)*"
TOKEN = re.compile(WORD)
HEAD = re.compile(r"(?:(?:abbrev|unfoldable|pub|private|record|data|ruleset) )*(" + WORD + r")(?=[ :])[^=]*? : ")
FIELD = re.compile(r"\s+(?:pub )?(" + WORD + r") : ")


# Two names of one crate that would fall together: the second is turned to a name of its own.
APART = {"row-of": "day_row", "place-told": "place_as_told"}
APART_IN = {
    ("place_of", "place_told"): [
        "crates/message/specs/Told.antt",
        "crates/message/src/series.rt",
        "crates/message/proofs/SeriesLaws.antt",
    ],
}


def files(*patterns):
    return sorted(p for pattern in patterns for p in glob.glob(pattern, recursive=True) if "/out/" not in p)


def snake(name):
    """days-where and onDay become days_where and on_day; First-of becomes FirstOf."""
    if name[0].isupper():
        return "".join(part[:1].upper() + part[1:] for part in name.split("-"))
    name = re.sub(r"(?<=[a-z0-9])([A-Z])(?![A-Z])", lambda m: "_" + m[1].lower(), name)
    name = re.sub(r"(?<=[a-z0-9])([A-Z])\b", lambda m: "_" + m[1].lower(), name)
    return name.replace("-", "_")


def pieces(text, comment):
    """The text in runs: (is it code, run)."""
    pattern = re.compile(comment + r'[^\n]*|"(?:[^"\\\n]|\\.)*"')
    at = 0
    for m in pattern.finditer(text):
        yield True, text[at:m.start()]
        yield False, m[0]
        at = m.end()
    yield True, text[at:]


def code_words(path):
    comment = "//" if path.endswith(".rt") else "--"
    with open(path, encoding="utf-8") as f:
        text = f.read()
    for is_code, run in pieces(text, comment):
        if is_code:
            yield from TOKEN.findall(run)


def main():
    antt = files("crates/*/specs/**/*.antt", "crates/*/proofs/**/*.antt")
    sources = files("crates/*/src/**/*.rt")
    defined, goals, words = set(), set(), set()
    for path in antt:
        with open(path, encoding="utf-8") as f:
            for line in f:
                if line.startswith(("use ", "--", "mod ", "pub mod ", "unfolding ")):
                    continue
                m = HEAD.match(line)
                if m:
                    (goals if re.search(r": goal\.", line) else defined).add(m[1])
                m = FIELD.match(line)
                if m and ("/specs/" in path or re.fullmatch(r"crates/\w+/proofs/\w+\.antt", path)):
                    defined.add(m[1])
        words.update(code_words(path))
    for path in sources:
        words.update(code_words(path))
    cited = {m for path in antt for m in re.findall(r"goal\.(" + WORD + ")", open(path, encoding="utf-8").read())}
    turn = {}
    for name in sorted(defined - goals - cited):
        new = APART.get(name, snake(name))
        if new == name:
            continue
        if new in words or new in turn.values():
            print(f"stands elsewhere too: {name} -> {new}")
        turn[name] = new
    for path in antt + sources:
        comment = "//" if path.endswith(".rt") else "--"
        with open(path, encoding="utf-8") as f:
            text = f.read()
        here = turn | {old: to for (old, to), where in APART_IN.items() if path in where}
        new = "".join(TOKEN.sub(lambda m: here.get(m[0], m[0]), run) if is_code else run for is_code, run in pieces(text, comment))
        if new != text:
            with open(path, "w", encoding="utf-8") as f:
                f.write(new)
    print(f"{len(turn)} names turned")


main()
