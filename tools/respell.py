#!/usr/bin/env python3
"""Brings the repository's own definitions, lemmas and fields to snake case, and its facts with a dash to camel case.

usage: python3 tools/respell.py [--dry]     at the top of the repository, once, right after the porting script of Rattle
Names that Rattle makes (goals, invariants, measures), names of src/ and of the library keep their spelling.
--dry lists what would fall together, and writes nothing.
"""
import collections
import os
import re
import sys

WORD = re.compile(r"(?<![\w'′])[^\W\d][\w'′]*(?:-[\w'′]+)*")
DEFINED = [
    re.compile(r"^\s*(?:abbrev |unfoldable |opaque |pub |private )*([^\W\d][\w'′-]*)\s*:(?!=)", re.M),
    re.compile(r"^\s*(?:pub )?(?:record|data)\s+([\w'′-]+)", re.M),
]
# two words that fell together in one place: the lemma, or the field, gives way
CHOSEN = {
    "tail-at": "tail_found_at",
    "home-stance": "home_stance_lem",
    "drawn-as": "drawn_as_lem",
    "bare-tail": "bare_tail_found",
    "inked-at": "inked_at_lem",
    "in-turn": "in_turn_lem",
    "lawful-tail": "lawful_tail_lem",
    "Reads-back": "StreamsReadBack",
}


def snake(name):
    if name in CHOSEN:
        return CHOSEN[name]
    name = name.replace("′", "'")
    if name[0].isupper():
        return "".join(w[0].upper() + w[1:] for w in name.split("-"))
    return re.sub(r"(?<=[a-z0-9])[A-Z]", lambda m: "_" + m[0].lower(), name.replace("-", "_"))


def texts():
    for folder, dirs, files in os.walk("crates"):
        dirs[:] = sorted(d for d in dirs if d != "out")
        for f in sorted(files):
            if f.endswith((".antt", ".rt")):
                path = os.path.join(folder, f)
                with open(path, encoding="utf-8") as t:
                    yield path, t.read()


def own_names(files):
    defined, made = set(), set()
    for path, text in files:
        if path.endswith(".antt"):
            made |= set(re.findall(r"goal\.([\w'-]+)", text))
            for form in DEFINED:
                defined |= set(form.findall(text))
    return {n: snake(n) for n in defined - made if snake(n) != n}


# a field of a record of ours; other words with a dash after a dot are steps that Rattle names
FIELDS = {"in-picture"}


def turn_antt(text, names):
    def one(m):
        made = m.string[m.start() - 1 : m.start()] == "." and "-" in m[0] and m[0] not in FIELDS
        return m[0] if made else names.get(m[0], m[0])

    out = []
    for line in text.split("\n"):
        code, dash, note = line.partition("-- ")
        plain = {n: s for n, s in names.items() if "-" not in n}
        out.append(WORD.sub(one, code) + (dash + WORD.sub(lambda m: plain.get(m[0], m[0]), note) if dash else ""))
    return "\n".join(out)


def turn_rt(text, names):
    """Clauses, ghost fields and ghost use lines alone; a clause ends where its brace does."""
    out, i = [], 0
    start = re.compile(r"ghost use [^;]*;|^[ \t]*(?:requires|ensures)\b[^{\n]*\{|^[ \t]*(?:pub )?ghost [\w ]*:[^{\n]*\{|^[ \t]*(?:pub )?ghost (?!use)\w+[^{\n]*\{", re.M)
    while m := start.search(text, i):
        end = m.end()
        if m[0].endswith("{"):
            deep = 1
            while deep:
                deep += (text[end] == "{") - (text[end] == "}")
                end += 1
        out.append(text[i : m.start()])
        out.append(WORD.sub(lambda w: names.get(w[0], w[0]), text[m.start() : end]))
        i = end
    return "".join(out) + text[i:]


def main():
    files = list(texts())
    names = own_names(files)
    together = collections.defaultdict(list)
    for n, s in names.items():
        together[s].append(n)
    for s, ns in sorted(together.items()):
        if len(ns) > 1:
            print("one name now:", s, ns)
    for path, text in files:
        words = set(WORD.findall(text))
        for n, s in sorted(names.items()):
            if n in words and s in words and path.endswith(".antt"):
                print(f"{path}: {n} and {s}")
    if "--dry" in sys.argv:
        return
    for path, text in files:
        new = (turn_antt if path.endswith(".antt") else turn_rt)(text, names)
        if new != text:
            with open(path, "w", encoding="utf-8") as t:
                t.write(new)
    print(len(names), "names")


main()
