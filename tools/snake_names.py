#!/usr/bin/env python3
"""Spells the repository's own names of specs/ and proofs/ in snake case: definitions and lemmas that were in camel case, and fields and constructors that had a dash.

usage: python3 tools/snake_names.py            at the top of the repository, once, after the kit's port.py
Functions of src/, types, modules, strings, inputs and outputs keep their names.
"""

import os
import re

WORD = r"[A-Za-z_ℕℤλμκ][A-Za-z0-9_ℕℤλμκ₀-₉'-]*"
TOKEN = re.compile(WORD)
DEFINED = re.compile(r"(?m)^(?: +(?=abbrev |unfoldable |pub ))?(?:(?:abbrev|unfoldable|pub) )*(" + WORD + r") :(?= )")
BLOCK = re.compile(r"(?m)^(?:pub )?(?:data|record) .* where\n((?:  .*\n|\n(?=  ))+)")
MEMBER = re.compile(r"(?m)^  (?:pub )?(" + WORD + r"(?: " + WORD + r")*) :(?= )")
INLINE = re.compile(r"(?m)^(?:pub )?record .* where \{(.*)\}$")
# Names of their own where the plain spelling would meet another: a fact is a type, and a lemma that would have its definition's name gets `_lem`.
OWN = {"in_word": "InWord", "inEmpty": "InEmpty", "inHead": "is_in_head", "inNumber": "is_in_number", "secondZero": "is_second_zero", "madeBy": "made_by"}
LEMMAS = {"is_digit": "places reading", "last_taken": "images", "read_under": "index/proofs/Lookups slides/proofs/Stepping", "step_by": "steps"}


def texts(endings):
    for folder, dirs, files in os.walk("."):
        dirs[:] = sorted(d for d in dirs if d not in ("out", ".git", "target", "tools", "host"))
        for f in sorted(files):
            if f.endswith(endings):
                yield os.path.join(folder, f)


def snake(name):
    return re.sub(r"(?<=[a-z0-9])([A-Z]+)", lambda m: "_" + m.group(1).lower(), name)


def is_camel(name):
    return re.match(r"[a-z]", name) and re.search(r"[a-z0-9][A-Z]", name)


def members(text):
    for block in BLOCK.finditer(text):
        for m in MEMBER.finditer(block.group(1)):
            yield from m.group(1).split()
    for block in INLINE.finditer(text):
        yield from re.findall(r"(?:pub )?(" + WORD + r") :", block.group(1))


def table():
    defined, fields = set(), set()
    for path in texts((".antt",)):
        with open(path, encoding="utf-8") as f:
            text = f.read()
        defined.update(m.group(1) for m in DEFINED.finditer(text))
        fields.update(members(text))
    names = {n: snake(n) for n in defined | fields if is_camel(n)}
    names.update({n: snake(n).replace("-", "_") for n in fields if "-" in n})
    names.update(OWN)
    return names


def lemmas(path):
    return {n: n + "_lem" for n, places in LEMMAS.items() if any(f"crates/{p}" in path for p in places.split())}


def turned(path, text, names):
    """The text with its names turned: all of them in antt and in the lines of Rattle that hold ghost text; else those in camel case, and in pages those between back quotes."""
    own = lemmas(path)
    plain = {o: n for o, n in names.items() if "-" not in o and o != "in_word"}

    def word(which):
        return lambda m: own.get(m.group(0)) or which.get(m.group(0), m.group(0))

    if path.endswith(".antt"):
        return TOKEN.sub(word(names), text)
    if path.endswith(".md"):
        text = TOKEN.sub(word(plain), text)
        return re.sub(r"`[^`\n]*`", lambda m: TOKEN.sub(word(names), m.group(0)), text)
    lines = []
    for line in text.split("\n"):
        ghost = re.match(r"(old: |new: )?(ghost|\s*requires|\s*ensures|abbrev|unfoldable)", line)
        lines.append(TOKEN.sub(word(names if ghost else plain), line))
    return "\n".join(lines)


def main():
    names = table()
    changed = 0
    for path in texts((".antt", ".rt", ".edit", ".md")):
        with open(path, encoding="utf-8") as f:
            text = f.read()
        new = turned(path, text, names)
        if new != text:
            changed += 1
            with open(path, "w", encoding="utf-8") as f:
                f.write(new)
    print(f"{len(names)} names, {changed} files")
    return 0


if __name__ == "__main__":
    raise SystemExit(main())
