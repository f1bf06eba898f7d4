#!/usr/bin/env python3
"""Brings this repository's own definitions and lemmas to snake case, as the library spells its own.

usage: python3 tools/snake_names.py      at the top of the repository, once, right behind the library's own port.py

A name is the repository's own if it stands in a specs/ or proofs/ file and no other library's module is asked for it. Types, modules, functions of
src/, strings, inputs and outputs keep their names. Where a lemma would get the name of a definition, of a function or of another lemma it gets `_lem`
behind it. Proof.antt keeps the names of its goals, which Rattle makes. Pages have a name turned where it stands in backticks.
"""

import os
import re

TOKEN = re.compile(r"[^\s(){}\[\],;.λ`]+")
IMPORT = re.compile(r"^\s*(?:pub |ghost )*use ([^\s{]+?)(?:\.\{([^}]*)\}| as \S+)?;?\s*$", re.M)
GOAL = re.compile(r"^(?:abbrev |pub )*(\S+) : (?:tie\.|\{M : Type 1\} → statement)", re.M)
# Names that would fall together with one that is no lemma, or with a library's.
SPECIAL = {"bit-and": "bit_of_and", "bit-or": "bit_of_or", "labelBytes": "bytes_of_label", "place-of": "place_back"}


def files():
    for top in ("crates", "README.md", "docs"):
        if os.path.isfile(top):
            yield top
        for folder, inner, names in os.walk(top):
            inner[:] = sorted(d for d in inner if d != "out")
            for name in sorted(names):
                yield os.path.join(folder, name)


def code(line):
    """A line of antt parted into its code and its comment."""
    at = line.find("--")
    return (line, "") if at < 0 else (line[:at], line[at:])


def is_camel(word):
    return re.search(r"[a-z0-9][A-Z]", word) is not None


def is_turned(word):
    return re.match(r"[a-z]", word) is not None and (re.search(r"[^\W_]-\w", word) is not None or is_camel(word))


def snake(word):
    word = word.replace("-", "_")
    return re.sub(r"(?<=[a-z0-9])([A-Z])", lambda m: "_" + m[1].lower(), word)


texts = {}
for path in files():
    if path.endswith((".antt", ".rt", ".edit", ".md")):
        with open(path, encoding="utf-8") as f:
            texts[path] = f.read()

own = set(os.listdir("crates"))
foreign, found, everywhere = set(), set(), set()
for path, text in texts.items():
    if path.endswith((".antt", ".rt")):
        for module, names in IMPORT.findall(text):
            if names and not (module.startswith("Rattle.") and module.split(".")[1] in own):
                foreign |= {it.strip().split(" as ")[0].strip() for it in names.split(",")}
    if path.endswith(".antt"):
        words = {w for line in text.split("\n") for w in TOKEN.findall(code(line)[0])}
        everywhere |= words
        if not path.endswith("/Proof.antt"):
            found |= {w for w in words if is_turned(w)}
    elif path.endswith(".rt"):
        everywhere |= set(re.findall(r"\w+", text))
mine = found - foreign

new, taken = {}, {snake(w) for w in mine if is_camel(w)}
for word in sorted(mine):
    to = SPECIAL.get(word, snake(word))
    if word not in SPECIAL and not is_camel(word) and (to in taken or to in everywhere or to in foreign):
        to += "_lem"
    new[word] = to
assert len(set(new.values())) == len(new), "names fall together"


def turn(text, keep=(), fields=True):
    """The text with each name turned; without `fields`, a name behind a dot only gets its dashes turned."""

    def one(m):
        word = m[0]
        if word not in new or word in keep:
            return word
        if not fields and m.start() > 0 and m.string[m.start() - 1] == "." and not is_camel(word):
            return word.replace("-", "_")
        return new[word]

    return TOKEN.sub(one, text)


def camels(text):
    return TOKEN.sub(lambda m: new[m[0]] if m[0] in new and is_camel(m[0]) else m[0], text)


def antt(text, goals):
    keep = set(GOAL.findall(text)) if goals else set()
    lines = []
    for line in text.split("\n"):
        front, comment = code(line)
        parts = re.split(r"(\btie\.\S+)", front)
        lines.append("".join(p if p.startswith("tie.") else turn(p, keep, not goals) for p in parts) + camels(comment))
    return "\n".join(lines)


def rt(text):
    lines = []
    for line in text.split("\n"):
        at = line.find("//")
        front, comment = (line, "") if at < 0 else (line[:at], line[at:])
        lines.append(turn(front) + camels(comment))
    return "\n".join(lines)


def edit(text):
    ending = re.search(r"^file: .*\.(\w+)$", text, re.M)
    of = rt if ending and ending[1] == "rt" else lambda it: antt(it, False)
    return "\n".join(line[:4] + of(line[4:]) if re.match(r"(old|new):", line) else camels(line) for line in text.split("\n"))


for path, text in texts.items():
    if path.endswith(".antt"):
        to = antt(text, path.endswith("/Proof.antt"))
    elif path.endswith(".rt"):
        to = rt(text)
    elif path.endswith(".edit"):
        to = edit(text)
    else:
        to = re.sub(r"`[^`\n]*`", lambda m: turn(m[0]), text)
    if to != text:
        with open(path, "w", encoding="utf-8") as f:
            f.write(to)
print(f"{len(new)} names turned")
for word, to in sorted(new.items()):
    if to != snake(word):
        print(f"{word} is now {to}")
