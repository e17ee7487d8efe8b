#!/usr/bin/env python3
"""Spells this repository's own words of antt as today's Rattle does, in snake case: `heldWords` and `held-words` become `held_words`.

usage: tools/snake_names.py [--list | --words FILE]    at the top of the repository, once, right behind port.py

--list prints each word and its new name and writes nothing; --words takes them from such a list. Two crates that have a name of Rattle's
own libraries, hex and log, are renamed too.

Words are the definitions, fields and lemmas of specs/ and proofs/. Types, modules and constructors with a capital stay, and so do Rattle's own
names of goals and steps, and the words of other libraries. A lemma that would get a definition's name gets `_lem` behind it. What clauses and
comments in src/, must-fail edits, tests and pages (in backquotes) say of a word is spelled with it.
"""

import os
import re
import sys

WORD = re.compile(r"(?<![\w'])[A-Za-z_«][\w'»]*(?:-[\w'»]+)*")
STRING = re.compile(r'"(?:[^"\\\n]|\\.)*"')
CAMEL = re.compile(r"[a-z][a-z0-9]*(?:_[a-z0-9]+)*[A-Z][A-Za-z0-9]*$")
DEFINED = re.compile(r"^(?:abbrev |unfoldable |opaque |pub )*([a-z][\w'-]*) :(?! tie\.)", re.M)
# A field of an answer, which the machine's rules and the struct share.
SHARED = {"addon_line"}
CRATES = {"hex": "hex_digits", "log": "frame_log"}
PAGES = ("README.md", "docs", "samples", "examples")


def files(folders, endings):
    for top in folders:
        if os.path.isfile(top):
            yield top
        for folder, dirs, names in os.walk(top):
            dirs[:] = sorted(d for d in dirs if d not in ("out", ".git", "landings"))
            for name in sorted(names):
                if name.endswith(endings):
                    yield os.path.join(folder, name)


def read(path):
    with open(path, encoding="utf-8") as f:
        return f.read()


def write(path, text):
    if read(path) != text:
        with open(path, "w", encoding="utf-8") as f:
            f.write(text)


def snake(name):
    return re.sub(r"([a-z0-9])([A-Z])", r"\1_\2", name).lower().replace("-", "_")


def bare(text):
    """The words of a text that stand behind no dot: no fields of steps and no parts of paths."""
    code = re.sub(r"--.*", "", text)
    return {m[0] for m in WORD.finditer(code) if code[m.start() - 1 : m.start()] != "."}


def renames(texts):
    """Returns the new name of each word, and the new names of lemmas that have a definition's name."""
    own = "|".join(sorted(os.listdir("crates")))
    imports = re.compile(rf"^(?:pub |ghost )*use (?!Rattle\.(?:{own})\.)[\w.'-]+\.\{{([^}}]*)\}}", re.M)
    foreign = {n.strip() for text in texts.values() for names in imports.findall(text) for n in names.split(",")}
    antt = {p: t for p, t in texts.items() if p.endswith(".antt")}
    taken = {w for t in antt.values() for w in bare(t)}
    camel = {w for t in texts.values() for w in WORD.findall(t) if CAMEL.match(w)} - foreign
    dashed = {n for t in antt.values() for n in DEFINED.findall(t) if "-" in n} - foreign - camel
    new, lemmas = {}, {}
    for word in sorted(camel):
        name = snake(word)
        if name in taken and name not in SHARED:
            lemmas[name] = name + "_lem"
        taken.add(name)
        new[word] = name
    for word in sorted(dashed):
        name = snake(word)
        if name in taken:
            name += "_lem"
        if name in taken:
            raise SystemExit(f"{word}: {name} is another word")
        taken.add(name)
        new[word] = name
    return new, lemmas


def turn(text, new, lemmas):
    def turned(m):
        if m[0] in lemmas and text[m.start() - 1 : m.start()] != ".":
            return lemmas[m[0]]
        return new.get(m[0], m[0])

    # strings keep what they say
    return re.sub(STRING.pattern + "|" + WORD.pattern, turned, text)


def quoted(text, new):
    return re.sub(r"`[^`\n]+`", lambda m: turn(m[0], new, {}), text)


def rename_crates():
    """Renames the crates whose names the kit has, wherever code, paths of antt, edits and crates.txt say them."""
    for old, name in CRATES.items():
        for top in ("crates", "more-edits"):
            if os.path.isdir(f"{top}/{old}"):
                os.rename(f"{top}/{old}", f"{top}/{name}")
        for path in files(["crates", "more-edits"], (".antt", ".rt", ".edit")):
            text = re.sub(rf"\bRattle([.·]){old}(?=[.·])", rf"Rattle\1{name}", read(path))
            if not path.endswith(".antt"):
                text = re.sub(rf"(?<![\w.:]){old}::", f"{name}::", text)
            write(path, text)
        write("crates.txt", re.sub(rf"^(?!#).*", lambda m: re.sub(rf"\b{old}\b", name, m[0]), read("crates.txt"), flags=re.M))


def main():
    paths = list(files(["crates"], (".antt", ".rt")))
    texts = {p: read(p) for p in paths}
    if "--words" in sys.argv:
        words = [line.split() for line in read(sys.argv[-1]).splitlines()]
        new = {a: b for a, b in words if b != a + "_lem"}
        lemmas = {a: b for a, b in words if b == a + "_lem"}
    else:
        new, lemmas = renames(texts)
    if "--list" in sys.argv:
        for a, b in sorted((new | lemmas).items()):
            print(a, b)
        return
    for path, text in texts.items():
        write(path, turn(text, new, lemmas if path.endswith(".antt") else {}))
    for path in files(["crates", "more-edits"], (".edit",)):
        text = read(path)
        write(path, turn(text, new, lemmas if "file: src" not in text else {}))
    for path in files(PAGES, (".md",)):
        write(path, quoted(read(path), new))
    rename_crates()
    print(f"{len(new)} words, and {len(lemmas)} lemmas with a definition's name")


if __name__ == "__main__":
    main()
