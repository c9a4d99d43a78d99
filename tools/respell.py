#!/usr/bin/env python3
"""Brings this repository's own names to Rattle's spelling: words in snake case, types and modules in camel case.

usage: python3 tools/respell.py     at the top of the repository, once, after the port.py of the kit

It goes by words. A word that begins with a small letter and has a capital is one of this repository's own: the library
has none, and neither has Rust. Such a word is turned in each .rt and .antt file, in the must-fail edits, and in the
documents where they name it. An edit of a definition also gets the projections of today (`m.darts` for `m .darts`).
Names of functions in src/, names for C, strings, inputs and outputs have no such word and stay.

It stops, and writes nothing, where two words would fall together, or a word would become one that a definition or a
lemma has already. A function of src/ may have the name of the definition that its contract cites, since proofs name
functions only in paths and in the names of goals, where a dash or a point stands beside them.
"""

import os
import re
import sys

PART = re.compile(r"(?m)^ *-- .*|Rattle\.[\w.+]+|\.[\w']+|[\w']*-[\w'-]*")
WORD = re.compile(r"(?<![\w'])[^\W\dA-Z][\w']*")
CAPITAL = re.compile(r"(?<=[^A-Z_])(?=[A-Z])")
PROJECTIONS = [
    (re.compile(r"\((\w+) \.(\w+)\)"), r"\1.\2"),
    (re.compile(r"\((\w+ \w+) \.(\w+)\)"), r"(\1).\2"),
    (re.compile(r"(\w+) \.(?=\w)"), r"\1."),
]


# In snake case this one would be hidden, in the contracts that cite it, by a parameter.
OTHERWISE = {"operandBytes": "operand_sizes"}


def snake(word):
    if word in OTHERWISE:
        return OTHERWISE[word]
    return CAPITAL.sub(lambda found: "_", word).lower() if CAPITAL.search(word) else word


def files(folder, *ends):
    for where, folders, names in os.walk(folder):
        folders[:] = sorted(f for f in folders if f not in ("out", "target", ".git"))
        for name in sorted(names):
            if name.endswith(ends):
                yield os.path.join(where, name)


def text_of(path):
    with open(path, encoding="utf-8") as file:
        return file.read()


def words(texts):
    return {word for text in texts for word in WORD.findall(text)}


def clashes(turned, kept):
    """Words that fall together with one another or, in the files of definitions and proofs, with another word."""
    back = {}
    for word, new in turned.items():
        back.setdefault(new, []).append(word)
    return sorted(new for new, olds in back.items() if len(olds) > 1 or new in kept)


def turn(text, turned):
    return WORD.sub(lambda found: turned.get(found.group(), found.group()), text)


def tight(text):
    for loose, close in PROJECTIONS:
        text = loose.sub(close, text)
    return text


def of_definition(edit):
    return edit.startswith("file: specs/")


def main():
    crates = list(files("crates", ".rt", ".antt"))
    edits = list(files("crates", ".edit"))
    pages = ["README.md", *files("docs", ".md")]
    turned = {word: snake(word) for word in words(map(text_of, crates)) if snake(word) != word}
    lemmas = (path for path in files("crates", ".antt") if os.path.basename(path) != "Proof.antt")
    together = clashes(turned, words(PART.sub(" ", text_of(path)) for path in lemmas))
    if together:
        print("\n".join(together))
        sys.exit("these names fall together: nothing was written")
    # What port.py has turned before stands in edits and documents as it was.
    own = words(map(text_of, crates)) | set(turned.values())
    turned |= {word: snake(word) for word in words(map(text_of, edits + pages)) if snake(word) in own}
    for path in crates + edits + pages:
        old = text_of(path)
        new = turn(old, turned)
        if path.endswith(".edit") and of_definition(old):
            new = tight(new)
        if new != old:
            with open(path, "w", encoding="utf-8") as file:
                file.write(new)
    print(f"{len(turned)} names turned")


main()
