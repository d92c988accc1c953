#!/usr/bin/env python3
"""Respells what the kit's own script leaves: names of definitions, fields and variables in lower camel case become
snake case, in every .antt file and in the clauses of every .rt file. Run it once, at the top, after that script.

A name that comes from the program logic keeps its spelling, and so do strings, types and modules. Where a lemma would
fall together with a definition, it gets its dash back first."""

import os
import re

# Lemmas that would have a definition's name, and the names that keep them apart.
APART = {
    "are_all": "are-all",
    "body_bytes": "body-bytes",
    "finished_as": "finished-as",
    "length_from": "length-from",
    "room_as": "room-as",
    "top_from": "top-from",
    "top_one": "top-one",
}
WORD = re.compile(r"(?<![\w'₀-₉])[^\W\dA-Z][\w'₀-₉]*")
LOWER_CAMEL = re.compile(r"^[a-z][a-z0-9₀-₉]*[A-Z]")
QUOTED = re.compile(r'"(?:[^"\\\n]|\\.)*"')


def snake(name):
    return re.sub(r"(?<=[a-z0-9])[A-Z]", lambda capital: "_" + capital.group().lower(), name)


def respelled(word):
    return snake(word) if LOWER_CAMEL.match(word) else word


def outside_quotes(text, change):
    done, at = [], 0
    for quoted in QUOTED.finditer(text):
        done += [change(text[at:quoted.start()]), quoted.group()]
        at = quoted.end()
    return "".join(done) + change(text[at:])


def turned(text, lemmas):
    """The text with its names respelled; lemmas too where they stand apart from definitions."""

    def one(match):
        word = match.group()
        return APART.get(word, respelled(word)) if lemmas else respelled(word)

    return outside_quotes(text, lambda part: WORD.sub(one, part))


def main():
    changed = 0
    for folder, folders, files in os.walk("crates"):
        folders[:] = [name for name in folders if name != "out"]
        for name in files:
            if not name.endswith((".rt", ".antt")):
                continue
            path = os.path.join(folder, name)
            with open(path, encoding="utf-8") as file:
                text = file.read()
            in_cut = path.startswith(os.path.join("crates", "cut", "")) or "Rattle.cut." in text
            new = turned(text, name.endswith(".antt") and in_cut)
            if new != text:
                changed += 1
                with open(path, "w", encoding="utf-8") as file:
                    file.write(new)
    print(f"spelling: {changed} files")


main()
