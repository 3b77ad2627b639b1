#!/usr/bin/env python3
"""Spells the repository's own definitions and laws in snake case, by respelled_names.tsv beside this script (old name, tab, new name).

usage: tools/respell_names.py [FOLDER]     once, on a tree that the kit's port script has just turned

What turns: every word of an .antt file's code, and in its comments the words in camel case; in a .rt file the clauses, the `ghost use`
items and the comments' words in camel case; the same in the text of must-fail edits. Functions of src/, exported names, strings, inputs
and outputs keep their names. A name of the table that ends in `_law` is a law whose plain name a definition has.
"""

import os
import re
import sys

HERE = os.path.dirname(os.path.realpath(__file__))
WORD = re.compile(r"(?<![\w'-])[a-z][\w'-]*")
COMMENT = re.compile(r"(?:^|(?<=\s))--.*$")
RT_COMMENT = re.compile(r"//.*$")
CLAUSE = re.compile(r"\s*(?:ghost use\b|requires\b|ensures\b|ghost\b)")
CAMEL = re.compile(r"[A-Z]")


def table():
    rows = {}
    with open(os.path.join(HERE, "respelled_names.tsv"), encoding="utf-8") as lines:
        for line in lines:
            old, new = line.rstrip("\n").split("\t")
            rows[old] = new
    return rows


def words(text, rows, camel_alone):
    def turn(match):
        word = match[0]
        if camel_alone and not CAMEL.search(word):
            return word
        return rows.get(word, word)

    return WORD.sub(turn, text)


def antt_line(line, rows):
    found = COMMENT.search(line)
    at = found.start() if found else len(line)
    return words(line[:at], rows, False) + words(line[at:], rows, True)


def rt_line(line, rows):
    found = RT_COMMENT.search(line)
    at = found.start() if found else len(line)
    return words(line[:at], rows, not CLAUSE.match(line)) + words(line[at:], rows, True)


def edit(lines, rows):
    of_antt = any(line.startswith("file:") and line.rstrip().endswith(".antt") for line in lines)
    for line in lines:
        if not line.startswith(("old:", "new:")):
            yield line
            continue
        head, text = line[:4], line[4:]
        yield head + (antt_line(text, rows) if of_antt else rt_line(text, rows))


def turned(path, lines, rows):
    if path.endswith(".antt"):
        return [antt_line(line, rows) for line in lines]
    if path.endswith(".rt"):
        return [rt_line(line, rows) for line in lines]
    return list(edit(lines, rows))


def main(root):
    rows = table()
    count = 0
    for top in ("crates", "must-fail"):
        for folder, names, files in os.walk(os.path.join(root, top)):
            names[:] = [name for name in names if name != "out"]
            for file in files:
                if not file.endswith((".antt", ".rt", ".edit")):
                    continue
                path = os.path.join(folder, file)
                with open(path, encoding="utf-8") as it:
                    before = it.read()
                after = "".join(turned(path, before.splitlines(keepends=True), rows))
                if after != before:
                    with open(path, "w", encoding="utf-8") as it:
                        it.write(after)
                    count += 1
    print(f"{count} files respelled")


if __name__ == "__main__":
    main(sys.argv[1] if len(sys.argv) > 1 else ".")
