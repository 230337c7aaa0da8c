#!/usr/bin/env python3
# port_names.py before | after: brings the repository's own names to the spelling of a newer Rattle, at the top of
# the tree. Before the kit's port.py local names of modules lose their underscores, by which it would take the files
# for newer ones; after it definitions, fields and lemmas are put in snake case, in the pages too. Functions of src/,
# exported names and strings keep theirs.
import os
import re
import sys
from itertools import takewhile

# Lemmas that would have their definition's name once both are in snake case.
LEMMAS = "box_in goes_on least_step on_row one_bit paint_bytes put_one two_bytes up_to".split()
WORD = re.compile(r"(?<![\w'])[a-z][a-z0-9]*[A-Z][\w']*")


def files(top, suffixes):
    for folder, dirs, names in os.walk(top):
        dirs[:] = sorted(d for d in dirs if d != "out")
        for name in sorted(names):
            if name.endswith(suffixes):
                yield os.path.join(folder, name)


def turn(path, change):
    with open(path, encoding="utf-8") as f:
        old = f.read()
    new = change(old)
    if new != old:
        with open(path, "w", encoding="utf-8") as f:
            f.write(new)


def before():
    local = re.compile(r"^(?:pub )?use \S+ as (\w+_\w+)$", re.M)

    def change(text):
        for name in local.findall(text):
            new = "".join(part.capitalize() for part in name.split("_"))
            if re.search(rf"(?<![\w'-]){new}(?![\w'-])", text):
                sys.exit(f"{new} stands there already")
            text = re.sub(rf"(?<![\w.·'`-]){name}(?=\.)|(?<= as ){name}$", new, text, flags=re.M)
        return text

    for path in files("crates", (".antt",)):
        turn(path, change)


def snake(match):
    return re.sub(r"(?<=[a-z0-9'])[A-Z]", lambda it: "_" + it[0].lower(), match[0])


def after():
    lemma = re.compile(rf"(?<![\w.'-])({'|'.join(LEMMAS)})(?![\w.'-])")
    declared = set()

    def lemmas(text):
        rows = []
        for row in text.split("\n"):
            code, dash, comment = row.partition("--")
            rows.append(lemma.sub(r"\1_lem", code) + dash + comment)
        return "\n".join(rows)

    for path in files("crates", (".antt",)):
        turn(path, lemmas)
    for path in files("crates", (".antt", ".rt", ".edit")):
        with open(path, encoding="utf-8") as f:
            declared.update(WORD.findall(f.read()))
    words = re.compile(rf"(?<![\w'])(?:{'|'.join(sorted(declared, key=len, reverse=True))})(?![\w'])")
    for path in files("crates", (".antt", ".rt", ".edit")):
        turn(path, lambda text: words.sub(snake, text))
    for path in ["README.md", *files("docs", (".md",))]:
        turn(path, lambda text: words.sub(snake, text))


def main(words):
    if "--help" in words or "-h" in words:
        with open(__file__, encoding="utf-8") as f:
            print(*(line[2:].rstrip() for line in takewhile(lambda it: it.startswith("#"), f.readlines()[1:])), sep="\n")
    elif words not in (["before"], ["after"]):
        print(f"port_names.py: its word is not {' '.join(words)}; usage: port_names.py before | after, and --help says more", file=sys.stderr)
        sys.exit(2)
    elif words == ["before"]:
        before()
    else:
        after()


if __name__ == "__main__":
    main(sys.argv[1:])
