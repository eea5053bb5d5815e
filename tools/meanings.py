#!/usr/bin/env python3
"""Sees that the name of a definition has one meaning.

Run in the repository's root: tools/meanings.py prints what is at fault, and the exit status is then 1. A definition is what a file of a specs
folder defines, and what a file of a proofs folder makes public. Its name is declared once in all crates, by a definition or by a law. Two such
names differ by more than case, unless one is a type and the other, by its statement, makes, takes or shows one of that type: `rule` makes a
`Rule`. What a proof of a function declares, in a folder of its own, is not looked at.
"""

import sys
from collections import defaultdict
from pathlib import Path

sys.dont_write_bytecode = True
from believe import Source, words


class Name:
    """A name, the file that declares it, its statement, whether it is a definition, and whether other crates can name it."""

    def __init__(self, path, source, name):
        self.path, self.name = path, name
        self.statement = source.statement[name]
        self.is_open = name in source.public
        self.is_definition = name in source.definitions and (self.is_open or source.place[1] == "specs")

    def __str__(self):
        return f"{self.path}: {self.name}"


def declared():
    for path in sorted(Path("crates").glob("*/*/*.antt")):
        source = Source((path.parts[1], path.parts[2], path.stem))
        for name in source.statement:
            yield Name(path, source, name)


def declared_again(names):
    """A definition, and what else has its name."""
    same = defaultdict(list)
    for name in names:
        same[name.name].append(name)
    return [group for group in same.values() if len(group) > 1 and any(name.is_definition for name in group)]


def are_related(one, other):
    return other.name in words(one.statement) or one.name in words(other.statement)


def alike_but_for_case(names):
    """A definition, and another definition or a public law whose name differs by case alone."""
    same = defaultdict(list)
    for name in names:
        if name.is_definition or name.is_open:
            same[name.name.lower()].append(name)
    for group in same.values():
        for one in group:
            for other in group:
                if one.is_definition and one.name != other.name and not are_related(one, other):
                    yield [one, other]


def main():
    names = list(declared())
    faults = [*declared_again(names), *alike_but_for_case(names)]
    for fault in faults:
        print("one name, two meanings:", "; ".join(map(str, fault)))
    sys.exit(1 if faults else 0)


if __name__ == "__main__":
    main()
