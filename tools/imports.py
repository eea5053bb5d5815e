#!/usr/bin/env python3
"""Finds names that a file of crates/ imports and does not use.

Run in the repository's root: tools/imports.py prints file and name, and the exit status is 1 where there is one. An operator counts as used
where each of its parts stands in the file.
"""

import re
import sys
from pathlib import Path

COMMENT = {".antt": re.compile(r"(^|\s)--.*", re.M), ".rt": re.compile(r"//.*")}
USE = {
    ".antt": re.compile(r"^\s*use\s+[^\n{]*(?:\{([^}]*)\}|[^\n]*? as (\S+)|)[ \t]*$", re.M),
    ".rt": re.compile(r"^\s*(?:ghost )?use\s+[^;{]*?(?:\{([^}]*)\}|(\w+));", re.M),
}
BETWEEN = re.compile(r"[\s(){}\[\],;]+")


def imported(text, kind):
    """The names that a text imports, and what is left of it."""
    names = []
    for braces, single in USE[kind].findall(text):
        names += [name.split(" as ")[-1].strip() for name in braces.split(",")] if braces else [single] * bool(single)
    return names, USE[kind].sub("\n", text)


def tokens(rest):
    """Every word, and its parts between points and colons."""
    for word in BETWEEN.split(rest):
        yield word
        yield word.lstrip("λ").strip(".⌜⌝&!*")
        for part in re.split(r"[.:<>]+", word):
            yield part.strip("⌜⌝&!*")


def unused(path):
    kind = path.suffix
    names, rest = imported(COMMENT[kind].sub("", path.read_text(encoding="utf-8")), kind)
    found = set(tokens(rest))
    for name in filter(lambda name: name not in ("", "self"), names):
        operator = name == "[]" or "◌" in name
        if not (all(part in rest for part in name.split("◌")) if operator else name in found):
            yield name


def main():
    files = [path for path in sorted(Path("crates").rglob("*")) if path.suffix in USE and path.parts[2] != "out"]
    lines = [f"{path}: imports {name} and does not use it" for path in files for name in unused(path)]
    print("\n".join(lines), end="\n" * bool(lines))
    sys.exit(bool(lines))


if __name__ == "__main__":
    main()
