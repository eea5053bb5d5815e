#!/usr/bin/env python3
"""Brings the repository's own definitions and lemmas to snake case: beBytes becomes be_bytes, and take-both becomes take_both.

usage: tools/snake_names.py [FOLDER]

It ran once, right after the kit's port.py, when the repository was brought to the present Rattle, and FOLDER is the repository's root. It renames
what a file of specs/ or a file right in proofs/ declares, in the crates' .rt, .antt and .edit files and in the documents and tools. Names with
capitals are renamed wherever they stand; names with hyphens where the file declares them or imports them from a crate of the repository, and those of a record's fields.
A theorem whose new name would be that of a definition or of another lemma in one file ends in _holds. Strings, functions of src/ and the
names of what Rattle generates stay.
"""

import collections
import os
import re
import sys

DECLARED = re.compile(r"^( *)((?:(?:abbrev|unfoldable|pub|private) )*)([^\s:{}().]+)((?:\s*\{[^}]*\})*\s*):(?=\s|$)", re.M)
NAME = re.compile(r"[^\s(){}\[\];,:.\"`|\\]+")
STRING = re.compile(r'"(?:[^"\\\n]|\\.)*"')
USE = re.compile(r"^\s*(?:pub |ghost )*use ([^\s{;]+?)(?:\.\{([^}]*)\}| as [^\s;]+)?;?\s*$", re.M)
RECORD = re.compile(r"^( *)(?:pub )?record [^\n]*(?:\n\1 {4}[^\n]*)*? where\n((?:\1  +[^\n]*\n|\n)+)", re.M)
FIELD = re.compile(r"^ +(?:pub )?(?:ghost )?([^\s:{}()]+) :", re.M)


def snake(name):
    return re.sub(r"([a-z0-9])([A-Z])", lambda m: f"{m[1]}_{m[2].lower()}", name.replace("-", "_"))


def files(top, endings):
    for folder, folders, names in os.walk(top):
        folders[:] = sorted(f for f in folders if f not in ("out", ".git", "target"))
        for name in sorted(names):
            if name.endswith(endings):
                yield os.path.join(folder, name)


def read(path):
    with open(path, encoding="utf-8") as file:
        return file.read()


def is_shared(path):
    """Whether the file is of specs/, or right in proofs/, and not of one function's proof."""
    parts = path.split(os.sep)
    at = parts.index("crates")
    return parts[at + 2] == "specs" or parts[at + 2] == "proofs" and len(parts) == at + 4


def has_capital(name):
    return name[0].islower() and name != name.lower()


def tokens(text):
    return set(NAME.findall(STRING.sub('""', text)))


def main():
    os.chdir(sys.argv[1] if len(sys.argv) > 1 else ".")
    code = list(files("crates", (".rt", ".antt")))
    texts = {path: read(path) for path in code}
    declared = collections.defaultdict(set)
    for path in code:
        if path.endswith(".antt") and is_shared(path):
            for match in DECLARED.finditer(texts[path]):
                declared[match[3]].add(path)
    capitals = {name for name in declared if has_capital(name) and "-" not in name}
    hyphens = {name for name in declared if "-" in name and name[0].islower()}
    functions = {name for path in code if path.endswith(".rt") for name in re.findall(r"\bfn (\w+)", texts[path])}
    fields = {f for path in code if path.endswith(".antt") for m in RECORD.finditer(texts[path]) for f in FIELD.findall(m[2])} & hyphens
    # Names that fall together: those with the same new name, of which two stand in one file.
    seen = {path: tokens(text) for path, text in texts.items()}
    new = {name: snake(name) for name in capitals | hyphens}
    taken = collections.defaultdict(set)
    for name in declared:
        taken[snake(name)].add(name)
    fell = {}
    for target, names in taken.items():
        if len(names) < 2 or not any(len(names & found) > 1 for found in seen.values()):
            continue
        keep = next((n for n in names if has_capital(n) and "-" not in n), None) or next((n for n in names if "-" not in n), None)
        for name in names - {keep}:
            fell[name] = f"{target}_holds"
    for name, target in fell.items():
        new[name] = target
    # Renamed without a hyphen or a capital: a lemma in snake case beside a definition.
    plain = {name for name in fell if name not in capitals and name not in hyphens}
    for target, names in taken.items():
        if len({new.get(n, n) for n in names}) < len(names):
            print("same name in files of their own:", target, sorted(names))
    everywhere = {name: new[name] for name in capitals}

    def local(path):
        """The names with hyphens that this file declares or imports from a crate of the repository."""
        text = texts[path]
        found = {m[3] for m in DECLARED.finditer(text)} if is_shared(path) else set()
        ours = {c for c in os.listdir("crates")}
        for match in USE.finditer(text):
            parts = match[1].split(".")
            if parts[0] == "Rattle" and parts[1] in ours and match[2] and not {"Tie", "Goals", "Given", "Lts"} & set(parts):
                found |= {part.split()[0] for part in match[2].split(",") if part.split()}
        found |= {f for f in fields if is_shared(path) or snake(f) not in functions}
        return {name: new[name] for name in found if name in new and (name in hyphens or name in plain)}

    def renamed(text, names, begins=""):
        pieces = []
        last = 0
        for match in STRING.finditer(text):
            pieces += [swap(text[last : match.start()], names), match[0]]
            last = match.end()
        return "".join(pieces) + swap(text[last:], names)

    def swap(text, names):
        return NAME.sub(lambda m: names.get(m[0], m[0]), text)

    count = 0
    for path in code:
        names = everywhere | (local(path) if path.endswith(".antt") else {})
        after = renamed(texts[path], names)
        clash = {n for n in names if n in seen[path] and names[n] in seen[path] and names[n] != n}
        for name in sorted(clash):
            print("look:", path, name, "->", names[name], "which stands there already")
        if after != texts[path]:
            count += 1
            with open(path, "w", encoding="utf-8") as file:
                file.write(after)
    for path in files("crates", (".edit",)):
        before = read(path)
        target = re.search(r"^file: (.*)$", before, re.M)[1].strip()
        inner = os.path.join(os.path.dirname(os.path.dirname(path)), target)
        names = everywhere | (local(inner) if inner.endswith(".antt") else {})
        # A word of a comment is not a name: only lines of the edit itself.
        after = "\n".join(swap(line, names) if line.startswith(("old:", "new:")) else line for line in before.split("\n"))
        if after != before:
            count += 1
            with open(path, "w", encoding="utf-8") as file:
                file.write(after)
    words = {name: target for name, target in everywhere.items()}
    ticked = {name: new[name] for name in hyphens}
    for path in [*files("docs", (".md",)), "README.md", "CONTRIBUTING.md", "crates.txt", *files("rust", (".md",))]:
        before = read(path)
        after = re.sub(r"`[^`\n]+`", lambda m: NAME.sub(lambda n: (words | ticked).get(n[0], n[0]), m[0]), before)
        after = re.sub(r"(?<![\w.\"`-])[a-z][a-z0-9]*[A-Z]\w*(?![\w\"`-])", lambda m: words.get(m[0], m[0]), after)
        if after != before:
            count += 1
            with open(path, "w", encoding="utf-8") as file:
                file.write(after)
    print(f"{len(capitals)} names with capitals, {len(hyphens)} with hyphens, {len(fell)} that end in _holds; {count} files changed")


if __name__ == "__main__":
    main()
