#!/usr/bin/env python3
"""Lists the definitions that must be believed, and keeps the table of README.md.

Run in the repository's root: tools/believe.py writes the table between the two marks in README.md. With --check nothing is written, and the
exit status is 1 where the table differs, where a public function has a `requires` or lacks an `ensures`, where a public function that does more
than print has no contract, or where one of these definitions stands in no specs folder. With --names every definition is printed, file by
file, and then those that stand in no specs folder.

Statements are the contracts of the public functions of the libraries, and the laws that docs/PROMISES.md names. Libraries are all crates but
programs and what only the programs that run cases stand on. A definition must be believed where a statement names it, or a definition that
must be believed does. A file is listed whole, by its number of lines.
"""

import re
import sys
from pathlib import Path

sys.dont_write_bytecode = True
from map import CRATES, read_crates

README, PROMISES = Path("README.md"), Path("docs/PROMISES.md")
# crates with public functions that only print: these return whether the system took it, and have no contract
PRINTERS = ("eif_print", "case_lines")
BEGIN, END = "<!-- written by tools/believe.py -->", "<!-- to here -->"

USE = re.compile(r"^(?:ghost )?use Rattle\.(\w+)\.(specs|proofs)\.([\w.-]+)\.\{([^}]*)\}", re.M)
WORD = re.compile(r"[^\s(){}\[\];,λ]+")
FUNCTION = re.compile(
    r"^ *pub (?:extern \"C\" )?fn (?:(?!^ *(?:pub )?(?:extern \"C\" )?fn ).)*?(?:^ *\{|\{ *$)",
    re.M | re.S,
)
# a declaration: its indentation, what stands before its name, whether it is a record or a data type, and its name
DECLARATION = re.compile(r"^( *)((?:(?:pub|abbrev|unfoldable) )*)(?:(record|data) (\S+)|(\S+) :)")


def read(path):
    """A file without its comments."""
    return re.sub(r"(^|\s)(--|//).*", r"\1", path.read_text(encoding="utf-8"))


def words(text):
    """The names in a text, but for those that it binds and for fields after a point, whose record its type names."""
    bound = {name for names in re.findall(r"[({]([^(){}:]+) :", text) for name in names.split()}
    return {word for word in WORD.findall(text) if not word.startswith(".")} - bound


def imports(text):
    """Each name that a file imports, with the crate, the folder and the module that it is from."""
    return {
        name.strip(): (crate, folder, module, name.strip())
        for crate, folder, module, names in USE.findall(text)
        for name in names.split(",")
    }


class Source:
    """An antt file: its imports and, of each name that it declares, the statement and the whole text."""

    def __init__(self, place):
        self.place = place
        crate, folder, module = place
        text = read(Path("crates", crate, folder, module + ".antt"))
        self.scope = imports(text)
        self.statement, self.whole, self.constructors = {}, {}, {}
        self.types, self.definitions, self.public = set(), set(), set()
        self.name, self.modules = None, []
        for line in text.splitlines():
            if line.strip() and not line.startswith(("use ", "pub mod ")):
                self.take(line)

    def take(self, line):
        depth = len(line) - len(line.lstrip())
        self.modules = [m for m in self.modules if len(m) - len(m.lstrip()) < depth]
        if line.lstrip().startswith("module "):
            self.modules.append(line)
            self.name = None
            return
        declared = DECLARATION.match(line)
        if declared and depth == 2 * len(self.modules):
            self.declare(line, declared)
        elif self.name:
            if declared and self.name in self.types:
                self.constructors[declared[5]] = self.name
            self.stated &= depth > 2 * len(self.modules)
            if self.stated:
                self.statement[self.name] += "\n" + line
            self.whole[self.name] += "\n" + line

    def declare(self, line, declared):
        self.name = declared[4] or declared[5]
        self.stated = True
        if declared[3]:
            self.types.add(self.name)
        if declared[3] or "abbrev" in declared[2] or "unfoldable" in declared[2]:
            self.definitions.add(self.name)
        if "pub" in declared[2]:
            self.public.add(self.name)
        self.statement[self.name] = self.whole[self.name] = "\n".join(self.modules + [line])

    def uses(self, text):
        """What a text of this file names: its own declarations and what it imports."""
        for word in words(text):
            name = self.constructors.get(word, word)
            if name in self.whole:
                yield (*self.place, name)
            elif word in self.scope:
                yield self.scope[word]

    def below(self, name):
        """What a declaration rests on: of a law its statement alone, of a definition all of it."""
        name = self.constructors.get(name, name)
        if name not in self.whole:
            return []
        is_law = self.place[1] == "proofs" and name not in self.definitions
        return self.uses(self.statement[name] if is_law else self.whole[name])


def is_library(crates, name):
    users = [user for user, below in crates.items() if name in below]
    only_for_cases = users and all(user.endswith("_cases") for user in users)
    return Path("crates", name, "src/lib.rt").exists() and not only_for_cases


class Tree:
    def __init__(self):
        crates = read_crates(Path(CRATES).read_text(encoding="utf-8"))
        self.crates = list(crates)
        self.libraries = [name for name in crates if is_library(crates, name)]
        self.sources = {}

    def source(self, place):
        if place not in self.sources:
            there = Path("crates", place[0], place[1], place[2] + ".antt").exists()
            self.sources[place] = Source(place) if there else None
        return self.sources[place]

    def functions(self, crates):
        """The head of each public function of these crates, contract included, with what its file imports."""
        for crate in crates:
            for path in sorted(Path("crates", crate, "src").rglob("*.rt")):
                text = read(path)
                yield from ((function, imports(text)) for function in FUNCTION.findall(text))

    def contracts(self):
        """What the contracts of public functions name."""
        for function, scope in self.functions(self.libraries):
            yield from (scope[word] for word in words(function) if word in scope)

    def printers(self):
        """Public functions that only print, and answer whether the system took it."""
        return {function for function, _ in self.functions(PRINTERS) if "-> io::Result<()>" in function and "&mut" not in function}

    def lacking(self):
        """Public functions that ask something of their caller, or say nothing of their answer or of a buffer that they are lent."""
        printers = self.printers()
        for function, _ in self.functions(self.libraries):
            head = re.split("requires|ensures", function)[0]
            if "requires" in function or function.count("ensures") < ("->" in head) + head.count("&mut"):
                if function not in printers:
                    yield " ".join(head.split())

    def without_contract(self):
        """Public functions of any crate that have no contract and do more than print."""
        printers = self.printers()
        for function, _ in self.functions(self.crates):
            if "ensures" not in function and function not in printers:
                yield " ".join(function.split())

    def laws(self):
        """The laws whose names stand in docs/PROMISES.md. One that is named alone has an underscore in its name, and is of the file that its line
        named before, or else of every file that has it."""
        stated = {}
        for crate in self.libraries:
            for path in sorted(Path("crates", crate, "proofs").glob("*.antt")):
                for name in self.source((crate, "proofs", path.stem)).public:
                    stated.setdefault(name, []).append((crate, "proofs", path.stem, name))
        for line in PROMISES.read_text(encoding="utf-8").splitlines():
            before = []
            for token in re.findall(r"`([^`\s]+)`", line):
                *path, name = re.split(r"[./]", token)
                where = path or before
                laws = stated.get(name, [])
                yield from [law for law in laws if where == [law[0], law[2]]] or ([] if path else laws if "_" in name else [])
                before = path if len(path) == 2 else [*path, name] if len(path) == 1 else before

    def believed(self):
        """Every statement and every definition that one rests on."""
        found, left = set(), [*self.contracts(), *self.laws()]
        while left:
            one = left.pop()
            if one not in found:
                found.add(one)
                source = self.source(one[:3])
                left += source.below(one[3]) if source else []
        return found

    def outside(self, found):
        """Definitions among these that stand in no specs folder."""
        return sorted(
            one for one in found
            if one[1] == "proofs" and one[3] in self.source(one[:3]).definitions
        )


def lines(crate, module):
    return len(Path("crates", crate, "specs", module + ".antt").read_text(encoding="utf-8").splitlines())


def table(tree, found):
    rows, files, total = [], 0, 0
    for crate in tree.libraries:
        needed = {one[2] for one in found if one[0] == crate and one[1] == "specs" and not one[2].startswith("declared")}
        if needed:
            order = [line.split()[-1] for line in Path("crates", crate, "specs/Lib.antt").read_text(encoding="utf-8").splitlines()]
            counts = {module: lines(crate, module) for module in order if module in needed}
            rows.append(f"| `{crate}` | {', '.join(f'`{m}` {n}' for m, n in counts.items())} | {sum(counts.values()):,} |")
            files += len(counts)
            total += sum(counts.values())
    head = ["| crate | files of its `specs`, with their lines | lines |", "|---|---|---|"]
    return "\n".join(head + rows + [f"| in all | {files} files | {total:,} |"])


def print_names(tree, found):
    for place in sorted({one[:3] for one in found if one[1] == "specs"}):
        print("/".join(("crates", *place)) + ":", *sorted(one[3] for one in found if one[:3] == place))
    for one in tree.outside(found):
        print("in no specs folder:", "/".join(("crates", *one)))


def main():
    tree = Tree()
    found = tree.believed()
    if sys.argv[1:] == ["--names"]:
        print_names(tree, found)
        return
    text = README.read_text(encoding="utf-8")
    before, rest = text.split(BEGIN)
    now = before + BEGIN + "\n\n" + table(tree, found) + "\n\n" + END + rest.split(END)[1]
    if sys.argv[1:] == ["--check"]:
        for function in tree.lacking():
            sys.exit(f"a public function asks something of its caller, or its contract lacks an equation: {function}")
        for function in tree.without_contract():
            sys.exit(f"a public function has no contract: {function}")
        for one in tree.outside(found):
            sys.exit(f"a law's statement rests on a definition that stands in no specs folder: {'/'.join(('crates', *one))}")
        if now != text:
            sys.exit(f"{README}: the table of what must be believed is not that of the crates: run make map")
    elif sys.argv[1:]:
        sys.exit("usage: tools/believe.py [--check | --names]")
    else:
        README.write_text(now, encoding="utf-8")


if __name__ == "__main__":
    main()
