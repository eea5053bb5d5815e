#!/usr/bin/env python3
"""Sees that what the documents name and quote is there.

Run in the repository's root: tools/names.py --check prints each name that is not there, and the exit status is then 1. docs/changes and
docs/PORT.md, which speak of how things were, are left out.

    `eif_judge::judge`              a function, a constant or a type of a crate
    `eif_laws/Acceptance.NAME`      a name in a file of a crate's proofs or specs; `eif_flat/specs/Flat.NAME` too, and with no NAME the file
    `Reading.readImage`             a name in a file of this name, of any crate
    `Copied.count`                  a field of a record or of a struct
    `eif_judge/wrapping_end`        a must-fail edit
    `cli/words`                     a test of rust/cli
    `docs/FORMAT.md`                a file
    `readImage`                     a word that stands somewhere in the sources
    From `FILE`: and lines          these lines stand in the file, one after the other

Each must-fail edit, in turn, is named in docs/PROMISES.md.
"""

import re
import sys
from pathlib import Path

DOCUMENTS = ["README.md", "CONTRIBUTING.md", "rust/README.md", *sorted(str(p) for p in Path("docs").glob("*.md") if p.name not in ("DESIGN-PASS.md", "PORT.md"))]
SOURCES = ["crates", "rust", "tests", "include", "tools", "samples"]
SPLIT = re.compile(r"[^\w\-→']+")
WORD = re.compile(r"[^\W\d][\w\-→']*\Z")
PLACEHOLDER = re.compile(r"(?<![A-Za-z])(CRATE|FILE|NAME|PROGRAM|FUNCTION)(?![A-Za-z])")
ELSEWHERE = {"diff", "fdatasync"}  # of the system


def all_words():
    """Every word of the sources, the names of files among them."""
    found = set()
    for root in SOURCES:
        for path in Path(root).rglob("*"):
            if not {"target", "out"} & set(path.parts) and path.is_file():
                found |= {path.name, path.stem, *path.parts}
                if path.suffix not in (".eif", ".pyc"):
                    found |= set(SPLIT.split(path.read_text(encoding="utf-8", errors="replace")))
    return found


def holds(path, name):
    """Whether a file of a crate has a name, not counting its comments and what it imports."""
    return path.exists() and name in SPLIT.split(re.sub(r"(^|\s)(--|//).*|^\s*(ghost )?use .*", r"\1", path.read_text(encoding="utf-8"), flags=re.M))


def of_crate(crate, rest):
    """Whether a crate has what stands behind the first stroke: a file, a name in one, or an edit."""
    home = Path("crates", crate)
    if (home / rest).exists() or (home / "must-fail" / (rest + ".edit")).exists():
        return True
    module, _, name = rest.rpartition("/")[2].partition(".")
    folders = [rest.rpartition("/")[0]] if "/" in rest else ["proofs", "specs"]
    paths = [home / folder / (module + ".antt") for folder in folders]
    return any(holds(path, name) if name and name != "antt" else path.exists() for path in paths)


def of_path(name):
    """Whether a name with strokes is a file, something of a crate, or a test of the Rust code."""
    if Path(name).exists() or list(Path(".").glob(name + ".*")):
        return True
    first, _, rest = name.partition("/")
    if Path("crates", first).exists() and of_crate(first, rest):
        return True
    tests = [Path("rust", first, folder, rest + ".rs") for folder in ("tests", "src")]
    return Path("rust", name).exists() or any(path.exists() for path in tests)


def is_field(name, field):
    """Whether a record of the definitions and laws, or a struct of the code, has a field."""
    record = re.compile(rf"^( *)(?:pub )?record {name}\b.*\n(?:\1 +.*\n| *\n)*?\1 +(?:pub )?{field} :", re.M)
    struct = re.compile(rf"\bstruct {name} \{{[^}}]*\b{field}: ")
    kinds = ((record, "antt"), (struct, "rt"))
    return any(kind.search(path.read_text(encoding="utf-8")) for kind, end in kinds for path in Path("crates").rglob("*." + end))


def of_module(name):
    """Whether a file of this name, of any crate, has the name behind the dot, or a type of this name has that field."""
    module, _, inner = name.partition(".")
    return any(holds(path, inner) for path in Path("crates").glob(f"*/*/{module}.antt")) or is_field(module, inner)


def of_code(name, words):
    """Whether a crate's code has a name; the crate may be a type, or a module of the Rust crate."""
    crate, inner = name.split("(")[0].split("::")
    sources = Path("crates", crate, "src").rglob("*.rt")
    if any(holds(path, inner) for path in sources) or Path("rust/eif/src", crate + ".rs").exists():
        return True
    return bool(re.match(r"[A-Z]|u\d", crate)) and inner in words


def is_there(name, words):
    if PLACEHOLDER.search(name) or name in ELSEWHERE or name.startswith("target/"):
        return True
    if re.fullmatch(r"[\w.\-]+(/[\w.\-→']+)+", name):
        return of_path(name)
    if re.fullmatch(r"\w+::\w+(\(.*\))?", name):
        return of_code(name, words)
    if re.fullmatch(r"[\w\-]+\.(antt|rt|rs|c|h|sh|py|md|svg)", name):
        return name in words or Path("docs", name).exists() or Path(name).exists()
    if re.fullmatch(r"[A-Z]\w*\.[^\W\d][\w\-→']*", name):
        return of_module(name)
    return not WORD.match(name) or name in words


def quotations(text):
    """Each file that a text says it quotes, and the lines that it quotes."""
    for path, block in re.findall(r"From\s`([^`]+)`:\n\n((?:(?:    .*)?\n)+)", text):
        yield path, [line[4:].strip() for line in block.splitlines() if line.strip()]


def stand_in(path, lines):
    rest = iter(line.strip() for line in Path(path).read_text(encoding="utf-8").splitlines())
    return all(line in rest for line in lines)


def faults_of(document, words):
    """What a document names or quotes and is not there."""
    text = Path(document).read_text(encoding="utf-8")
    spans = re.findall(r"`([^`\n]+)`", re.sub(r"^    .*$", "", text, flags=re.M))
    for name in sorted(set(spans)):
        if not is_there(name, words):
            yield f"{document}: `{name}` is not there"
    for path, lines in quotations(text):
        if not stand_in(path, lines):
            yield f"{document}: these lines do not stand in {path}: {lines[0]} .."


def edits_without_a_row():
    promises = Path("docs/PROMISES.md").read_text(encoding="utf-8")
    for path in sorted(Path("crates").glob("*/must-fail/*.edit")):
        if f"`{path.parts[1]}/{path.stem}`" not in promises:
            yield f"docs/PROMISES.md: no row for {path}"


def edits_that_do_not_fit():
    """Must-fail edits of which an `old:` text does not occur exactly once in the file as the pairs before leave it."""
    for path in sorted(Path("crates").glob("*/must-fail/*.edit")):
        text, old = None, None
        for line in path.read_text(encoding="utf-8").splitlines():
            word, _, rest = line.partition(": ")
            if word == "file":
                text = (path.parent.parent / rest).read_text(encoding="utf-8")
            elif word == "old":
                old = rest
                if text.count(old) != 1:
                    yield f"{path}: {old!r} occurs {text.count(old)} times"
            elif word == "new":
                text = text.replace(old, rest, 1)


def edits_that_name_nothing():
    """Must-fail edits that call what a crate does not have: these would be refused whatever their fact."""
    for path in sorted(Path("crates").glob("*/must-fail/*.edit")):
        for crate, name in re.findall(r"\b([a-z]\w*)::(\w+)", path.read_text(encoding="utf-8")):
            if Path("crates", crate).exists() and not any(holds(file, name) for file in Path("crates", crate, "src").rglob("*.rt")):
                yield f"{path}: {crate}::{name} is not there"


def main():
    if sys.argv[1:] != ["--check"]:
        sys.exit("usage: tools/names.py --check")
    words = all_words()
    faults = [fault for document in DOCUMENTS for fault in faults_of(document, words)]
    faults += edits_without_a_row()
    faults += edits_that_do_not_fit()
    faults += edits_that_name_nothing()
    print(*faults, sep="\n", end="\n" if faults else "")
    sys.exit(1 if faults else 0)


if __name__ == "__main__":
    main()
