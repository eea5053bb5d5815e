#!/usr/bin/env python3
"""Reads include/eif.h: its constants, enums, structs, functions and tables of words.

tools/c_header.py names HEADER     prints the name of each function, one to a line
tools/c_header.py layout HEADER    prints a C program that prints the size of each struct and the offset of each field

The header is written in one form: a declaration begins at the start of a line with EIF_MUST_USE, typedef struct, enum or #define. A declaration of
another form would not be found here, and tests/archive.sh would fail, because the archive would have a function that is not in the list.
"""

import re
import sys

SCALARS = {"uint8_t": 1, "uint16_t": 2, "uint32_t": 4, "uint64_t": 8, "size_t": 8}


class Header:
    """What the header declares, each table in the header's order."""

    def __init__(self, path):
        with open(path, encoding="utf-8") as file:
            text = re.sub(r"/\*.*?\*/", " ", file.read(), flags=re.S)
        self.constants = constants_of(text)
        self.enums = enums_of(text)
        self.structs = structs_of(text, self.constants)
        self.functions = functions_of(text)
        self.words = words_of(text)
        self.version = re.search(r'#define EIF_VERSION "([^"]*)"', text).group(1)

    def layout(self, kind):
        """Size and alignment of a type, as on every processor that the header is for."""
        if kind in SCALARS:
            return SCALARS[kind], SCALARS[kind]
        size, alignment = 0, 1
        for member, _, count in self.structs[kind]:
            width, step = self.layout(member)
            size = (size + step - 1) // step * step + width * (count or 1)
            alignment = max(alignment, step)
        return (size + alignment - 1) // alignment * alignment, alignment


def constants_of(text):
    """Name and value of each #define that is a number."""
    found = re.findall(r"^#define (EIF_\w+) (?:UINT64_C\()?(\d+)\)?$", text, flags=re.M)
    return {name: int(value) for name, value in found}


def enums_of(text):
    """Name and members of each enum; a member is a name and a number."""
    found = {}
    for name, body in re.findall(r"^enum (\w+) \{(.*?)\};", text, flags=re.M | re.S):
        found[name] = {member: int(value) for member, value in re.findall(r"(EIF_\w+) = (\d+)", body)}
    return found


def structs_of(text, constants):
    """Name and fields of each struct; a field is a type, a name, and how many there are, or None where it is no array."""
    found = {}
    for body, name in re.findall(r"^typedef struct \w+ \{(.*?)\} (\w+);", text, flags=re.M | re.S):
        fields = re.findall(r"(\w+) (\w+)(?:\[([^\]]*)\])?;", body)
        found[name] = [(kind, field, product(count, constants) if count else None) for kind, field, count in fields]
    return found


def product(text, constants):
    """The value of a product of numbers and constants."""
    value = 1
    for factor in text.split("*"):
        word = factor.strip()
        value *= constants[word] if word in constants else int(word)
    return value


def functions_of(text):
    """Name, answer and parameters of each function; a parameter is a type and a name."""
    found = {}
    for answer, name, inside in re.findall(r"^EIF_MUST_USE\s+(\w+)\s+(eif_\w+)\(([^;]*?)\);", text, flags=re.M | re.S):
        parameters = [" ".join(part.split()) for part in inside.split(",")]
        if parameters == ["void"]:
            parameters = []
        found[name] = answer, [re.match(r"(.*?)\s?(\w+)$", part).groups() for part in parameters]
    return found


def words_of(text):
    """For each function of the header that gives words for a number: the words for each member of its enum."""
    found = {}
    for name, body in re.findall(r"^static inline const char \*(\w+)\(.*?\{(.*?)^\}", text, flags=re.M | re.S):
        found[name] = dict(re.findall(r'case (EIF_\w+):\s*return "(.*?)";', body, flags=re.S))
    return found


def layout_program(header):
    """A C program that prints `STRUCT SIZE` and `STRUCT.FIELD OFFSET` for all structs."""
    lines = ["#include <stdio.h>", '#include "eif.h"', "int main(void) {"]
    for name, fields in header.structs.items():
        lines.append(f'    printf("{name} %zu\\n", sizeof({name}));')
        for _, field, _ in fields:
            lines.append(f'    printf("{name}.{field} %zu\\n", offsetof({name}, {field}));')
    return "\n".join(lines + ["    return 0;", "}", ""])


def main():
    what, path = sys.argv[1:]
    header = Header(path)
    if what == "names":
        print("\n".join(header.functions))
    elif what == "layout":
        print(layout_program(header), end="")
    else:
        sys.exit(f"no such form: {what}")


if __name__ == "__main__":
    main()
