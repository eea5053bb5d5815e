#!/usr/bin/env python3
"""Writes the tables of the JSON checker.

Run in the repository's root: python3 tools/json_tables.py. With --check nothing is written, and the exit status is 1 where a file differs.

    crates/json_machine/specs/Table.antt    the tables
    crates/json_machine/proofs/Modes.antt   the modes, their numbers, and that what is computed of all holds of each
    crates/json_check/specs/Columns.antt    the second table by class and then by mode, as the code keeps it
    crates/json_check/src/tables.rt         the tables again, for the code

Nothing has to be believed of this program: json_machine/proofs/Right.antt checks each entry of the tables against the grammar,
json_check/proofs/Laws.antt compares the columns with the rows, and the proof of json_check::check the code's tables with these.
"""

import sys
import textwrap

WHITE_SPACE = b" \t\n\r"
DIGITS = b"0123456789"
HEX_DIGITS = b"0123456789abcdefABCDEF"
ALL = range(256)

# Modes, numbered in this order: between tokens; in a number, or in false, null or true; in a string; in the name of a member.
BETWEEN = ["value", "firstItem", "firstMember", "key", "colon", "afterText", "afterItem", "afterMember"]
TOKEN = ["minus", "zero", "whole", "point", "frac", "exp", "sign", "power"]
TOKEN += ["alse", "lse", "se", "e", "ull", "ll", "l", "rue", "ue"]
STRING = ["char", "escape", "hex4", "hex3", "hex2", "hex1", "tail1", "tail2", "tail3", "afterE0", "afterED", "afterF0", "afterF4"]

MODES = len(BETWEEN) + len(TOKEN) + 2 * len(STRING)
NUMBER = {name: i for i, name in enumerate(BETWEEN + TOKEN + STRING)}

# What an entry of the tables says beside the next mode.
FAULT, STOP, AGAIN, OPEN_ARRAY, OPEN_OBJECT, CLOSE = range(MODES, MODES + 6)


def span(first, last):
    return range(first, last + 1)


def row(entries, other=FAULT):
    """A mode's row: for each byte the next mode or what else is to be done."""
    result = [other] * 256
    for bytes_, to in entries:
        for b in bytes_:
            result[b] = NUMBER[to] if isinstance(to, str) else to
    return result


def value_entries(here):
    return [
        (WHITE_SPACE, here), (b"-", "minus"), (b"0", "zero"), (DIGITS[1:], "whole"), (b"f", "alse"), (b"n", "ull"),
        (b"t", "rue"), (b'"', "char"), (b"[", OPEN_ARRAY), (b"{", OPEN_OBJECT),
    ]


NAME = NUMBER["char"] + len(STRING)

between_rows = [
    row(value_entries("value")),
    row(value_entries("firstItem") + [(b"]", CLOSE)]),
    row([(WHITE_SPACE, "firstMember"), (b'"', NAME), (b"}", CLOSE)]),
    row([(WHITE_SPACE, "key"), (b'"', NAME)]),
    row([(WHITE_SPACE, "colon"), (b":", "value")]),
    row([(WHITE_SPACE, "afterText")]),
    row([(WHITE_SPACE, "afterItem"), (b",", "value"), (b"]", CLOSE)]),
    row([(WHITE_SPACE, "afterMember"), (b",", "key"), (b"}", CLOSE)]),
]

number_rows = [
    row([(b"0", "zero"), (DIGITS[1:], "whole")]),
    row([(b".", "point"), (b"eE", "exp")], AGAIN),
    row([(DIGITS, "whole"), (b".", "point"), (b"eE", "exp")], AGAIN),
    row([(DIGITS, "frac")]),
    row([(DIGITS, "frac"), (b"eE", "exp")], AGAIN),
    row([(b"+-", "sign"), (DIGITS, "power")]),
    row([(DIGITS, "power")]),
    row([(DIGITS, "power")], AGAIN),
]

WORDS = [("a", "lse"), ("l", "se"), ("s", "e"), ("e", STOP), ("u", "ll"), ("l", "l"), ("l", STOP), ("r", "ue"), ("u", "e")]
word_rows = [row([(letter.encode(), to)]) for letter, to in WORDS]

string_rows = [
    row([
        (span(0x20, 0x7F), "char"), (b'"', STOP), (b"\\", "escape"), (span(0xC2, 0xDF), "tail1"), ([0xE0], "afterE0"),
        (span(0xE1, 0xEF), "tail2"), ([0xED], "afterED"), ([0xF0], "afterF0"), (span(0xF1, 0xF3), "tail3"), ([0xF4], "afterF4"),
    ]),
    row([(b'"\\/bfnrt', "char"), (b"u", "hex4")]),
    row([(HEX_DIGITS, "hex3")]),
    row([(HEX_DIGITS, "hex2")]),
    row([(HEX_DIGITS, "hex1")]),
    row([(HEX_DIGITS, "char")]),
    row([(span(0x80, 0xBF), "char")]),
    row([(span(0x80, 0xBF), "tail1")]),
    row([(span(0x80, 0xBF), "tail2")]),
    row([(span(0xA0, 0xBF), "tail1")]),
    row([(span(0x80, 0x9F), "tail1")]),
    row([(span(0x90, 0xBF), "tail2")]),
    row([(span(0x80, 0x8F), "tail2")]),
]


def in_name(to):
    """The same in a member's name: a colon is to follow it."""
    if to == STOP:
        return NUMBER["colon"]
    return to + len(STRING) if NUMBER["char"] <= to < NAME else to


name_rows = [[in_name(to) for to in r] for r in string_rows]
full_rows = between_rows + number_rows + word_rows + string_rows + name_rows
assert len(full_rows) == MODES

# Bytes that every row treats alike are a class.
columns = []
classes = []
for b in ALL:
    column = [r[b] for r in full_rows]
    if column not in columns:
        columns.append(column)
    classes.append(columns.index(column))
CLASSES = len(columns)
rows = [[column[i] for column in columns] for i in range(MODES)]
by_class = [entry for column in columns for entry in column]


def cons(numbers, width):
    lines = [numbers[i:i + width] for i in range(0, len(numbers), width)]
    return " ∷\n    ".join(" ∷ ".join(map(str, line)) for line in lines) + " ∷ []"


def const(name, numbers):
    """As many numbers to a line as 99 columns hold, which is the kit's layout."""
    body = textwrap.fill(", ".join(map(str, numbers)) + ",", 99, initial_indent="    ", subsequent_indent="    ")
    return f"pub const {name}: [u8; {len(numbers)}] = [\n{body}\n];\n"


def numbered(function, names, first):
    return "\n".join(f"{function} {name} = {first + i}" for i, name in enumerate(names))


def each(law, names):
    return "\n".join(f"  {law} {name} = same_at {i} e" for i, name in enumerate(names))


TOKENS = ["t-" + name for name in TOKEN]
STRINGS = ["s-" + name for name in STRING]

TABLE = f"""-- The tables of the machine, written by tools/json_tables.py. Nothing is assumed of them: proofs/Right.antt checks each entry
-- against the grammar.
use Rattle.std.specs.Prelude.{{ℕ, List, [], ◌∷◌}}

-- the class of each byte: the bytes of one are treated alike in every mode
unfoldable pub classes : List ℕ
classes =
    {cons(classes, 32)}

-- for each mode and class the next mode; or {FAULT} fault, {STOP} a value ends here, {AGAIN} a number ended before this byte, {OPEN_ARRAY} and {OPEN_OBJECT} an array
-- or an object is opened, {CLOSE} closed
unfoldable pub rows : List (List ℕ)
rows =
    {" ∷{0}    ".format(chr(10)).join("(" + " ∷ ".join(map(str, r)) + " ∷ [])" for r in rows)} ∷ []
"""

MODES_FILE = f"""-- The modes of the machine, their numbers, and that what is computed of all of them holds of each. Written by tools/json_tables.py.
-- Assumes nothing.
use Prim.Native.Nat.{{ℕ, ◌+◌}}
use mathlib.Core.Path.{{◌≡◌, ap}}
use mathlib.Core.List.{{List, [], ◌∷◌, ◌++◌, map}}
use lib.ListN.{{get_or}}

-- in a number, or in false, null or true
pub data Token : Type 0 where
  {" ".join(TOKENS)} : Token

-- in a string
pub data Str : Type 0 where
  {" ".join(STRINGS)} : Str

-- in the four modes from m-firstItem on and in a member's name, which kind the innermost open one has is known by the mode
pub data Mode : Type 0 where
  m-value m-after m-firstItem m-firstMember m-key m-colon : Mode
  m_token : Token → Mode
  m_string : Str → Mode
  m_name : Str → Mode

-- what an entry of the tables says
pub data Act : Type 0 where
  to : Mode → Act
  fault stop again openArray openObject close : Act

-- all, in the order of their numbers
abbrev pub tokens : List Token
tokens = {" ∷ ".join(TOKENS)} ∷ []

abbrev pub strings : List Str
strings = {" ∷ ".join(STRINGS)} ∷ []

-- by its number
abbrev pub acts : List Act
acts =
    to m-value ∷ to m-firstItem ∷ to m-firstMember ∷ to m-key ∷ to m-colon ∷ to m-after ∷ to m-after ∷ to m-after ∷
    (map to (map m_token tokens ++ (map m_string strings ++ map m_name strings)) ++ (fault ∷ stop ∷ again ∷ openArray ∷ openObject ∷ close ∷ []))

abbrev pub token_number : Token → ℕ
{numbered("token_number", TOKENS, NUMBER["minus"])}

abbrev pub string_number : Str → ℕ
{numbered("string_number", STRINGS, NUMBER["char"])}

abbrev pub name_number : Str → ℕ
name_number s = string_number s + {len(STRINGS)}

-- two functions of a mode agree in each of these modes, if the lists of their values in all of them are the same
module _ {{A : Type 0}} (f g : Mode → A) where
  same_at : {{k l : List A}} (i : ℕ) → k ≡ l → get_or k i (f m-value) ≡ get_or l i (f m-value)
  same_at i e = ap (λ l. get_or l i (f m-value)) e

  pub each_token : map (λ t. f (m_token t)) tokens ≡ map (λ t. g (m_token t)) tokens → (t : Token) → f (m_token t) ≡ g (m_token t)
{each("each_token e", TOKENS)}

  -- m is m_string or m_name
  pub each_string : (m : Str → Mode) → map (λ s. f (m s)) strings ≡ map (λ s. g (m s)) strings → (s : Str) → f (m s) ≡ g (m s)
{each("each_string m e", STRINGS)}
"""

CODE = f"""// The tables of the checker, written by tools/json_tables.py: Table.antt of json_machine says what the entries mean.

// The class of each byte.
{const("CLASSES", classes)}
// For each class its {MODES} entries, one for each mode.
{const("COLUMNS", by_class)}"""

COLUMNS = f"""-- The entries of the machine's tables as the code keeps them: for each class its entries, one for each mode. Written by tools/json_tables.py.
-- Nothing is assumed of them: proofs/Laws.antt compares each with its entry of rows.
use Rattle.std.specs.Prelude.{{ℕ, List, [], ◌∷◌}}

unfoldable pub columns : List ℕ
columns =
    {cons(by_class, MODES)}
"""

FILES = {
    "crates/json_machine/specs/Table.antt": TABLE,
    "crates/json_machine/proofs/Modes.antt": MODES_FILE,
    "crates/json_check/specs/Columns.antt": COLUMNS,
    "crates/json_check/src/tables.rt": CODE,
}

if __name__ == "__main__":
    assert (MODES, CLASSES) == (51, 40), "the code and the proofs know these two numbers"
    differ = 0
    for path, text in FILES.items():
        if sys.argv[1:] == ["--check"]:
            with open(path, encoding="utf-8") as file:
                if file.read() != text:
                    print(path, "is not what tools/json_tables.py writes")
                    differ = 1
        else:
            with open(path, "w", encoding="utf-8") as file:
                file.write(text)
    sys.exit(differ)
