#!/usr/bin/env python3
"""Counts the places of the eight points of docs/DESIGN-PASS.md.

Run in the repository's root: tools/design_count.py prints each place as CRATE/FILE:LINE: TEXT, point by point and kind by kind, then the totals
by crate. With numbers as arguments it prints these points alone; --totals prints numbers alone, and --names the names of functions and types in
place of lines. It reads crates/*/src/*.rt by text alone, for point 8 the proofs, and works at any commit: what it finds is what is left.

Rules find most places, by the form of the code. The lists below name what only a reader sees: functions that answer a number for none, and
functions and types that are twins. A function of such a list counts as long as it is there.
"""

import collections
import re
import sys
import textwrap
from pathlib import Path

POINTS = {
    1: "own enums of the shape of Option or Result, flags with a value beside them, numbers for kinds and refusals",
    2: "twins: functions and types that differ only in a type, a size or a constant",
    3: "loops that count an index by hand",
    4: "equality, order, copying, conversion and printing written by hand",
    5: "facts in the contracts of three or more functions, and parameters that travel together",
    6: "buffers with a length beside them, parallel arrays, searches by hand",
    7: "switches on which step to run, tables of functions",
    8: "answers in proofs",
}
INTEGER = re.compile(r"(?:u8|u16|u32|u64|usize)\Z")
ARRAY = re.compile(r"&?(?:mut )?\[.*;.*\]\Z")
WORD = re.compile(r"[A-Za-z_]\w*")
CLAUSE = re.compile(r"\b(requires|ensures)\b\s*(\w*)\s*\{")

# ---- what only a reader sees

# integers that are flags, by the name of the field
FLAG_FIELDS = {"ended", "opened", "in_replacement", "is_text"}
# functions that answer a number for none or for a refusal and have no sign of it that a rule finds
NUMBER_FUNCTIONS = {
    "eif_judge::first_ramdisk", "plan_judge::packed_size", "plan_judge::image_size", "plan_judge::data_size", "cose_writer::signature_size",
    "json_check::odd", "json_check::odd8", "json_check::stray", "json_check::wide_char", "block_reader::read_some", "eif_flat::number_of",
    "assembler_judge::judge", "json_check::act", "json_check::after", "burst_cases::one_if", "stream_reader::ramdisk_in", "cose_reader::byte",
    "json_cases::digit",
}
# whose 0 is a number like any other
NUMBERS_ALL = {"octets::past", "roll_writer::record_size", "cose_writer::small_size"}
# consts that number kinds: all of these impls, and these names
KIND_IMPLS = {"Refusal", "SectionType", "PieceRecordKind", "Algorithm", "Head"}
KIND_CONSTS = {"END_TYPE", "TYPE", "KERNEL", "COMMAND_LINE", "RAMDISK", "NONE"}
SIZE_CONST = re.compile(r"(SIZE|LIMIT|LENGTH|_AT|CLASSES|MODES|DEPTH)\Z|BYTES\Z(?<=\bBYTES)")
# fields and parameters that hold such a number
KIND_NAMES = {"kind": r"u8|u16", "kinds": r"&?\[u16.*", "number": r"u8", "algorithm": r"u64", "mode": r"usize", "act": r"usize", "width": r"u8"}

# functions that differ only in a type, a size or a constant, group by group, as a reading of all of src/ finds them
TWIN_FUNCTIONS = """
numbers of 2, 4 and 8 bytes, in both orders, read | octets: be16 be32 be64 le16 le64
the same, written | octets: put_be16 put_be32 put_be64 put_le16 put_le64
the lesser of two numbers | octets: lesser; arriving_sections: lesser
a number as a wider one | octets: wide; json_check: wide; case_images: wide; assembler_cases: wide; crc32_fold: wide8 wide32
a number as a narrower one | crc32_fold: low8 high32
the number at a place, with no test of the length | crc32_fold: le16 le32 le64
a long slice, over a window of bytes and over a ring of words | crc32_fold: long longer
what is left of the window, of bytes and of words | crc32_fold: empty empty_ring
what the window adds at a place, of bytes and of words | crc32_fold: added_to added_at pair_at
the three parts of a round of the ring | crc32_fold: turn_first turn_second turn_third
the sigmas of SHA-384 | sha384_block: big_sigma0 big_sigma1 small_sigma0 small_sigma1
sums of words | sha384_block: sum4 sum5
an entry of one of the two tables | eif_judge: offset_at size_at; arriving_sections: size_at
the type in a section's own header | eif_judge: kind_at; arriving_sections: kind_at
all values beside a refusal zero | eif_judge: refused; roll_reader: refused stopped; staged_view: refused; cose_reader: refused; cose_writer: refused;
    eif_registers: refused; staged_writing: refused
an array made of another, place by place | plan_judge: kinds_of; eif_writer: sizes; staged_view: places_of; eif_flat: flat_sections flat_records read_sections
the roll written, of an image, a reading, a view, a base and a replacement | roll_writer: write write_listed write_view write_staged
its length, of the same | roll_writer: length length_listed length_view length_staged
the registers of the same | eif_registers: step step_view registers registers_staged
the fingerprint of the same | eif_fingerprint: step step_view fingerprint fingerprint_staged
the calls of an arriving image, over a state of three types | arriving: begin feed finish; arriving_registers: begin feed finish;
    arriving_fingerprint: begin feed finish
its parts | arriving_registers: take_part take_bytes; arriving_fingerprint: take_part take_bytes
begin from a reading, by value and by reference | staged_writing: begin_listed begin_over
a part of a verdict | eif_flat: number_of index_of position_of
an answer, flat | eif_flat: flat_written flat_copied flat_length
a section or a record, flat and back | eif_flat: flat_section flat_record read_section
C: the length of a stream | eif_c: eif_whole_length eif_boot_length eif_app_length
C: copying from a stream | eif_c: eif_copy_whole eif_copy_boot eif_copy_app
C: the sections of a stream | eif_c: eif_whole_sections eif_boot_sections eif_app_sections
C: the calls of an arriving image | eif_c: eif_arriving_begin eif_measuring_begin eif_fingerprinting_begin eif_arriving_feed eif_measuring_feed
    eif_fingerprinting_feed eif_arriving_finish eif_measuring_finish eif_fingerprinting_finish
C: the calls of writing in pieces | eif_c: eif_writing_begin eif_staged_writing_begin eif_writing_step eif_staged_writing_step eif_writing_finish
    eif_staged_writing_finish
a number of 64 bits and a number below 256, measured and written | cose_writer: number_size small_size put_number put_small
the same, read | cose_reader: number_at byte_at number_end byte_end
a refusal as text, with a line feed and without | eif_lines: refusal refusal_text
bytes to the output | case_lines: text; json_cases: write
a plan of a few places | case_images: worked_plan; writer_cases: plan; writing_cases: plan lengths; staged_cases: mended_plan
an image's fields, printed | eif_cases: fields; arriving_cases: fields; strict_cases: fields
whether all fields are zero | eif_cases: is_blank; roll_cases: is_blank
each place that is not all zero, printed | eif_cases: rows; roll_cases: list
a register, printed | register_cases: register digest; staged_register_cases: show
three registers, printed | register_cases: registers step; staged_register_cases: told
an image of a shape, and what is printed of it | register_cases: registers_of; stream_cases: streams_of; arriving_register_cases: compare_shape
images with the command line in three places | register_cases: command_lines; stream_cases: command_lines; arriving_register_cases: shapes
an image of long sections | register_cases: long_sections; arriving_register_cases: long_sections
an image damaged step by step | register_cases: refused; arriving_register_cases: refused
bytes from a position on, at most so many | arriving_cases: part; arriving_register_cases: part; writing_cases: part
a whole image in pieces | arriving_cases: whole; arriving_register_cases: measured fingerprinted
an image handed over in one way of four | arriving_cases: cut short of_size of_allowance
each of an array of cases | arriving_cases: with_each_count each_damage; arriving_register_cases: with_each_size
the state after a piece | arriving_cases: fed counted; sha384_cases: fed; sha384: after
steps until one writes nothing | writing_cases: steps staged_steps
a step with a room of one of six sizes, and of one | writing_cases: step staged_step
a run and its answers | writing_cases: run_of part_of staged
a base with another header | writing_cases: refused_base; staged_cases: damaged
a small image and one of every type, changed | eif_cases: small full small_twice full_twice
two sections, and a byte after them | eif_cases: paired paired_tail tail tail_wrong_checksum
a buffer that stays as it was | writer_cases: short_buffer short_of_both refused_data
three sections, and three with a wrong checksum | strict_cases: three wrong_checksum
two rolls, and whether they are equal | roll_cases: compare; staged_cases: both; listed_cases: own_roll
what is shown of a section | staged_cases: shown; listed_cases: shown
how many damages are let through | burst_cases: count_slips count_field_slips
"""
TWIN_TYPES = """
a position or a length, of 64 bits | eif: FilePosition StreamPosition RollPosition DataLength; cose: Sign1Position
a verdict and a number | eif: Written Copied StreamLength; writing: Summed
the state after a piece, and how many of its bytes were taken | arriving: Fed; arriving_registers: Fed; arriving_fingerprint: Fed
the state after the end, and the reading | arriving: Finished; arriving_registers: Finished; arriving_fingerprint: Finished
what the rules need, and a hash | arriving_registers: Measuring; arriving_fingerprint: Fingerprinting
the state after a step, and how many bytes it wrote | writing: Stepped; staged_writing: StagedStepped
the state, and the answer to begin | writing: Begun; staged_writing: StagedBegun
accepted, or what is at fault | eif: Verdict; json_grammar: JsonVerdict
C: sections and their number | eif: StreamSections; eif_c: EifStreamSections
C: a section or a record, and its flat form | eif: Section RollRecord; eif_flat: EifSection EifRollRecord
C: an answer number, an index, a position and values | eif_flat: EifReading EifAnswer EifRollReading; eif_c: EifStepped EifSha384Fed EifRegisters
    EifFingerprint EifStagedPart EifSign1Reading
C: the state after the end | eif_c: EifArrivingFinished EifMeasuringFinished EifFingerprintingFinished
C: the state, and the answer to begin | eif_c: EifWritingBegun EifStagedWritingBegun
bytes written, and their number | writing_cases: Run StagedRun
the state after a turn, and whether there is another | eif_check: Taken; eif_assemble: Turn
a number over what stands at a position | eif_cases: Change; arriving_cases: Damage
"""
# functions and types that are alike, and differ in more than a type, a size or a constant: shown, and not counted
ALIKE = """
steps over 8, 32 and 64 bits | crc32_fold: steps8 steps32 steps64
a loop of fold_bits | crc32_fold: rest empty empty_ring
the tables of a plan | eif_writer: offsets sizes
the header's first fields and the next | eif_writer: put_first put_next
a walk up to the first refusal | eif_judge: walk; roll_reader: walk; arriving_sections: walk
rules 10 and 11 | type_judge: order_fault; eif_judge: walk
rule 12 of a roll and of an image | type_judge: lacks_boot lacks
read, then the call over the reading | stream_reader: copy length; staged_view: judge verdict section place
after a verdict | roll_writer: write_sections length_of; staged_view: judge_listed section_listed place_listed
the data of a section, and its length | staged_view: held held_length
a record of a roll, written, measured, hashed | roll_writer: put_record record_size put_head put_flags; eif_fingerprint: hash_record hash_head hash_flags
three digests | eif_registers: measured refused; arriving_registers: digests
how long an image is, and its data | plan_judge: image_size data_size
a section's data, hashed as it arrives | arriving_registers: hash; arriving_fingerprint: hash_data
the calls of writing in pieces | writing: begin step finish; staged_writing: begin step finish
the three steps of writing in pieces | writing: write_data write_header begin_section
the first bytes of a slice, and those after | staged_writing: first after; eif_checksum: front back
a part of a verdict on JSON | eif_c: text_flag fault_place
C: an answer with a verdict, flat | eif_c: flat_fingerprint flat_registers flat_part flat_summed eif_sign1_read eif_sha384_update eif_assembler_step
C: the same of an image, a reading and a staged view | eif_c: eif_image_fingerprint eif_staged_fingerprint eif_registers eif_staged_registers
    eif_roll_write eif_staged_roll_write eif_read_roll_write eif_roll_length eif_staged_roll_length eif_read_roll_length
bytes passed over | json_check: past_blocks past_bare past_few past_run
the size of a part, and the part written | cose_writer: value_size put_values payload_size put_payload opening_size put_opening
accepted as text | eif_lines: accepted; case_lines: accepted
the state after all that comes | eif_assemble: take_records take_record; eif_check: arrived take_piece
a reading, flat | eif_flat: flat_reading flat_roll_reading
a verdict in words | case_lines: answer; cose_cases: answer; sha384_cases: answer; burst_cases: answer
a pattern of bytes | cose_cases: put_signature value_of; sha384_cases: pattern; crc32_cases: every_value; assembler_cases: put_data
a roll in hexadecimal | roll_cases: write; staged_cases: small_room; listed_cases: roll_from from_view
records of a roll | roll_cases: three worked types lengths read many
a case that is answered where it fits | cose_cases: write_into write spliced resized exchanged; strict_cases: checksum_first; stream_cases: from_listed
lists of cases, a call for each | cose_cases: writes refused_writes outer_arrays protected_headers algorithms_and_second_map payloads first_names_and_indexes
    index_types_and_value_lengths value_numbers signatures_and_ends; eif_cases: of_the_rules of_the_header of_a_section two_at_once;
    strict_cases: accepted refused by_place after_the_others; writer_cases: one_at_a_time two_at_once; stream_cases: ends listed at_a_section;
    roll_cases: rows later_rows inner flags before_order many_records; staged_cases: views limits; listed_cases: views; arriving_register_cases: spans
a verdict, and values beside it | eif: Reading RollReading; staged: Staged StagedPart; eif_registers: Measurement; eif_fingerprint: Fingerprinted;
    sha384: Updated; cose: Sign1Reading; assembler: Stepped
what a walk found | eif_judge: Walked; roll_reader: Walked
a section, read and planned | eif: Section Place
a hash state, with a total and with how much of the block is used | sha384: State Filling
"""
# loops that differ in the step that they run
DRIVERS = """
all sections where they lie | eif_registers: take_sections; eif_fingerprint: hash_records; roll_writer: roll_size put_roll
a piece, part by part | arriving_registers: take_bytes; arriving_fingerprint: take_bytes
a whole image in pieces | arriving_cases: whole; arriving_register_cases: measured fingerprinted
steps until one writes nothing | writing_cases: steps staged_steps
all that comes over standard input | eif_check: arrived; eif_assemble: take_records
places where damage is let through | burst_cases: count_slips count_field_slips
each of an array, printed | eif_cases: rows; roll_cases: list; assembler_cases: list; arriving_cases: with_each_count each_damage;
    arriving_register_cases: with_each_size; burst_cases: differences
"""
SEARCHES = {
    "type_judge::holds", "eif_judge::walk", "assembler_judge::all_held", "eif_registers::alike", "json_cases::find", "json_check::past_bare",
    "json_check::past_blocks", "json_check::past_few",
}
NOT_A_LENGTH = {"arriving_register_cases::fingerprints_agree", "staged_view::with_length", "roll_cases::read", "roll_cases::lengths"}
SAME = re.compile(r"(is_)?same(_\w+)?\Z|is_blank\Z|equal\w*\Z")
ORDER = {
    "octets::lesser", "octets::past", "octets::passes", "octets::room", "arriving_sections::lesser", "roll_writer::add_up", "writing_cases::sum",
    "assembler_cases::cut", "eif_judge::ends_late",
}
COPY = {"octets::copy", "crc32_fold::move_back", "crc32_fold::clear", "assembler_step::clear", "stream_reader::copy_data"}
CONVERT = re.compile(
    r"(wide\d*|low\d+|high\d+|flat_\w+|read_sections?|given_\w+|\w+_flag|fault_place|(number|index|position)_of|vars_of|kinds_of|places_of"
    r"|plan_listed|ramdisk_in|one_if)\Z"
)
CONVERT_TOO = {"eif_registers::measured", "sha384::digest", "eif_writer::sizes"}
PRINTED = re.compile(
    r"\b(?:case_lines::)?(?:text|labelled|number|tell|hex|byte|say|written|refusal|put_number)\(\s*(?:rt|&rt|out)\b"
    r"|\b(?:rt|out)\.write_all\("
)


# ---- reading the sources


def blank(text, strings=True):
    """The text with its comments, and its strings, blanked, of the same length."""
    pattern = r"//[^\n]*" + (r"|b?\"(?:[^\"\\]|\\.)*\"|b?'(?:[^'\\\n]|\\[^\n]{1,4})'" if strings else "")
    return re.sub(pattern, lambda m: re.sub(r"[^\n]", " ", m[0]), text)


def closing(text, i, pair="{}"):
    """The place after the bracket that closes the one at i."""
    depth = 0
    for k in range(i, len(text)):
        depth += (text[k] == pair[0]) - (text[k] == pair[1])
        if not depth:
            return k + 1
    return len(text)


def squeeze(text):
    return re.sub(r"\s+", " ", text).strip()


def split(text, mark=","):
    """The parts of a text between marks that stand in no bracket."""
    parts, depth, last = [], 0, 0
    for i, c in enumerate(text):
        depth += (c in "([{<") - (c in ")]}" or (c == ">" and text[i - 1 : i] != "-"))
        if c == mark and not depth:
            parts.append(text[last:i])
            last = i + 1
    return [part for part in map(squeeze, parts + [text[last:]]) if part]


class Item:
    """A function, struct, enum or const, with what a rule looks at."""

    def __init__(self, file, start, name, owner):
        self.file, self.start, self.name, self.owner = file, start, name, owner
        self.crate = file.crate
        self.key = f"{self.crate}::{name}"
        self.comment = ""

    def at(self, offset=None):
        return self.file.place(self.start if offset is None else offset)


class File:
    def __init__(self, path):
        self.path, self.crate = path, path.parts[1]
        self.raw = path.read_text(encoding="utf-8")
        self.text = blank(self.raw)
        self.functions, self.structs, self.enums, self.consts = [], [], [], []
        self.scope = self.imports()
        self.read()

    def imports(self):
        """Each name that the file imports from a crate, with the crate."""
        found = {}
        for m in re.finditer(r"^use (\w+)::(?:\{([^}]*)\}|(\w+));", self.text, re.M):
            for name in split(m[2] or m[3]):
                found[name] = m[1]
        return found

    def full(self, kind):
        """A type's name with its crate before it."""
        crate, _, name = kind.lstrip("&").rpartition("::")
        return f"{crate.replace('crate', self.crate).split('::')[0] or self.scope.get(name, self.crate)}::{name}"

    def place(self, offset):
        """The crate of a place in the text, the function or type that it is in, and CRATE/FILE:LINE: TEXT."""
        line = self.raw.count("\n", 0, offset) + 1
        start = self.raw.rfind("\n", 0, offset) + 1
        text = squeeze(self.raw[start : self.raw.find("\n", offset)])
        name = next((f.name for f in self.functions if f.start <= offset < f.open + len(f.body)), "")
        word = re.match(r"(?:pub )?(?:struct|enum|const) (\w+)", text)
        return (self.crate, f"{self.crate}/{self.path.name}:{line}: {text}", name or (word[1] if word else text))

    def owner(self, offset):
        """The impl or trait around a place."""
        found = ""
        for m in re.finditer(r"^(?:impl|(?:pub )?trait)\b([^{;]*)\{", self.text, re.M):
            if m.start() < offset < closing(self.text, m.end() - 1):
                found = squeeze(re.sub(r"<[^>]*>", "", m[1])).split(" for ")[-1]
        return found

    def comment(self, offset):
        lines = self.raw[:offset].split("\n")[:-1]
        out = []
        while lines and re.match(r"\s*(//|#\[)", lines[-1]):
            out.insert(0, lines.pop().strip())
        return " ".join(line.lstrip("/ ") for line in out if line.startswith("//"))

    def read(self):
        for m in re.finditer(r"^[ \t]*(?:pub )?(?:extern \"C\" |extern +)?fn (\w+)", blank(self.raw, False), re.M):
            self.function(m)
        for m in re.finditer(r"^[ \t]*(?:pub )?struct (\w+)[^;{(]*([;{(])", self.text, re.M):
            item = Item(self, m.start(1), m[1], "")
            item.fields = self.fields(m)
            self.structs.append(item)
        for m in re.finditer(r"^[ \t]*(?:pub )?enum (\w+)[^{]*(\{)", self.text, re.M):
            item = Item(self, m.start(1), m[1], "")
            item.variants = split(re.sub(r"#\[[^\]]*\]", "", self.text[m.end() : closing(self.text, m.end() - 1) - 1]))
            self.enums.append(item)
        for m in re.finditer(r"^[ \t]*(?:pub )?const (\w+): ([^=;]+)=([^;]*);", self.text, re.M):
            item = Item(self, m.start(1), m[1], self.owner(m.start(1)))
            item.type, item.value = squeeze(m[2]), squeeze(m[3])
            self.consts.append(item)

    def fields(self, m):
        if m[2] == ";":
            return []
        inner = self.text[m.end() : closing(self.text, m.end() - 1, "{}" if m[2] == "{" else "()") - 1]
        parts = [re.sub(r"#\[[^\]]*\]|\bpub\b", "", part).strip() for part in split(inner)]
        return [tuple(map(str.strip, part.split(":", 1))) if m[2] == "{" else ("", part) for part in parts if ":" in part or m[2] == "("]

    def function(self, m):
        item = Item(self, m.start(1), m[1], self.owner(m.start(1)))
        i = m.end()
        if self.text[i : i + 1] == "<":
            i = closing(self.text, i, "<>")
        end = closing(self.text, i, "()")
        parts = [re.sub(r"\bmut (?=\w+ *:)|'\w+ ", "", part) for part in split(self.text[i + 1 : end - 1]) if ":" in part]
        item.params = [tuple(map(squeeze, part.split(":", 1))) for part in parts]
        item.clauses, k = [], end
        while True:
            brace = self.text.find("{", k)
            semicolon = self.text.find(";", k)
            clause = CLAUSE.search(self.text, k)
            if brace < 0 or (0 <= semicolon < brace and "[" not in self.text[k:semicolon]):
                return
            if clause and clause.end() - 1 <= brace:
                stop = closing(self.text, clause.end() - 1)
                item.clauses.append((clause[1], squeeze(self.raw[clause.end() : stop - 1])))
                k = stop
            else:
                break
        head = self.text[end : (item.clauses and CLAUSE.search(self.text, end).start()) or brace]
        item.result = squeeze(re.sub(r"'\w+ ", "", head.split("->", 1)[1].split(" where ")[0])) if "->" in head else ""
        item.body, item.open = self.text[brace : closing(self.text, brace)], brace
        item.comment = self.comment(m.start())
        self.functions.append(item)


def sources():
    return [File(path) for path in sorted(Path("crates").glob("*/src/**/*.rt"))]


class Count:
    """The places that are found, by kind."""

    def __init__(self, files):
        self.files = files
        self.functions = [f for file in files for f in file.functions]
        self.structs = [s for file in files for s in file.structs]
        self.enums = [e for file in files for e in file.enums]
        self.consts = [c for file in files for c in file.consts]
        self.found = collections.defaultdict(list)  # (point, kind) to places (crate, text)

    def add(self, point, kind, place, note="", group=False):
        """A place; a group is what several places share, and is shown above them."""
        crate, text, name = place
        entry = (crate, text + (f"  [{note}]" if note and not group else ""), note if group else "", name)
        if entry not in self.found[point, kind]:
            self.found[point, kind].append(entry)

    def lines(self, function, pattern):
        for m in re.finditer(pattern, function.body):
            yield m, function.at(function.open + m.start() + len(m[0]) - len(m[0].lstrip()))


# ---- point 1

NUMBER = "g. functions and fields with a number for none or for a refusal"
HOLDS = "j. fields, parameters and answers that hold the number of a kind"
EARLY = "k. early answers by hand: let .. else, if let, match on such an enum"
TESTS = "l. tests of a number for none, of a flag or of a refusal's number"


def point1(count):
    own = [e for e in count.enums if len(e.variants) == 2 and any(re.search(r"[({]", v) for v in e.variants)]
    for e in own:
        count.add(1, "a. own enums of the shape of Option or Result", e.at(), "; ".join(e.variants))
    verdicts = {e.key for e in own}
    bearing, around = structs_with_verdicts(count, verdicts)
    structs_with_flags(count, bearing)
    numbers = functions_with_numbers(count, verdicts | bearing | around)
    constants_that_number(count)
    numbers_held(count)
    for f in count.functions:
        early_answers(count, f, "|".join(sorted(e.name for e in own)) or "Verdict")
        tests_of_numbers(count, f, "|".join(sorted(numbers)))
        made_up(count, f, bearing)


def structs_with_verdicts(count, verdicts):
    """Structs with a verdict beside values, and structs around these; answers the names of both."""
    bearing, around = set(), set()
    for s in count.structs:
        if len(s.fields) > 1 and any(s.file.full(t) in verdicts or t.startswith("Result<()") for _, t in s.fields):
            bearing.add(s.key)
            count.add(1, "b. structs with a verdict beside values", s.at(), ", ".join(n for n, _ in s.fields))
    for s in count.structs:
        inner = [t for _, t in s.fields if s.file.full(t) in bearing]
        if inner and s.key not in bearing:
            around.add(s.key)
            count.add(1, "e. structs around such a struct", s.at(), ", ".join(inner))
    return bearing, around


def structs_with_flags(count, bearing):
    for s in count.structs:
        flags = [n for n, t in s.fields if t == "bool" or (n in FLAG_FIELDS and INTEGER.match(t)) or (n, t) == ("number", "u8")]
        if flags and len(s.fields) > 1 and s.key not in bearing and s.key != "eif::Refusal":
            flat = s.name.startswith("Eif")
            kind = "d. flat answers for C, an answer number or a flag beside values" if flat else "c. structs with a flag beside values"
            count.add(1, kind, s.at(), ", ".join(flags))
        if not s.fields and s.file.text[s.start + len(s.name) :].lstrip().startswith(";") and any(c.owner == s.name for c in count.consts):
            count.add(1, "i. empty structs that only hold constants", s.at())
        if ("place", "u64") in s.fields and s.name == "Span":
            count.add(1, NUMBER, s.at(), "place: the number of places where there is none")


def functions_with_numbers(count, answers):
    """Functions that answer a verdict or a struct with one; and those that answer a number for none or for a refusal, by name."""
    numbers = set(NUMBER_FUNCTIONS)
    for f in count.functions:
        if f.file.full(f.result) in answers:
            count.add(1, "f. functions that answer a verdict, or a struct with one", f.at(), f.result)
    for _ in range(4):
        faults = "|".join(sorted({n.split("::")[1] for n in numbers if "fault" in n} | {"judge"}))
        for f in count.functions:
            refuses = f.result == "u8" and re.search(rf"\bRefusal::[A-Z]|\b(?:{faults})\(", f.body)
            zero = re.search(r"(^|[\s{])0\s*\}|return 0;|=> 0,", f.body)
            says = INTEGER.match(f.result) and zero and re.search(r"\b0(:| where| if| for)|\bor 0\b|; 0$", f.comment)
            if (refuses or says) and f.key not in NUMBERS_ALL:
                numbers.add(f.key)
    found = [f for f in count.functions if f.key in numbers and INTEGER.match(f.result)]
    for f in found:
        count.add(1, NUMBER, f.at(), f.result)
    return {f.name for f in found} or {"fault"}


def constants_that_number(count):
    for c in count.consts:
        modes = c.crate == "json_check" and c.type == "usize"
        named = c.owner in KIND_IMPLS or c.name in KIND_CONSTS and c.owner != "Carry"
        if (named or modes) and not SIZE_CONST.search(c.name) and (INTEGER.match(c.type) or c.name == "NONE"):
            count.add(1, "h. constants that number kinds or refusals", c.at())


def numbers_held(count):
    for item in count.structs + count.functions:
        for name, kind in getattr(item, "fields", None) or getattr(item, "params", []):
            if name in KIND_NAMES and re.fullmatch(KIND_NAMES[name], kind):
                count.add(1, HOLDS, item.at(), f"{name}: {kind}")
    for f in count.functions:
        if re.search(r"kind|algorithm_of", f.name) and re.search(r"u16|u64", f.result):
            count.add(1, HOLDS, f.at(), f"answers {f.result}")


def early_answers(count, f, either):
    for pattern in (rf"let (?:{either})::\w+(?:\([^)]*\))? = [^;{{]* else", rf"if let (?:{either})::\w+", rf"match \w+ \{{\s*(?:{either})::"):
        for _, place in count.lines(f, pattern):
            count.add(1, EARLY, place)


def tests_of_numbers(count, f, calls):
    held = {m[1] for m in re.finditer(rf"let (?:mut )?(\w+) = (?:\w+::)*(?:{calls})\(", f.body)}
    flags = {rf"\w+(?:\.\w+)*\.{flag}" for flag in FLAG_FIELDS}
    names = "|".join(sorted(held | flags))
    for pattern in (
        rf"\bif (?:(?:{names})|(?:\w+::)*(?:{calls})\([^{{]*?\)) (?:==|!=) (?:0|FAULT)\b",
        r"\bif \w+(?:\.\w+)* (?:==|<=) Refusal::[A-Z_]+",
        r"\bif \w+\.(?:more|mode == FAULT|whole)\b",
    ):
        for _, place in count.lines(f, pattern):
            count.add(1, TESTS, place)


def made_up(count, f, bearing):
    """Values beside a refusal, that stand for none."""
    kind = "m. values made up beside a refusal"
    for m, place in count.lines(f, r"(?<!-> )\b([A-Z]\w*) \{"):
        text = f.body[m.start() : closing(f.body, m.end() - 1)]
        if f.file.full(m[1]) in bearing and "Verdict::Accepted" not in text and re.search(r"(: |\()0\b|0u8|BLANK", text):
            count.add(1, kind, place)
    for m in re.finditer(r"else \{\s*(?:let none = \[0u8; \w+\];\s*)?(?=return (?:\[0u8; \w+\]|\[(?:Digest\()?none\b[^;]*);)", f.body):
        count.add(1, kind, f.at(f.open + m.end()))


# ---- point 2


def table(text):
    """The groups of a table: the label, and the members as CRATE::NAME."""
    for line in filter(None, text.replace("\n    ", " ").splitlines()):
        label, _, rest = line.partition(" | ")
        members = []
        for part in rest.split(";"):
            crate, _, names = part.partition(":")
            members += [f"{crate.strip()}::{name}" for name in names.split()]
        yield label, members


def listed(count, point, kind, text):
    """Adds the groups of a table of which two members or more are there; answers these members."""
    here = collections.defaultdict(list)
    for item in count.functions + count.structs + count.enums:
        here[item.key].append(item)
    found = set()
    for label, members in table(text):
        there = [item for name in members for item in here[name]]
        if len({item.key for item in there}) > 1:
            found |= {item.key for item in there}
            for item in there:
                count.add(point, kind, item.at(), label, group=True)
    return found


def tokens(function):
    """The tokens of a function's parameters and body, with names, numbers and strings by the order in which they come."""
    names, out = {}, []
    text = " ".join(f"{n}: {t}" for n, t in function.params) + function.body
    keep = {"let", "mut", "if", "else", "while", "for", "in", "loop", "match", "return", "break", "as", "fn", "pub", "impl", "io", "Result", "Ok"}
    for token in re.findall(r"[A-Za-z_]\w*|\d\w*|[^\s\w]", text):
        if token in keep or not re.match(r"\w", token):
            out.append(token)
        else:
            out.append("v%d" % names.setdefault(token, len(names)))
    return tuple(out)


def point2(count):
    known = listed(count, 2, "a. functions, listed by reading", TWIN_FUNCTIONS) | listed(count, 2, "b. types, listed by reading", TWIN_TYPES)
    known |= listed(count, 2, "not counted: alike, and differ in more", ALIKE)
    shapes, fields = collections.defaultdict(list), collections.defaultdict(list)
    for f in count.functions:
        shape = tokens(f)
        if len(shape) > 24 and f.name != "main":
            shapes[shape].append(f)
    for s in count.structs:
        if len(s.fields) > 1 and s.fields[0][0]:
            fields[tuple(f[0] for f in s.fields)].append(s)
    for kind, groups in (("c. functions, found by their shape alone", shapes), ("d. structs with the same fields", fields)):
        for members in groups.values():
            if len(members) > 1 and not all(item.key in known for item in members):
                for item in members:
                    count.add(2, kind, item.at(), ", ".join(x.key for x in members), group=True)


# ---- point 3


def kind_of_loop(body, condition, inner):
    """How a loop goes on: by one, by a step, down, by what it reads, or without a counter."""
    names = set(WORD.findall(condition)) if condition else set(re.findall(r"(\w+) [-+]?= ", inner))
    outer = {n for n in names if re.search(rf"let mut {n}\b", body.replace(inner, ""))}
    changes = {n: re.findall(rf"(?<![\w.]){n} (\+=|-=|=) ([^;=][^;]*);", inner) for n in outer}
    steps = [c for c in changes.values() if c and all(op == "+=" and v.isdigit() for op, v in c)]
    if steps:
        size = min(int(c[0][1]) for c in steps)
        return "up by one" if size == 1 else f"up by {size}"
    down = [c for c in changes.values() if any(op == "-=" for op, _ in c)]
    if down:
        return "down by one" if all(v in ("0", "1") for c in down for _, v in c) else "down by what it reads"
    return "by what it reads" if any(changes.values()) else "without a counter"


def point3(count):
    for f in count.functions:
        for m in re.finditer(r"\b(while\b[^{]*|loop\s*)\{", f.body):
            inner = f.body[m.end() : closing(f.body, m.end() - 1)]
            condition = m[1][5:] if m[1].startswith("while") else ""
            count.add(3, "while and loop, " + kind_of_loop(f.body, condition, inner), f.at(f.open + m.start()), f.key)
        for _, place in count.lines(f, r"\bfor \w+ in [^{]*\.\.[^{]*\{"):
            count.add(3, "not counted: for over a range", place, f.key)


# ---- point 4


def point4(count):
    for f in count.functions:
        if SAME.match(f.name) and f.result == "bool":
            count.add(4, "a. equality", f.at())
        if f.key in ORDER:
            count.add(4, "b. order, and sums and differences that stop at a limit", f.at())
        if f.key in COPY:
            count.add(4, "c. copying and filling", f.at())
        if CONVERT.match(f.name) or f.key in CONVERT_TOO:
            count.add(4, "e. conversion", f.at())
        calls = len(re.findall(PRINTED, f.body))
        if calls > 1:
            count.add(4, "f. functions that print part by part", f.at(), f"{calls} calls")
        for _, place in count.lines(f, r"\bcheck::same\("):
            count.add(4, "a. equality", place)
        for _, place in count.lines(f, r"(?<!\w)(?:octets::)?(?:lesser|past|passes)\("):
            count.add(4, "g. calls of lesser, past and passes", place)
        for _, place in count.lines(f, r"let (\w+) = [^;{]*;\s*\w+ = \1;"):
            count.add(4, "not counted: a value stored by way of a name", place)
        for _, place in count.lines(f, r"let \w+ = \w+(?:\.[a-z]\w*)+;"):
            count.add(4, "not counted: a field taken out by a name of its own", place)
        rebuilt(count, f)


def rebuilt(count, f):
    """Literals of structs in which two fields or more are taken as they are from another value of the struct."""
    taken = {m[1] for m in re.finditer(r"let (\w+) = \w+(?:\.\w+)*\.\1;", f.body)}
    for m in re.finditer(r"(?<!-> )\b[A-Z]\w* \{", f.body):
        text = f.body[m.end() : closing(f.body, m.end() - 1) - 1]
        parts = split(text)
        same = [p for p in parts if re.fullmatch(r"(\w+): \w+(\.\w+)*\.\1", p) or p in taken]
        if len(same) > 1:
            count.add(4, "d. structs written anew with fields of another value", f.at(f.open + m.start()), f"{len(same)} of {len(parts)} fields")


# ---- point 5


def facts(clause):
    """The facts of a clause, which × joins."""
    for part in split(clause.replace("→ ", "→"), "×"):
        part = part.strip()
        while part.startswith("(") and closing(part, 0, "()") == len(part):
            part = part[1:-1].strip()
        if "×" in part and len(split(part, "×")) > 1:
            yield from facts(part)
        else:
            yield part


def of_types(fact, function):
    """The fact with each parameter by its type, lent or not, before or after: the same whatever the parameters are called."""
    kinds = {n: "number" if INTEGER.match(t) else re.sub(r"^&(mut )?", "", t) for n, t in function.params}
    fact = re.sub(r"(?<![\w.])[A-Za-z_]\w*", lambda m: f"‹{kinds[m[0]]}›" if m[0] in kinds else m[0], fact)
    fact = re.sub(r"›\.(now|old|new)\b", "›", fact)
    return re.sub(r"^‹number› \+ [^≤<×→]+ ≤ length ‹\[u8\]›$", "‹number› + .. ≤ length ‹[u8]›", fact)


def point5(count):
    where = collections.defaultdict(list)
    for f in count.functions:
        for kind, clause in f.clauses:
            for fact in facts(clause):
                answer = kind == "ensures" and re.search(r"≡.*\bresult\b|\bresult\b[^<≤]*≡", fact)
                if not answer:
                    where[of_types(fact, f)].append(f)
    for fact, functions in sorted(where.items()):
        # a fact that names nothing of the repository is one fact in each crate
        alone = set(re.findall(r"[a-z]\w+", re.sub(r"‹[^›]*›", "", fact))) <= {"length", "result", "now", "old"}
        for part in [functions] if not alone else [[f for f in functions if f.crate == c] for c in sorted({f.crate for f in functions})]:
            if len({f.key for f in part}) > 2:
                for f in part:
                    count.add(5, "a. facts in three contracts or more", f.at(), fact, group=True)
    for crate in sorted({f.crate for f in count.functions}):
        travelling(count, [f for f in count.functions if f.crate == crate])


def parameters(function):
    """Names and types, with one name for the places in a slice."""
    places = ("i", "from", "at")
    return frozenset(("at" if n in places and t == "usize" else n, t) for n, t in function.params if n != "rt")


def travelling(count, functions):
    """Sets of two parameters or more that three functions of a crate have, where each is in no more than twice as many functions."""
    sets = {f: parameters(f) for f in functions}
    have = collections.Counter(p for s in sets.values() for p in s)
    closed = {}
    for s in {sets[f] & sets[g] for f in functions for g in functions if f is not g}:
        having = frozenset(f for f in functions if s <= sets[f])
        often = len(s) > 1 and len(having) > 2 and all(2 * len(having) >= have[p] for p in s)
        if often and len(s) > len(closed.get(having, ())):
            closed[having] = s
    for having, s in sorted(closed.items(), key=lambda item: sorted(item[1])):
        program = any(f.file.path.name == "main.rt" for f in having)
        kind = "c. parameters that travel together, in programs" if program else "b. parameters that travel together"
        for f in sorted(having, key=lambda f: (f.file.path, f.start)):
            count.add(5, kind, f.at(), ", ".join(sorted(f"{n}: {t}" for n, t in s)), group=True)


# ---- point 6

COUNTS = {
    "count", "used", "counted", "most", "n", "to", "end", "length", "size", "written", "taken", "section_left", "header_written", "total",
}


def point6(count):
    for s in count.structs:
        arrays = [n for n, t in s.fields if (ARRAY.match(t) or t.startswith("&[")) and n != "reserved"]
        counts = [n for n, t in s.fields if n in COUNTS - {"end"} and INTEGER.match(t)]
        if arrays and counts:
            count.add(6, "a. structs: a buffer with a length beside it", s.at(), ", ".join(counts + arrays))
        parallel(count, s, [(n, t) for n, t in s.fields if ARRAY.match(t)])
    for f in count.functions:
        arrays = [(n, t) for n, t in f.params if ARRAY.match(t)]
        counts = [n for n, t in f.params if n in COUNTS and INTEGER.match(t)]
        if arrays and counts and f.key not in NOT_A_LENGTH:
            count.add(6, "b. parameters: an array with a length beside it", f.at(), ", ".join(counts + [n for n, _ in arrays]))
        parallel(count, f, arrays)
        for m in re.finditer(r"let mut (\w+) = \[[^\]]*\];", f.body):
            part = rf"&(?:mut )?{m[1]}\[(?:\w+)?\.\.(?!\])|\b{m[1]}\[(?:count|n)\] = |while \w+ < count \{{[^}}]*\b{m[1]}\["
            if re.search(part, f.body):
                count.add(6, "c. locals: a buffer of which a part is used", f.at(f.open + m.start()), f.key)
        if f.key in SEARCHES:
            count.add(6, "e. searches by hand (none of a sorted list)", f.at())


def parallel(count, item, arrays):
    sizes = [t.rpartition(";")[2] for _, t in arrays]
    pair = {n for n, _ in arrays} & {"a", "b", "one", "other", "k", "own"}
    if len(set(sizes)) < len(sizes) and not pair:
        count.add(6, "d. parallel arrays", item.at(), ", ".join(n for n, _ in arrays))


# ---- point 7


def point7(count):
    own = {e.name for e in count.enums}
    for f in count.functions:
        for m, place in count.lines(f, r"\bmatch (\w+) \{\s*(\w+)::"):
            if m[2] in own and not m[2].endswith("Verdict"):
                count.add(7, "a. a match that picks what to do", place, f.key)
        tests = collections.Counter(m[1] for m in re.finditer(r"\bif (\w+(?:\.\w+)*) == (?:[A-Z]\w*(?:::\w+)*|\d+)\b", f.body))
        for name, n in tests.items():
            if n > 1:
                count.add(7, "b. a chain of tests of one number that picks what to do", f.at(), f"{name}, {n} tests")
        for name, kind in f.params:
            if kind == "bool":
                count.add(7, "c. a flag as a parameter that picks what to do", f.at(), name)
            if re.search(r"\bfn\(|&dyn ", kind):
                count.add(7, "d. pointers to functions and tables of them", f.at(), name)
    listed(count, 7, "e. loops that differ in the step that they run", DRIVERS)


# ---- point 8


def point8(count):
    for path in sorted(Path("crates").glob("*/proofs/**/*.antt")):
        lines = path.read_text(encoding="utf-8").splitlines()
        name = f"{path.parts[1]}/{'/'.join(path.parts[3:])}"
        long = [i for i, line in enumerate(lines, 1) if len(line) > 160]
        if path.name == "Answers.antt":
            count.add(8, "not counted: files of answers", (path.parts[1], name, ""))
            for i, line in enumerate(lines, 1):
                if re.match(r"\s*pub \S+ : goal\.", line):
                    count.add(8, "answers", (path.parts[1], f"{name}:{i}: {squeeze(line)}", ""))
        kind = "not counted: lines of answers" if path.name == "Answers.antt" else "not counted: lines of other proofs"
        for i in long:
            count.add(8, f"{kind} longer than 160 columns", (path.parts[1], f"{name}:{i}: {squeeze(lines[i - 1])[:60]} ..", ""))


# ---- the output


def by_crate(entries):
    total = collections.Counter(entry[0] for entry in entries)
    return ", ".join(f"{crate} {n}" for crate, n in sorted(total.items()))


def names(entries, numbers):
    """The crates of some places, each with the names of its functions and types, and with its number."""
    parts = []
    for crate in sorted({entry[0] for entry in entries}):
        found = collections.Counter(entry[3] for entry in entries if entry[0] == crate)
        shown = ", ".join(name + (f" ({n})" if n > 1 else "") for name, n in found.items() if name)
        total = f" {sum(found.values())}" if numbers else ""
        parts.append(f"{crate}{total}" + (f": {shown}" if shown else ""))
    return "; ".join(parts)


def wrapped(text, indent=""):
    print(textwrap.fill(text, 158, subsequent_indent=indent, break_long_words=False, break_on_hyphens=False))


def show_names(kind, found):
    """A kind as docs/DESIGN-PASS.md has it."""
    groups = [group for group in dict.fromkeys(entry[2] for entry in found) if group]
    total = f"{len(found)} in {len(groups)} groups" if groups else f"{len(found)}"
    if not groups:
        wrapped(f"{kind}: {total}. {names(found, True)}.")
        print()
    else:
        wrapped(f"{kind}: {total}. {by_crate(found)}.")
        print()
    for group in groups:
        wrapped(f"- {group} ({names([e for e in found if e[2] == group], False)})", "  ")
    if groups:
        print()


def show_groups(found):
    for group in dict.fromkeys(entry[2] for entry in found):
        if group:
            print(f"    {group}")
        for entry in found:
            if entry[2] == group:
                print(("      " if group else "    ") + entry[1])


def show_kind(kind, found, form):
    groups = {entry[2] for entry in found} - {""}
    print(f"  {kind}: {len(found)}" + (f" in {len(groups)} groups" if groups else ""))
    if form == "--totals":
        print(f"    {by_crate(found)}")
    else:
        show_groups(found)


def show(count, points, form):
    for point in points:
        print(f"Point {point}: {POINTS[point]}\n")
        kinds = sorted(kind for number, kind in count.found if number == point)
        for kind in kinds:
            if form == "--names":
                show_names(kind, count.found[point, kind])
            else:
                show_kind(kind, count.found[point, kind], form)
        counted = [entry for kind in kinds if not kind.startswith("not counted") for entry in count.found[point, kind]]
        wrapped(f"Point {point} in all: {len(counted)}. {by_crate(counted)}.")
        print()


def main():
    forms = [a for a in sys.argv[1:] if a in ("--totals", "--names")]
    points = [int(a) for a in sys.argv[1:] if a not in forms] or list(POINTS)
    count = Count(sources())
    for point in points:
        globals()[f"point{point}"](count)
    show(count, points, forms[0] if forms else "")


if __name__ == "__main__":
    main()
