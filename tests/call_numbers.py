#!/usr/bin/env python3
"""Whether every place that has the numbers which calls answer with agrees with the table, docs/NUMBERS.md.

  tests/call_numbers.py test
  tests/call_numbers.py selftest

`test` compares the constants of code, those of definitions, the header, the Rust enum and the rows of docs/CLAIMS.md with the table, and the rows
that are marked as unused with those that name no call; then the numbers that comments of the exported functions say are checked, those that Rust's
documentation, README.md and docs/GUIDE.md name, and the calls that give each number, with the stored answers of the second implementation.
`selftest` puts mistakes into these places, in memory, and fails where `test` would not notice one.
"""
import difflib
import re
import sys
from collections import namedtuple

from tree import files, read, report, trials

NUMBERS = "docs/NUMBERS.md"
CODE, DEFINITIONS = "crates/basics/src/lib.rt", "crates/basics/specs/Numbers.antt"
HEADER, RUST, DECLARED = "bindings/c/tuilarder.h", "bindings/rust/src/refusal.rs", "bindings/rust/src/ffi.rs"
CLAIMS = "docs/CLAIMS.md"
# of each call: stored answers, and where a line of them has the number; a line without one is an accepted call
ANSWERS = {
    "START": ("crates/session_vectors/stdout", r"s (\d+)"),
    "ABSORB": ("crates/session_vectors/stdout", r"a (\d+)"),
    "SQUEEZE": ("crates/session_vectors/stdout", r"q (\d+)"),
    "FINISH": ("crates/session_vectors/stdout", r"f (\d+)"),
    "write": ("crates/tag_vectors/stdout", r"w .*, (\d+)"),
    "read": ("crates/tag_vectors/stdout", r"r (\d+)"),
    "cut": ("crates/tag_vectors/stdout", r"c (\d+)"),
    "permute": ("crates/permutation_vectors/stdout", r"(\d+)"),
    "generate": ("crates/generator_check/stdout", r"generate \d+ number (\d+)"),
    "cards": ("crates/cards/stdout", r"\((?:ok|no (\d+))"),
    "check owners": ("crates/owner_vectors/stdout", r"c (\d+)"),
    "owner": ("crates/owner_vectors/stdout", r"c .*, o (\d+)"),
    "seal": ("crates/seal_vectors/stdout", r"s (\d+)"),
    "open": ("crates/seal_vectors/stdout", r"o (\d+)"),
}
Row = namedtuple("Row", "number name condition message reason example calls unused")
# what stands behind the condition of a number that no call gives
UNUSED = " (unused)"


# ---- the table

def cells(heading):
    """The rows of the table of docs/NUMBERS.md that begins with a heading."""
    table = read(NUMBERS).split(f"| {heading} |")[1].split("\n\n")[0]
    return [[cell.strip() for cell in line.strip("|").split("|")] for line in table.splitlines()[2:]]


def table():
    """The rows, each with its condition as it is without the mark, and whether it has the mark."""
    return [Row(int(number), name, condition.removesuffix(UNUSED), message or condition.removesuffix(UNUSED), reason, example,
                calls.split(", ") if calls else [], condition.endswith(UNUSED))
            for number, name, condition, message, reason, example, calls in cells("No.")]


def exports():
    """Of each call the function that is exported, if one is."""
    return {call: name.strip("`") for call, name in cells("Call")}


def exported(row):
    return not row.calls or any(exports().get(call) for call in row.calls)


def message(number):
    return table()[number].message


def snake(name):
    return name.upper().replace(" ", "_")


def camel(name):
    return "".join(word.capitalize() for word in name.split())


def lower_snake(name):
    return name.replace(" ", "_")


def marked(row, text=None):
    """A row's condition, or another text of it, marked where no call gives the number."""
    return (text or row.condition) + ("" if row.calls else UNUSED)


def sentence(row):
    text = marked(row)
    return text[0].upper() + text[1:] + "."


# ---- the four places with a row for each number

def place(path, text, pattern, rows, name, comment=marked):
    """A place's path; what its text has, row by row, and whatever else stands there; and the rows that it has to have."""
    found = ["{number} {name}: {comment}".format(**match.groupdict()) for match in re.finditer(pattern, text)]
    rest = re.sub(pattern, "", text).split()
    return path, found + [" ".join(rest)] * bool(rest), [f"{row.number} {name(row.name)}: {comment(row)}" for row in rows]


def behind_heading(path, ends="\n\n"):
    return read(path).split(ends, 1)[1]


def between(path, begin, end):
    return read(path).split(begin)[1].split(end)[0]


def places():
    rows = table()
    known = [row for row in rows if exported(row)]
    code = r"// (?P<comment>.+)\npub const (?P<name>\w+): u32 = (?P<number>\d+);\n"
    definitions = r"-- (?P<comment>.+)\nabbrev pub (?P<name>\w+) : ℕ\n(?P=name) = (?P<number>\d+)\n"
    header = r" */\* (?P<comment>.+) \*/\n *(?P<name>\w+) = (?P<number>\d+),?\n"
    rust = r"(?: */// .+\n)* *(?P<number>\d+) (?P<name>\w+) \"(?P<comment>.+)\",\n"
    variants = r" *// (?P<comment>.+)\n *(?P<name>\w+) = (?P<number>\d+),\n"
    yield place(CODE, between(CODE, "answer_number};\n", "\n// Why"), code, rows[:1], snake, sentence)
    yield place(CODE, between(CODE, "\npub enum Refusal {\n", "}\n"), variants, rows[1:], camel, sentence)
    yield place(DEFINITIONS, behind_heading(DEFINITIONS), definitions, rows, lower_snake)
    yield place(HEADER, between(HEADER, "enum tuilarder_number {\n", "};"), header, known, lambda name: "TUILARDER_" + snake(name))
    yield place(RUST, between(RUST, "\nrefusals! {\n", "}\n"), rust, known[1:], camel, lambda row: marked(row, row.message))


def quoted():
    """Rows of docs/CLAIMS.md that begin with a number, and those that the table wants."""
    def quote(row):
        texts = [f"{row.condition} ({row.reason})" if row.reason else row.condition] + [row.example] * bool(row.example)
        return f"{row.number}: " + ", ".join(f'"{text}"' for text in texts)
    return CLAIMS, re.findall(r"^\| (\d+: \".*?\") \| ", read(CLAIMS), re.MULTILINE), [quote(row) for row in table() if row.number]


def unequal():
    for path, found, wanted in [*places(), quoted()]:
        yield from (f"{path}: {line}" for line in difflib.unified_diff(found, wanted, "found", "wanted", lineterm="", n=0)
                    if not line.startswith(("---", "+++", "@@")))


def bad_table():
    rows = table()
    if [row.number for row in rows] != list(range(len(rows))):
        yield f"{NUMBERS}: numbers not from 0 on, one after the other"
    for row in rows:
        if not re.fullmatch(r"[a-z]+( [a-z]+)*", row.name) or [other.name for other in rows].count(row.name) > 1:
            yield f"{NUMBERS}: the name {row.name}"


# ---- the calls that give a number

def badly_marked():
    """Whether the rows that are marked as unused are those of the numbers that no call gives."""
    for row in table():
        if row.unused and row.calls:
            yield f"{NUMBERS}: {row.number} is marked as unused, and given by {', '.join(row.calls)}"
        if not row.unused and not row.calls:
            yield f"{NUMBERS}: {row.number} is given by no call, and not marked as unused"


def given():
    """Whether each call gives exactly the numbers that name it."""
    for call in exports():
        if call not in ANSWERS:
            yield f"tests/call_numbers.py: where are stored answers of {call}?"
            continue
        path, pattern = ANSWERS[call]
        answers = (re.match(pattern, line) for line in read(path).splitlines())
        found = {int(answer[1] or 0) for answer in answers if answer}
        wanted = {row.number for row in table() if call in row.calls}
        if found != wanted:
            yield f"{NUMBERS}: {call} gives {sorted(found)} in {path}, and {sorted(wanted)} name it"
    for row in table():
        yield from (f"{NUMBERS}: {row.number} names no call {call}" for call in row.calls if call not in exports())


def numbers_in(text):
    """Numbers and ranges of them."""
    for first, last in re.findall(r"(\d+)(?: to (\d+))?", text):
        yield from range(int(first), int(last or first) + 1)


def comments():
    """Path, function and comment of each exported function that answers a number."""
    for comment, function in re.findall(r"/\*((?:(?!\*/).)*)\*/\nTUILARDER_ANSWER (\w+)\(", read(HEADER), re.DOTALL):
        yield HEADER, function, comment
    for comment, function in re.findall(r"((?: */// .*\n)+) *pub fn (\w+)\([^)]*\) -> u32;", read(DECLARED)):
        yield DECLARED, function, comment


def orders(path):
    """Of each exported function the numbers that its comment says it checks, in that order."""
    return {function: [number for part in re.findall(r"[Cc]hecks ([^.;]*)", comment) for number in numbers_in(part)]
            for place, function, comment in comments() if place == path}


def checked():
    """Whether the comments of the exported functions say that they check the numbers which they give, each in the order that documents 01 and 02 have:
    18, then 22, then the others as they rise, with 19 after 2 and before 3, and 20 after 6 and before 10."""
    wanted = {name: {row.number for row in table() if row.number and call in row.calls} for call, name in exports().items() if name}
    for path in (HEADER, DECLARED):
        said = orders(path)
        yield from (f"{path} or {NUMBERS} lacks {function}" for function in sorted(said.keys() ^ wanted.keys()))
        for function in said.keys() & wanted.keys():
            if set(said[function]) != wanted[function]:
                yield f"{path}: {function} is said to check {sorted(said[function])}, and gives {sorted(wanted[function])}"
        for function, order in said.items():
            if order != sorted(order, key=lambda number: {18: 0, 22: 0.5, 19: 2.5, 20: 6.5}.get(number, number)):
                yield f"{path}: {function} is said to check {order}, in this order"


# ---- numbers in documents

def named():
    """Rust's documentation names a refusal with its number, other documents name numbers with their conditions."""
    rows = {row.number: row for row in table()}
    variants = {camel(row.name): row.number for row in table()}
    for path in files("bindings/rust/src/*.rs"):
        for variant, number in re.findall(r"`Refusal::(\w+)`\](?:\s|///)*\((\d+)", read(path)):
            if variants.get(variant) != int(number):
                yield f"{path}: {variant} ({number})"
    for path in ("README.md", "docs/GUIDE.md"):
        text = " ".join(read(path).split())
        for match in re.finditer(r"(?:refused with |\(|; )(\d+): ", text):
            row = rows.get(int(match[1]))
            if not row or not text.startswith((row.condition, row.message), match.end()):
                yield f"{path}: {text[match.start():match.end() + 40]}"
        for number in re.findall(r"\b(?:gets?|\(no) (\d+)", text):
            if int(number) not in rows:
                yield f"{path}: no number {number}"
        for number, condition in re.findall(r"^\| (\d+) \| (.*?) \|", read(path), re.MULTILINE):
            if int(number) not in rows or not condition.endswith(rows[int(number)].condition):
                yield f"{path}: {number} is in a table for: {condition}"


def findings():
    return [*bad_table()] or [*unequal(), *badly_marked(), *given(), *checked(), *named()]


MISTAKES = [
    (NUMBERS, "| 7 | record not open", "| 17 | record not open", "one after the other"),
    (NUMBERS, "| record not open |", "| record not sound |", "the name record not sound"),
    (NUMBERS, "| 14 | not card |", "| 14 | not card line |", "14 NotCard"),
    (NUMBERS, "| 22 | form", "| 22 | another one | of something | | | an example | write |\n| 23 | form", "TUILARDER_ANOTHER_ONE"),
    (NUMBERS, "80000001 00000001 | |", "80000001 00000001 | START, write, cards |", "START gives [0, 1, 2, 3, 6, 18, 19, 22]"),
    (NUMBERS, "| | | | owner |", "| | | | check owners, owner |", "check owners gives [0, 15, 16]"),
    (NUMBERS, "| | | | check owners, owner |", "| | | | check owners |", "owner gives [0, 15, 16, 17]"),
    (NUMBERS, "ABSORB, permute, ", "ABSORB, ", "permute gives [0, 10, 18]"),
    (NUMBERS, "START, permute, generate, seal", "START, permute, seal", "generate gives [0, 18]"),
    (NUMBERS, "START, permute, generate, seal", "permute, generate, seal", "START gives [0, 1, 2, 3, 6, 18, 19, 22]"),
    (NUMBERS, "| the mark differs | | | | open |", "| the mark differs | | | | seal, open |", "seal gives [0, 6, 10, 18, 20]"),
    (NUMBERS, "| the mark differs | | | | open |", "| the mark differs | | | | |", "open gives [0, 6, 10, 18, 20, 21]"),
    (NUMBERS, "last word is ABSORB (unused)", "last word is ABSORB", "4 is given by no call, and not marked as unused"),
    (NUMBERS, "2147483647 (unused)", "2147483647", "5 is given by no call, and not marked as unused"),
    (NUMBERS, "first word is SQUEEZE |", "first word is SQUEEZE (unused) |", "3 is marked as unused, and given by START, write, cards"),
    (NUMBERS, "last word is ABSORB (unused)", "last word is ABSORB (not used)", "last word is ABSORB (not used)"),
    (CODE, "// Last word is ABSORB (unused).", "// Last word is ABSORB.", "Last word is ABSORB."),
    (DEFINITIONS, "2147483647 (unused)", "2147483647", "merged length above 2147483647"),
    (HEADER, "last word is ABSORB (unused)", "last word is ABSORB", "TUILARDER_LAST_WORD_ABSORB: last word is ABSORB"),
    (RUST, "last word is ABSORB (unused)", "last word is ABSORB", "LastWordAbsorb: last word is ABSORB"),
    (NUMBERS, "| not a card line | | | (card) | cards |", "| not a card line | | | (card) | |", "NotCard"),
    (NUMBERS, "| permute | `tuilarder_permute` |", "| permute | |", "lacks tuilarder_permute"),
    (NUMBERS, "| FINISH |\n| 12", "| FINISH, SHUT |\n| 12", "no call SHUT"),
    (CODE, "u32 = 0;", "u32 = 23;", "23 ACCEPTED"),
    (CODE, "SeparatorTooLong = 6", "SeparatorTooLong = 5", "5 SeparatorTooLong"),
    (CODE, "// Record not open.", "// The record is closed.", "The record is closed."),
    (CODE, "NotCard = 14,", "NotCard = 14,\n\n    Other = 15,", "Other"),
    (DEFINITIONS, "last_word_absorb = 4", "last_word_absorb = 3", "last_word_absorb"),
    (DEFINITIONS, "-- not a card line\nabbrev pub not_card : ℕ\nnot_card = 14\n", "", "not_card"),
    (HEADER, "TUILARDER_BUFFER_TOO_SHORT = 12", "TUILARDER_BUFFER_SHORT = 12", "TUILARDER_BUFFER_SHORT"),
    (HEADER, "/* open record not sound */", "/* record not sound */", "open record not sound"),
    (HEADER, "Checks 7, 8, 11.", "Checks 7, 11.", "tuilarder_finish is said to check [7, 11]"),
    (RUST, "7 RecordNotOpen", "8 RecordNotOpen", "8 RecordNotOpen"),
    (RUST, '"record not open"', '"record closed"', "record closed"),
    (RUST, "of the field's prime or more", "of 2013265921 or more", "an element of 2013265921 or more"),
    (RUST, "18 FieldUnknown", "19 FieldUnknown", "19 FieldUnknown"),
    (HEADER, "TUILARDER_FIELD_UNKNOWN = 18", "TUILARDER_FIELD_UNKNOWN = 17", "17 TUILARDER_FIELD_UNKNOWN"),
    (HEADER, "Checks 18, then 10.", "Checks 10.", "tuilarder_permute is said to check [10]"),
    (DECLARED, "Checks 18, then 10.", "Checks 10, then 18.", "tuilarder_permute is said to check [10, 18], in this order"),
    (DECLARED, "Checks 22, 6, then 13.", "Checks 22, then 13.", "tuilarder_read_tag is said to check [13, 22]"),
    (HEADER, "Checks 22, 6, then 13.", "Checks 6, 13, then 22.", "tuilarder_read_tag is said to check [6, 13, 22], in this order"),
    (NUMBERS, "| | | | START, write, read |", "| | | | START, write |", "read gives [0, 6, 13, 22]"),
    (HEADER, "Checks 18, 6, 20 and 10 (", "Checks 18, 6, 10 and 20 (", "tuilarder_seal is said to check [18, 6, 10, 20], in this order"),
    (HEADER, "(of key, nonce and cipher, the mark too)\n * and 21,", "(of key, nonce and cipher, the mark too),",
     "tuilarder_open is said to check [6, 10, 18, 20]"),
    (DECLARED, "Checks 18, 6, 20 and 10 (", "Checks 6, 18, 20 and 10 (", "tuilarder_seal is said to check [6, 18, 20, 10], in this order"),
    (RUST, "21 MarkDiffers", "23 MarkDiffers", "23 MarkDiffers"),
    (HEADER, "Checks 15, then 16.", "Checks 16, then 15.", "tuilarder_check_owners is said to check [16, 15], in this order"),
    (HEADER, "Checks 18, 22, 1, 2, 19, 3 and 6,", "Checks 22, 1, 2, 19, 3, 6 and 18,", "[22, 1, 2, 19, 3, 6, 18], in this order"),
    (HEADER, "Checks 18, 22, 1, 2, 19, 3 and 6,", "Checks 22, 18, 1, 2, 19, 3 and 6,", "[22, 18, 1, 2, 19, 3, 6], in this order"),
    (DECLARED, "Checks 18, 22, 1, 2, 19, 3 and 6,", "Checks 18, 22, 1, 2, 3, 6 and 19,", "[18, 22, 1, 2, 3, 6, 19], in this order"),
    ("bindings/rust/src/protocol.rs", "[`Refusal::SeparatorTooLong`] (6)", "[`Refusal::SeparatorTooLong`] (5)", "SeparatorTooLong (5)"),
    (CLAIMS, '"00000001, length 0"', '"00000001"', '13: "no tag string of that separator length", "00000001"'),
    (CLAIMS, '| 14: "not a card line", "(card)" |', '| "not a card line" |', '14: "not a card line", "(card)"'),
    ("docs/GUIDE.md", "refused with 8: open record not sound", "refused with 7: open record not sound", "refused with 7"),
    ("docs/GUIDE.md", "p or more gets 10", "p or more gets 100", "no number 100"),
    ("docs/GUIDE.md", "| 17 | after both,", "| 18 | after both,", "18 is in a table for: after both"),
    ("docs/GUIDE.md", "otherwise, a number that no row holds |", "otherwise, a number that a row holds |", "16 is in a table for: otherwise, a number that a"),
    ("README.md", "14: not a card", "13: not a card", "13: not a card"),
    ("crates/cards/stdout", "(no 14)", "(no 7)", "cards gives"),
    ("crates/owner_vectors/stdout", "c 16", "c 17", "check owners gives [0, 15, 16, 17]"),
    ("crates/owner_vectors/stdout", "o 16", "o 6", "owner gives [0, 6, 15, 16, 17]"),
    ("crates/seal_vectors/stdout", "s 20", "s 21", "seal gives [0, 6, 10, 18, 20, 21]"),
]

if __name__ == "__main__":
    if sys.argv[1:] == ["test"]:
        report(findings(), f"numbers: {len(table())} in {len([*places()])} places and {CLAIMS}, given by {len(exports())} calls")
    elif sys.argv[1:] == ["selftest"]:
        trials("numbers", findings, MISTAKES)
    else:
        sys.exit(__doc__)
