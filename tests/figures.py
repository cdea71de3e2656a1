"""Whether the public constants are the papers' figures: what tests/claims.py test says of the table of docs/CLAIMS.md, "Public constants".

It fails where a public constant has no row, where its value in the code is not the row's figure, where the row's quotation does not hold the figure
or is not of a sentence that docs/CLAIMS.md quotes, where what a figure is said to be made of does not give it, and where the definition with the
constant's name has another figure.
"""
import os
import re
from collections import namedtuple

import call_numbers
from public import Unreadable, evaluate, items, values
from tree import crates, files, read

CLAIMS, CONSTANTS = "docs/CLAIMS.md", "## Public constants"
# figures that the papers spell
SPELLED = {"eight": 8, "ten": 10, "sixteen": 16, "thirty": 30}
# of a public constant: its name, its figure, what fixes that, and the definition of the same figure, if there is one
Constant = namedtuple("Constant", "name figure source definition")


def letters(text):
    return re.sub(r"[^a-z0-9]+", " ", text.lower()).strip()


def constants():
    """The rows of the table of public constants."""
    for line in re.findall(r"^\|.*$", read(CLAIMS).split(CONSTANTS)[1].split("\n## ")[0], re.MULTILINE)[2:]:
        row = re.fullmatch(r"\| `([\w:]+)` \| (\d+) \| (.+) \| (?:`(.+)` )?\|", line)
        if not row:
            raise Unreadable(f"{CLAIMS}: tests/claims.py does not read this: {line}")
        yield Constant(row[1], int(row[2]), row[3], row[4] or "")


def definitions():
    """crate/File.name of the definitions that are a number, with what that is."""
    return {f"{crate}/{os.path.basename(path)[:-5]}.{name}": text for crate in crates() for path in files(f"crates/{crate}/specs/*.antt")
            for name, text in re.findall(r"^(?:abbrev |unfoldable )?pub (\w+) : ℕ\n\1 = (.+)$", read(path), re.MULTILINE)}


def defined(name, known):
    """The number of a definition, out of those known."""
    def number(word):
        here = name.rpartition(".")[0] + "." + word
        found = [here] if here in known else [other for other in known if other.endswith("." + word)]
        if len(found) != 1:
            raise Unreadable(f"{name}: which definition is {word}?")
        return defined(found[0], known)
    return evaluate(known[name], number)


def namesakes(constant, known):
    """The definitions with the name of a constant, as definitions write it."""
    word = constant.split("::")[-1].lower()
    return [name for name in known if name.endswith("." + word)]


def figures_in(quotation):
    spelled = {SPELLED[word] for word in letters(quotation).split() if word in SPELLED}
    return spelled | {int(figure.replace(",", "")) for figure in re.findall(r"\d[\d,]*", quotation)}


def not_fixed(row, figures):
    """What is wrong with the source of a row: a quotation, or a sum of figures."""
    quotation, parts = re.fullmatch(r'0[012]: "(.+)"', row.source), re.match(r"made of ([^;]+)", row.source)
    if quotation and row.figure not in figures_in(quotation[1]):
        yield f"{row.name}: {row.figure} is not in the quotation {quotation[0]}"
    if quotation and f" {letters(quotation[1])} " not in letters(read(CLAIMS).split(CONSTANTS)[0]):
        yield f"{row.name}: not of a sentence that {CLAIMS} quotes: {quotation[0]}"
    if parts and evaluate(re.sub("`", "", parts[1]).replace("×", "*"), lambda name: figures[name]) != row.figure:
        yield f"{row.name}: {row.figure} is not {parts[1]}"
    if not quotation and not parts:
        yield f"{row.name}: neither quoted nor made of others: {row.source}"


def not_defined(row, known):
    """What is wrong with the definition of a row: there is one if one has the constant's name, and it has the figure."""
    expected = namesakes(row.name, known)
    if row.definition not in (expected or [""]):
        yield f"{row.name}: the definition is {', '.join(expected) or 'not there'}"
    elif row.definition and defined(row.definition, known) != row.figure:
        yield f"{row.name}: {row.definition} is {defined(row.definition, known)}"


def findings():
    """Numbers of calls have their rows in docs/NUMBERS.md."""
    code, rows, known = values([item for crate in crates() for item in items(crate)]), [*constants()], definitions()
    figures = {f"basics::Refusal::{call_numbers.camel(row.name)}" if row.number else "basics::ACCEPTED": row.number for row in call_numbers.table()}
    figures |= {row.name: row.figure for row in rows}
    for name in sorted(code.keys() | figures.keys()):
        if code.get(name) != figures.get(name):
            yield f"public constant {name}: {code.get(name, 'nothing')} in the code, {figures.get(name, 'nothing')} in the table"
    for row in rows:
        yield from not_fixed(row, figures)
        yield from not_defined(row, known)


MISTAKES = [
    ("crates/session/src/lib.rt", "CAPACITY: usize = 16;", "CAPACITY: usize = 0x1_0 - 13;", "session::Session::CAPACITY: 3 in the code"),
    ("crates/session/src/lib.rt", "Session::RATE + Session::CAPACITY", "Session::RATE * Session::CAPACITY", "session::Session::WIDTH: 128 in the code"),
    ("crates/session/src/lib.rt", "pub const RATE", "const RATE", "session::Session::RATE: nothing in the code, 8"),
    ("crates/pattern/src/lib.rt", "MAX_SEPARATOR: usize = 256;", "MAX_SEPARATOR: usize = 9999;", "pattern::MAX_SEPARATOR: 9999 in the code"),
    ("crates/basics/src/lib.rt", "NotCard = 14,", "NotCard = 13,", "basics::Refusal::NotCard: 13 in the code, 14"),
    ("crates/pattern/specs/Opening.antt", "max_separator = 256", "max_separator = 255", "pattern/Opening.max_separator is 255"),
    (CLAIMS, "| 8 | 01: \"rate 8\" |", "| 8 | 01: \"capacity 16\" |", "session::Session::RATE: 8 is not in the quotation"),
    (CLAIMS, "01: \"rate 8\"", "01: \"a rate of 8\"", "session::Session::RATE: not of a sentence"),
    (CLAIMS, "01: \"rate 8\"", "rate 8", "session::Session::RATE: neither quoted nor made of others"),
    (CLAIMS, "| 64 | 01: \"", "| 65 | 01: \"", "pattern::MAX_WORDS: 64 in the code, 65"),
    (CLAIMS, "made of 4 × ", "made of 5 × ", "tag::MAX_STRING: 516 is not 5 × "),
    (CLAIMS, " | `pattern/Opening.max_call` |", " | |", "pattern::MAX_CALL: the definition is pattern/Opening.max_call"),
    (CLAIMS, "| `pattern::MAX_CALL` | 16777216 |", "| `pattern::MAX_CALL` | p |", "does not read this: | `pattern::MAX_CALL` | p |"),
]
