#!/usr/bin/env python3
"""The places in src/ that docs/DESIGN-PASS.md counts, a line for each count; with POINT, the places of that point, one by one.

usage: tools/design_places.py [POINT]       at the top of the repository
"""
import re
import sys
from collections import Counter
from pathlib import Path

FILES = [path for path in sorted(Path("crates").glob("*/src/*.rt")) if path.name != "tables.rt"]
# of each count: the point, what is counted, and the line that is a place
LINES = [
    ("1", "fields that hold the number of an answer", r"^\s+pub(\(crate\))? number: u32,"),
    ("1", "uses of a constant that is a refusal's number", r"basics::(?!ACCEPTED)[A-Z_]{4,}\b"),
    ("1", "uses of 0 as the number of an accepted call", r"basics::ACCEPTED\b"),
    ("1", "flags, as fields or parameters", r"^\s+(pub )?[a-z_]+: bool,"),
    ("1", "numbers that stand for a kind, a form, a field or a power", r"FORM_[12]\b|const (ABSORB|BABY_BEAR|KOALA_BEAR): u32|power == 3"),
    ("2", "functions named for the lent tables, besides those without", r"\bfn (permut|absorb|squeeze)\w*_by(<.*>)?\("),
    ("2", "functions of one field each, or of one power each", r"\bfn (baby_bear|koala_bear)\w*|\bfn (third|seventh)_power\w*"),
    ("2", "the two crates of tables, function by function", r"^pub fn (matrix|pre_sparse|sparse|first_constants|addends|copies)\("),
    ("2", "planes and lanes written out for each step", r"\bfn (\w+_plane|parities|effects|theta|rho|pi|chi)\("),
    ("2", "one step forth, and one back", r"\bfn (seal|open)_blocks?\(|\bfn (add_to|take_from)\(|\bfn keep_(byte|word)\(|\bfn powers(_once)?\("),
    ("2", "widening to 64 bits, in each crate", r"\bfn (wide|widen)\("),
    ("3", "while", r"\bwhile "),
    ("3", "for over a range", r"\bfor [a-z_]+ in [^{]*\.\."),
    ("4", "conversion, comparing and copying by hand", r"\bfn (wide|widen|widened|narrowed|big_endian|little_endian|number_at|word_at|word_in|words_of|put_words?|put_bytes|copy|"
          r"same|differences?|digit|hex_digit|hex_value|decimal_value|is_field|field_of|is_form|joined|state_in|pattern_in|state_of|pattern_of|with_zeros|"
          r"key_and_nonce|clear|byte|line|scalars|shifted|added|phase_word|fitting|within|looked_at|words_before|words_length|used)\("),
    ("4", "printing by hand", r"\bfn (print_|put_no|put_ok|put_hex|put_decimal|say_)\w*"),
    ("6", "arrays with a length beside, and lengths beside arrays", r"^\s+(pub )?(\w*count|length|\w+_length|held|used|written|filled): usize,"),
    ("6", "numbers that a list is asked at, from and to", r"&(mut )?\w+\[[^\]]*\.\.[^\]]*\]"),
    ("7", "choices of a step by a byte or a number", r"== b'|match (mode|card_machine::step|field|self) "),
]


def places(pattern):
    for path in FILES:
        for number, line in enumerate(path.read_text().splitlines(), 1):
            if re.search(pattern, line):
                yield f"{path}:{number}: {line.strip()}"


def clauses():
    """Facts that stand in the `requires` of three functions or more, with how often."""
    seen = Counter()
    for path in FILES:
        for clause in re.findall(r"requires (?:\w+ )?\{(.*?)\}\n", path.read_text(), re.S):
            seen.update({" ".join(part.split()).strip("() ") for part in clause.split("×")})
    return [f"{count} times: {fact}" for fact, count in seen.most_common() if count >= 3]


def groups():
    """Three parameters, or more, that three functions of a crate or more have, one behind the other."""
    seen = Counter()
    for path in FILES:
        for header in re.findall(r"\bfn \w+(?:<[^>]*>)?\((.*?)\)", path.read_text(), re.S):
            names = re.findall(r"(\w+): ", header)
            for size in range(3, len(names) + 1):
                for first in range(len(names) - size + 1):
                    seen[path.parts[1], tuple(names[first : first + size])] += 1
    found = [(crate, names, count) for (crate, names), count in seen.items() if count >= 3]
    longest = [it for it in found if not any(it[0] == o[0] and it[2] == o[2] and len(it[1]) < len(o[1]) and " ".join(it[1]) in " ".join(o[1]) for o in found)]
    return [f"{crate}: {', '.join(names)}: {count} times" for crate, names, count in sorted(longest)]


def answers():
    """Declarations of proofs/, which no source line shows."""
    text = "\n".join(path.read_text() for path in Path("crates").glob("*/proofs/**/Answers.antt"))
    return re.findall(r"^pub \S+ : goal\.\S+", text, re.M)


def main():
    wanted = sys.argv[1] if len(sys.argv) > 1 else None
    counts = [(point, what, list(places(pattern))) for point, what, pattern in LINES]
    counts += [("5", "facts that three functions or more require", clauses()), ("5", "parameters that three functions or more have in a row", groups())]
    counts += [("8", "answers", answers())]
    for point, what, found in sorted(counts, key=lambda it: it[0]):
        if wanted in (None, point):
            print(f"{point}. {what}: {len(found)}")
        if wanted == point:
            print("\n".join(f"   {it}" for it in found))


main()
