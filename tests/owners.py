#!/usr/bin/env python3
"""What the program owner_vectors is run on, and what it must print.

  tests/owners.py cases > crates/owner_vectors/stdin
  tests/owners.py answers < crates/owner_vectors/stdin > crates/owner_vectors/stdout

The answers are those of the second implementation, in Python, written from the papers by other hands (tests/oracle).
A line of input is a table and a separator, each in hexadecimal, and either may be empty:

  TABLE SEPARATOR

A line of output is what the check of the table answers, and what asking the table for the separator's owner answers:

  c NUMBER PLACE, o NUMBER PLACE LINE

PLACE is the row's number with 15, the least number that no row holds with 16, and otherwise 0. LINE is the product line with 0, and otherwise 0.
"""
import sys
from random import Random

from second_implementation import oracle

LARGEST = (1 << 32) - 1
# the program reads no longer field than this, in bytes
LONGEST_TABLE = 2048
SEED, TABLES = 31, 60


def table(*rows):
    """The bytes of rows, each a first and a last number; their lines tell them apart."""
    return b"".join(first.to_bytes(4, "big") + last.to_bytes(4, "big") + (257 * k + 3).to_bytes(2, "big") for k, (first, last) in enumerate(rows))


def whole(*firsts):
    """Rows from these numbers on, each up to the next, so that they hold every number if 0 is the first."""
    return [(first, behind - 1) for first, behind in zip(firsts, (*firsts[1:], LARGEST + 1))]


def even(count):
    """So many rows of about the same size, which hold every number."""
    return whole(*(k * (LARGEST // count) for k in range(count)))


def with_row(rows, number, first, last):
    """Rows, of which the one with this number, counted from 1, is another."""
    return rows[:number - 1] + [(first, last)] + rows[number:]


def turned(rows, *numbers):
    """Rows, of which these have their first number above their last."""
    for number in numbers:
        rows = with_row(rows, number, rows[number - 1][1], rows[number - 1][0])
    return rows


# ---- tables

def gaps():
    for first in (1, 2, 256, 1 << 31, LARGEST):
        yield table((first, LARGEST))
    yield table((1, 5), (6, LARGEST))
    for number in (1, 2, 6, 255, 256, 65536, 1 << 24, 1 << 31, LARGEST - 1):
        yield table((0, number - 1), (number + 1, LARGEST))
    yield table((0, 5), (LARGEST, LARGEST))
    yield table((0, 5), (7, 9), (11, LARGEST))
    yield table((0, 5), (6, 9), (11, LARGEST - 1))
    yield table((0, 0))
    for last in (1, 4, (1 << 31) - 1, LARGEST - 2, LARGEST - 1):
        yield table((0, last))
        yield table((0, 0), (1, last))
    first, last = even(128)[63]
    for rows in (even(128)[1:], even(128)[:127], with_row(even(128), 64, first + 1, last), with_row(even(128), 64, first, last - 1)):
        yield table(*rows)


def bad_rows():
    # not above the previous row's last: touching, overlapping, inside, twice, in falling order
    for rows in ([(0, 5), (5, LARGEST)], [(0, 5), (3, LARGEST)], [(0, 9), (2, 3)], [(0, 9), (0, 9)], [(6, LARGEST), (0, 5)], [(0, 0), (0, LARGEST)],
                 [(0, 1 << 31), (1 << 31, LARGEST)], [(0, 5), (6, 256), (255, LARGEST)], [(0, 5), (6, 6), (6, 6), (7, LARGEST)]):
        yield table(*rows)
    # after a row that ends at the largest number
    for first, last in ((0, LARGEST), (0, 0), (1, LARGEST), (LARGEST, LARGEST)):
        yield table((0, LARGEST), (first, last))
        yield table((0, 5), (6, LARGEST), (first, last))
    # a first number above the last, in the only row and in each of several
    for first, last in ((1, 0), (LARGEST, 0), (256, 255), (1 << 31, (1 << 31) - 1)):
        yield table((first, last))
    for number in (1, 2, 4, 5):
        yield table(*turned(even(5), number))
    # two faults, and a gap before and behind one
    for numbers in ((1, 5), (2, 3), (3, 5)):
        yield table(*turned(even(5), *numbers))
    yield table((0, 5), (5, 4), (3, LARGEST))
    yield table((1, 5), (5, LARGEST))
    yield table((0, 5), (7, 9), (9, LARGEST))
    yield table((0, 5), (5, 8), (10, LARGEST - 1))


def many_rows():
    for count in (127, 128, 129, 130, 200):
        yield table(*even(count))
    for number in (1, 60, 127, 128, 129):
        yield table(*turned(even(129), number))
    yield table(*turned(even(128), 128))
    yield table(*turned(even(128), 1))
    yield table(*turned(even(128), 90, 128))
    # row 129 counts before a gap, whatever it holds
    yield table(*even(129)[1:], (0, 0))
    yield table(*even(130)[1:])
    yield table(*even(128), (0, LARGEST))


def cut_rows():
    """Every length modulo 10: a row cut short as the only one, behind good rows, and behind another fault; and the last of about 128 rows."""
    for length in range(1, 10):
        yield table((0, LARGEST))[:length]
        yield table(*even(3))[:20 + length]
        yield table(*even(3)) + bytes([0xff] * length)
        yield table(*turned(even(3), 2))[:20 + length]
    for length in (1271, 1275, 1279):
        yield table(*even(128))[:length]
    for length in (1281, 1285, 1289):
        yield table(*even(129))[:length]
    yield table(*even(130)[1:])[:1281]


def refused_tables():
    yield b""
    for part in (gaps, bad_rows, many_rows, cut_rows):
        yield from part()


# ---- tables with separators

def separator(number, behind=b""):
    return number.to_bytes(4, "big") + behind


def good_tables():
    yield table((0, LARGEST))
    yield table(*whole(0, 6))
    yield table(*whole(0, LARGEST))
    # first equal to last, at both ends and in the middle
    yield table(*whole(0, 1, 2, 3))
    yield table(*whole(0, 5, 6, LARGEST - 1, LARGEST))
    # edges in each byte of a number
    yield table(*whole(0, 1, 255, 256, 257, 65535, 65536, (1 << 24) - 1, 1 << 24, 0x01020304, 0x04030201, (1 << 31) - 1, 1 << 31, LARGEST))
    # lines 0, 1, 256 and 65535
    yield b"".join(table(row)[:8] + line.to_bytes(2, "big") for row, line in zip(even(4), (0, 1, 256, 65535)))


def neighbours(rows):
    """The numbers at the edges of a table's rows, those beside them, and the least and the largest."""
    edges = {int.from_bytes(rows[k:k + 4], "big") for at in range(0, len(rows), 10) for k in (at, at + 4)}
    return sorted({number for edge in edges for number in (edge - 1, edge, edge + 1) if 0 <= number <= LARGEST} | {0, LARGEST})


def separator_cases():
    text = bytes(range(1, 255)) * 2
    good = table(*whole(0, 0x01000000, 0x01020304, 0x01020305, 0x02000000, 1 << 31))
    # 0 to 5 bytes, 255 to 257 and 300: the first four count alone
    for length in (0, 1, 2, 3, 4, 5, 255, 256, 257, 300):
        yield table((0, LARGEST)), text[:length]
        yield good, text[:length]
        yield good, bytes(length)
        yield good, bytes([0xff] * length)
    yield good, separator(0x01020304, bytes([0xff] * 296))
    yield good, separator(0x01020305, bytes(296))
    # a table that is refused, with a separator that is too short
    for length in range(4):
        for bad in (b"", table((1, LARGEST)), table((0, 5)), table((1, 0)), table((0, 5), (5, LARGEST)), table((0, LARGEST))[:9], table(*even(129))[:1281]):
            yield bad, text[:length]
    for rows in good_tables():
        yield from ((rows, separator(number)) for number in neighbours(rows))
    many = table(*even(128))
    for number in (1, 2, 64, 127, 128):
        first, last = even(128)[number - 1]
        yield many, separator(first)
        yield many, separator(last, b"x")


def random_cases():
    """Tables and separators as `tests/oracle/oracle.py --landed 1 owners 31 60` prints them. Long tables are asked for three, which keeps the input
    short, and those that are too long for a field are left out."""
    random = Random(SEED)
    for _ in range(TABLES):
        trace = oracle.owners(random)
        rows = bytes.fromhex(trace["table"])
        if len(rows) <= LONGEST_TABLE:
            for asked in trace["asked"][:3 if len(rows) > 200 else None]:
                yield rows, bytes.fromhex(asked["separator"])


def all_cases():
    yield from ((rows, separator(6)) for rows in refused_tables())
    yield from separator_cases()
    yield from random_cases()


def cases():
    for rows, asked in dict.fromkeys(all_cases()):
        print(rows.hex(), asked.hex())


def answers():
    for line in sys.stdin:
        rows, asked = map(bytes.fromhex, line.rstrip("\n").split(" "))
        number, place = oracle.table_number(rows)
        answer, value = oracle.owner(rows, asked)
        print("c %d %d," % (number, place), "o", answer, *((0, value) if answer == 0 else (value, 0)))


if sys.argv[1:] == ["cases"]:
    cases()
elif sys.argv[1:] == ["answers"]:
    answers()
else:
    sys.exit(__doc__)
