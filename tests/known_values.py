#!/usr/bin/env python3
"""Whether the elements that the tests in C and Rust expect are those of the second implementation (tests/oracle): what the samples B4 to B7 squeeze in
either field and some of them in form 2, a pattern that ends with ABSORB, and the protocol of two rounds; a permuted state of either field, and
the one that permutes to zeros; the state that a session begins with; round constants and their sums; sealed notes.

  tests/known_values.py test
"""
import itertools
import re
import sys

from second_implementation import oracle
from tree import read, report

ABSORB = 1 << 31
SOURCES = ("bindings/rust/tests/api.rs", "bindings/c/tests/session.c", "bindings/c/tests/seal.c")
# numbers there that nothing answers with: both p, the longest length, the longest call, and words in hexadecimal digits
OTHERS = {*oracle.PRIME.values(), oracle.MAX_LENGTH, oracle.MAX_CALL, 80000001, 80000003, 1}


def squeezed(field, lengths, separator, elements, form=1):
    """All that a session of ABSORB and SQUEEZE in turn squeezes, where it absorbs these elements one after the other."""
    number, record = oracle.start([length + (0 if k % 2 else ABSORB) for k, length in enumerate(lengths)], separator, field, form)
    out = []
    for k, length in enumerate(lengths):
        if k % 2:
            number, record, part = oracle.squeeze(record, [0] * length)
            out += part
        else:
            number, record = oracle.absorb(record, list(itertools.islice(elements, length)))
    assert oracle.finish(record)[0] == 0
    return out


def of_field(field):
    for lengths, separator in (((8, 1), b""), ((9, 1), b""), ((1, 9), b""), ((8, 8, 1, 1), b""), ((8, 8, 1, 1), b"AB"), ((8, 8, 9), b"")):
        yield from squeezed(field, lengths, separator, itertools.count(1))
    for lengths, separator in (((8, 1), b""), ((8, 8, 1, 1), b"AB"), ((8, 8, 9), b"AB")):
        yield from squeezed(field, lengths, separator, itertools.count(1), 2)
    yield from oracle.permute(list(range(24)), field)[1]
    yield from oracle.unpermute([0] * 24, field)[1]
    constants = oracle.found(field)
    yield from (constants[0], constants[1], constants[-1], sum(constants))


def values():
    yield from of_field(1)
    yield from of_field(2)
    # elements that field 1 has not
    yield from squeezed(2, (8, 1), b"", itertools.count(oracle.PRIME[1]))
    # places of field 2's list about the end of field 1's
    yield from oracle.found(2)[695:697]
    for last in (66, 67):
        yield from squeezed(1, (4, 1, 2, 1), b"two rounds", iter([11, 22, 33, 44, 55, last]))
    for field in (1, 2):
        for lengths in ((1, 2), (2, 1), (9,), (9, 1)):
            total = sum(lengths)
            yield from oracle.seal(field, [*range(1, 9)], [*range(9, 17)], b"note", lengths, [*range(11, 11 + total)], [0] * (total + 8))[1]
    # the state at the start of the session whose fields the C test compares, in either form
    for form in (1, 2):
        yield from oracle.start([ABSORB + 3, 33, ABSORB + 13, 15], b"fields", 1, form)[1]["state"]


def findings():
    known = OTHERS.union(values())
    for path in SOURCES:
        for number in re.findall(r"(?<![\w.])\d{7,}(?!\w)", read(path)):
            if int(number) not in known:
                yield f"{path}: {number} is not an element of the second implementation's"


if __name__ == "__main__":
    if sys.argv[1:] != ["test"]:
        sys.exit(__doc__)
    report([*findings()], f"known values: {len(set(values()))} elements are the second implementation's")
