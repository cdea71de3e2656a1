#!/usr/bin/env python3
"""The states that the program permutation_vectors is run on, and what it must print.

  tests/permutation_states.py cases > crates/permutation_vectors/stdin
  tests/permutation_states.py answers < crates/permutation_vectors/stdin > crates/permutation_vectors/stdout

The answers are those of the second implementation, in Python, written from the papers by other hands (tests/oracle).
A line of input is a field number and a state: 25 numbers of ten digits. A line of output is the number, then the state that is left.
"""
import sys
from random import Random

from second_implementation import oracle

P1, P2 = oracle.PRIME[1], oracle.PRIME[2]
LARGEST = (1 << 32) - 1
random = Random(2013265921)


def elements(p):
    return [random.randrange(p) for _ in range(24)]


def with_one(state, place, x):
    return state[:place] + [x] + state[place + 1:]


def accepted(field):
    """States of elements of the field."""
    p = oracle.PRIME[field]
    yield from ([0] * 24, [p - 1] * 24)
    yield from ([int(i == k) for i in range(24)] for k in range(24))
    yield from (elements(p) for _ in range(45))
    yield from ([random.choice([0, 1, 2, p - 2, p - 1, 1 << 30]) for _ in range(24)] for _ in range(10))


def between():
    """States with elements of field 2 that are none of field 1."""
    yield from ([P1] * 24, [P2 - 2] * 24, [P1] + [0] * 23, [P1 - 1] * 23 + [P2 - 1])
    yield from (with_one(elements(P1), place, random.randrange(P1, P2)) for place in (0, 1, 7, 8, 22, 23))
    yield [random.randrange(P1, P2) for _ in range(24)]


def refused(field):
    """States with a number of p or more: one that is an element of neither field, at several places and at all; and p itself, the last."""
    p = oracle.PRIME[field]
    for large in (P2, 1 << 31, LARGEST):
        yield from (with_one(elements(p), place, large) for place in (0, 7, 8, 23))
        yield [large] * 24
    yield [p - 1] * 23 + [p]


def unknown():
    """States for numbers of no field: of both fields, of field 2 alone, of none."""
    yield from (elements(P1), with_one(elements(P1), 23, P1), with_one(elements(P2), 0, P2), [LARGEST] * 24)


def cases():
    for field in (1, 2):
        for state in (*accepted(field), *refused(field)):
            yield field, state
    for state in between():
        yield 1, state
        yield 2, state
    for field in (0, 3, 1 << 31, LARGEST):
        for state in unknown():
            yield field, state


def answers():
    for line in sys.stdin:
        field, *state = (int(x) for x in line.split())
        number, state = oracle.permute(state, field)
        print(number, *state)


if sys.argv[1:] == ["cases"]:
    for field, state in cases():
        print(*("%010d" % x for x in (field, *state)))
elif sys.argv[1:] == ["answers"]:
    answers()
else:
    sys.exit(__doc__)
