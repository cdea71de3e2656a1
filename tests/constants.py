#!/usr/bin/env python3
"""What the program generator_check must print: what the second implementation's generator answers for field numbers (tests/oracle), that the tables
in the code differ from it at no place, and samples of both registers with other moduli, limits and numbers of places.

  tests/constants.py > crates/generator_check/stdout

The second implementation has a limit, but no other modulus in a field and no number wanted. So the samples are worked out over its new bits, by the
sentences of document 01, and each with the field's own modulus is compared with what it finds itself. A line is one of

  generate FIELD number NUMBER found COUNT not zero PLACES from 0: EIGHT PLACES from 692: EIGHT PLACES from 736: EIGHT PLACES
  field FIELD found COUNT differ PLACES
  field FIELD modulus MODULUS limit LIMIT wanted PLACES found COUNT from PLACE: EIGHT PLACES

where a sample begins with the first register of its field.
"""
from itertools import islice

from second_implementation import oracle

P1, P2 = oracle.PRIME[1], oracle.PRIME[2]
# places of the list that the samples lend from
ROOM = 744
ANY = 2 ** 64 - 1
SAMPLES = (
    # field of the register, modulus, limit, places lent, the first of eight places printed
    *((1, P1, limit, 3, 0) for limit in (0, 159, 160, 161, 220, 278, 279, 280, 281, 395, 396, 450, ANY)),
    *((2, P2, limit, 3, 0) for limit in (0, 160, 274, 275, 276, 277, 411, 412, 450, ANY)),
    (1, P1, 262144, 0, 0), (1, P1, 262144, 1, 0),
    (1, P1, 93046, 696, 692), (1, P1, 93047, 696, 692), (1, P1, 93048, 696, 692), (1, P1, 262144, 698, 692),
    (2, P2, 93574, 744, 736), (2, P2, 93575, 744, 736), (2, P2, 93576, 744, 736), (2, P2, 262144, 743, 736),
    (1, 0, 262144, 3, 0), (1, 1, 4000, 3, 0), (1, 262278199, 1000, 8, 0), (1, 262278200, 1000, 8, 0), (1, 2 ** 22, 262144, 3, 0),
    (1, 2 ** 22, 2 ** 20, 20, 12),
    *((1, modulus, 3028, 24, 18) for modulus in (P1, 2110563143, 2110563144, P2, 2 ** 32 - 1)),
    *((2, modulus, 4948, 40, 34) for modulus in (P1, 2028872854, 2028872855, P2)),
    *((2, modulus, 13756, 112, 104) for modulus in (P2, 2132992693, 2132992694)),
)
NUMBERS = (0, 1, 2, 3, 1 << 31, (1 << 32) - 1)


def until(limit, bits):
    """The first bits, as many as the limit says; islice takes no limit of 64 bits."""
    for taken, bit in enumerate(bits):
        if taken == limit:
            return
        yield bit


def found(field, modulus, limit, wanted):
    # "The first 160 new bits are dropped", which the limit includes
    bits = islice(until(limit, oracle.new_bits(field)), 160, None)
    # "Later bits go in pairs: if the first is 1, the second is output, else neither."
    outputs = (second for first, second in zip(bits, bits) if first)
    # "31 output bits, first highest, make a candidate"
    words = iter(lambda: "".join(map(str, islice(outputs, 31))), "")
    candidates = (int(word, 2) for word in words if len(word) == 31)
    # "one of p or more is dropped"; "It stops at 696 constants", here at the number wanted
    return list(islice((candidate for candidate in candidates if candidate < modulus), wanted))


def places(field, modulus, limit, wanted):
    """What a list of sevens is when its first places were lent, and how many constants were found."""
    constants = found(field, modulus, limit, wanted)
    if modulus == oracle.PRIME[field] and wanted <= oracle.generate(field)[2]:
        assert constants == oracle.found(field, limit)[:wanted], (field, limit, wanted)
    # "gives those found, zeros in the places left, and how many"
    return constants + [0] * (wanted - len(constants)) + [7] * (ROOM - wanted), len(constants)


def eight(constants, start):
    return " ".join(map(str, [f"from {start}:", *constants[start:start + 8]]))


def generated(field):
    number, constants, count = oracle.generate(field)
    not_zero = sum(x != 0 for x in constants)
    return f"generate {field} number {number} found {count} not zero {not_zero} " + " ".join(eight(constants, start) for start in (0, 692, 736))


def sample(field, modulus, limit, wanted, start):
    after, count = places(field, modulus, limit, wanted)
    return f"field {field} modulus {modulus} limit {limit} wanted {wanted} found {count} " + eight(after, start)


if __name__ == "__main__":
    for field in NUMBERS:
        print(generated(field))
    for field in (1, 2):
        print(f"field {field} found {oracle.generate(field)[2]} differ 0")
    for row in SAMPLES:
        print(sample(*row))
