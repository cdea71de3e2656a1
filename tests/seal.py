#!/usr/bin/env python3
"""What sealing and opening are asked, and what they must answer.

  tests/seal.py cases > crates/seal_vectors/stdin
  tests/seal.py answers < crates/seal_vectors/stdin > crates/seal_vectors/stdout
  tests/seal.py random SEED COUNT

The answers are those of the second implementation, in Python, written from the papers by other hands (tests/oracle). `random` prints cases of another
seed, as many as so many random notes have. A line of input seals (s) or opens (o), with a buffer of SIZE places, each of which holds a5a5a5a5:

  s FIELD KEY NONCE SEPARATOR LENGTHS PLAIN SIZE
  o FIELD KEY NONCE SEPARATOR LENGTHS SEALED SIZE

A separator is bytes in hexadecimal, and all else are numbers of eight hexadecimal digits, any number of them in lists. A
line of output is the kind, the number and what the buffer holds afterwards:

  KIND NUMBER BUFFER
"""
import itertools
import sys
from random import Random

from second_implementation import oracle

P = oracle.PRIME
KEY, MARK, MOST_BLOCKS, LIMIT = 8, 8, 31, 16777216
LARGEST = (1 << 32) - 1
FILLED = 0xa5a5a5a5
SEED, NOTES = 41, 12

random = Random(7)


def elements(field, count):
    return [random.choice([0, 1, P[field] - 1] + [random.randrange(P[field])] * 5) for _ in range(count)]


class Question:
    """A call and all that is lent to it. A buffer is as long as the lengths and the kind need, unless a size is given."""
    def __init__(self, kind, field, key, nonce, separator, lengths, text, size=None):
        self.kind, self.field, self.key, self.nonce, self.separator, self.lengths, self.text = kind, field, key, nonce, separator, lengths, text
        self.size = sum(lengths) + (MARK if kind == "s" else 0) if size is None else size

    def but(self, **changed):
        """The same with something else in some places."""
        return Question(**{**vars(self), **changed})

    def line(self):
        lists = map(hexadecimal, ([self.field], self.key, self.nonce))
        return " ".join([self.kind, *lists, self.separator.hex(), hexadecimal(self.lengths), hexadecimal(self.text), "%08x" % self.size])


def note(field, lengths, separator=b"note"):
    return Question("s", field, elements(field, KEY), elements(field, KEY), separator, lengths, elements(field, sum(lengths)))


def answered(question):
    call = oracle.seal if question.kind == "s" else oracle.open_note
    return call(question.field, question.key, question.nonce, question.separator, question.lengths, question.text, [FILLED] * question.size)


def opening(sealing):
    """The question that opens what this one seals."""
    number, sealed = answered(sealing)
    assert number == 0
    return sealing.but(kind="o", text=sealed, size=sum(sealing.lengths))


def with_element(list_, place, element):
    place %= len(list_)
    return list_[:place] + [element] + list_[place + 1:]


# ---- notes that are sealed and opened

def good_notes():
    for field in (1, 2):
        for length in (1, 2, 7, 8, 9, 15, 16, 17, 24, 25):
            yield note(field, [length])
        for pair in itertools.product((1, 7, 8, 9, 16), repeat=2):
            yield note(field, [*pair])
        yield note(field, [1, 7, 8, 9, 16])
        yield note(field, [16, 9, 8, 7, 1])
        yield note(field, [8, 8, 8])
        # 64 words: each block of 1; lengths of every kind
        for lengths in ([1] * MOST_BLOCKS, ([1, 7, 8, 9, 16] * 7)[:MOST_BLOCKS], [1] * (MOST_BLOCKS - 1)):
            yield note(field, lengths)
        for length in (0, 1, 255, 256):
            yield note(field, [3], bytes(range(256))[:length])
        # the least and the largest element everywhere
        for element in (0, P[field] - 1):
            yield note(field, [9, 2]).but(key=[element] * KEY, nonce=[element] * KEY, text=[element] * 11)
            yield note(field, [9, 2]).but(text=[element] * 11)
    # elements of field 2 that field 1 does not have
    for place in (P[1], P[2] - 1):
        yield note(2, [8, 1]).but(key=[place] * KEY, nonce=[place] * KEY, text=[place] * 9)


def good_cases():
    for sealing in good_notes():
        yield sealing
        yield opening(sealing)


# ---- what was sealed, opened otherwise

def changed_cases():
    """Each element of a sealed list one more and one less, the mark in other ways, and the other inputs changed."""
    for field in (1, 2):
        for lengths in ([1], [8], [9], [1, 7, 8]):
            good = opening(note(field, lengths))
            for place, element in enumerate(good.text):
                for other in (element + 1, element - 1):
                    yield good.but(text=with_element(good.text, place, other % P[field]))
        good = opening(note(field, [3, 8]))
        cipher, mark = good.text[:11], good.text[11:]
        for other in ([0] * MARK, mark[1:] + mark[:1], mark[::-1], cipher[:MARK], [P[field] - 1] * MARK):
            yield good.but(text=cipher + other)
        # two elements of the mark changed so that their sum stays, and the first two exchanged
        yield good.but(text=cipher + [(mark[0] + 1) % P[field], (mark[1] - 1) % P[field]] + mark[2:])
        yield good.but(text=cipher + [mark[1], mark[0]] + mark[2:])
        for other in ([0] * 11, cipher[::-1], cipher[3:] + cipher[:3]):
            yield good.but(text=other + mark)
        for place in (0, 7):
            yield good.but(key=with_element(good.key, place, (good.key[place] + 1) % P[field]))
            yield good.but(nonce=with_element(good.nonce, place, (good.nonce[place] + 1) % P[field]))
        yield good.but(key=good.nonce, nonce=good.key)
        for separator in (b"", b"not", b"note\0", b"nota"):
            yield good.but(separator=separator)
    # the other field, where all are elements of both
    for field in (1, 2):
        small = opening(note(field, [2]).but(key=[1] * KEY, nonce=[2] * KEY))
        yield small.but(field=3 - field)


def recut_cases():
    """The same elements in blocks of other lengths: sealed so, and opened so after they were sealed otherwise."""
    for field in (1, 2):
        for first, *others in (([8, 12], [12, 8], [20], [10, 10], [8, 8, 4], [1] * 20, [7, 13]),
                               ([16], [8, 8], [7, 9], [9, 7], [1, 15], [15, 1]),
                               ([1, 1], [2]),
                               ([1] * MOST_BLOCKS, [2] + [1] * 29, [1] * 29 + [2], [31])):
            sealing = note(field, first)
            good = opening(sealing)
            for lengths in others:
                yield sealing.but(lengths=lengths)
                yield opening(sealing.but(lengths=lengths))
                yield good.but(lengths=lengths)


# ---- refused

def with_lengths(lengths):
    """These lengths, with a text and a buffer that are exact for them where they are short enough to be."""
    def changed(q):
        total = sum(lengths)
        text = (q.text * 20)[:total] + (q.text[-MARK:] if q.kind == "o" else [])
        return q.but(lengths=lengths, text=text, size=total + (MARK if q.kind == "s" else 0))
    return changed


def lengths_alone(lengths):
    return lambda q: q.but(lengths=lengths)


def shorter(name):
    return lambda q: q.but(**{name: getattr(q, name)[:-1]})


def longer(name):
    return lambda q: q.but(**{name: getattr(q, name) + [1]})


def empty(name):
    return lambda q: q.but(**{name: []})


def too_large(name, place, above=0):
    """An element of p or more; none where the list is empty."""
    return lambda q: q.but(**{name: with_element(getattr(q, name), place, min(P.get(q.field, P[2]) + above, LARGEST))}) if getattr(q, name) else q


def one_more(place):
    return lambda q: q.but(text=with_element(q.text, place, (q.text[place] + 1) % P.get(q.field, P[1]))) if len(q.text) > MARK else q


# by number: changes of a good question that earn it; those of lengths come first, since they set the text and the buffer too
FAULTS = {
    "20, lengths": [with_lengths([]), with_lengths([1] * 32), with_lengths([3, 0]), lengths_alone([3, LIMIT + 1]), lengths_alone([LARGEST, 4])],
    "20": [change(name) for name in ("key", "nonce", "text") for change in (shorter, longer)] + [
        empty("key"), empty("nonce"), empty("text"), lambda q: q.but(size=max(0, q.size - 1)), lambda q: q.but(size=q.size + 1), lambda q: q.but(size=0)],
    "21": [one_more(0), one_more(-1)],
    "10": [too_large("key", 0), too_large("nonce", -1), too_large("text", 0), too_large("text", -1), too_large("text", 1, LARGEST)],
    "6": [lambda q: q.but(separator=bytes(257))],
    "18": [lambda q: q.but(field=0), lambda q: q.but(field=3)],
}


def refused_cases():
    """Each fault alone, and each two of them; those of the mark where there is one."""
    for good in (note(1, [1, 2]), opening(note(2, [1, 2])), note(2, [2, 1]), opening(note(1, [2, 1]))):
        faults = [fault for number, list_ in FAULTS.items() for fault in list_ if number != "21" or good.kind == "o"]
        yield good
        for fault in faults:
            yield fault(good)
        for first, second in itertools.combinations(faults, 2):
            yield second(first(good))


def length_cases():
    """Lists and buffers of the length that the other kind of call needs, lists of lengths whose sum is right by wrapping only, and many lengths."""
    for field in (1, 2):
        for good in (note(field, [1, 2]), opening(note(field, [1, 2]))):
            yield good.but(size=14 - good.size)
            yield good.but(text=good.text[:3] if good.kind == "o" else good.text + [0] * MARK)
            for lengths in ([1 << 31, 1 << 31, 3], [LARGEST, 4], [4, LARGEST], [LARGEST] * 31 + [34], [0, 3], [3, 0], [0] * 31 + [3], [0], [LIMIT], [LIMIT + 1],
                            [LIMIT] * 31, [1 << 31], [LARGEST], [LARGEST] * 300, [1] * 33, [1] * 64, [1, 1], [1, 1, 1, 1]):
                yield good.but(lengths=lengths)
            yield with_lengths([1] * 32)(good)
            yield with_lengths([1] * 33)(good)
            yield good.but(key=good.key + good.nonce, nonce=[])
            yield good.but(key=good.key[:7], nonce=good.nonce + good.key[7:])
            for name in ("key", "nonce"):
                yield good.but(**{name: getattr(good, name)[:7]})
                yield good.but(**{name: getattr(good, name) * 2})
    # every key, nonce and text element too large in turn, by p itself and by the largest number
    for field in (1, 2):
        for good in (note(field, [1, 2]), opening(note(field, [1, 2]))):
            for name in ("key", "nonce", "text"):
                for place in range(len(getattr(good, name))):
                    yield good.but(**{name: with_element(getattr(good, name), place, P[field])})
                    yield good.but(**{name: with_element(getattr(good, name), place, LARGEST)})
            # the largest element of field 2 in either field
            for name in ("key", "nonce", "text"):
                yield good.but(**{name: with_element(getattr(good, name), 1, P[2] - 1)})


def random_cases(seed, notes):
    """Calls as `tests/oracle/oracle.py --landed 7 seal SEED NOTES` prints them, over a buffer of this script's contents."""
    source = Random(seed)
    for _ in range(notes):
        for c in oracle.seals(source)["calls"]:
            kind = {"seal": "s", "open": "o"}[c["call"]]
            yield Question(kind, c["field"], c["key"], c["nonce"], bytes.fromhex(c["separator"]), c["lengths"], c["text"], len(c["buffer"]))


def all_cases():
    for part in (good_cases, changed_cases, recut_cases, refused_cases, length_cases):
        yield from part()
    yield from random_cases(SEED, NOTES)


def hexadecimal(numbers):
    return "".join("%08x" % n for n in numbers)


def numbers(digits):
    return [int(digits[k:k + 8], 16) for k in range(0, len(digits), 8)]


def show(questions):
    for line in dict.fromkeys(question.line() for question in questions):
        print(line)


def answers():
    for line in sys.stdin:
        kind, field, key, nonce, separator, lengths, text, size = line.rstrip("\n").split(" ")
        question = Question(kind, *numbers(field), numbers(key), numbers(nonce), bytes.fromhex(separator), numbers(lengths), numbers(text), int(size, 16))
        number, left = answered(question)
        print(kind, number, hexadecimal(left))


if sys.argv[1:] == ["cases"]:
    show(all_cases())
elif sys.argv[1:] == ["answers"]:
    answers()
elif sys.argv[1:2] == ["random"] and len(sys.argv) == 4:
    show(random_cases(int(sys.argv[2]), int(sys.argv[3])))
else:
    sys.exit(__doc__)
