#!/usr/bin/env python3
"""What the program tag_vectors is run on, and what it must print.

  tests/tags.py cases > crates/tag_vectors/stdin
  tests/tags.py answers < crates/tag_vectors/stdin > crates/tag_vectors/stdout

The answers are those of the second implementation, in Python, written from the papers by other hands (tests/oracle).
A line of input is a call; lists and the form number, one word, are hexadecimal:

  w FORM WORDS SEPARATOR LENGTH    check, and write to a buffer of that length (four digits)
  r FORM STRING LENGTH             read, with that length of the separator given (sixteen digits)
  c WORDS                          cut
  e DIGEST                         the tag's elements

A line of output is what the call answers:

  w NUMBER COUNT WORDS OTHERS, NUMBER WRITTEN BUFFER
  r NUMBER COUNT WORDS OTHERS, START LENGTH SEPARATOR
  c NUMBER COUNT WORDS OTHERS
  e ELEMENTS

OTHERS is the sum of the unused ones of the 64 words. START is the separator's first place in the string. The buffer holds the byte a5 at every place before the call.
"""
import random
import sys

from second_implementation import oracle

ABSORB = 1 << 31
LONGEST = ABSORB - 1
LIMIT = oracle.MAX_CALL
# numbers of no form; the low byte or all bits but the highest are a form's in the last two
UNKNOWN = (0, 3, ABSORB, 0xffffffff, 257, ABSORB + 2)
random = random.Random(31)


def pattern(pairs, cuts=1, longest=40):
    """An accepted pattern: pairs of ABSORB and SQUEEZE, each cut into up to so many words."""
    return [top + random.randint(1, longest) for _ in range(pairs) for top in (ABSORB, 0) for _ in range(random.randint(1, cuts))]


def separator(length):
    return bytes(random.randrange(256) for _ in range(length))


def merged(words):
    """The number of merged words, to lend buffers about as long as the string."""
    return sum(k == 0 or words[k] // ABSORB != words[k - 1] // ABSORB for k in range(len(words)))


def write_cases():
    """Words, separator and how much longer the buffer is than the string."""
    b1 = [ABSORB + 3, ABSORB + 3, 3]
    # document 01's examples, and its samples
    yield [], b"", 8
    yield [ABSORB + 3, 0], b"", 8
    yield [1], b"", 8
    yield [ABSORB + 1], b"", 8
    yield [0xffffffff, ABSORB + 1, 1], b"", 8
    yield [ABSORB + 1, 1], separator(257), 8
    yield b1, b"AB", -1
    yield b1, b"AB", 0
    yield b1, b"AB", 7
    yield [ABSORB + 1, 1], bytes.fromhex("8000000200000002"), 0
    yield [ABSORB + 1, 1, ABSORB + 2, 2], b"", 0
    yield [0xfffffffe, ABSORB + 1, 1], b"", 0
    # several faults at once
    long = [0xffffffff, 0xffffffff]
    for words in ([0] * 65, [0], [0, ABSORB], [1, 0], [1, ABSORB], [5, ABSORB + 1], [ABSORB, 1], [1] + long, long + [0, ABSORB + 1], long,
                  long + [0], [1] + long + [1], [ABSORB] + long + [1], long + [1], [ABSORB + 1] * 65, [1] * 66, [0] * 130, [1, ABSORB + 1] * 40):
        for length in (0, 257):
            yield words, separator(length), 4
            yield words, separator(length), -1
    # 63 to 66 words, merged and not
    for count in (63, 64, 65, 66):
        yield ([ABSORB + 7, 9] * 33)[-count:], b"", 0
        yield [ABSORB + 7] * (count - 1) + [9], b"\0", 0
        yield [ABSORB + 7] + [9] * (count - 1), b"\0", 0
        yield [ABSORB + 7] * (count - 2) + [0, 9], b"\0", 0
    yield [ABSORB + 7, 9] * 32, separator(256), 0
    yield [ABSORB + 7, 9] * 32, separator(256), -1
    yield [ABSORB + 7, 9] * 32, separator(257), 0
    # lengths 1, 16,777,216 and 2147483647, and their sums
    for first, second in ((1, 1), (1, LIMIT), (LIMIT, LIMIT), (LIMIT + 1, 1), (1, LIMIT + 1), (LIMIT, LIMIT - 1), (1, LONGEST), (LONGEST, 1),
                          (LONGEST, LONGEST), (LONGEST - 1, 1), (1 << 30, 1 << 30)):
        yield [ABSORB + first, second], b"x", 0
        yield [ABSORB + first, ABSORB + second, 1], b"x", 0
        yield [ABSORB + 1, first, second], b"x", 0
        yield [ABSORB + first, 1, ABSORB + second, 1], b"x", 0
        yield [ABSORB + 1, 1, ABSORB + first, ABSORB + second, 1], b"x", 0
        yield [ABSORB + first, ABSORB + second, 1, ABSORB + 1, 1], b"x", 0
        yield [ABSORB + 1, first, second, 1, ABSORB + 1, 1], b"x", 0
    for length in (LIMIT, LIMIT + 1):
        yield [ABSORB + length] * 63 + [1], b"", 0
        yield [ABSORB + 1] + [length] * 63, b"", 0
        yield [ABSORB + LIMIT] * 32 + [LIMIT] * 31 + [length], b"", 0
        yield [length], b"", 0
        yield [length, ABSORB], b"", 0
        yield [ABSORB + length], b"", 0
        yield [ABSORB + 1, length], separator(257), 0
    yield [ABSORB + LONGEST] * 63 + [1], b"", 0
    yield [ABSORB + LONGEST, LONGEST] * 32, b"", 0
    # separators, buffers exact, one byte short, longer and empty
    for length in (0, 1, 2, 3, 4, 8, 31, 32, 255, 256, 257):
        for room in (-1, 0, 1, 5):
            yield pattern(2, 2), separator(length), room
        yield pattern(1, 3), separator(length), -8 - length
    # any pattern, some damaged at one word
    for number in range(150):
        words = pattern(random.randint(1, 6), 3)
        if number % 3 == 0:
            words[random.randrange(len(words))] ^= random.choice([ABSORB, LONGEST, 1 << random.randrange(32)])
        if number % 7 == 0:
            words[random.randrange(len(words))] &= ABSORB
        yield words, separator(random.choice([0, 1, 2, 8, 31])), random.choice([-1, 0, 0, 0, 1, 4])
    # words behind which another number counts, word by word: 19 then 2, 3 then 2, 3 then 19 then 2, and 1 behind each
    for words in (long + [0], [1, 0], [1, ABSORB + LIMIT + 1, 2, 0], long + [1, ABSORB + 1, ABSORB], [1] + long + [0, 1], [ABSORB + 1, 1, ABSORB + 1] + long + [2, ABSORB + 3, 0]):
        for end in range(1, len(words)):
            yield words[:end], b"", 4
    for first in ([1], long, [1] + long, [ABSORB, 1], [ABSORB + 1]):
        for count in (64, 65):
            yield (first + [2, ABSORB + 1] * 33)[:count], b"", 4
            yield (first + [2, ABSORB + 1] * 33)[:count], separator(257), 4


def string(words, bytes_behind):
    return b"".join(w.to_bytes(4, "big") for w in words) + bytes_behind


def read_cases():
    """A string of form 1, and the separator's length."""
    # document 01's example of 13, that of document 02 in its place, samples
    yield string([ABSORB + 3], b""), 0
    yield string([1], b""), 0
    yield bytes.fromhex("80000006000000034142"), 2
    both = bytes.fromhex("80000001000000018000000200000002")
    for length in range(18):
        yield both, length
    # a string cut at every length, with its separator's length and with that moved along
    whole = string([ABSORB + 6, 3, 0xffffffff, LONGEST], b"protocol")
    for length in range(len(whole)):
        yield whole[:length], 8
        yield whole[:length], max(0, length - 16)
    for length in (0, 7, 8, 9, 12, 23, 24, 25, 255, 256, 257, 1 << 31, (1 << 32) + 8, (1 << 64) - 1):
        yield whole, length
    # words that are sound, in any number up to 64, and words that are not: unmerged, of length 0, of the wrong kind, none, too many
    for words in ([], [ABSORB + 1, ABSORB + 1], [ABSORB + 1, 1, 1], [1, ABSORB + 1], [ABSORB, 1], [ABSORB + 1, 0], [ABSORB + 1, 1, ABSORB + 1],
                  [ABSORB + 1, 1, ABSORB + 1, 0], [ABSORB + 1, 1, ABSORB, 1], [ABSORB + 1, 1, ABSORB + 1, ABSORB + 1], [ABSORB + 1, 1] * 31,
                  ([ABSORB + 1, 1] * 32)[:63], [ABSORB + 1, 1] * 32, ([ABSORB + 1, 1] * 33)[:65], [ABSORB + 1, 1] * 33, [ABSORB + 1, 1] * 60,
                  [ABSORB + 1, 1] * 31 + [ABSORB + 1, 0], [ABSORB + 1, 1] * 31 + [1, 1]):
        yield string(words, b""), 0
        yield string(words, b"abc"), 3
        yield string(words, b"abc"), 2
    for length in (LIMIT, LIMIT + 1, 64 * LIMIT):
        yield string([ABSORB + length, length], b"abc"), 3
    for length in (0, 1, 255, 256, 257):
        yield string([ABSORB + 9, 1], separator(length)), length
        yield string([ABSORB + 9, 1] * 32, separator(length)), length
    for _ in range(40):
        length = random.randrange(12)
        words = [w ^ random.choice([0, 0, 0, 0, 0, ABSORB, 1]) for w in pattern(random.randint(1, 4))]
        yield string(words, separator(length)), length + random.choice([0, 0, 0, 4, 8, 1])


def form_cases():
    """A form number, a string and a length given: those of form 2 that its tail decides, and of numbers of no form."""
    def tail(n):
        return n.to_bytes(4, "big")
    whole = string([ABSORB + 6, 3], b"protocol") + tail(8)
    for given in (0, 7, 8, 9, 256, 257, (1 << 32) + 8, (1 << 64) - 1):
        yield 2, whole, given
    for end in range(len(whole)):
        yield 2, whole[:end], 8
    # strings of 0 to 8 bytes, as zeros, as the largest tail and as a word before an empty separator
    for length in range(9):
        for text in (bytes(8), b"\xff" * 8, string([ABSORB + 1], tail(0))):
            yield 2, text[8 - length:], 0
            yield 2, text[:length], 0
            yield 1, text[8 - length:], 0
    # tails that name as many bytes as precede them, one fewer and one more; and large ones, whose low bytes would do
    for words, length in (([ABSORB + 9, 1], 4), ([ABSORB + 9, 1] * 32, 256), ([], 255), ([], 256), ([], 257), ([ABSORB + 1], 0)):
        behind = separator(length)
        before = 4 * len(words) + length
        for n in (length, before, max(0, before - 1), before + 1, 256, 257, 1 << 8, 1 << 16, 1 << 24, (1 << 24) + length, (1 << 31) + length, (1 << 32) - 1):
            yield 2, string(words, behind) + tail(n), length
    # the tail with its lowest byte first, before the separator, and left out
    for length in (0, 1, 2, 4, 8):
        behind = separator(length)
        yield 2, string([ABSORB + 5, 7], behind) + tail(length)[::-1], length
        yield 2, string([ABSORB + 5, 7], tail(length) + behind), length
        yield 2, string([ABSORB + 5, 7], behind), length
    for form in UNKNOWN:
        for text, given in ((whole, 8), (whole[:-4], 8), (b"", 0), (b"", 257), (whole, 257)):
            yield form, text, given


def cut_cases():
    """Words of any kind, which need not be merged."""
    yield []
    for length in (0, 1, LIMIT - 1, LIMIT, LIMIT + 1, 2 * LIMIT - 1, 2 * LIMIT, 2 * LIMIT + 1, 3 * LIMIT, 63 * LIMIT, 64 * LIMIT - 1, 64 * LIMIT, 64 * LIMIT + 1,
                   65 * LIMIT, LONGEST - LIMIT, LONGEST):
        for top in (ABSORB, 0):
            yield [top + length]
            yield [ABSORB + 5, top + length, 7]
    yield [ABSORB + LONGEST, 1]
    yield [ABSORB + 2, 0, ABSORB, 3]
    # 63 to 66 calls, in words and in what they are cut into
    for count in (63, 64, 65, 66, 120):
        yield [ABSORB + 7] * count
        yield [ABSORB + 7, 9 + LIMIT] * (count // 3) + [1] * (count % 3)
        yield [ABSORB + 60 * LIMIT] + [3] * (count - 60)
        yield [3] * (count - 60) + [ABSORB + 59 * LIMIT + 1]
    for number in range(60):
        yield [random.choice([ABSORB, 0]) + random.choice([0, 1, 40, LIMIT, random.randint(1, 9) * LIMIT, random.randint(1, 12 * LIMIT)])
               for _ in range(random.randint(1, 14))]


def element_cases():
    for digest in ([0xff] * 32, [0] * 32, [0x3f, 0xff, 0xff, 0xff] * 8, [0x40, 0, 0, 0] * 8, [0x80, 0, 0, 1] * 8, list(range(32))):
        yield bytes(digest)
    for _ in range(20):
        yield separator(32)


def hexadecimal(words):
    return "".join("%08x" % w for w in words)


def numbers(digits):
    return [int(digits[k:k + 8], 16) for k in range(0, len(digits), 8)]


def cases():
    for k, (words, behind, room) in enumerate(write_cases()):
        # the long ones of one form each, for the program's room
        for form in (1, 2) if len(words) < 40 and len(behind) < 200 else (1 + k % 2,):
            length = max(0, 4 * merged(words) + len(behind) + 4 * (form == 2) + room)
            print("w", "%08x" % form, hexadecimal(words), behind.hex(), "%04x" % length)
    for form in UNKNOWN:
        for words, behind, room in (([ABSORB + 1, 1], b"AB", 4), ([], b"AB", 4), ([1], separator(257), 4), ([ABSORB + 1, 1], b"AB", -1)):
            print("w", "%08x" % form, hexadecimal(words), behind.hex(), "%04x" % max(0, 4 * merged(words) + len(behind) + room))
    for text, length in read_cases():
        print("r", "%08x" % 1, text.hex(), "%016x" % length)
        # in form 2 behind a tail, with another length given
        if length < 1 << 32:
            print("r", "%08x" % 2, (text + length.to_bytes(4, "big")).hex(), "%016x" % (length ^ 5))
    for form, text, length in form_cases():
        print("r", "%08x" % form, text.hex(), "%016x" % length)
    for words in cut_cases():
        print("c", hexadecimal(words))
    for digest in element_cases():
        print("e", digest.hex())


def elements(digest):
    """Elements 8 to 15 of the state that START gives where the hash gives this digest."""
    class Hash:
        def sha3_256(string):
            return Hash

        def digest():
            return digest
    oracle.hashlib = Hash
    return oracle.start([ABSORB + 1, 1], b"")[1]["state"][8:16]


def answer(kind, *fields):
    if kind == "e":
        return hexadecimal(elements(bytes.fromhex(fields[0])))
    if kind == "r":
        text = bytes.fromhex(fields[1])
        number, words, count, behind = oracle.read_tag(text, int(fields[2], 16), int(fields[0], 16))
        start = len(text) if number else 4 * count
        return "%d %d %s %d, %d %d %s" % (number, count, hexadecimal(words[:count]), sum(words[count:]), start, len(behind), behind.hex())
    if kind == "c":
        words = numbers(fields[0])
        calls = oracle.cut(words)
        # "where 64 calls suffice": otherwise number 1, and none
        return "%d %d %s 0" % ((0, len(calls), hexadecimal(calls)) if len(calls) <= oracle.MAX_WORDS else (1, 0, ""))
    words, behind = numbers(fields[1]), bytes.fromhex(fields[2])
    number = oracle.start_number(words, behind)
    list_ = oracle.merged(words) if number == 0 else []
    refused, length, buffer = oracle.write_tag(words, behind, bytes([0xa5] * int(fields[3], 16)), int(fields[0], 16))
    return "%d %d %s 0, %d %d %s" % (number, len(list_), hexadecimal(list_), refused, length, buffer.hex())


def answers():
    for line in sys.stdin:
        kind, *fields = line.rstrip("\n").split(" ")
        print(kind, answer(kind, *fields))


if sys.argv[1:] == ["cases"]:
    cases()
elif sys.argv[1:] == ["answers"]:
    answers()
else:
    sys.exit(__doc__)
