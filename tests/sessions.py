#!/usr/bin/env python3
"""What the program session_vectors is run on, and what it must print.

  tests/sessions.py cases > crates/session_vectors/stdin
  tests/sessions.py answers < crates/session_vectors/stdin > crates/session_vectors/stdout

The answers are those of the second implementation, in Python, written from the papers by other hands (tests/oracle).
A line of input is a call on the record that the line before left; lists are hexadecimal:

  s NUMBERS WORDS SEPARATOR    START, with the field number and the form number
  a ELEMENTS                   ABSORB
  q BUFFER                     SQUEEZE into a buffer with these contents
  f                            FINISH
  t RECORD                     the record is replaced by this one, and nothing is called

A line of output is what the call answers:

  s NUMBER RECORD
  a NUMBER RECORD
  q NUMBER RECORD BUFFER
  f NUMBER RECORD
  t RECORD

A record is three lists: its numbers, the 24 state elements and the 64 pattern words. The numbers are status, field number, form
number, word count, phase number, elements done, absorb and squeeze position, and permutations (two words, the high one first). Zeros at the
end of each of the three are left out. In the output, `=` stands for a list that is in every word as the line before left it.
"""
import sys
from random import Random

from second_implementation import oracle

P1, P2 = oracle.PRIME[1], oracle.PRIME[2]
ABSORB = 1 << 31
LONGEST = ABSORB - 1
LIMIT = oracle.MAX_CALL
LARGEST = (1 << 32) - 1
NUMBERS = ("status", "field", "form", "count", "phase", "done", "absorb_at", "squeeze_at")
# numbers of no field and no form; the low byte or all bits but the highest are those of one in the last two
UNKNOWN = (0, 3, ABSORB, LARGEST, 257, ABSORB + 2)
# merged: ABSORB 12, SQUEEZE 10, ABSORB 8, SQUEEZE 3
PATTERN = [ABSORB + 9, ABSORB + 3, 10, ABSORB + 8, 1, 2]
random = Random(31)


def hexadecimal(words):
    return "".join("%08x" % w for w in words)


def numbers(digits):
    return [int(digits[k:k + 8], 16) for k in range(0, len(digits), 8)]


def parts(record):
    """The three lists that write a record."""
    def without_zeros(words):
        return hexadecimal(words[:max((k + 1 for k, w in enumerate(words) if w), default=0)])
    high, low = divmod(record["permutations"], 1 << 32)
    return [without_zeros(words) for words in ([record[k] for k in NUMBERS] + [high, low], record["state"], record["words"])]


def record_of(lists):
    first, state, words = ((numbers(digits) + [0] * 64)[:size] for digits, size in zip(lists, (10, 24, 64)))
    return dict(zip(NUMBERS, first), permutations=(first[8] << 32) + first[9], state=state, words=words)


def answer(record, kind, *lists):
    """The number, the record and, of a SQUEEZE, the buffer that a line's call leaves."""
    if kind == "s":
        return oracle.start(numbers(lists[1]), bytes.fromhex(lists[2]), *numbers(lists[0]))
    if kind == "a":
        return oracle.absorb(record, numbers(lists[0]))
    if kind == "q":
        return oracle.squeeze(record, numbers(lists[0]))
    return oracle.finish(record)


class Calls:
    """Prints calls, and keeps the record that they leave, which later ones are made from. `field` is what sessions are opened in; their forms
    alternate."""

    def __init__(self):
        self.record = oracle.wiped()
        self.field = 1
        self.form = 2

    def call(self, kind, *lists):
        print(kind, *lists)
        self.record = answer(self.record, kind, *lists)[1]

    def start(self, words, separator=b"", field=None, form=None):
        if form is None:
            self.form = form = 3 - self.form
        self.call("s", hexadecimal([self.field if field is None else field, form]), hexadecimal(words), separator.hex())

    def turn(self):
        """The next session is of the other field."""
        self.field = 3 - self.field

    def prime(self):
        """p of the record; of a wiped one, p of the next session."""
        return oracle.PRIME[self.record["field"] or self.field]

    def absorb(self, elements):
        self.call("a", hexadecimal(elements))

    def squeeze(self, buffer):
        self.call("q", hexadecimal(buffer))

    def finish(self):
        self.call("f")

    def state(self):
        """Any state of elements."""
        return [random.randrange(self.prime()) for _ in range(24)]

    def put(self, record):
        print("t", *parts(record))
        self.record = record

    def step(self, kind, size):
        """A good call of so many elements, of the kind of a word."""
        if kind >= ABSORB:
            self.absorb(elements(size, self.prime()))
        else:
            self.squeeze(buffer(size))

    def follow(self, cut=lambda length: [length]):
        """The rest of the pattern, with each phase cut into calls, and FINISH."""
        while self.record["phase"] < self.record["count"]:
            word = self.record["words"][self.record["phase"]]
            for size in cut(word % ABSORB - self.record["done"]):
                self.step(word, size)
        self.finish()

    def reach(self, words, phase, done):
        """A session up to a place."""
        self.start(words)
        for word in self.record["words"][:phase]:
            self.step(word, word % ABSORB)
        if done:
            self.step(self.record["words"][phase], done)

    def placed(self, record, phase, done):
        """The record at another place, with the count and the positions that the rule gives there."""
        count, absorb_at, squeeze_at = oracle.place(record["words"] + [0], phase, done)
        return dict(record, phase=phase, done=done, permutations=count, absorb_at=absorb_at, squeeze_at=squeeze_at)

    def each(self, record):
        """Each of the three calls on a record. It is put again only where a call changed it."""
        for call in (lambda: self.absorb([1]), lambda: self.squeeze(buffer(1)), self.finish):
            if self.record != record:
                self.put(record)
            call()


def elements(size, p):
    return [random.choice([0, 1, p - 1, random.randrange(p)]) for _ in range(size)]


def buffer(size):
    """Contents that no SQUEEZE is likely to leave there, some of p or more."""
    return [random.randrange(1, 1 << 32) for _ in range(size)]


def separator(length, source=random):
    return bytes(source.randrange(256) for _ in range(length))


def random_pattern(source):
    """One that START accepts, or that with one word of another kind or length."""
    words = [top + source.choice([1, 2, 7, 8, 9, source.randint(1, 30)])
             for _ in range(source.randint(1, 5)) for top in (ABSORB, 0) for _ in range(source.randint(1, 3))]
    if source.random() < 0.3:
        words = words[:source.randint(1, len(words))]
    if source.random() < 0.15:
        words[source.randrange(len(words))] ^= source.choice([ABSORB, LONGEST])
    return words


def kinds(words):
    """Of each merged word whether it is ABSORB. A sum that is too long runs into the top bit, so that calls of any kind come after such a START."""
    sums = []
    for word in words:
        if sums and (sums[-1] >= ABSORB) == (word >= ABSORB):
            sums[-1] += word % ABSORB
        else:
            sums.append(word)
    return [word >= ABSORB for word in sums]


def random_calls(source, words, p):
    """Calls that follow the pattern, cut freely, with refused and empty ones strewn in."""
    for absorbs, (_, length) in zip(kinds(words), oracle.phases(words)):
        left = min(length, 90)
        while left:
            if source.random() < 0.1:
                yield "absorb" if source.random() < 0.5 else "squeeze", []
            if absorbs and source.random() < 0.1:
                yield "absorb", [source.choice([p, P1, P2, source.randrange(p, 1 << 32)]) for _ in range(source.randint(1, left))]
            size = source.randint(1, left)
            yield "absorb" if absorbs else "squeeze", [source.choice([0, 1, p - 1, source.randrange(p)]) for _ in range(size)]
            left -= size
            if source.random() < 0.02:
                yield source.choice([("absorb", [1] * 40), ("squeeze", [0] * 40), ("finish",)])
    yield "finish",
    if source.random() < 0.2:
        yield source.choice([("absorb", [1]), ("squeeze", [5]), ("finish",)])


def tampered(source, record):
    """The record with one bit of it changed, or another field or form number."""
    key = source.choice(["state", "words", "permutations", *NUMBERS])
    if key in ("field", "form"):
        return dict(record, **{key: source.choice([0, 1, 2, 3])})
    if not isinstance(record[key], list):
        return dict(record, **{key: record[key] ^ 1 << source.randrange(8)})
    list_ = list(record[key])
    list_[source.randrange(len(list_))] ^= 1 << source.randrange(32)
    return dict(record, **{key: list_})


def random_sessions(calls):
    source = Random(1)
    for _ in range(160):
        words, field = random_pattern(source), source.choice([1, 2] * 15 + [0, 3])
        calls.start(words, separator(source.choice([0, 1, 2, 8, 31, 256, 257]), source), field)
        for call, *lent in random_calls(source, words, oracle.PRIME.get(field, P1)):
            if source.random() < 0.01:
                calls.put(tampered(source, calls.record))
            getattr(calls, call)(*lent)


def document_examples(calls):
    """Document 01's examples of numbers 1 to 11, each with a call behind it that tells a wiped record from one that is left."""
    for words, length in (([], 0), ([ABSORB + 3, 0], 0), ([1], 0), ([LARGEST, ABSORB + 1, 1], 0),
                          ([ABSORB + 1, 1], 257)):
        calls.start(words, separator(length))
        calls.absorb([1])
    # 7: after FINISH
    calls.start([ABSORB + 1, 1])
    calls.follow()
    calls.each(calls.record)
    # 8: absorb position 9
    calls.start([ABSORB + 1, 1])
    good = calls.record
    calls.each(dict(good, absorb_at=9))
    # 9: SQUEEZE 1 straight after START
    calls.put(good)
    calls.squeeze(buffer(1))
    calls.absorb([1])
    # 10: ABSORB p
    calls.put(good)
    calls.absorb([calls.prime()])
    calls.follow()
    # 11: START, FINISH
    calls.put(good)
    calls.finish()
    calls.absorb([1])


# what a pattern and a separator can be turned away for
FAULTS = (1, 2, 19, 3, 6)


def faulty(faults):
    """Words and separator with these of the faults."""
    words = [ABSORB + 3, 0 if 2 in faults else 5, ABSORB + 2, 6]
    if 19 in faults:
        words[2:2] = [ABSORB + LIMIT + 1, ABSORB + 1]
    if 1 in faults:
        words[2:2] = [ABSORB + 1, 1] * 32
    return [7] * (3 in faults) + words, separator(257 if 6 in faults else 2)


def refused_starts(calls):
    """Every set of faults, each START after one that opened a session, and a call on the record that it leaves."""
    for bits in range(1, 32):
        calls.field = 1 + bin(bits).count("1") % 2
        calls.start([ABSORB + 1, 1])
        calls.start(*faulty({number for k, number in enumerate(FAULTS) if bits >> k & 1}))
        calls.absorb([1])
    for count in (63, 64, 65, 66, 130):
        calls.start(([ABSORB + 7, 9] * 65)[-count:])
        calls.start([ABSORB + 7] * (count - 1) + [9])
        calls.start([ABSORB + 7] + [9] * (count - 1))


def unknown_fields(calls):
    """START with numbers of no field, good otherwise, with each of the faults and with all; after a session of either field."""
    for number in UNKNOWN:
        for faults in (set(), *({fault} for fault in FAULTS), set(FAULTS)):
            calls.turn()
            calls.start([ABSORB + 1, 1])
            calls.start(*faulty(faults), number)
            calls.absorb([1])


def unknown_forms(calls):
    """START with numbers of no form, likewise, and with a number of no field before it; and the longest string of each form."""
    for number in UNKNOWN:
        for faults in (set(), *({fault} for fault in FAULTS), set(FAULTS)):
            calls.turn()
            calls.start([ABSORB + 1, 1])
            calls.start(*faulty(faults), form=number)
            calls.absorb([1])
            calls.start(*faulty(faults), 3, number)
            calls.absorb([1])
    for form in (1, 2):
        for words in ([ABSORB + 1, 1], [ABSORB + 1, 1] * 32):
            for length in (0, 1, 255, 256, 257):
                calls.start(words, separator(length), form=form)
    # B2's two openings
    for form in (1, 2):
        calls.start([ABSORB + 1, 1], bytes.fromhex("8000000200000002"), form=form)
        calls.start([ABSORB + 1, 1, ABSORB + 2, 2], form=form)


def large_elements(calls):
    """Elements around both p at each end of a list and inside it, each followed by the good call; then sums of the largest."""
    for large in (P1 - 1, P1, P1 + 1, P2 - 1, P2, P2 + 1, ABSORB, LARGEST):
        for place in (0, 4, 8):
            calls.start([ABSORB + 12, 2])
            calls.absorb(elements(3, calls.prime()))
            list_ = elements(9, calls.prime())
            list_[place] = large
            calls.absorb(list_)
            calls.follow()
    for large in (P1 - 1, calls.prime() - 1):
        calls.start([ABSORB + 12, 2, ABSORB + 8, 2])
        calls.put(dict(calls.record, state=[large] * 24))
        calls.absorb([calls.prime() - 1] * 12)
        calls.follow()


def samples(calls):
    """B1 and B3 to B7, in one call to a phase, and cut."""
    def by(size):
        return lambda length: [size] * (length // size) + [length % size]
    cuts = [lambda length: [length], lambda length: [1, length - 1], lambda length: [length - 1, 1], by(1), by(3), by(8)]
    calls.start([ABSORB + 3, ABSORB + 3, 3], b"AB")
    calls.follow()
    calls.start([0xfffffffe, ABSORB + 1, 1])
    for lengths in ((8, 1), (9, 1), (1, 9), (8, 8, 1, 1)):
        for cut in cuts:
            calls.start([length + (0 if k % 2 else ABSORB) for k, length in enumerate(lengths)])
            calls.follow(cut)


def shapes(calls):
    """Many words, merged words, long calls, and separators."""
    calls.start([ABSORB + 1, 2] * 32, separator(256))
    calls.follow()
    calls.start([ABSORB + 9] * 32 + [9] * 32)
    calls.absorb(elements(200, calls.prime()))
    calls.absorb(elements(88, calls.prime()))
    calls.squeeze(buffer(256))
    calls.follow()
    for length in (0, 1, 255, 256, 257):
        calls.start([ABSORB + 2, 2], separator(length))
        calls.absorb(elements(2, calls.prime()))
        calls.squeeze(buffer(2))
        calls.finish()


def absorbing_ends(calls):
    """Sessions whose last phase is ABSORB: run to the end, finished early and late, with a call behind the end, and records at the end with another
    count."""
    for words in ([ABSORB + 8], [ABSORB + 9], [ABSORB + 1], [ABSORB + 1] * 64, [ABSORB + 3, 2, ABSORB + 8], [ABSORB + 8, 8, ABSORB + 17],
                  ([ABSORB + 1, 2] * 32)[:63]):
        calls.turn()
        calls.start(words, separator(3))
        opened = calls.record
        calls.follow()
        for after in (lambda: calls.squeeze(buffer(1)), lambda: calls.absorb([1]), lambda: calls.absorb([]), calls.finish):
            calls.put(calls.placed(opened, opened["count"], 0))
            after()
            calls.finish()
        last = opened["words"][opened["count"] - 1] % ABSORB
        calls.put(calls.placed(opened, opened["count"] - 1, last - 1))
        calls.finish()
        for change in (1, -1, 1 << 20):
            end = calls.placed(opened, opened["count"], 0)
            calls.put(dict(end, permutations=(end["permutations"] + change) % (1 << 64)))
            calls.finish()


def long_phases(calls):
    """Records near the end of phases of 2147483647 elements, which START does not open, and of the longest that it does: a call up to its end, one past
    it, and a wrong count."""
    for words in ([ABSORB + LONGEST, LONGEST, ABSORB + LONGEST - 1, LONGEST], [ABSORB + LONGEST, LONGEST] * 32, [ABSORB + LIMIT] * 60 + [LIMIT] * 4):
        calls.turn()
        calls.start(words)
        calls.start([ABSORB + 1, 1])
        merged = oracle.merged(words)
        opened = dict(calls.record, words=merged + [0] * (64 - len(merged)), count=len(merged))
        for phase in sorted({0, 1, 2, opened["count"] - 1} & {*range(opened["count"])}):
            for left in (1, 9):
                done = opened["words"][phase] % ABSORB - left
                record = dict(calls.placed(opened, phase, done), state=calls.state())
                calls.put(record)
                calls.step(opened["words"][phase], left + 1)
                calls.put(dict(record, permutations=record["permutations"] ^ 1 << 31))
                calls.step(opened["words"][phase], left)
                calls.put(record)
                calls.step(opened["words"][phase], left)
                calls.finish()


def changes(record):
    """What is changed of a good record: one thing at a time, but for a closed record that is not sound either."""
    count, phase, words, permutations = (record[k] for k in ("count", "phase", "words", "permutations"))
    for key in NUMBERS + ("permutations",):
        for value in (record[key] + 1, record[key] - 1, 0, LARGEST):
            yield {key: value % (1 << (64 if key == "permutations" else 32))}
    yield dict(status=2, absorb_at=9)
    for number in (1, 3, 65, 66):
        yield dict(count=number)
    for number in (0, 1, 2, 3):
        yield dict(count=number, words=words[:number] + [0] * (64 - number))
    yield dict(phase=count + 1)
    yield dict(phase=64)
    for done in (words[phase] % ABSORB, words[phase] % ABSORB + 1, 8):
        yield dict(done=done)
    yield dict(permutations=permutations ^ 1 << 31)
    yield dict(permutations=permutations + (1 << 32))
    yield dict(permutations=permutations ^ 1 << 63)

    def at(list_, k, value):
        return list_[:k] + [value] + list_[k + 1:]
    for k, value in ((count, 1), (count, ABSORB + 1), (63, 1), (0, words[0] - ABSORB), (1, words[1] + ABSORB), (0, ABSORB), (3, 0),
                     (0, words[0] + 1), (0, words[0] + 8), (1, words[1] - 1), (3, words[3] + 1), (3, LONGEST)):
        yield dict(words=at(words, k, value))


def field_changes(record):
    """Other field and form numbers, and numbers about each p in the state, with the record's field and the other's."""
    yield from (dict(field=number) for number in UNKNOWN)
    yield from (dict(form=number) for number in (*UNKNOWN, 3 - record["form"]))
    yield dict(status=0, form=3)
    yield dict(field=3, form=3)
    yield dict(status=0, field=3)
    yield dict(status=2, field=0)
    state = [min(x, P1 - 1) for x in record["state"]]
    for k, value in ((0, P1 - 1), (0, P1), (7, LARGEST), (8, P2), (23, P1), (23, P2 - 1), (23, P2)):
        for field in (1, 2):
            yield dict(field=field, state=state[:k] + [value] + state[k + 1:])


def changed_records(calls):
    """Each of the three calls on each changed record."""
    for phase, done in ((0, 0), (0, 5), (1, 0), (1, 8), (2, 3), (4, 0)):
        calls.turn()
        calls.reach(PATTERN, phase, done)
        good = calls.record
        for changed in (*changes(good), *field_changes(good)):
            record = dict(good, **changed)
            if record != good:
                calls.each(record)


def exchanged_fields(calls):
    """Records with the other field's number: they go on in that field if all of the state is of its elements."""
    for phase, done in ((0, 0), (0, 5), (1, 3), (2, 3), (4, 0)):
        calls.reach(PATTERN, phase, done)
        other = dict(calls.record, field=3 - calls.field)
        for record in (other, dict(other, state=[x % P1 for x in other["state"]])):
            calls.each(record)
            calls.put(record)
            if oracle.sound(record):
                calls.follow()


def other_places(calls):
    """Every place of a pattern, and places that it has not, in records that are right but for that."""
    calls.start(PATTERN)
    opened = dict(calls.record, state=calls.state())
    count = opened["count"]
    for phase, word in enumerate(opened["words"][:count]):
        length = word % ABSORB
        for done in range(length):
            calls.put(calls.placed(opened, phase, done))
            calls.step(word, length - done)
        for done in (length, length + 1, length + 8):
            calls.each(calls.placed(opened, phase, done))
    for phase, done in ((count, 1), (count, 8), (count + 1, 0), (count + 1, 1)):
        calls.each(calls.placed(opened, phase, done))
        calls.each(dict(calls.placed(opened, phase, done), squeeze_at=8))


def changed_counts(calls):
    """A pattern of 64 words, which leaves none unused, with other counts."""
    calls.reach([ABSORB + 1, 1] * 32, 1, 0)
    good = calls.record
    for count in (0, 2, 62, 63, 65, 66, 128, LARGEST):
        calls.put(dict(good, count=count))
        calls.squeeze(buffer(1))
        calls.put(dict(good, count=count, phase=count))
        calls.finish()
    calls.put(good)
    calls.follow()


def empty_calls(calls):
    """Calls of length 0 on open, closed and unsound records, at the start, inside a phase, between two and after the last."""
    for phase, done in ((0, 0), (0, 8), (1, 0), (1, 3), (2, 0), (2, 7), (3, 2), (4, 0)):
        calls.turn()
        calls.reach(PATTERN, phase, done)
        good = calls.record
        for changed in (dict(), dict(status=2), dict(absorb_at=9), dict(field=0), dict(form=0)):
            if changed:
                calls.put(dict(good, **changed))
            calls.absorb([])
            calls.squeeze([])
        calls.put(good)
        calls.follow()
        calls.absorb([])
        calls.squeeze([])


def out_of_pattern(calls):
    """Calls of the wrong kind, past a phase's end and after the last phase, then one that tells what is left."""
    merged = [ABSORB + 3, ABSORB + 3, 3, 3]
    for phase, done in ((0, 0), (0, 4), (0, 5), (1, 0), (1, 4), (1, 5), (2, 0)):
        calls.turn()
        calls.reach(merged, phase, done)
        good = calls.record
        # sizes that fit a declared word, the merged word, what is left of it, and none
        for size in (1, 2, 3, 4, 6, 7):
            for call, lent in ((calls.absorb, elements(size, calls.prime())), (calls.squeeze, buffer(size))):
                calls.put(good)
                call(lent)
                calls.finish()
        # an element of p or more in a call that is out of pattern too, or on a closed or an unsound record
        calls.put(good)
        large = calls.prime()
        calls.absorb([large] * 7)
        calls.absorb([large])
        for changed in (dict(permutations=9), dict(field=0), dict(field=3), dict(field=ABSORB), dict(form=3)):
            calls.put(dict(good, **changed))
            calls.absorb([large])
            calls.absorb([large] * 7)
    # a call that reaches over the phase between
    calls.start([ABSORB + 2, 1, ABSORB + 2, 1])
    calls.absorb(elements(4, calls.prime()))
    # FINISH between phases, inside one and with one element missing
    for phase, done in ((0, 11), (1, 0), (1, 9), (2, 0), (3, 0), (3, 2)):
        calls.turn()
        calls.reach(PATTERN, phase, done)
        calls.finish()
        calls.squeeze(buffer(1))


def exchanged_kinds(calls):
    """Words that alternate from SQUEEZE, with the count and the positions that the rule gives for them."""
    calls.start(PATTERN)
    count, words = calls.record["count"], calls.record["words"]
    exchanged = dict(calls.record, words=[word ^ ABSORB for word in words[:count]] + words[count:])
    for phase, done in ((0, 0), (0, 5), (1, 3), (count, 0)):
        calls.each(calls.placed(exchanged, phase, done))


def forks(calls):
    """A copied record goes on by itself."""
    calls.reach(PATTERN, 2, 3)
    copy = calls.record
    calls.absorb([1] * 5)
    calls.follow()
    for last in (1, 2):
        calls.put(copy)
        calls.absorb([1] * 4 + [last])
        calls.follow()


def cases():
    calls = Calls()
    for part in (document_examples, large_elements, samples, shapes, other_places, changed_counts, forks, exchanged_kinds, exchanged_fields):
        for calls.field in (1, 2):
            part(calls)
    # these open sessions of both fields themselves
    for part in (random_sessions, refused_starts, unknown_fields, unknown_forms, changed_records, absorbing_ends, long_phases, empty_calls, out_of_pattern):
        part(calls)


def answers():
    record = oracle.wiped()
    for line in sys.stdin:
        kind, *lists = line.rstrip("\n").split(" ")
        before = parts(record)
        if kind == "t":
            head, record, left = [], record_of(lists), []
        else:
            number, record, *left = answer(record, kind, *lists)
            head = [number]
        print(kind, *head, *("=" if new == old else new for old, new in zip(before, parts(record))), *map(hexadecimal, left))


if sys.argv[1:] == ["cases"]:
    cases()
elif sys.argv[1:] == ["answers"]:
    answers()
else:
    sys.exit(__doc__)
