#!/usr/bin/env python3
"""What README.md and docs/GUIDE.md show of the examples in bindings/rust/examples.

  tests/docs.py test
  tests/docs.py oracle
  tests/docs.py picture > docs/session.svg

`test` runs every example and compares what it prints with the documents, looks for the code that they show in the examples, and for what is C in its
tests, and draws docs/session.svg again. `oracle` does every example once more over the second implementation, in Python, written from the papers by other hands
(tests/oracle), and compares the documents with what that gives; so it does with the figures of the fields and of calls in the guide, the header and
the Rust crate's documentation. `picture` draws the picture from its states.
"""
import glob
import os
import re
import subprocess
import sys

from call_numbers import message
from second_implementation import oracle

ROOT = os.path.dirname(os.path.dirname(os.path.abspath(__file__)))
EXAMPLES = os.path.join(ROOT, "bindings", "rust", "examples")
ABSORB = 1 << 31
P = oracle.PRIME[1]


def read(*path):
    with open(os.path.join(ROOT, *path)) as file:
        return file.read()


def blocks(language):
    """The blocks of a language that the documents show."""
    for document in (["README.md"], ["docs", "GUIDE.md"]):
        yield from re.findall(rf"^```{language}\n(.*?)^```$", read(*document), re.DOTALL | re.MULTILINE)


def shown():
    """What the documents show of each example."""
    runs = (re.fullmatch(r"\$ cargo run -q --example (\w+)\n(.*)", block, re.DOTALL) for block in blocks("console"))
    return {run[1]: run[2] for run in runs if run}


# ---- the examples, run

def printed(example):
    command = ["cargo", "run", "-q", "--offline", "--locked", "--example", example]
    return subprocess.run(command, cwd=os.path.dirname(EXAMPLES), stdout=subprocess.PIPE, text=True, check=True).stdout


def drawn(states):
    script = os.path.join(ROOT, "docs", "session_picture.py")
    return subprocess.run([script], input=states, stdout=subprocess.PIPE, text=True, check=True).stdout


def test():
    examples = {os.path.basename(path)[:-3]: open(path).read() for path in glob.glob(os.path.join(EXAMPLES, "*.rs"))}
    outputs = shown()
    assert set(outputs) == set(examples) - {"states"}, set(outputs) ^ set(examples)
    for example, output in outputs.items():
        assert printed(example) == output, example
    for code in blocks("rust"):
        assert any(code in text for text in examples.values()), code
    for code in blocks("c"):
        assert code in read("bindings", "c", "tests", "session.c"), code
    assert drawn(printed("states")) == read("docs", "session.svg"), "docs/session.svg is not what docs/session_picture.py draws"
    print(f"docs: {len(outputs)} examples print what is shown")


# ---- the examples over the second implementation

class Session:
    """A session of the second implementation. A refused call raises its number."""

    def __init__(self, record):
        self.record = record

    def absorb(self, elements):
        number, self.record = oracle.absorb(self.record, elements)
        refuse(number)

    def squeeze(self, length):
        number, self.record, elements = oracle.squeeze(self.record, [0] * length)
        refuse(number)
        return elements

    def finish(self):
        number, self.record = oracle.finish(self.record)
        refuse(number)

    def __str__(self):
        record = self.record
        place = ", ".join(f"{name}: {record[name]}" for name in ("phase", "done", "permutations"))
        return f"Session {{ open: {'true' if record['status'] == 1 else 'false'}, {place}, .. }}"


class Refused(Exception):
    def __str__(self):
        return f"refused with {self.args[0]}: {message(self.args[0])}"


def refuse(number):
    if number:
        raise Refused(number)


def refusal(call, *arguments):
    try:
        call(*arguments)
    except Refused as refused:
        return refused


def words(calls):
    """Calls as "a3 s1"."""
    return [(ABSORB if call[0] == "a" else 0) + int(call[1:]) for call in calls.split()]


def declared_as(words):
    """Words as Rust shows their calls."""
    return ", ".join(f"{'Absorb' if word >= ABSORB else 'Squeeze'}({word % ABSORB})" for word in words)


def opened(out, calls, separator, field=1, form=1):
    out.append(f"tag string {oracle.tag_string(words(calls), separator, form).hex()}")
    number, record = oracle.start(words(calls), separator, field, form)
    refuse(number)
    return Session(record)


def whole(out, calls, separator, *messages, form=1):
    """All that a session squeezes that takes a message for each ABSORB."""
    session, messages, squeezed = opened(out, calls, separator, form=form), list(messages), []
    for call in calls.split():
        if call[0] == "a":
            session.absorb(messages.pop(0))
        else:
            squeezed += session.squeeze(int(call[1:]))
    session.finish()
    return squeezed


def element(out):
    session = opened(out, "a2 s1", b"element")
    session.absorb([P - 1])
    out += ["2013265920 is absorbed", f"2013265921 is {refusal(session.absorb, [P])}"]
    session.absorb([7])
    out.append(f"challenge {session.squeeze(1)[0]}")
    session.finish()


def fields(out):
    for field, name in ((1, "BabyBear"), (2, "KoalaBear")):
        separator, prime = b"field %d" % field, oracle.PRIME[field]
        session = opened([], "a3 s2", separator, field)
        out.append(f"tag string {bytes_of(oracle.tag_string(words('a3 s2'), separator))}")
        session.absorb([1, 2])
        out.append(f"{name}: {prime} is {refusal(session.absorb, [prime])}")
        session.absorb([prime - 1])
        out.append(f"{prime - 1} is absorbed, challenges {session.squeeze(2)}")
        session.finish()


def pattern(out):
    declared = words("a3 a3 s3")
    out += [f"{name} [{', '.join('%08x' % w for w in ws)}]" for name, ws in (("declared", declared), ("merged", oracle.merged(declared)))]
    for calls in ("s1", "a3 s0", "a16777217 s1"):
        out.append(f"[{declared_as(words(calls))}] is {Refused(oracle.start_number(words(calls), b''))}")


def bytes_of(string):
    return f"[{', '.join('%02x' % byte for byte in string)}]"


def tag_string(out):
    string = oracle.tag_string(words("a3 a3 s3"), b"AB")
    number, merged, count, separator = oracle.read_tag(string, 2)
    refuse(number)
    out += [f"tag string {bytes_of(string)}", f"read with length 2: Pattern [{declared_as(merged[:count])}], separator {bytes_of(separator)}",
            f"read with length 3: {Refused(oracle.read_tag(string, 3)[0])}"]
    string = oracle.tag_string(words("a3 a3 s3"), b"AB", 2)
    number, merged, count, separator = oracle.read_tag(string, 0, 2)
    refuse(number)
    out += [f"tag string of form 2 {bytes_of(string)}", f"read: Pattern [{declared_as(merged[:count])}], separator {bytes_of(separator)}"]


def long_phases(out):
    out.append(f"one call is {Refused(oracle.start_number(words('a8 s20000000'), b'long'))}")
    declared, firsts = words("a8 s10000000 s10000000"), []
    string = oracle.tag_string(declared, b"long")
    number, merged, count, separator = oracle.read_tag(string, 4)
    refuse(number)
    read = oracle.cut(merged[:count])
    out += [f"tag string {bytes_of(string)}", f"read Pattern [{declared_as(read)}]", f"tag string {bytes_of(oracle.tag_string(read, separator))}"]
    for calls in (declared, read):
        number, record = oracle.start(calls, separator)
        refuse(number)
        taken = Session(record)
        taken.absorb([*range(1, 9)])
        firsts.append(taken.squeeze(2))
    out.append(f"{firsts[0]} {firsts[1]}")
    number, merged, count, separator = oracle.read_tag(bytes.fromhex("ffffffff00000001"), 0)
    refuse(number)
    out.append(f"ffffffff 00000001 is {Refused(oracle.start_number(oracle.cut(merged[:count]), separator))}")


def last_message(out):
    def challenged(calls):
        taken = opened(out, calls, b"last")
        taken.absorb([11, 22, 33, 44])
        return taken, taken.squeeze(1)[0]
    for response in ([55, 66], [55, 67]):
        taken, challenge = challenged("a4 s1 a2")
        taken.absorb(response)
        taken.finish()
        out.append(f"response {response}, challenge {challenge}")
    short, _ = challenged("a4 s1 a2")
    short.absorb([55])
    out.append(f"response [55] is {refusal(short.finish)}")
    taken, _ = challenged("a4 s1 a2")
    taken.absorb([55, 66])
    out.append(f"SQUEEZE after it is {refusal(taken.squeeze, 1)}")
    without, challenge = challenged("a4 s1")
    without.finish()
    out.append(f"no response declared, challenge {challenge}")


def session(out):
    first = opened(out, "a3 s2", b"session")
    out.append(str(first))
    for elements in ([1, 2], [3]):
        first.absorb(elements)
        out.append(str(first))
    challenges = first.squeeze(2)
    out += [str(first), f"challenges {challenges}"]
    first.finish()
    second = opened(out, "a3 s2", b"session")
    second.absorb([1, 2])
    out.append(f"SQUEEZE before the third element is {refusal(second.squeeze, 2)}")
    out.append(f"and the record is wiped: ABSORB is {refusal(second.absorb, [3])}")


def block(out):
    for message in ([*range(1, 9)], [*range(1, 10)], [*range(1, 10), 0]):
        taken = opened(out, f"a{len(message)} s1", b"block")
        taken.absorb(message)
        count = taken.record["permutations"]
        out.append(f"{count} permutations to absorb {message}, challenge {taken.squeeze(1)[0]}")
        taken.finish()


def fixed_length_hash(out):
    for message in ([1, 2, 3, 4, 5], [1, 2, 3, 4, 6]):
        out.append(str(whole(out, "a5 s8", b"hash5", message)))


def merkle_node(out):
    def parent(left, right):
        return whole(out, "a8 a8 s8", b"node", left, right)
    a, b, c, d = ([k] * 8 for k in (1, 2, 3, 4))
    out.append(f"root {parent(parent(a, b), parent(c, d))}")


def commitment(out):
    out.append(str(whole(out, "a2 a2 a2 s8", b"3 pairs", [1, 2], [3, 4], [5, 6])))
    out.append(str(whole(out, "a3 a3 s8", b"2 trios", [1, 2, 3], [4, 5, 6])))


def sigma_protocol(out):
    for name, last in (("prover", 33), ("verifier", 33), ("third message changed", 34)):
        messages = [1, 2], [11, 12, 13, 14], [21, 22], [31, 32, last]
        out.append(f"{name} {whole(out, 'a2 a4 a2 s1 a3 s1 s1', b'sigma', *messages)}")


def stream(out):
    elements, plain = whole(out, "a8 a2 s5", b"cipher", [*range(1, 9)], [0, 1]), [100, 200, 300, 400, 500]
    out += [f"cipher {[(x + y) % P for x, y in zip(elements, plain)]}", f"plain {plain}"]
    random = whole(out, "a8 s3 a8 s2", b"random", [9] * 8, [10] * 8)
    out.append(f"random {random[:3]}, reseeded {random[3:]}")


def sealed_note(out):
    """Two blocks, of 3 and 2 elements; the buffer that is opened into holds sevens before."""
    def called(call, text, length):
        return call(1, [*range(1, 9)], [0] * 7 + [1], b"coin", [3, 2], text, [7] * length)
    def ciphers(*notes):
        return [called(oracle.seal, note, 13)[1][:5] for note in notes]
    opened(out, "a16 s3 a3 s2 a2 s8", b"coin")
    note = [10, 20, 30, 400, 500]
    number, sealed = called(oracle.seal, note, 13)
    refuse(number)
    out += [f"cipher {sealed[:5]}", f"mark {sealed[5:]}"]
    number, plain = called(oracle.open_note, sealed, 5)
    refuse(number)
    out.append(f"the sealed note opens to {plain}")
    number, plain = called(oracle.open_note, sealed[:4] + [(sealed[4] + 1) % P] + sealed[5:], 5)
    out.append(f"with an element changed it is {Refused(number)}; it gives {plain}")
    for other in ([10, 20, 30, 401, 502], [11, 20, 30, 400, 500]):
        first, second = ciphers(note, other)
        out.append(f"{note} and {other}: ciphers differ by {[(y - x) % P for x, y in zip(first, second)]}")


def shared_separator(out):
    for payment, refund in ((b"house", b"house"), (b"house/p", b"house/r")):
        out.append(f"payment {whole(out, 'a4 s1', payment, [5, 6, 7, 8])[0]}")
        out.append(f"refund {whole(out, 'a1 a3 s1', refund, [5], [6, 7, 8])[0]}")


def unequal_separators(out):
    for form in (1, 2):
        challenges = []
        for calls, separator in (("a1 s1", bytes.fromhex("8000000200000002")), ("a1 s1 a2 s2", b"")):
            taken = opened(out, calls, separator, form=form)
            taken.absorb([5])
            challenges += taken.squeeze(1)
        out.append(f"form {form}: challenges {challenges[0]} and {challenges[1]}")


def cut_differently(out):
    out.append(str(whole(out, "a6 s2", b"cut", [1, 2, 3, 4, 5, 6])))
    cut = opened(out, "a3 a3 s2", b"cut")
    for piece in ([1, 2], [], [3, 4, 5, 6]):
        cut.absorb(piece)
    out.append(f"{cut.squeeze(1)} {cut.squeeze(1)}")
    other = opened(out, "a3 s1 a3 s1", b"cut")
    other.absorb([1, 2, 3])
    out.append(str(other.squeeze(1)))
    past = opened(out, "a6 s2", b"cut")
    past.absorb([1, 2, 3, 4])
    out.append(f"a call past the sixth element is {refusal(past.absorb, [5, 6, 7])}")


def copied_record(out):
    original = opened(out, "a2 s1 a1 s1", b"fork")
    original.absorb([1, 2])
    copy = Session(oracle.copy(original.record))
    out.append(f"first challenges {original.squeeze(1)} {copy.squeeze(1)}")
    original.absorb([3])
    copy.absorb([4])
    out.append(f"second challenges {original.squeeze(1)} {copy.squeeze(1)}")
    original.finish()
    out.append(f"after the original's FINISH: {copy}")


def foreign_record(out):
    ours = opened(out, "a2 s1", b"ours").record
    out.append(f"absorb position 9 is {refusal(Session({**ours, 'absorb_at': 9}).absorb, [1, 2])}")
    for record in (ours, {**ours, "state": [0] * 24}):
        taken = Session(oracle.copy(record))
        taken.absorb([1, 2])
        out.append(f"challenge {taken.squeeze(1)[0]}")
        taken.finish()


def rows_shown():
    """The rows of owners that the guide shows; bytes and figures have to say the same."""
    for shown_bytes, *figures in re.findall(r"^\| `([0-9a-f ]+)` \| (\d+) to (\d+) \| (\d+) \|$", read("docs", "GUIDE.md"), re.MULTILINE):
        row, (first, last, line) = bytes.fromhex(shown_bytes), map(int, figures)
        assert row == first.to_bytes(4, "big") + last.to_bytes(4, "big") + line.to_bytes(2, "big"), shown_bytes
        yield row


def owners(out):
    rows = [*rows_shown()]
    table = b"".join(rows)
    for separator in (b"house/p", b"house/r", b"payment", b"\xff\xff\xff\xff/p1"):
        number, line = oracle.owner(table, separator)
        refuse(number)
        out.append(f"{str(separator)[2:-1]} is of product line {line}")
    out.append(f"pay is {Refused(oracle.owner(table, b'pay')[0])}")
    shared = rows[0] + bytes.fromhex("6fffffff") + rows[1][4:] + rows[2]
    for name, refused in (("a second row from 6fffffff", shared), ("the table without its last byte", table[:29]),
                          ("the table without its last row", table[:20]), ("the empty table", b"")):
        number, place = oracle.table_number(refused)
        out.append(f"{name} is {Refused(number)}: {'row ' * (number == 15)}{place}")


def two_rounds(out):
    out.append(f"tag string {bytes_of(oracle.tag_string(words('a4 s1 a2 s1'), b'two rounds', 2))}")
    first, second = whole([], "a4 s1 a2 s1", b"two rounds", [11, 22, 33, 44], [55, 66], form=2)
    out.append(f"challenges {first} and {second}")


def states(out):
    def kept(call):
        numbers = [session.record[name] for name in ("phase", "done", "absorb_at", "squeeze_at", "permutations")]
        place = "phase {}, {} done; positions {} {}; permutations {}".format(*numbers)
        out.append(f"{call}; {place}; state {session.record['state']}")
    session = opened([], "a10 s3 a2 s2", b"picture")
    kept("START")
    for elements in ([*range(1, 9)], [9, 10], 3, [11, 12], 2):
        if isinstance(elements, int):
            session.squeeze(elements)
            kept(f"SQUEEZE {elements}")
        else:
            session.absorb(elements)
            kept(f"ABSORB {len(elements)}")
    session.finish()


# ---- the figures of the fields and of calls

def of_both(text):
    """A text with each field's prime p, power, partial rounds and number of constants c; and with the most words, the longest call and separator, and each
    form's longest tag string."""
    ordinals = {3: "third", 7: "seventh"}
    figures = {f"{name}{field}": figure for field in (1, 2) for name, figure in (
        ("p", oracle.PRIME[field]), ("power", ordinals[oracle.POWER[field]]), ("partial", oracle.PARTIAL[field]), ("c", oracle.generate(field)[2]))}
    longest = {f"longest{form}": len(oracle.tag_string([ABSORB + 1, 1] * (oracle.MAX_WORDS // 2), bytes(oracle.MAX_SEPARATOR), form)) for form in (1, 2)}
    return text.format(separator=oracle.MAX_SEPARATOR, **longest, full=oracle.FULL // 2, largest=oracle.PRIME[1] - 1, words=oracle.MAX_WORDS, call=f"{oracle.MAX_CALL:,}", **figures)


# of each source what it says of them
FIGURES = {
    "docs/GUIDE.md": ("| | BabyBear | KoalaBear |", "| number in C, Rattle and records | 1 | 2 |", "| p | {p1} = 15 × 2^27 + 1 | {p2} = 2^31 − 2^24 + 1 |",
                      "| power in a round | {power1} | {power2} |", "| round constants | {c1} | {c2} |", "from 0 to {largest} for BabyBear",
                      "| rounds of a permutation: full, partial, full | {full}, {partial1}, {full} | {full}, {partial2}, {full} |",
                      "at most {words} calls, of at most {call} elements each", "One declared call has at most {call} elements.",
                      "calls of {call} elements and any rest", "A note has 1 to 31 blocks, of 1 to {call} elements each.",
                      "| the longest has | {longest1} bytes | {longest2} bytes |", "of any lengths, up to {separator} bytes"),
    "bindings/c/tuilarder.h": ("KoalaBear's. BabyBear has {c1}.", "{c1} of BabyBear, {c2} of KoalaBear", "TUILARDER_MAX_TAG_STRING {longest2}"),
    "bindings/rust/src/lib.rs": ("BabyBear (p = {p1}) or KoalaBear (p = {p2})", "{c1} of BabyBear, {c2} of KoalaBear"),
    "bindings/rust/src/field.rs": ("Number 1, with p = {p1}. BabyBear = 1,", "Number 2, with p = {p2}. KoalaBear = 2,"),
}


def compare_figures():
    assert (oracle.PRIME[1], oracle.PRIME[2]) == (15 * 2 ** 27 + 1, 2 ** 31 - 2 ** 24 + 1)
    for path, texts in FIGURES.items():
        # without what begins a line of a comment
        said = " ".join(re.sub(r"^ *(?:\* |///? |//! )", "", read(path), flags=re.MULTILINE).split())
        for text in texts:
            assert of_both(text) in said, f"{path} does not say: {of_both(text)}"


def compare():
    compare_figures()
    for example, output in shown().items():
        out = []
        globals()[example](out)
        assert "\n".join(out) + "\n" == output, example
    print(f"docs: {len(shown())} examples show what the second implementation gives")


def picture():
    out = []
    states(out)
    print(drawn("\n".join(out) + "\n"), end="")


if __name__ == "__main__":
    if sys.argv[1:] == ["test"]:
        test()
    elif sys.argv[1:] == ["oracle"]:
        compare()
    elif sys.argv[1:] == ["picture"]:
        picture()
    else:
        sys.exit(__doc__)
