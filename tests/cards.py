#!/usr/bin/env python3
"""What the program cards is run on, what it must print, and a test on random lines.

  tests/cards.py book > crates/cards/stdin
  tests/cards.py oracle < crates/cards/stdin > crates/cards/stdout
  tests/cards.py test crates/cards/out/cards [SEED [LINES]]
  tests/cards.py compare crates/cards/out/cards
  tests/cards.py answers < BOOK

The stored answers are those of the second implementation, in Python, written from document 01 by other hands (tests/oracle). `test` does
not ask it: it has the papers' rule once more, as `answer` below, and compares the program with it on mutated cards; then on books of
short lines, whose answers fill the program's output many times in a piece, and on the stored book, cut into pieces of given sizes; then it
tries input and output that fail, a line of 64 MB with little memory, and docs/sample.cards with what the README says of it. `compare` gives
random lines to the program and to the second implementation. `answers` does the program's job by the rule of this file.
"""
import os
import random
import re
import resource
import socket
import subprocess
import sys
import threading

from second_implementation import oracle

ABSORB = 1 << 31
LONGEST = ABSORB - 1
LIMIT = 16777216


# ---- the rule of the papers

CARD = re.compile(rb"\(card \(domain(?: ((?:[0-9a-f]{2})+))?\) \(calls((?: \([as] (?:0|[1-9][0-9]*)\))*)\)\)", re.DOTALL)


def start_number(calls, separator):
    """1, 2, 19, 3 and 6 in this order, and the merged lengths; a call is its letter and its length."""
    merged = []
    for kind, length in calls:
        if merged and merged[-1][0] == kind:
            merged[-1] = (kind, merged[-1][1] + length)
        else:
            merged.append((kind, length))
    rows = {
        1: not 1 <= len(calls) <= 64,
        2: any(length == 0 for _, length in calls),
        19: any(length > LIMIT for _, length in calls),
        3: calls[:1] and calls[0][0] == b"s",
        6: len(separator) > 256,
    }
    return next((number for number, row in rows.items() if row), 0), merged


def answer(line):
    card = CARD.fullmatch(line)
    if len(line) > 2048 or not card:
        return b"(no 14)"
    calls = [(kind, int(length)) for kind, length in re.findall(rb"\(([as]) ([0-9]+)\)", card[2])]
    if any(length > LONGEST for _, length in calls):
        return b"(no 14)"
    separator = bytes.fromhex((card[1] or b"").decode())
    number, merged = start_number(calls, separator)
    if number:
        return b"(no %d)" % number
    words = b"".join((length + (ABSORB if kind == b"a" else 0)).to_bytes(4, "big") for kind, length in merged)
    count = sum(-(-length // 8) - (kind == b"a") for kind, length in merged)
    return b"(ok %s %d)" % ((words + separator).hex().encode(), count)


# ---- cards

def card(calls, separator=b""):
    domain = b" " + separator.hex().encode() if separator else b""
    return b"(card (domain%s) (calls%s))" % (domain, b"".join(b" (%c %d)" % (ord(kind), length) for kind, length in calls))


PAIR = [("a", 3), ("s", 3)]


def refused():
    """The papers' example of each number that a card can get, and cards that more than one number fits."""
    yield card([])
    yield card([("a", 3), ("s", 0)])
    yield card([("s", 1)])
    yield card([("a", 1)])
    yield card([("a", LONGEST), ("a", 1), ("s", 1)])
    yield card(PAIR, bytes(257))
    yield card([("s", 0)], bytes(300))
    yield card([("s", 1), ("a", LONGEST), ("a", LONGEST)], bytes(300))
    yield card([("a", LONGEST), ("a", 1), ("s", 1)], bytes(257))
    yield card([("s", LIMIT + 1), ("s", 0)])
    yield card([("s", LIMIT + 1)])
    yield card([("a", 1), ("a", LIMIT + 1)])


def limits():
    for count in (63, 64, 65, 66, 200):
        yield card([("as"[k % 2], k + 1) for k in range(count)])
        yield card([("a", 1)] * (count - 1) + [("s", 1)])
    for length in (255, 256, 257, 258, 500):
        yield card(PAIR, bytes(k % 256 for k in range(length)))
    for length in (0, 1, 7, 8, 9, 10, 99, 100, LIMIT - 1, LIMIT, LIMIT + 1, LONGEST - 1, LONGEST, LONGEST + 1, 10 * LONGEST, 2**32 - 1, 2**32, 2**32 + 3, 2**64 + 3, 10**40):
        yield card([("a", length), ("s", 1)])
        yield card([("a", 1), ("s", length)])
    yield card([("a", LIMIT - 1), ("a", 2), ("s", LIMIT)])
    yield card([("a", LIMIT)] * 63 + [("s", LIMIT)])
    # the longest answer: 1,039 bytes
    yield card([("as"[k % 2], LIMIT) for k in range(64)], bytes(range(256)))


def exact(length):
    """A card of so many bytes."""
    text = card([("a", 1), ("s", 1)])
    calls = (length - len(text)) // 6 - 2
    text = card([("a", 1)] * (calls + 1) + [("s", 1)])
    wider = length - len(text)
    assert 0 <= wider <= 20
    first, second = 10 ** min(wider, 9), 10 ** max(wider - 9, 0)
    return card([("a", first), ("a", second)] + [("a", 1)] * (calls - 1) + [("s", 1)])


def lengths():
    for length in (2047, 2048, 2049, 2050):
        assert len(exact(length)) == length
        yield exact(length)
        yield b" " * length
        yield card(PAIR, bytes(200)) + b")" * (length - len(card(PAIR, bytes(200))))
    yield b"(" * 70000
    yield card(PAIR)
    yield exact(2048) * 3
    yield card(PAIR)


def off_by_one_byte():
    """A card with each byte left out, doubled, and made another one."""
    text = card([("a", 10), ("s", 2)], b"\xa0\x9f")
    for k in range(len(text)):
        yield text[:k] + text[k + 1:]
        yield text[:k] + text[k:k + 1] + text[k:]
        for byte in (0, 9, 13, 32, 40, 41, 48, 49, 57, 65, 70, 97, 102, 103, 115, 127, 128, 255, text[k] ^ 32, (text[k] + 1) % 256):
            if byte != 10 and byte != text[k]:
                yield text[:k] + bytes([byte]) + text[k + 1:]
    for byte in range(256):
        if byte != 10:
            yield text + bytes([byte])
            yield bytes([byte]) + text


DOMAINS = (b"", b" ", b" 4", b" 41", b" 414", b" 4142", b"  4142", b" 4142 ", b" 41 42", b" AB", b" aB", b" Ab", b" ab", b" 0x41", b" g0",
           b"4142", b" 00", b" ff")
LENGTHS = (b"00", b"01", b"03", b"+3", b"-3", b"3 ", b" 3", b"", b"3.", b"3e1", b"0x3", b"0", b"3\0", b"\x0b3", b"2147483647", b"2147483648",
           b"02147483647")
LINES = (b"(card)", b"", b" ", b"()", b"card", b"(card (domain) (calls))", b"(card (domain) (calls ))", b"(card (domain) (calls)) ",
         b" (card (domain) (calls))", b"(card (domain)(calls (a 3) (s 3)))", b"(card  (domain) (calls (a 3) (s 3)))",
         b"(card (domain) (calls  (a 3) (s 3)))", b"(card (domain) (calls (a 3)  (s 3)))", b"(card (domain) (calls (a 3)(s 3)))",
         b"(card (domain) (calls (a  3) (s 3)))", b"(card (domain) (calls (a 3 ) (s 3)))", b"(card (domain) (calls (A 3) (s 3)))",
         b"(card (domain) (calls (b 3) (s 3)))", b"(card (domain) (calls (a3) (s 3)))", b"(card (calls (a 3) (s 3)) (domain))",
         b"(card (domain) (calls (a 3) (s 3))", b"(card (domain) (calls (a 3) (s 3))))", b"(CARD (domain) (calls (a 3) (s 3)))",
         b"(card (domain) (calls (a 3) (s 3)))\r", b"\0", b"\0" * 2048, b"\xff" * 2049,
         b"(card 2 (form 1) (field 1) (domain 4142) (phases (a 6) (s 3)))", b"\xef\xbb\xbf(card (domain) (calls (a 3) (s 3)))")


def spelled():
    for domain in DOMAINS:
        yield b"(card (domain" + domain + b") (calls (a 3) (s 3)))"
    for length in LENGTHS:
        yield b"(card (domain) (calls (a " + length + b") (s 3)))"
    yield from LINES


def good(source, count):
    for _ in range(count):
        calls = [(kind, source.choice([1, 2, 7, 8, 9, 16, source.randint(1, 300), source.randint(1, LIMIT)]))
                 for _ in range(source.randint(1, 4)) for kind in "as" for _ in range(source.randint(1, 3))]
        yield card(calls, source.randbytes(source.choice([0, 0, 1, 2, 8, 32, source.randint(0, 40)])))


def book():
    """Document 01's whole input, then the rest; the last line has no newline."""
    yield card([("a", 3), ("a", 3), ("s", 3)], b"AB")
    yield card([("s", 1)])
    yield card([("a", 0)])
    for lines in (refused(), limits(), lengths(), off_by_one_byte(), spelled(), good(random.Random(7), 60)):
        yield from lines


# ---- random lines

ALPHABET = b"()()  0123456789abcdefABCDEFagslmnordi\0\r\xff\x80+-_.xX"


def mutated(source, line):
    for _ in range(source.choice([0, 1, 1, 1, 2, 3])):
        k, n = source.randint(0, len(line)), source.choice([1, 1, 1, 2, 5])
        kind = source.randint(0, 4)
        if kind == 0:
            line = line[:k] + line[k + n:]
        elif kind == 1:
            line = line[:k] + bytes(source.choices(ALPHABET, k=n)) + line[k:]
        elif kind == 2:
            line = line[:k] + bytes(source.choices(ALPHABET, k=n)) + line[k + n:]
        elif kind == 3:
            line = line[:k] + line[max(0, k - 7):k] * source.choice([1, 1, 2, 70, 400]) + line[k:]
        else:
            line = re.sub(rb"[0-9]+", lambda m: source.choice([m[0], b"0", b"00", b"0" + m[0], b"16777216", b"16777217", b"2147483647", b"2147483648", m[0] + b"0"]), line)
    return line.replace(b"\n", b" ")


def random_lines(source, count):
    stock = list(refused()) + list(limits()) + list(lengths()) + list(spelled())
    for _ in range(count):
        if source.random() < 0.12:
            yield mutated(source, source.choice(stock))
        else:
            yield mutated(source, next(good(source, 1)))


def through(program, text, size=1 << 16):
    """What a program prints for an input that comes in pieces of a size: a message on such a socket is one read."""
    ours, theirs = socket.socketpair(socket.AF_UNIX, socket.SOCK_SEQPACKET)
    process = subprocess.Popen([program], stdin=theirs, stdout=subprocess.PIPE)
    theirs.close()

    def send():
        for at in range(0, len(text), size):
            ours.sendall(text[at:at + size])
        ours.close()

    sender = threading.Thread(target=send)
    sender.start()
    printed = process.stdout.read()
    sender.join()
    assert process.wait() == 0
    return printed


def random_cards(program, seed, count):
    source = random.Random(seed)
    lines = list(random_lines(source, count))
    for ending in (b"\n", b"", b"\n\n"):
        some = lines if ending == b"\n" else lines[:1000]
        printed = through(program, b"\n".join(some) + ending).split(b"\n")
        wanted = [answer(line) for line in some] + ([b"(no 14)"] if ending == b"\n\n" else []) + [b""]
        if ending == b"" and some[-1] == b"":
            wanted.pop(-2)
        for number, (line, got, want) in enumerate(zip(some + [b"", b""], printed, wanted), 1):
            if got != want:
                sys.exit(f"seed {seed}, line {number}: {line!r}\n  printed {got!r}\n  wanted  {want!r}")
        assert len(printed) == len(wanted), (seed, len(printed), len(wanted))
    assert through(program, b"") == b""
    assert through(program, b"\n") == b"(no 14)\n"
    numbers = {want.split(b" ")[0] + want.split(b" ")[1].rstrip(b")") if want.startswith(b"(no") else b"(ok" for want in map(answer, lines)}
    assert len(numbers) == 7, sorted(numbers)
    accepted = sum(answer(line).startswith(b"(ok") for line in lines)
    print(f"cards: {len(lines)} random lines agree (seed {seed}; {accepted} accepted; numbers 1 to 3, 6, 14 and 19 all reached)")


def pieces(program):
    """The same output, however the input is cut; and answers that are longer than their lines."""
    stored = b"\n".join(book())
    wanted = b"".join(answer(line) + b"\n" for line in stored.split(b"\n"))
    for size in (1, 2, 3, 47, 2047, 2048, 2049, 2050, 4096, 65535, 65536):
        assert through(program, stored, size) == wanted, size
    source = random.Random(5)
    short = source.choices([b"", b"", b"a", b"()", card(PAIR)], weights=[6, 6, 3, 2, 1], k=60000)
    wanted = b"".join(answer(line) + b"\n" for line in short)
    for size in (100, 65536):
        assert through(program, b"\n".join(short) + b"\n", size) == wanted, size


def failures(program):
    """A write that fails stops the program, and a read that fails ends it with no further answer."""
    with open("/dev/full", "wb") as full:
        process = subprocess.Popen([program], stdin=subprocess.PIPE, stdout=full, stderr=subprocess.PIPE)
        try:
            for _ in range(1000):
                process.stdin.write((card(PAIR) + b"\n") * 2000)
            sys.exit("cards: goes on though its output cannot be written")
        except BrokenPipeError:
            pass
        assert process.stderr.read() == b"cards: output could not be written\n"
        process.stderr.close()
        process.wait()
    folder = os.open("/", os.O_RDONLY)
    unread = subprocess.run([program], stdin=folder, capture_output=True)
    assert (unread.stdout, unread.stderr) == (b"", b"cards: input could not be read\n")


def long_line(program):
    """A line of 64 MB and a card behind it, in 16 MB of memory."""
    def little():
        resource.setrlimit(resource.RLIMIT_AS, (1 << 24, 1 << 24))

    text = card(PAIR) * (1 << 21) + b"\n" + card(PAIR)
    done = subprocess.run([program], input=text, stdout=subprocess.PIPE, preexec_fn=little, check=True)
    assert done.stdout == b"(no 14)\n(ok 8000000300000003 1)\n", done.stdout[:100]


def sample(program):
    """The README shows what the program prints for docs/sample.cards."""
    root = os.path.dirname(os.path.dirname(os.path.abspath(__file__)))
    with open(os.path.join(root, "docs", "sample.cards"), "rb") as book, open(os.path.join(root, "README.md")) as readme:
        printed = subprocess.run([program], stdin=book, stdout=subprocess.PIPE, check=True).stdout.decode()
        assert printed in readme.read(), printed


def compare(program):
    text = b"\n".join(random_lines(random.Random(2), 100000))
    printed = subprocess.run([program], input=text, stdout=subprocess.PIPE, check=True).stdout
    assert printed == oracle.answers(text, oracle.card_answer)
    assert printed == b"".join(answer(line) + b"\n" for line in text.split(b"\n"))
    print(f"cards: {text.count(10) + 1} random lines agree with the second implementation, and with the rule of this file")


if __name__ == "__main__":
    job, words = sys.argv[1], sys.argv[2:]
    if job == "book":
        sys.stdout.buffer.write(b"\n".join(book()))
    elif job == "oracle":
        sys.stdout.buffer.write(oracle.answers(sys.stdin.buffer.read(), oracle.card_answer))
    elif job == "test":
        pieces(words[0])
        failures(words[0])
        long_line(words[0])
        sample(words[0])
        random_cards(words[0], int(words[1]) if words[1:] else 1, int(words[2]) if words[2:] else 100000)
    elif job == "compare":
        compare(words[0])
    else:
        for line in sys.stdin.buffer:
            sys.stdout.buffer.write(answer(line.removesuffix(b"\n")) + b"\n")
