#!/usr/bin/env python3
"""A book of a million cards: the program, the same job in Python (tests/cards.py), and the program on all cores by GNU parallel, in turn.

  bench/cards.py crates/cards/out/cards

Medians of the rounds are printed; Python has one round.
"""
import os
import random
import statistics
import subprocess
import sys
import time

BOOK = "target/bench/book.cards"


def book(count):
    source = random.Random(1)
    for _ in range(count):
        separator = source.randbytes(source.choice([0, 2, 4, 8])).hex()
        calls = []
        for _ in range(source.randint(1, 2)):
            calls += ["(a %d)" % source.choice([1, 2, 3, 8, 16, source.randint(1, 200)]) for _ in range(source.randint(1, 2))]
            calls.append("(s %d)" % source.choice([1, 2, 4, 8, source.randint(1, 30)]))
        yield "(card (domain%s) (calls %s))\n" % (" " + separator if separator else "", " ".join(calls))


def seconds(command, output):
    with open(BOOK) as cards, open(output, "w") as answers:
        begin = time.perf_counter()
        subprocess.run(command, stdin=cards, stdout=answers, check=True)
        return time.perf_counter() - begin


def main(program):
    os.makedirs("target/bench", exist_ok=True)
    with open(BOOK, "w") as cards:
        cards.writelines(book(1000000))
    size = os.path.getsize(BOOK) / 1e6
    jobs = {
        "program": [program],
        "program, parallel --pipe": ["parallel", "--pipe", "--keep-order", "--block", "10M", program],
        "program, parallel --pipepart": ["parallel", "--pipepart", "-a", BOOK, "--keep-order", "--block", "-1", program],
    }
    times = {name: [] for name in jobs}
    python = seconds([sys.executable, "tests/cards.py", "answers"], "target/bench/python.answers")
    for _ in range(11):
        for number, (name, command) in enumerate(jobs.items()):
            times[name].append(seconds(command, f"target/bench/{number}.answers"))
            subprocess.run(["cmp", f"target/bench/{number}.answers", "target/bench/python.answers"], check=True)
    middle = {name: statistics.median(rounds) for name, rounds in times.items()}
    print(f"a book of a million cards, {size:.1f} MB")
    print(f"  Python                         {python:8.2f} s {size / python:8.1f} MB/s")
    for name, took in middle.items():
        print(f"  {name:30s} {took:8.2f} s {size / took:8.1f} MB/s  {python / took:6.1f} times Python's speed")


main(sys.argv[1])
