#!/usr/bin/env python3
"""When each crate was proved in the gate, and how many of its must-fail edits were tried, from what `rt ci` prints.

  rt ci | tests/gate_times.py FILE

Passes the lines on as they come, and writes a table to FILE. A row has the seconds since the start at which the crate was proved, or "kept" where an
earlier run on this machine proved the same, and how many of its edits were refused. `rt ci` prints no time of its own.
"""
import re
import sys
import time

PROVED, KEPT = re.compile(r"rt: (\w+) proved$"), re.compile(r"rt: (\w+) is kept: ")
REFUSED = re.compile(r"(?:rt: )?must-fail (\w+)/\S+: refused")


def table(rows, seconds):
    yield "| crate | proved after, s | edits refused |"
    yield "|---|---|---|"
    for crate, (proved, edits) in rows.items():
        yield f"| `{crate}` | {proved} | {edits or ''} |"
    yield f"| all | {seconds} | {sum(edits for _, edits in rows.values())} |"


def main(path):
    rows, start = {}, time.monotonic()
    for line in sys.stdin:
        print(line, end="", flush=True)
        seconds = round(time.monotonic() - start)
        proved, kept, refused = PROVED.match(line), KEPT.match(line), REFUSED.match(line)
        if proved or kept:
            rows.setdefault((proved or kept)[1], ["", 0])[0] = seconds if proved else "kept"
        if refused:
            rows.setdefault(refused[1], ["", 0])[1] += 1
    with open(path, "w") as file:
        file.write("\n".join(table(rows, round(time.monotonic() - start))) + "\n")


if __name__ == "__main__":
    if len(sys.argv) != 2:
        sys.exit(__doc__)
    main(sys.argv[1])
