#!/usr/bin/env python3
"""Draws a session: its state after each call, and the permutations between.

  cargo run --example states | docs/session_picture.py > docs/session.svg

A line of input is what the example `states` prints after a call. Nothing is computed here but where things stand.
"""
import re
import sys

LINE = re.compile(r"(\w+) ?(\d*); phase (\d+), (\d+) done; positions (\d+) (\d+); permutations (\d+); state \[([\d, ]+)\]")
RATE, WIDTH = 8, 24
CELL, COLUMN, GAP, LEFT, TOP = 17, 84, 56, 74, 92
ABSORBED, SQUEEZED, TAG, PLAIN = "#9ec5fe", "#ffd08a", "#a8e0b0", "#ffffff"
# a shade for the elements that so many permutations have mixed
MIXED = [PLAIN, "#eeeeee", "#dedede", "#cecece"]


class State:
    def __init__(self, line):
        match = LINE.fullmatch(line.strip())
        self.call, length, *numbers = match.groups()[:7]
        self.length = int(length or 0)
        self.phase, self.done, self.absorb, self.squeeze, self.permutations = map(int, numbers)
        self.elements = [int(x) for x in match[8].split(", ")]

    def colour(self, k):
        """What the call did to element k, or else how mixed it is."""
        end = {"ABSORB": self.absorb, "SQUEEZE": self.squeeze}.get(self.call, 0)
        if end - self.length <= k < end:
            return ABSORBED if self.call == "ABSORB" else SQUEEZED
        if self.permutations == 0 and RATE <= k < 2 * RATE:
            return TAG
        return MIXED[self.permutations]


def text(x, y, words, size=11, anchor="middle", weight="normal"):
    return f'<text x="{x}" y="{y}" font-size="{size}" text-anchor="{anchor}" font-weight="{weight}">{words}</text>'


def column(state, x):
    middle = x + COLUMN // 2
    title = f"{state.call} {state.length}" if state.length else state.call
    yield text(middle, TOP - 48, title, 12, weight="bold")
    yield text(middle, TOP - 33, f"phase {state.phase}, done {state.done}", 10)
    yield text(middle, TOP - 20, f"positions {state.absorb}, {state.squeeze}", 10)
    yield text(middle, TOP - 7, f"permutations {state.permutations}", 10)
    for k, element in enumerate(state.elements):
        y = TOP + CELL * k + (6 if k >= RATE else 0)
        yield f'<rect x="{x}" y="{y}" width="{COLUMN}" height="{CELL}" fill="{state.colour(k)}" stroke="#666666" stroke-width="0.7"/>'
        yield text(x + COLUMN - 5, y + 13, element, 11, "end")


def arrow(x, permutes):
    """From one column to the next, with a box for the permutation that lies between."""
    y = TOP + CELL * WIDTH // 2
    yield f'<line x1="{x + 3}" y1="{y}" x2="{x + GAP - 8}" y2="{y}" stroke="#333333"/>'
    yield f'<path d="M{x + GAP - 9} {y - 4} l7 4 l-7 4 z" fill="#333333"/>'
    if permutes:
        yield f'<rect x="{x + 9}" y="{TOP}" width="30" height="{CELL * WIDTH + 6}" rx="6" fill="#f4e3f7" stroke="#8a4f99"/>'
        yield f'<text x="{x + 28}" y="{y}" font-size="12" text-anchor="middle" transform="rotate(-90 {x + 28} {y})">permutation</text>'


def legend(y):
    x = LEFT
    for colour, words in ((TAG, "tag elements"), (ABSORBED, "absorbed into by this call"), (SQUEEZED, "squeezed from by this call"),
                          (MIXED[2], "mixed by permutations")):
        yield f'<rect x="{x}" y="{y}" width="14" height="14" fill="{colour}" stroke="#666666" stroke-width="0.7"/>'
        yield text(x + 20, y + 11, words, 11, "start")
        x += 40 + 7 * len(words)


def picture(states):
    width = LEFT + len(states) * COLUMN + (len(states) - 1) * GAP + 16
    height = TOP + CELL * WIDTH + 46
    yield f'<svg xmlns="http://www.w3.org/2000/svg" viewBox="0 0 {width} {height}" width="{width}" height="{height}" font-family="sans-serif">'
    yield f'<rect width="{width}" height="{height}" fill="{PLAIN}"/>'
    yield text(LEFT, 20, "One session: the 24 elements of the state after each call", 14, "start", "bold")
    for k in range(WIDTH):
        yield text(LEFT - 6, TOP + CELL * k + (6 if k >= RATE else 0) + 13, k, 10, "end")
    for words, first in (("outer", 0), ("inner", RATE)):
        yield text(8, TOP + CELL * first + (6 if first else 0) + 13, words, 11, "start")
    x = LEFT
    for before, state in zip([None] + states, states):
        if before:
            yield from arrow(x, state.permutations > before.permutations)
            x += GAP
        yield from column(state, x)
        x += COLUMN
    yield from legend(height - 24)
    yield "</svg>"


if __name__ == "__main__":
    print("\n".join(picture([State(line) for line in sys.stdin])))
