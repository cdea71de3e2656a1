#!/usr/bin/env python3
"""The tables of the fast permutation, for each field: the program's, as constants of Rattle, and the definitions', as lists.

  tests/permutation_tables.py write
  tests/permutation_tables.py test

`write` writes crates/baby_bear_tables and crates/koala_bear_tables, src/tables.rt and specs/Tables.antt; `test` fails where a file of the tree is
another one, or where the permutation by these tables is not that of the second implementation (tests/oracle), whose constants and inverses the
tables are made of. That the tables are right is proved, and not taken from here: poseidon_rounds/specs/Tests.antt has the rules.

The word is 2^32, and R is the word modulo p; a power divides R out once for each of its products, and so does each product with a table. With n
partial rounds and a power k:
- MATRIX: the matrix times R^k, in blocks of 12 rows and columns. The block of the first rows and last columns is also that of the last rows and first
  columns; the table has the first and the last block, each less this one, and then this one. Each is by pairs of diagonals: entry (i, i + d) and entry
  (i, i + d + 6), counted round, side by side.
- PRE_SPARSE: the matrix before the partial rounds, times R^k: the first row is that of the matrix, the others (R N)^n times it, and times R, where N is
  the matrix without its first row and column. By pairs of diagonals: entry (i, i + d) and entry (i, i + d + 12).
- SPARSE: pairs of a column's entry and a row's, 24 to a round. Pair row 0 has no column and the row of the first partial round; pair row s + 1 the
  column of round s and the row of the next. Each has a 0 for element 0.
- FIRST_CONSTANTS: what is added to element 0 in each partial round, times R.
- ADDENDS: 11 rows of 24. The constants of the first four rounds; what is added before the partial rounds and behind them, times R; the constants of
  the last four rounds; zeros.
- COPIES: p and -1/p modulo the word in turn, four times, then 2^48 modulo p; 24 copies of each.
"""
import random
import sys

from second_implementation import oracle
from tree import read, report, write

CRATES = {1: "baby_bear_tables", 2: "koala_bear_tables"}
NAMES = {1: "babyBear", 2: "koalaBear"}
WORD = 2 ** 32


def times(rows, vector, p):
    return [sum(a * b for a, b in zip(row, vector)) % p for row in rows]


def inverse(rows, p):
    size = len(rows)
    work = [list(row) + [int(i == j) for j in range(size)] for i, row in enumerate(rows)]
    for c in range(size):
        pivot = next(r for r in range(c, size) if work[r][c])
        work[c], work[pivot] = work[pivot], work[c]
        scale = pow(work[c][c], -1, p)
        work[c] = [x * scale % p for x in work[c]]
        for r in range(size):
            if r != c:
                factor = work[r][c]
                work[r] = [(x - factor * y) % p for x, y in zip(work[r], work[c])]
    return [row[size:] for row in work]


def diagonals(rows, p):
    size = len(rows)
    return [rows[i][(i + d + far) % size] % p for d in range(size // 2) for i in range(size) for far in (0, size // 2)]


def blocks(rows, p):
    """The first and the last block of 12 rows less the one that they share, and that one."""
    shared = [row[12:] for row in rows[:12]]
    less = lambda block: [[x - y for x, y in zip(*both)] for both in zip(block, shared)]
    return diagonals(less([row[:12] for row in rows[:12]]), p) + diagonals(less([row[12:] for row in rows[12:]]), p) + diagonals(shared, p)


def numbers(field):
    """p, -1/p modulo the word, 2^48 modulo p, the word modulo p, and the matrix's first entry times R^k."""
    p, k = oracle.PRIME[field], oracle.POWER[field]
    return p, -pow(p, -1, WORD) % WORD, 2 ** 48 % p, WORD % p, oracle.inverses(field)[0] * pow(WORD, k, p) % p


def tables(field):
    p, k, n = oracle.PRIME[field], oracle.POWER[field], oracle.PARTIAL[field]
    constants, inverses = oracle.found(field), oracle.inverses(field)
    power = lambda e: pow(WORD, e, p)
    matrix = [[inverses[i + j] for j in range(24)] for i in range(24)]
    lower = [row[1:] for row in matrix[1:]]
    back = inverse(lower, p)
    # column s is N^(n - 1 - s) times the matrix's, row s the matrix's times N^-(n - s); N is symmetric
    columns, rows = [[row[0] for row in matrix[1:]]], [times(back, matrix[0][1:], p)]
    for _ in range(n - 1):
        columns.insert(0, times(lower, columns[0], p))
        rows.insert(0, times(back, rows[0], p))
    under = matrix[1:]
    for _ in range(n):
        turned = list(zip(*under))
        under = [[sum(a * b for a, b in zip(row, column)) % p for column in turned] for row in lower]
    pre_sparse = [matrix[0]] + [[x * power(n + 1) for x in row] for row in under]
    columns = [[0] * 24] + [[0] + [x * power(k - 1 + n - s) % p for x in column] for s, column in enumerate(columns)]
    rows = [[0] + [x * power(1 - (n - s)) % p for x in row] for s, row in enumerate(rows)] + [[0] * 24]
    sparse = [x for column, row in zip(columns, rows) for pair in zip(column, row) for x in pair]
    first, running = [], [0] * 23
    for s in range(n):
        with_constants = [a + b for a, b in zip(running, constants[24 * (4 + s) + 1:24 * (5 + s)])]
        following = constants[24 * (5 + s)] if s + 1 < n else 0
        first.append((sum(a * b for a, b in zip(matrix[0][1:], with_constants)) + following) * WORD % p)
        running = times(lower, with_constants, p)
    addends = constants[:96] + [constants[96] * WORD % p] + [0] * 24 + [x * WORD % p for x in running] + constants[24 * (4 + n):] + [0] * 24
    p, q, r, _, _ = numbers(field)
    return {
        "MATRIX": ("u32", blocks([[x * power(k) for x in row] for row in matrix], p)),
        "PRE_SPARSE": ("u32", diagonals([[x * power(k) for x in row] for row in pre_sparse], p)),
        "SPARSE": ("u32", sparse + [0] * (1152 - len(sparse))),
        "FIRST_CONSTANTS": ("u32", first + [0] * (24 - len(first))),
        "ADDENDS": ("u32", addends),
        "COPIES": ("u64", [x for number in 4 * [p, q] + [r] for x in 24 * [number]]),
    }


def permuted(field, state):
    """The permutation by the tables, as the program does it, with every bound asserted."""
    p, q, r, word, first_entry = numbers(field)
    table = {name: entries for name, (_, entries) in tables(field).items()}

    def reduced(a):
        a += a % WORD * q % WORD * p
        assert a < 2 ** 64
        return a // WORD

    def folded(a):
        assert a < 2 ** 64
        return a % 2 ** 48 + a // 2 ** 48 * r

    def raised(x):
        assert x < WORD
        square = reduced(folded(x * x))
        if oracle.POWER[field] == 3:
            return reduced(folded(square * x))
        return reduced(folded(reduced(square * x) * reduced(square * square)))

    def row_parts(entries, x, i):
        """Row i of a table by pairs of diagonals times x: the low and the high parts of sums of four products."""
        size, low, high = len(x), 0, 0
        for d in range(0, size // 2, 2):
            four = sum(entries[2 * size * (d + e) + 2 * i + far] * x[(i + d + e + size // 2 * far) % size] for e in (0, 1) for far in (0, 1))
            assert four < 2 ** 64
            low, high = low + four % 2 ** 48, high + four // 2 ** 48
        return low, high

    def powers(state, at):
        return [raised(a + c) for a, c in zip(state, table["ADDENDS"][at:])]

    def lowered(a):
        a -= a // 2 ** 31 * p
        assert 0 <= a < 2 ** 31
        return a

    def full_round(state, at):
        x, matrix = powers(state, at), table["MATRIX"]
        sums = [lowered(a + b) for a, b in zip(x[:12], x[12:])]
        out = []
        for block, half in (matrix[:144], x[:12]), (matrix[144:288], x[12:]):
            for i in range(12):
                (low, high), (shared_low, shared_high) = row_parts(block, half, i), row_parts(matrix[288:], sums, i)
                out.append(reduced(low + shared_low + (high + shared_high) * r))
        return out

    for at in (0, 24, 48):
        state = full_round(state, at)
    parts = [row_parts(table["PRE_SPARSE"], powers(state, 72), i) for i in range(24)]
    state = [reduced(low + high * r + c) for (low, high), c in zip(parts, table["ADDENDS"][96:])]
    first, rest = state[0], [reduced(a) for a in state]
    for s in range(oracle.PARTIAL[field]):
        row = sum(a * b for a, b in zip(table["SPARSE"][48 * s + 1:48 * s + 48:2], rest))
        y = raised(first)
        first = reduced(folded(y * first_entry) + row % p + table["FIRST_CONSTANTS"][s])
        rest = [reduced(a * y + b) for a, b in zip(table["SPARSE"][48 * s + 48:48 * s + 96:2], rest)]
    state = [reduced(folded(a * word + c)) for a, c in zip([first] + rest[1:], table["ADDENDS"][120:])]
    for at in (144, 168, 192, 216):
        state = full_round(state, at)
    return [a - p if p <= a else a for a in state]


WIDTH = 99
ABOUT = {
    "MATRIX": "the matrix in three blocks of 12 rows, each by pairs of diagonals",
    "PRE_SPARSE": "the matrix before the partial rounds, by pairs of diagonals",
    "SPARSE": "columns and rows of the sparse matrices, in pairs",
    "FIRST_CONSTANTS": "what is added to element 0 in each partial round",
    "ADDENDS": "what full rounds add, and what is added before and behind the partial rounds: 11 rows",
    "COPIES": "24 copies of each number that a reduction takes",
}


def filled(entries):
    """Lines of entries, each as long as the layout of code lets it be."""
    lines = ["   "]
    for x in entries:
        if len(lines[-1]) + len(f" {x},") > WIDTH:
            lines.append("   ")
        lines[-1] += f" {x},"
    return lines


def program(field):
    lines = ["// The tables of the fast permutation. tests/permutation_tables.py writes this file."]
    for name, (kind, entries) in tables(field).items():
        about = ABOUT[name]
        lines += ["", f"// {about[0].upper()}{about[1:]}.", f"pub(crate) const {name}: [{kind}; {len(entries)}] = ["]
        lines += filled(entries) + ["];"]
    return "\n".join(lines) + "\n"


def definitions(field):
    lines = ["-- The tables of the fast permutation. tests/permutation_tables.py writes this file; proofs/Right.antt proves what the tables hold.",
             "use Rattle.std.specs.Prelude.{List, [], ◌∷◌, ℕ}"]
    for name, (_, entries) in tables(field).items():
        name, about = name.lower(), ABOUT[name]
        lines += ["", f"-- {about}", f"unfoldable pub {name} : List ℕ", f"{name} ="]
        lines += ["    " + " ∷ ".join(map(str, entries[at:at + 12])) + " ∷" for at in range(0, len(entries), 12)]
        lines[-1] += " []"
    return "\n".join(lines) + "\n"


def made():
    for field, crate in CRATES.items():
        yield f"crates/{crate}/src/tables.rt", program(field)
        yield f"crates/{crate}/specs/Tables.antt", definitions(field)


def differences():
    yield from (f"{path}: not what tests/permutation_tables.py writes" for path, text in made() if read(path) != text)
    chosen = random.Random(2130706433)
    for field, p in oracle.PRIME.items():
        for state in [0] * 24, [p - 1] * 24, [chosen.randrange(p) for _ in range(24)]:
            if (0, permuted(field, state)) != oracle.permute(state, field):
                yield f"field {field}: the permutation by the tables is another one, of {state}"


if __name__ == "__main__":
    if sys.argv[1:] == ["write"]:
        for path, text in made():
            write(path, text)
    elif sys.argv[1:] == ["test"]:
        report(list(differences()), "tables of the permutation: as the second implementation's constants make them")
    else:
        sys.exit(__doc__)
