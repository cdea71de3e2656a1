#!/usr/bin/env python3
"""Every stored file made again, in a temporary folder, and compared byte for byte with what is stored.

  tests/stored.py test [PATH ..]
  tests/stored.py commands

`test` makes the files named, or all; each from files that it made itself. It fails where one differs, where a program's stored input or output is
made by no command, and where docs/CLAIMS.md counts their cases, or the faults of tests/mutants.py, wrongly. When it makes all, it also compares
with the second implementation what documents show of the examples, and what the tests in C and Rust expect. `commands` prints the command that makes
each file.
"""
import os
import subprocess
import sys
import tempfile

from mutants import FAULTS, NONE
from tree import ROOT, files, read, report

# of each stored file: the command that prints it, and the stored file that it reads
STORED = {
    "crates/cards/stdin": ("tests/cards.py book", None),
    "crates/cards/stdout": ("tests/cards.py oracle", "crates/cards/stdin"),
    "crates/generator_check/stdout": ("tests/constants.py", None),
    "crates/hash_vectors/stdout": ("tests/digests.py", None),
    "crates/owner_vectors/stdin": ("tests/owners.py cases", None),
    "crates/owner_vectors/stdout": ("tests/owners.py answers", "crates/owner_vectors/stdin"),
    "crates/permutation_vectors/stdin": ("tests/permutation_states.py cases", None),
    "crates/permutation_vectors/stdout": ("tests/permutation_states.py answers", "crates/permutation_vectors/stdin"),
    "crates/seal_vectors/stdin": ("tests/seal.py cases", None),
    "crates/seal_vectors/stdout": ("tests/seal.py answers", "crates/seal_vectors/stdin"),
    "crates/session_vectors/stdin": ("tests/sessions.py cases", None),
    "crates/session_vectors/stdout": ("tests/sessions.py answers", "crates/session_vectors/stdin"),
    "crates/tag_vectors/stdin": ("tests/tags.py cases", None),
    "crates/tag_vectors/stdout": ("tests/tags.py answers", "crates/tag_vectors/stdin"),
    "docs/session.svg": ("tests/docs.py picture", None),
}
# what has expected values in its own text
OTHERS = ("tests/docs.py oracle", "tests/known_values.py test")


def made(path, folder):
    """The file in the folder, with what it is made from."""
    made_at = os.path.join(folder, path.replace("/", "_"))
    if not os.path.exists(made_at):
        command, source = STORED[path]
        with open(made(source, folder) if source else os.devnull, "rb") as cases, open(made_at, "wb") as output:
            subprocess.run(command.split(), cwd=ROOT, stdin=cases, stdout=output, check=True)
    return made_at


def contents(path):
    with open(path, "rb") as file:
        return file.read()


def differences(paths):
    with tempfile.TemporaryDirectory() as folder:
        for path in paths:
            if contents(made(path, folder)) != contents(os.path.join(ROOT, path)):
                yield f"{path}: not what `{STORED[path][0]}` prints"


def unknown():
    for path in files("crates/*/stdin") + files("crates/*/stdout"):
        if path not in STORED:
            yield f"{path}: no command makes it"


def counted():
    """What docs/CLAIMS.md says of the cases, and of the faults."""
    def lines(program, begin=""):
        return sum(line.startswith(begin) for line in read(f"crates/{program}/stdout").splitlines())
    cards, states, records = lines("cards"), lines("permutation_vectors"), lines("session_vectors", "t ")
    calls = lines("session_vectors") - records
    for text in (f"on {cards:,} stored lines that the second implementation answered ({lines('cards', '(ok')} accepted;",
                 f"`permutation_vectors`, on {states} states,",
                 "`tag_vectors`, on {} patterns, {} strings and {} digests,".format(*(lines("tag_vectors", kind) for kind in "wre")),
                 f"`session_vectors`, on {calls:,} calls, of which {lines('session_vectors', 's ')} are START "
                 f"({lines('session_vectors', 's 0')} accepted), and {records:,} records",
                 f"`owner_vectors`, on {lines('owner_vectors')} tables with a separator each ({lines('owner_vectors', 'c 0 ')} accepted)",
                 f"by hand: {len(FAULTS)} faults,", f"all but {len(NONE)} are noticed"):
        if text not in read("docs/CLAIMS.md"):
            yield f"docs/CLAIMS.md does not say: {text}"


def others():
    for command in OTHERS:
        if subprocess.run(command.split(), cwd=ROOT, stdout=subprocess.DEVNULL).returncode:
            yield f"{command}: failed"


def test(paths):
    found = [*unknown(), *counted(), *differences(paths or STORED)] + ([] if paths else [*others()])
    report(found, f"stored: {len(paths or STORED)} files are made again as they are")


if __name__ == "__main__":
    if sys.argv[1:2] == ["test"] and set(sys.argv[2:]) <= STORED.keys():
        test(sys.argv[2:])
    elif sys.argv[1:] == ["commands"]:
        for path, (command, source) in STORED.items():
            print(command, *(["<", source] if source else []), ">", path)
    else:
        sys.exit(__doc__)
