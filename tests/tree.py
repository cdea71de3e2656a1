"""The files of this checkout, as the tests of documents read them; and trials of those tests on a tree with something wrong in it."""
import glob
import os
import re
import sys

ROOT = os.path.dirname(os.path.dirname(os.path.abspath(__file__)))
# what a trial reads in the place of a file, by path
CHANGED = {}


def read(path):
    if path in CHANGED:
        return CHANGED[path]
    with open(os.path.join(ROOT, path)) as file:
        return file.read()


def write(path, text):
    with open(os.path.join(ROOT, path), "w") as file:
        file.write(text)


def files(pattern):
    return sorted(os.path.relpath(path, ROOT) for path in glob.glob(os.path.join(ROOT, pattern), recursive=True))


def depends():
    """The crates, each with those that it depends on."""
    return {crate: libraries.split() for crate, libraries in re.findall(r"^(\w+)(?: staticlib)?:(.*)$", read("crates.txt"), re.MULTILINE)}


def crates():
    return list(depends())


def not_listed():
    """Lines of crates.txt that are not read as a crate, and folders of crates that no line is of: the tests would pass these over."""
    yield from (f"crates.txt: not read: {line}" for line in read("crates.txt").splitlines() if not re.fullmatch(r"(#.*)?|\w+( staticlib)?:( \w+)*", line))
    yield from (f"not in crates.txt: {crate}" for crate in sorted({path.split("/")[1] for path in files("crates/*/*")} - set(crates())))


def replaced(path, old, new):
    text = read(path)
    assert old in text, f"{path} has no {old!r}"
    return text.replace(old, new, 1)


def report(findings, good):
    """Ends the test with what was found, or says that all is good."""
    if findings:
        sys.exit("\n".join(findings))
    print(good)


def trials(name, findings, changes):
    """Fails where a test's findings do not name what was changed: of each trial a path, a text of it, another text, and what has to be
    found."""
    assert not findings(), "the tree is not as it has to be: run the test"
    for path, old, new, wanted in changes:
        CHANGED[path] = replaced(path, old, new)
        found = findings()
        del CHANGED[path]
        if not any(wanted in finding for finding in found):
            sys.exit(f"{name}: not noticed: {old!r} made {new!r} in {path}; found {found}")
    print(f"{name}: {len(changes)} wrong trees noticed")
