#!/usr/bin/env python3
"""Whether the header and Rust's declarations name the parameters of each function as the library's source does, in its order.

A list of the source is a pointer and a length here: the list's name; then `length`, or with several lists, and of words everywhere, `NAME_length`.
Two lengths that are exchanged have one type, so no compiler sees it. Also whether the version in the name of `tuilarder_layout_VERSION` is the one
that it answers, and the guide's; and whether the header has a figure for the stack of each function, which the test of these uses.
"""
import re
import sys
from pathlib import Path

ROOT = Path(__file__).resolve().parents[3]
SOURCE, HEADER, RUST = "crates/tuilarder/src/lib.rt", "bindings/c/tuilarder.h", "bindings/rust/src/ffi.rs"
GUIDE, STACK = "docs/GUIDE.md", "bindings/c/tests/stack.c"


def expected(parameters):
    lists = re.findall(r"(\w+): &(?:mut )?\[\w+\]", parameters)
    for name in re.findall(r"(\w+): ", parameters):
        yield name
        if name in lists:
            yield f"{name}_length" if len(lists) > 1 or name == "words" else "length"


def source():
    exports = re.findall(r'pub extern "C" fn (\w+)\(([^)]*)\)', (ROOT / SOURCE).read_text())
    return {function: [*expected(parameters)] for function, parameters in exports}


def header():
    declarations = re.findall(r"^\w+ (tuilarder_\w+)\(([^;]*)\);", (ROOT / HEADER).read_text(), re.MULTILINE)
    return {function: re.findall(r"(\w+)(?:\[\w+\])?(?:,|$)", parameters.replace("void", "")) for function, parameters in declarations}


def rust():
    declarations = re.findall(r"pub fn (\w+)\(([^)]*)\)", (ROOT / RUST).read_text())
    return {function: re.findall(r"(\w+): ", re.sub(r"len: ", "length: ", parameters)) for function, parameters in declarations}


def unequal_parameters():
    wanted = source()
    for path, declared in ((HEADER, header()), (RUST, rust())):
        for function in sorted(wanted.keys() | declared.keys()):
            names, names_wanted = declared.get(function), wanted.get(function)
            if names != names_wanted:
                yield f"{path}: {function} has parameters {names}, and in {SOURCE} {names_wanted}"


def unequal_versions():
    text = (ROOT / SOURCE).read_text()
    named, answered = re.findall(r"fn tuilarder_layout_(\d+)\(", text), re.findall(r"const VERSION: u64 = (\d+);", text)
    if len(named) != 1 or named != answered:
        yield f"{SOURCE}: the version is {named} in a function's name, and {answered} in what it answers"
    shown = sorted(set(re.findall(r"tuilarder_layout_(\d+)", (ROOT / GUIDE).read_text())))
    if shown != answered:
        yield f"{GUIDE}: the version is {shown}, and in {SOURCE} {answered}"


def unmeasured():
    for function in source():
        figure = function.upper().replace("TUILARDER_", "TUILARDER_STACK_")
        for path in (HEADER, STACK):
            if len(re.findall(rf"\b{figure}\b", (ROOT / path).read_text())) != 1:
                yield f"{path}: {figure} does not stand there once"


if __name__ == "__main__":
    found = [*unequal_parameters(), *unequal_versions(), *unmeasured()]
    print(*found, sep="\n", end="\n" * bool(found))
    sys.exit(bool(found))
