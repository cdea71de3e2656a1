#!/usr/bin/env python3
"""Gives the operator of choice a name of its own, once, after snake_names.py: `if◌then◌else◌` becomes `when◌then◌else◌`.

usage: tools/choice_name.py       at the top of the repository

Rattle's library has an operator of the first name, which unfolds everywhere; this one stays folded, so that proofs split it by its laws.
The word changes in .antt files, in clauses of .rt files and in must-fail edits; in comments only between backticks.
"""
import re

import snake_names

WORD = re.compile(r"(?<![\w'◌\-])if(?![\w'◌\-])")
NAME, NEW = "if◌then◌else◌", "when◌then◌else◌"


def chosen(text):
    return WORD.sub("when", text).replace(NAME, NEW)


def comment(text):
    return re.sub(r"`[^`\n]*`", lambda m: m.group(0).replace(NAME, NEW), text)


def antt(text):
    out = []
    for line in text.split("\n"):
        cut = line.find("--")
        while cut > 0 and line[cut - 1] not in " \t":
            cut = line.find("--", cut + 1)
        code, rest = (line, "") if cut < 0 else (line[:cut], line[cut:])
        out.append(chosen(code) + comment(rest))
    return "\n".join(out)


def rust(text):
    out, depth = [], 0
    for line in text.split("\n"):
        if line.lstrip().startswith("//"):
            out.append(comment(line))
            continue
        if depth > 0 or re.match(r"\s*(?:pub )?(ghost |requires|ensures)", line):
            depth += line.count("{") - line.count("}")
            line = chosen(line)
        out.append(line)
    return "\n".join(out)


def edit(text):
    out, file = [], ""
    for line in text.split("\n"):
        if line.startswith("file: "):
            file = line[6:]
        clause = file.endswith(".antt") or NAME in line or re.search(r"\bthen\b", line)
        out.append(chosen(line) if line.startswith(("old:", "new:")) and clause else line)
    return "\n".join(out)


def main():
    for kind, turn in ((".antt", antt), (".rt", rust), (".edit", edit)):
        for f in list(snake_names.files(kind)):
            text = snake_names.read(f)
            new = turn(text)
            if new != text:
                with open(f, "w", encoding="utf-8") as h:
                    h.write(new)


if __name__ == "__main__":
    main()
