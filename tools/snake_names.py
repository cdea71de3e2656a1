#!/usr/bin/env python3
"""Brings the names of this repository's definitions and lemmas to snake case, after port.py and once.

usage: tools/snake_names.py [--list]      at the top of the repository

Names are those declared in specs/ and in lemma files of proofs/; types, modules and constructors keep theirs. They change in
.antt files, in `ghost use` lines and clauses of .rt files, in must-fail edits and, between backticks, in pages and comments.
Where two names fall together, the definition gets the plain name and the law about it `_law` behind it.
"""
import collections
import glob
import os
import re
import sys

DECLARED = re.compile(r"^\s*(?:(?:pub|abbrev|unfoldable)\s+)*([a-z][\w'\-]*)(?:\s+[({].*)?\s:(?:\s|$)")
TOKEN = re.compile(r"[A-Za-z_◌][\w'◌\-]*")
USE = re.compile(r"^\s*(?:pub )?use ([^\n{]+?)(?:\.\{([^}]*)\})?(?: as ([\w\-]+))?$", re.M)
# a field beside a definition that would get the same name
GIVEN = {"pre-sparse": "pre_sparse_diagonals"}


def snake(name):
    name = name.replace("-", "_")
    return re.sub(r"(?<=[a-z0-9'])([A-Z])", lambda m: "_" + m.group(1).lower(), name)


def files(kind):
    for folder in ("specs", "proofs", "src", "must-fail"):
        for f in sorted(glob.glob(f"crates/*/{folder}/**/*{kind}", recursive=True)):
            yield f


def read(path):
    with open(path, encoding="utf-8") as f:
        return f.read()


def collected():
    declared, library = collections.defaultdict(set), set()
    for f in files(".antt"):
        text = read(f)
        for m in USE.finditer(text):
            if not m.group(1).startswith("Rattle.") or m.group(1).startswith("Rattle.std"):
                library |= {n.strip() for n in (m.group(2) or "").split(",")}
        if f.endswith("/Proof.antt"):
            continue
        for line in text.split("\n"):
            m = DECLARED.match(line)
            if m and not line.lstrip().startswith(("--", "let ", "use ", "module ")):
                declared[m.group(1)].add(f)
    return declared, library


def mapping():
    declared, library = collected()
    together = collections.defaultdict(list)
    for name in declared:
        together[snake(name)].append(name)
    to, falls = {}, []
    for new, names in sorted(together.items()):
        def rank(n):
            return (n == n.lower(), not any("/specs/" in f and "/claims/" not in f for f in declared[n]), "-" in n)
        names.sort(key=rank)
        for i, name in enumerate(names):
            target = GIVEN.get(name, new if i == 0 else new + "_law")
            if i:
                falls.append((name, target, names[0]))
            if name in library:
                continue
            if target != name:
                to[name] = target
    for name, target in to.items():
        assert target not in declared or target in to, (name, target)
    return to, falls, library


def replaced(text, to):
    return TOKEN.sub(lambda m: to.get(m.group(0), m.group(0)), text)


def in_comment(text, to):
    return re.sub(r"`[^`\n]*`", lambda m: replaced(m.group(0), to), text)


def antt(path, text, to):
    scope = to
    walk = path.endswith("/Proof.antt")
    if walk:
        names = set()
        for m in USE.finditer(text):
            if m.group(1).startswith("Rattle.") and not m.group(1).startswith("Rattle.std"):
                names |= {n.strip() for n in (m.group(2) or "").split(",")}
        scope = {n: t for n, t in to.items() if n in names}
    out = []
    for line in text.split("\n"):
        cut = line.find("--")
        while cut > 0 and line[cut - 1] not in " \t":
            cut = line.find("--", cut + 1)
        code, comment = (line, "") if cut < 0 else (line[:cut], line[cut:])
        code = replaced(code, scope)
        if walk:
            code = re.sub(r"(?<=\.)[A-Za-z][\w'\-]*", lambda m: to.get(m.group(0), m.group(0)), code)
        out.append(code + in_comment(comment, to))
    return "\n".join(out)


def rust(text, to):
    out, clause = [], 0
    for line in text.split("\n"):
        stripped = line.lstrip()
        if stripped.startswith("//"):
            out.append(in_comment(line, to))
            continue
        starts = re.match(r"\s*(?:pub )?(ghost |requires|ensures)", line)
        if starts or clause > 0:
            line = replaced(line, to)
            clause += line.count("{") - line.count("}")
        out.append(line)
    return "\n".join(out)


def edit(text, to):
    out = []
    for line in text.split("\n"):
        out.append(replaced(line, to) if line.startswith(("old:", "new:")) else in_comment(line, to))
    return "\n".join(out)


def main():
    to, falls, library = mapping()
    if "--list" in sys.argv:
        for name, target, first in falls:
            print(f"together: {name} -> {target} (beside {first})")
        print(len(to), "names; library names left:", sorted(n for n in collected()[0] if n in library))
        return
    changed = 0
    pages = glob.glob("docs/*.md") + ["README.md"]
    for kind, turn in ((".antt", antt), (".rt", lambda p, t, m: rust(t, m)), (".edit", lambda p, t, m: edit(t, m))):
        for f in list(files(kind)):
            text = read(f)
            new = turn(f, text, to)
            if new != text:
                changed += 1
                with open(f, "w", encoding="utf-8") as h:
                    h.write(new)
    for f in pages:
        text = read(f)
        new = in_comment(text, to)
        if new != text:
            changed += 1
            with open(f, "w", encoding="utf-8") as h:
                h.write(new)
    print(len(to), "names,", changed, "files")


if __name__ == "__main__":
    main()
