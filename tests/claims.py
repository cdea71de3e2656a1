#!/usr/bin/env python3
"""What the documents cite, and whether docs/CLAIMS.md is complete.

  tests/claims.py test
  tests/claims.py write
  tests/claims.py selftest
  tests/claims.py papers FOLDER

`write` writes what documents have from the tree itself: into docs/CLAIMS.md the table of what each contract rules out, by the line `of:` of every
must-fail edit, and how many lines there are to read; into README.md the closing line of the gate and how many libraries are under `cards`. `test` fails where a
document has not what `write` would write, where an edit names no contract, or one that is not in the tree, or changes a text that its file has not or
has twice, where a public function has no `ensures`, has a `requires` or a `ghost`, under which it might say nothing, or has fewer than two edits,
where the public functions whose contract is no equation, or one under a condition, are not those that docs/CLAIMS.md names, where a public constant
is not the figure of its row in docs/CLAIMS.md, or that row not what the papers and the definition say, where a definition is to be read and
docs/CLAIMS.md does not say what holds it fast, where docs/ARCHITECTURE.md lacks a crate or has it below one that it depends on, and where a name that a document cites is not in the tree. tests/public.py says what is public, and fails on
source that it does not read; tests/figures.py is about the constants. `selftest` puts such mistakes into the tree, in memory, and fails where `test`
would not notice one. `papers` prints the sentences of documents 00 and 01, in FOLDER, and of the requests of 02 that the library has, that
docs/CLAIMS.md does not quote.
"""
import difflib
import os
import re
import sys
from collections import namedtuple

import figures
from figures import CLAIMS, letters
from public import Unreadable, items
from second_implementation import LANDED
from tree import crates, depends, files, not_listed, read, report, trials, write

README, ARCHITECTURE = "README.md", "docs/ARCHITECTURE.md"
# these have names as they were before
BEFORE = {"docs/PORT.md", "docs/DESIGN-PASS.md", "docs/LOOK-BACK.md"}
DOCUMENTS = [README] + [path for path in files("docs/*.md") if path not in BEFORE]
RULED_OUT = "## What each public contract rules out"
READING, ALONE, HELD = "## What to read, in which order", "## Definitions that no contract cites", "## What holds definitions fast"
# a definition, a record or a type of cases, by its name
DEFINITION = r"^(?:unfoldable pub|abbrev pub|pub record|pub data) (\S+)"
NO_EQUATION = "## Public contracts that are no equation"
# words in docs/CLAIMS.md that name nothing in the tree
WORDS = {"requires", "ensures", "bool", "u32", "permutations", "axioms=", "native=nat,char,string", "logic-built=trusted",
         "libraries-built=trusted", "statements=trusted", "cpu=x86-64-v2", "os::c::rattle_errno", "rattle-kit-13f", "rt ci", "rt version", "tests/claims.py test", "tests/claims.py papers FOLDER",
         "tests/claims.py write", "of:", "libc::read", "libc::write", "memcpy", "memset", "target=x86_64-unknown-linux-gnu", "merge",
         "Pattern.antt", "specs/", "proofs/", "src/", "must-fail/"}
# what the table says before edits of a function, by the folders that they change; a proof may follow a definition, so that a theorem refuses it
CHANGES = {("src",): "", ("proofs", "src"): "", ("specs", "src"): "of program and definition: ", ("specs",): "of the definition: ", ("proofs", "specs"): "of the definition: "}
# of a must-fail edit: its name, the contracts and theorems that rule it out, the folders that it changes, and what it puts for what in which files
Edit = namedtuple("Edit", "name contracts changes replacements")


# ---- what is in the tree, in the order of crates.txt

def with_those_below(crate):
    """A crate and all of the tree that it rests on."""
    libraries, found = depends(), [crate]
    for each in found:
        found += [library for library in libraries[each] if library in libraries and library not in found]
    return found


def edits():
    for crate in crates():
        for path in files(f"crates/{crate}/must-fail/*.edit"):
            lines = read(path).splitlines()
            contracts = [name for line in lines if line.startswith("of: ") for name in line[4:].split(", ")]
            folders = {line[6:].split("/")[0] for line in lines if line.startswith("file: ")}
            yield Edit(f"{crate}/{os.path.basename(path)[:-5]}", contracts, tuple(sorted(folders)), list(replacements(crate, lines)))


def replacements(crate, lines):
    """Of an edit's lines: each file, the text in it, and the other that is put in its place."""
    path = old = ""
    for line in lines:
        if line.startswith("file: "):
            path = f"crates/{crate}/{line[6:]}"
        elif line.startswith("old: "):
            old = line[5:]
        elif line.startswith("new:"):
            yield path, old, line[4:].removeprefix(" ")


def statements(crate):
    """crate/File.name of the definitions and theorems."""
    for path in files(f"crates/{crate}/specs/*.antt") + files(f"crates/{crate}/proofs/*.antt"):
        for name in re.findall(r"^ *(?:unfoldable |abbrev )?(?:pub )?(?:record |data )?([^\s:(){}]+)[^:\n]* :(?:\s|$)", read(path), re.MULTILINE):
            yield f"{crate}/{os.path.basename(path)[:-5]}.{name}"


def functions(crate):
    """The public functions of a crate."""
    return [item for item in items(crate) if item.kind == "fn" and item.public]


def public_functions():
    return [function for crate in crates() for function in functions(crate)]


def promised(crate):
    """The functions of a program that have an `ensures`: no contract is about the program, so these are what it rests on."""
    program = files(f"crates/{crate}/src/main.rt")
    return [item for item in items(crate) if program and item.kind == "fn" and "ensures" in item.words]


def contracts():
    """Public functions, those of a program that promise something, and statements, crate by crate."""
    return list(dict.fromkeys(name for crate in crates()
                              for name in [*(function.name for function in functions(crate) + promised(crate)), *statements(crate)]))


# ---- what the documents have from the tree

def row(contract, refused):
    """A line of the table: the edits, those of the contract's own crate first, and of a function's those of the definition last."""
    own, names = re.match(r"\w+", contract)[0] + "/", {}
    for edit in sorted(refused, key=lambda edit: not edit.name.startswith(own)):
        names.setdefault(CHANGES[edit.changes] if "::" in contract else "", []).append(f"`{edit.name}`")
    return f"| `{contract}` | {'; '.join(kind + ', '.join(names[kind]) for kind in dict.fromkeys(CHANGES.values()) if kind in names)} |\n"


def ruled_out():
    """The table of the contracts and theorems that rule edits out."""
    tried = list(edits())
    rows = ((contract, [edit for edit in tried if contract in edit.contracts]) for contract in contracts())
    return "| Contract or theorem | Edits |\n|---|---|\n" + "".join(row(*each) for each in rows if each[1])


def lines_to_read(paths):
    """How many lines the definitions have that are named there, tables of numbers left out."""
    named = [path for path in re.findall(r"`([^`]+/specs/[^`]+)`", paths) if not path.endswith("/Tables.antt") and exists(path)]
    return sum(bool(text) and not text.startswith("use ") for path in named for text in read("crates/" + path).splitlines())


def closing():
    """The last line of the gate, which counts a crate and an edit as one each."""
    return f"{len(crates()) + len(list(edits()))} passed, 0 failed"


def checked():
    """How many libraries are proved with the program `cards`."""
    return f"the {len(with_those_below('cards')) - 1} libraries under it"


def with_table(text):
    before, after = text.split(RULED_OUT)
    return before + RULED_OUT + re.sub(r"(^\|.*\n)+", lambda _: ruled_out(), after, count=1, flags=re.MULTILINE)


def with_lines(text):
    return re.sub(r"^(\| \d+\. .* \| (.*) \| )\d+ \|$", lambda found: f"{found[1]}{lines_to_read(found[2])} |", text, flags=re.MULTILINE)


def written():
    """Path and text of the documents as they have to be."""
    readme = re.sub(r"^\d+ passed, \d+ failed$", closing(), read(README), flags=re.MULTILINE)
    return {CLAIMS: with_lines(with_table(read(CLAIMS))),
            README: re.sub(r"the \d+ libraries under it", checked(), readme)}


# ---- what the documents cite

def cited(document):
    """The names in a document, outside of its blocks of code."""
    text = re.sub(r"^```.*?^```$", "", read(document), flags=re.DOTALL | re.MULTILINE)
    return re.findall(r"`([^`]+)`", text)


def looked_for(name, document):
    """Whether a name is one of something in the tree: any name in docs/CLAIMS.md, and elsewhere what has the form of a path."""
    if name.startswith("target/"):  # what rt writes
        return False
    if document == CLAIMS:
        return name not in WORDS
    return "::" in name or bool(re.fullmatch(r"[\w.*-]+(/[\w.*+-]+)+/?", name))


def exists(path):
    return any(files(os.path.join(folder, path)) for folder in ("", "crates", "docs", "bindings/rust"))


def not_found():
    known = {edit.name for edit in edits()} | set(crates()) | set(contracts())
    known |= {item.name for crate in crates() for item in items(crate) if item.kind != "use"}
    for document in DOCUMENTS:
        for name in cited(document):
            if looked_for(name, document) and name not in known and not exists(name):
                yield f"{document}: not in the tree: {name}"


def not_once(edit):
    """Texts that the edit's files do not have exactly once, so that the gate could not try it."""
    texts = {}
    for path, old, new in edit.replacements:
        text = texts.setdefault(path, read(path) if files(path) else "")
        if text.count(old) != 1:
            yield f"{edit.name}: {text.count(old)} times in {path}: {old}"
        texts[path] = text.replace(old, new)


def untried():
    known, tried = set(contracts()), list(edits())
    for edit in tried:
        if not edit.contracts:
            yield f"{edit.name}: no line `of:` that names a contract or a theorem"
        yield from (f"{edit.name}: not in the tree: {name}" for name in edit.contracts if name not in known)
        # of theorems that stand in proofs/ the statement is changed there
        theorem = edit.changes == ("proofs",) and not any("::" in name for name in edit.contracts)
        if edit.changes not in CHANGES and not theorem:
            yield f"{edit.name}: changes neither program nor definition"
        yield from not_once(edit)
    for function in public_functions():
        yield from (f"{function.name} is public and has a `{word}`" for word in function.words if word != "ensures")
        if "ensures" not in function.words:
            yield f"{function.name} is public and has no `ensures`"
        if sum(function.name in edit.contracts for edit in tried) < 2:
            yield f"fewer than two edits of {function.name}"


def is_equation(ensures):
    """Whether an `ensures` is an equation, or several, under no condition."""
    return "≡" in ensures and "→" not in ensures


def no_equations():
    """Public functions without such an `ensures` that docs/CLAIMS.md does not name as such, and those with one that it does."""
    table = read(CLAIMS).split(NO_EQUATION)[1].split("\n## ")[0]
    named = re.findall(r"^\| `([^`]+)` \|", table, re.MULTILINE)
    found = [function.name for function in public_functions() if not any(map(is_equation, function.ensures))]
    yield from (f"{CLAIMS}: the contract of {name} is no equation without a condition, and not named as such" for name in found if name not in named)
    yield from (f"{CLAIMS}: named as a contract that is no equation: {name}" for name in named if name not in found)


def not_written():
    for path, text in written().items():
        lines = difflib.unified_diff(read(path).splitlines(), text.splitlines(), lineterm="", n=0)
        changed = [line[:120] for line in lines if not line.startswith(("---", "+++", "@@"))]
        if changed:
            yield "\n".join([f"{path}: `tests/claims.py write` changes {len(changed)} lines:", *changed[:20]])


def to_read():
    """The files of definitions that docs/CLAIMS.md has a reader read, in which theorems alone, or tables of numbers, do not stand."""
    table = read(CLAIMS).split(READING)[1].split("\n## ")[0]
    paths = re.findall(r"`([^`]+/specs/[^`]+)`", "\n".join(line for line in table.splitlines() if line.startswith("| ")))
    return [path for path in dict.fromkeys(paths) if not path.startswith(("claims/", "samples/")) and not path.endswith("/Tables.antt")]


def not_held():
    """Definitions to read that neither table of docs/CLAIMS.md says of what holds them fast, and names there that are none."""
    text = read(CLAIMS)
    alone = set(re.findall(r"`(\w+/\w+\.[^`]+)`", text.split(ALONE)[1].split("\n## ")[0]))
    rows = [line.split(" | ")[0] for line in text.split(HELD)[1].split("\n## ")[0].splitlines() if line.startswith("| `")]
    held = {(path, name) for row in rows for path, names in re.findall(r"`([^`]+)`: ([^;`]+)", row) for name in names.strip().split(", ")}
    stand = {(path, name) for path in to_read() for name in re.findall(DEFINITION, read("crates/" + path), re.MULTILINE)}
    yield from (f"{CLAIMS}: nothing holds {name} of {path}" for path, name in sorted(stand - held) if statement(path, name) not in alone)
    yield from (f"{CLAIMS}: not a definition to read: {name} of {path}" for path, name in sorted(held - stand))


def statement(path, name):
    crate, _, file = path.split("/")
    return f"{crate}/{file[:-5]}.{name}"


def misplaced():
    """Crates that docs/ARCHITECTURE.md has no line or no place for, and those that depend on one above or to the left of them."""
    text = read(ARCHITECTURE)
    lines = {crate for line in text.splitlines() if line.startswith("| `") for crate in re.findall(r"`(\w+)`", line.split(" | ")[0])}
    picture = text.split("```\n")[1].splitlines()
    place = {crate: (layer, column) for layer, line in enumerate(picture) for column, crate in enumerate(line.split()[1:])}
    for crate, libraries in depends().items():
        if crate not in lines or crate not in place:
            yield f"{ARCHITECTURE}: no line or no place for {crate}"
            continue
        yield from (f"{ARCHITECTURE}: {crate} depends on {library}, which is not below it or to its right"
                    for library in libraries if library in place and place[library] < place[crate])


def findings():
    try:
        return [*not_listed(), *untried()] or [*no_equations(), *not_written(), *misplaced(), *not_held(), *not_found(), *figures.findings()]
    except Unreadable as error:
        return [str(error)]


def mistakes():
    return [
        (README, closing(), "1 passed, 0 failed", closing()),
        (README, checked(), "the 1 libraries under it", checked()),
        (CLAIMS, row("field::reduce", [edit for edit in edits() if "field::reduce" in edit.contracts]), "", "`field::reduce`"),
        (CLAIMS, "`field/sum_of_first`", "`field/sum_of_second`", "`field::add`"),
        (CLAIMS, "| `claims/ThirdDemand.third_demand` | `claims/", "| these theorems | `claims/", "these theorems"),
        (CLAIMS, "`field/Field.is_element`", "`field/Field.isNumber`", "field/Field.isNumber"),
        ("docs/GUIDE.md", "`claims/ThirdDemand.third_demand`", "`claims/Third.demand`", "claims/Third.demand"),
        ("crates/field/specs/Field.antt", "\n\n", "\n\n-- one line more\n", "-| 1. The words"),
        ("crates/field/must-fail/sum_of_first.edit", "of: field::add\n", "", "field/sum_of_first: no line"),
        ("crates/field/must-fail/sum_of_first.edit", "of: field::add\n", "of: field::sum\n", "field/sum_of_first: not in the tree: field::sum"),
        ("crates/field/must-fail/wide_product_of_first.edit", "of: field::wide_mul\n", "of: field::mul\n", "fewer than two edits of field::wide_mul"),
        ("crates/field/must-fail/sum_of_first.edit", "file: src/", "file: proofs/", "changes neither"),
        ("crates/field/must-fail/sum_of_first.edit", "old: ", "old: untold ", "field/sum_of_first: 0 times in crates/field/src/lib.rt"),
        ("crates/field/src/lib.rt", "\npub fn ", "\npub fn untold() {}\n\npub fn ", "fewer than two edits of field::untold"),
        (CLAIMS, "| `poseidon::permutation_by` | the tables", "| the lists", "the contract of poseidon::permutation_by is no equation"),
        (CLAIMS, "| `montgomery::reduce` | `", "| `montgomery::product` | `", "named as a contract that is no equation: montgomery::product"),
        ("crates/field/src/lib.rt", "{ result ≡ is_field number }", "{ number ≡ 1 → result ≡ is_field number }", "the contract of field::is_field is no equation"),
        ("crates/field/src/lib.rt", "{ result ≡ is_field number }", "{ Named number result }", "the contract of field::is_field is no equation"),
        ("crates/montgomery/src/lib.rt", "{ Reduced a m q result }", "{ result ≡ reduced a m q }", "named as a contract that is no equation: montgomery::reduce"),
        *public_mistakes(),
        *figures.MISTAKES,
        ("crates.txt", "field: basics\n", "", "not in crates.txt: field"),
        ("crates.txt", "field: basics\n", " field: basics\n", "not read:  field: basics"),
        ("crates.txt", "field: basics\n", "field : basics\n", "not read: field : basics"),
        ("crates.txt", "\nwords: basics\n", "\nwords: basics tag\n", "words depends on tag"),
        (CLAIMS, "all, any | `pins/", "all | `pins/", "nothing holds any of basics/specs/Logic.antt"),
        (CLAIMS, "all, any | `pins/", "all, any, each | `pins/", "not a definition to read: each of basics/specs/Logic.antt"),
        (CLAIMS, "`runs/Blocks.held_by` |", "held by |", "nothing holds held_by of runs/specs/Blocks.antt"),
        (ARCHITECTURE, "| `words` |", "| one word |", "no line or no place for words"),
        (ARCHITECTURE, "poseidon   keccak ", "keccak ", "no line or no place for poseidon"),
    ]


def public_mistakes():
    """Functions and forms that are put before the first public function of a crate."""
    path, asks, says = "crates/field/src/lib.rt", "    requires { ⊥ }\n", "    ensures { ⊤ }\n"

    def put(text, wanted):
        return path, "\npub fn ", f"\n{text}\n\npub fn ", wanted
    export, method = '#[unsafe(no_mangle)]\npub extern "C" fn untold(\n    a: u32, // )\n)\n', "pub struct Other;\nimpl Other {\n    pub fn untold()\n"
    return [
        put(f"{export}{asks}{says}{{}}", "field::untold is public and has a `requires`"),
        put(f"mod inner {{\n{export}{asks}{says}{{}}\n}}", "field::inner::untold is public and has a `requires`"),
        put(f"mod inner {{\npub fn untold()\n{asks}{says}{{}}\n}}\npub use inner::untold;", "field::inner::untold is public and has a `requires`"),
        put(f"pub fn untold()\n    ghost {{ ℕ }}\n{says}{{}}", "field::untold is public and has a `ghost`"),
        put("mod inner {\npub fn untold() {}\n}\npub use inner::{untold as told};", "a `use` under another name"),
        put("pub use basics::ACCEPTED as MODULUS;", "a `use` under another name"),
        put("pub enum Figure { Modulus = 17 }", "public constant field::Figure::Modulus: 17 in the code, nothing in the table"),
        put(f"mod inner {{\npub fn untold()\n{says}{{}}\n}}\npub use inner::untold;", "fewer than two edits of field::inner::untold"),
        put(f"{method}{asks}{says}{{}}\n}}", "field::Other::untold is public and has a `requires`"),
        put("pub use std::num::wrapping_add_u32;", "a `pub use` of something outside of the tree"),
        put("pub mod inner {\npub struct Other;\n}\nimpl inner::Other {\npub fn untold() {}\n}", "an `impl` of a type of another module"),
        put("functions! { untold }", "does not read this: functions"),
        put("fn told() {\n    pub fn untold() {}\n}", "does not read this: { pub fn untold"),
        put("/* /* */ pub fn untold() {} */", "does not read this: /* /* */"),
        put("#[cfg(other)]\npub fn untold() {}", "does not read this: #[cfg ( other )]"),
        put("pub fn untold()\n    ensures { -- }\n    ⊤ }\n{}", "does not read this: a clause with a comment"),
        put("pub enum Figure { Modulus = 1 + 16 }", "public constant field::Figure::Modulus: 17 in the code, nothing in the table"),
        put("pub enum Figure { Modulus = 17, Order }", "does not read this: a case without a number: Order"),
        put(f"pub trait Untold {{\n    fn untold(&self)\n{asks};\n}}", "does not read this: a public trait: Untold"),
        put("impl std::ops::Add for Field {\n    fn add(self, other: Field) -> Field {}\n}", "an `impl` of a trait of another module: std::ops::Add"),
        put("mod inner {\ntrait Add {}\n}\nimpl std::ops::Add for Field {}", "an `impl` of a trait of another module: std::ops::Add"),
        put("impl From<Field> for u64 {\n    fn from(field: Field) -> u64 {}\n}", "field::U64FromField::from is public and has no `ensures`"),
        put(f"impl Clone for Other {{\n    fn clone(&self)\n{asks}{says}{{}}\n}}", "field::OtherClone::clone is public and has a `requires`"),
        put("#[derive(Hash)]\npub struct Other;", "does not read this: #[derive ( Hash )]"),
        put("pub const UNTOLD: u32 = 3;", "field::UNTOLD: 3 in the code, nothing in the table"),
        put("pub const UNTOLD: u32 = told(3);", "the constant told"),
    ]


# ---- what the papers say

def sentences(text):
    for line in re.sub(r"```.*?```", "", text, flags=re.DOTALL).splitlines():
        if not line.startswith(("#", "| No.", "|---")):
            yield from filter(letters, re.split(r"(?<=[.;])\s+", line.strip("-| ")))


def landed(text):
    """Document 02 up to the last request that the library has."""
    return text.split(f"**P{LANDED + 1}.")[0]


def papers(folder):
    quoted = letters(read(CLAIMS))
    for name, part in (("00-demands.md", str), ("01-scope.md", str), ("02-change-requests.md", landed)):
        with open(os.path.join(folder, name)) as file:
            for sentence in sentences(part(file.read())):
                if letters(sentence) not in quoted:
                    print(f"{name}: {sentence}")


def main(job):
    if job == ["test"]:
        names = sum(len(cited(document)) for document in DOCUMENTS)
        report(findings(), f"claims: {names} names, {len(public_functions())} public functions, {len(list(edits()))} edits")
    elif job == ["write"]:
        report([*untried()], f"{CLAIMS} and {README} have what the tree has")
        for path, text in written().items():
            write(path, text)
    elif job == ["selftest"]:
        trials("claims", findings, mistakes())
    elif len(job) == 2 and job[0] == "papers":
        papers(job[1])
    else:
        sys.exit(__doc__)


if __name__ == "__main__":
    try:
        main(sys.argv[1:])
    except Unreadable as error:
        sys.exit(str(error))
