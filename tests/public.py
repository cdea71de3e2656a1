"""The items of a crate's source, and which of them are public: those that another crate, or a caller in C, may be able to use.

Public is whatever has `pub`, in a private module too, since a `pub use` anywhere can bring it out, and a method of a private type too, since a public
function can give a value of that type. `pub(crate)` is not public, and no `pub use` brings it out. A function with `#[unsafe(no_mangle)]` or
`extern "C"` is public whatever else it has. A program has no callers, so nothing in it is public.

A form that is not read here is an error, so that nothing public is passed over; so is a `use` under another name, by which a constant could have two. The word `fn` is an error too in every part that is skipped.
"""
import functools
import re
from collections import namedtuple

from tree import files, read

# of an item: crate::module::Type::name; the word that it is declared with; whether it is public; the clauses of a function, the words of a
# constant's value or of what a `use` names; crate::module:: that it stands in; and what stands in each `ensures` of a function
Item = namedtuple("Item", "name kind public words module ensures")
CLAUSES = {"ghost", "requires", "ensures"}
ATTRIBUTES = {"unsafe ( no_mangle )", "repr ( C )"}
# what is derived says nothing that a contract of the tree does not say
DERIVES = re.compile(r"derive \( (?:(?:Clone|Copy|Debug|PartialEq|Eq|Drop)(?: , )?)+ \)")
# the traits of the library that are read, through which a caller may call, each with its functions and the ghost member that says what one gives
LIBRARY_TRAITS = {"From": {"from": "from_gives"}, "TryFrom": {"try_from": "try_from_gives"}, "Clone": {"clone": "is_clone"}, "Copy": {}}
# attributes that choose tactics, of a file or of an item: they say nothing of the code
TACTIC = re.compile(r"tactic \(.*\)")
CLOSING = {"(": ")", "[": "]", "{": "}"}
TOKEN = re.compile(r"""
    \s+ | //[^\n]* | /\*(?:(?!/\*|\*/).)*\*/ | ghost\s+use\b[^;]*;      # passed over
    | ( b?"(?:\\.|[^"\\])*" | b'(?:\\.[^']*|[^'\\])' | \w+ | :: | . )""", re.DOTALL | re.VERBOSE)


class Unreadable(Exception):
    """A form of source that this file does not read."""


# ---- words of the source

def clause(text, at):
    """The braces of a clause that begins there. They hold the proof language, whose comments and strings are not read."""
    depth = 0
    for match in re.finditer(r"[{}]", text[at:]):
        depth += 1 if match[0] == "{" else -1
        if not depth:
            found = text[at:at + match.end()]
            if re.search(r'--|\{-|"|\bfn\b', found):
                raise Unreadable(f"a clause with a comment, a string or `fn`: {found[:60]}")
            return found
    raise Unreadable(f"a clause without an end: {text[at:at + 60]}")


def words_of(text):
    """The words and signs of a file, without comments; each clause of a contract is one."""
    at, found = 0, []
    while at < len(text):
        named = len(found) > 1 and found[-2] in CLAUSES and found[-1].isidentifier()
        if text[at] == "{" and found and (found[-1] in CLAUSES or named):
            del found[len(found) - named:]
            word = clause(text, at)
            at += len(word)
        else:
            match = TOKEN.match(text, at)
            word, at = match[1], match.end()
        if word in ("r", "br", "c", "cr") and text[at:at + 1] in ('"', "#") or word == "/" and text[at:at + 1] == "*":
            raise Unreadable(text[at - len(word):at + 40])
        found += [word] * bool(word)
    return found


def behind_group(words, at, functions=False):
    """The place behind the word there, or behind the brackets that open there; whether functions may stand in them."""
    expected = []
    for place in range(at, len(words)):
        if words[place] in CLOSING:
            expected.append(CLOSING[words[place]])
        elif words[place] in CLOSING.values() and expected.pop() != words[place] or words[place] == "fn" and not functions:
            break
        if not expected:
            return place + 1
    raise Unreadable(" ".join(words[at:at + 12]))


def behind(words, at, ends):
    """The next place that has one of the ends; what stands in brackets before it is passed over."""
    while words[at] not in ends:
        at = behind_group(words, at)
    return at


# ---- items

def marks(words, at):
    """Of an item whether it is public, and the place behind attributes, `pub` and what else stands before its kind."""
    public = False
    while words[at] == "#":
        end = behind_group(words, at + 1)
        attribute = " ".join(words[at + 2:end - 1])
        if attribute not in ATTRIBUTES and not TACTIC.fullmatch(attribute) and not DERIVES.fullmatch(attribute):
            raise Unreadable(f"#[{attribute}]")
        public, at = public or "no_mangle" in attribute, end
    if words[at] == "pub":
        public, at = public or words[at + 1] != "(", at + 1
        at = behind_group(words, at) if words[at] == "(" else at
    if words[at:at + 2] == ["const", "fn"]:
        at += 1
    if words[at:at + 3] == ["extern", '"C"', "fn"]:
        public, at = True, at + 2
    return public, at


def function(words, at):
    """The clauses of a function's contract, from its parameters on, what stands in those that are `ensures`, and the place behind its body, or, where
    it has none, behind its end."""
    clauses, ensures = [], []
    at = behind_group(words, behind(words, at, {"("}))
    while words[at] != "{":
        if words[at] in CLAUSES and words[at + 1].startswith("{"):
            clauses.append(words[at])
            ensures += [words[at + 1]] * (words[at] == "ensures")
            at += 2
        elif words[at] == ";":
            return clauses, ensures, at + 1
        else:
            at = behind_group(words, at)
    return clauses, ensures, behind_group(words, at)


def behind_tactic(words, at):
    """The place behind an attribute of the whole file, which chooses tactics."""
    end = behind_group(words, at)
    if not TACTIC.fullmatch(" ".join(words[at + 1:end - 1])):
        raise Unreadable(" ".join(words[at - 2:end]))
    return end


def camel(words):
    """A type as part of a name, as the kit has it: its words, each with a capital, without lifetimes."""
    text = re.sub(r"' \w+", "", " ".join(words)).replace("&", " Ref ").replace("[", " Array ")
    return "".join(word[0].upper() + word[1:].replace("_", "") for word in re.findall(r"\b[A-Za-z]\w*", text))


def owner(words):
    """The type of an `impl`, without lifetimes, with the trait behind it, if it is of one, as the kit names it; and that trait's own name."""
    text = " ".join(words)
    text = re.sub(r"^(<(?:[^<>]|<[^<>]*>)*>)? *", "", text)
    text = re.split(r" where ", text)[0]
    if " for " in text:
        trait, type_ = text.split(" for ")
        own = re.sub(r" |<.*>", "", trait)
        return camel([re.sub(r"<.*>", "", type_)]) + camel([re.sub(r"' \w+", "", trait)]), own
    return re.sub(r"<.*>", "", text).strip(), None


def cases(words, prefix, public, module):
    """The cases of an enum that have numbers, as constants of these. Then every case has to have one, since one without counts on from the last."""
    if "=" not in words:
        return
    at = 1
    while at < len(words) - 1:
        end = behind(words, at, {",", "}"})
        if words[at + 1] != "=":
            raise Unreadable(f"a case without a number: {' '.join(words[at:end])}")
        yield Item(prefix + words[at], "const", public, words[at + 2:end], module, [])
        at = end + 1


def items_of(words, prefix, module, outside=None):
    """The items of a module, or of an `impl` or a trait in it, whose names begin with the prefix. What an `impl` of a trait from outside of the crate
    has is public; what one of a trait of the crate has is not, since a trait that is read here is not public."""
    at, gives = 0, {}
    while at < len(words):
        if words[at] == "ghost":
            end = behind(words, at, {";"})
            if words[at + 2] not in ("=", ":") or behind_group(words, at + 3) != end:
                raise Unreadable(" ".join(words[at:end]))
            # what an `impl` says of a function of a trait from the library stands in a member of its own
            gives[words[at + 1]], at = " ".join(words[at + 3:end]), end + 1
            continue
        if words[at:at + 2] == ["#", "!"]:
            at = behind_tactic(words, at + 2)
            continue
        public, here = marks(words, at)
        public = public or outside is not None
        kind, name, ensures = words[here], words[here + 1], []
        if kind == "fn":
            found, ensures, at = function(words, here + 2)
            says = gives.get((outside or {}).get(name))
            if says:
                found, ensures = [*found, "ensures"], [*ensures, says]
        elif kind in ("use", "const"):
            begin = behind(words, here, {"="} if kind == "const" else {"use"}) + 1
            end = behind(words, begin, {";"})
            found, at = words[begin:end], end + 1
            if kind == "use" and "as" in found:
                raise Unreadable(f"a `use` under another name: {' '.join(found)}")
        elif kind in ("struct", "enum", "type"):
            end = behind(words, here, {";", "{"})
            found, at = [], behind_group(words, end)
            if kind == "enum":
                yield from cases(words[end:at], f"{prefix}{name}::", public, module)
        elif kind in ("mod", "impl", "trait"):
            begin = behind(words, here, {";", "{"})
            if kind == "trait" and public:
                raise Unreadable(f"a public trait: {name}")
            header = words[here + 1:begin]
            (name, trait), at = owner(header) if kind == "impl" else (header[0], None), behind_group(words, begin, functions=True)
            inside = f"{prefix}{name}::"
            yield from items_of(words[begin + 1:at - 1], inside, inside if kind == "mod" else module, LIBRARY_TRAITS.get(trait))
            kind, found = ("impl of a trait", [trait]) if trait else (kind, [])
        else:
            raise Unreadable(" ".join(words[at:at + 12]))
        yield Item(prefix + name, kind, public, found, module, ensures)


@functools.lru_cache(maxsize=None)
def items_in(text, prefix):
    try:
        return [*items_of(words_of(text), prefix, prefix)]
    except IndexError:
        raise Unreadable("it ends too early") from None


def prefix_of(path):
    """crate::module:: of a file."""
    crate, _, *names = path[:-len(".rt")].split("/")[1:]
    return "::".join([crate, *(name for name in names if name not in ("lib", "main", "mod")), ""])


def check_reach(item, found):
    """An `impl` has to be of a type of its own module, or of a trait that is read or that the crate declares, and a `pub use` of something of this tree,
    which is looked at where it is declared."""
    kinds = {other.kind for other in found if other.name == item.name}
    if item.kind == "impl of a trait" and item.words[0] not in LIBRARY_TRAITS:
        own = {other.name for other in found if other.kind == "trait"}
        brought = {other.words[-1]: "".join(other.words) for other in found if other.kind == "use" and other.module == item.module}
        path = re.sub(r"^crate(?=::)", item.module.split("::")[0], brought.get(item.words[0], item.words[0]))
        if not {item.module + path, path} & own:
            raise Unreadable(f"an `impl` of a trait of another module: {item.words[0]}")
    if item.kind == "impl" and not kinds & {"struct", "enum"}:
        raise Unreadable(f"an `impl` of a type of another module: {item.name}")
    if item.kind == "use" and item.public and item.words[0] not in ("crate", "self", "super"):
        if kinds == {"use"} and not files(f"crates/{item.words[0]}/src/lib.rt"):
            raise Unreadable(f"{item.module} a `pub use` of something outside of the tree: {''.join(item.words)}")


def items(crate):
    """The items of a crate. Those of a program are not public."""
    found, paths = [], files(f"crates/{crate}/src/**/*.rt")
    for path in paths:
        try:
            found += items_in(read(path), prefix_of(path))
        except Unreadable as error:
            raise Unreadable(f"{path}: tests/public.py does not read this: {error}") from None
    for item in found:
        check_reach(item, found)
    program = f"crates/{crate}/src/main.rt" in paths
    return [item._replace(public=item.public and not program) for item in found]


# ---- values of constants

def literal(word):
    """A whole number as it is written in code."""
    return int(re.sub(r"_|[iu](8|16|32|64|size)$", "", word), 0)


def evaluate(text, value_of):
    """What an expression of whole numbers gives, with the values of its names."""
    def number(match):
        return str(literal(match[0]) if match[0][0].isdigit() else value_of(match[0]))
    try:
        figures = re.sub(r"\w[\w:]*", number, text)
        if re.fullmatch(r"[\d+*/() -]+", figures) and "**" not in figures:
            return eval(figures.replace("/", "//"), {})
    except (KeyError, SyntaxError, ValueError, ZeroDivisionError):
        pass
    raise Unreadable(f"the value {text}")


def values(found):
    """The values of the public constants among the items, by name."""
    constants = {item.name: item for item in found if item.kind == "const"}
    imported = {item.module + item.words[-1]: "".join(item.words) for item in found if item.kind == "use"}

    def value(name):
        item = constants[name]

        def value_of(path):
            path = re.sub(r"^Self(?=::)", lambda _: name.rpartition("::")[0], re.sub(r"^crate(?=::)", name.split("::")[0], path))
            for known in (item.module + path, imported.get(item.module + path), path):
                if known in constants:
                    return value(known)
            raise Unreadable(f"{name}: the constant {path}")
        return evaluate("".join(item.words), value_of)
    return {name: value(name) for name, item in constants.items() if item.public}
