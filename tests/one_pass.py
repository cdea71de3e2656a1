#!/usr/bin/env python3
"""Whether the start check goes over the declared words in one pass, which no contract says.

  tests/one_pass.py test
  tests/one_pass.py selftest

`test` reads the source of the crate `pattern` and of the callers of `pattern::check`, and fails where one of these is not so:
- `check` calls the function of the pass, `pass::pass`, once and in no loop, and does nothing else with the words lent than to take their number;
- `pass` has one loop, over the words and their places in turn, which looks at one word and hands it to `pass_word`, the step, once;
- there is no other loop in the crate, and no function of it comes back to itself;
- the contract of `pass_word` cites `pass_step`, and that of `pass` `held_after`;
- START, writing and the answer to a card call `pattern::check` once each, and hand the words on to nothing else.

`selftest` puts mistakes into the source, in memory, and fails where `test` would not notice one.
"""
import re
import sys
from collections import namedtuple

from public import CLAUSES, behind_group, words_of
from tree import files, read, report, trials

LIB, PASS = "crates/pattern/src/lib.rt", "crates/pattern/src/pass.rt"
LOOPS = {"for", "while", "loop"}
# the callers of the start check: path and function
CALLERS = [("crates/session/src/lib.rt", "start"), ("crates/tag/src/lib.rt", "write"), ("crates/card/src/lib.rt", "answer_card")]
# the words of its body, one space between two, and its clauses by their kind
Function = namedtuple("Function", "body clauses")


def functions(path):
    """The functions of a file, by name. None stands in another."""
    words, found, at = words_of(read(path)), {}, 0
    while "fn" in words[at:]:
        at = words.index("fn", at) + 1
        name, clauses = words[at], {}
        while words[at] != "{":
            if words[at] in CLAUSES and words[at + 1].startswith("{"):
                clauses[words[at]], at = words[at + 1], at + 2
            else:
                at = behind_group(words, at)
        end = behind_group(words, at)
        found[name], at = Function(" ".join(words[at:end]), clauses), end
    return found


def count(text, pattern):
    return len(re.findall(pattern, text))


def loops(text):
    return sum(word in LOOPS for word in text.split())


def called(function, names):
    """The functions of the crate that one calls."""
    return {name for name in names if count(function.body, rf"\b{name} \(")}


def in_check(check):
    if count(check.body, r"\bpass :: pass \(") != 1:
        yield f"{LIB}: `check` does not call `pass::pass` exactly once"
    rest = check.body.replace("pass :: pass ( & words [ . . looked_at ] , & mut list )", "").replace("words . len ( )", "")
    rest = rest.replace("words . is_empty ( )", "").replace("Words { words : list , count }", "")
    if count(rest, r"\bwords\b(?! :)"):
        yield f"{LIB}: `check` does more with the words than to take their number and to hand them to `pass::pass`"


def in_pass(found):
    if loops(found.body) != 1 or not count(found.body, r"\bfor \( n , word \) in words \. iter \( \) \. enumerate \( \) {"):
        yield f"{PASS}: `pass` has not one loop, over the words and their places"
    one = "pass_word ( list , held , n , * word )" in found.body
    if not one or count(found.body, r"\bpass_word \(") != 1 or count(found.body, r"\bwords\b") != 1:
        yield f"{PASS}: `pass` does not hand each word to `pass_word` exactly once"


def other_loops(found):
    for path, name in found:
        if loops(found[path, name].body) and name != "pass":
            yield f"{path}: `{name}` has a loop"


def returning(found):
    """Functions that call themselves, by others or not."""
    calls = {name: called(function, [other for _, other in found]) for (_, name), function in found.items()}
    for name in calls:
        reached, todo = set(), {name}
        while todo:
            new = calls[todo.pop()] - reached
            reached, todo = reached | new, todo | new
        if name in reached:
            yield f"crates/pattern: `{name}` comes back to itself"


def cites(found, name, definition):
    if not count(found.clauses.get("ensures", ""), rf"\b{definition}\b"):
        yield f"{PASS}: the contract of `{name}` does not cite `{definition}`"


def in_caller(path, name):
    body = functions(path)[name].body
    if count(body, r"\bpattern :: check \(") != 1 or loops(body):
        yield f"{path}: `{name}` does not call `pattern::check` exactly once"
    if count(body.replace("pattern :: check ( words , separator )", ""), r"\bwords\b(?! :)(?<!\. words)"):
        yield f"{path}: `{name}` does more with the words than to hand them to `pattern::check`"


def findings():
    paths = files("crates/pattern/src/**/*.rt")
    found = {(path, name): function for path in paths for name, function in functions(path).items()}
    missing = [name for path, name in ((LIB, "check"), (PASS, "pass"), (PASS, "pass_word")) if (path, name) not in found]
    missing += [f"{path}: {name}" for path, name in CALLERS if name not in functions(path)]
    if missing:
        return [f"not there: {name}" for name in missing]
    return [*in_check(found[LIB, "check"]), *in_pass(found[PASS, "pass"]), *other_loops(found), *returning(found),
            *cites(found[PASS, "pass_word"], "pass_word", "pass_step"), *cites(found[PASS, "pass"], "pass", "held_after"),
            *(finding for caller in CALLERS for finding in in_caller(*caller))]


CHECK, LOOP = "\npub fn check(", "    for (n, word) in words.iter().enumerate() {"
CALL, STEP = "    let passed = pass::pass(&words[..looked_at], &mut list);\n", "        held = pass_word(list, held, n, *word);\n"
MISTAKES = [
    (LIB, CALL, "    let passed = Ok(looked_at);\n", "`check` does not call `pass::pass` exactly once"),
    (LIB, CALL, 2 * CALL, "`check` does not call `pass::pass` exactly once"),
    (LIB, CALL, "    // pass::pass(&words[..looked_at], &mut list)\n", "`check` does not call `pass::pass` exactly once"),
    (LIB, CALL, f"    while again {{\n{CALL}    }}\n", "`check` has a loop"),
    (LIB, CALL, f"    let zero = looked_through(words);\n{CALL}", "`check` does more with the words"),
    (LIB, CALL, f"    let first = words[0];\n{CALL}", "`check` does more with the words"),
    (LIB, CHECK, f"\nfn some(list: &[u32; 64]) -> u32 {{\n    for i in 0..64 {{\n    }}\n    list[0]\n}}\n{CHECK}", "`some` has a loop"),
    (LIB, CHECK, f"\nfn from(i: u32) -> u32 {{\n    if i == 64 {{ 0 }} else {{ from(i + 1) }}\n}}\n{CHECK}", "`from` comes back to itself"),
    (LIB, "    (separator_length > MAX_SEPARATOR)", "    check(&[], &[]);\n    (separator_length > MAX_SEPARATOR)", "comes back to itself"),
    (LIB, "pub fn check(", "pub fn checked(", "not there: check"),
    (PASS, STEP, 2 * STEP, "`pass` does not hand each word to `pass_word` exactly once"),
    (PASS, STEP, STEP.replace("*word", "words[0]"), "`pass` does not hand each word to `pass_word` exactly once"),
    (PASS, STEP, f"        let last = words[n - 1];\n{STEP}", "`pass` does not hand each word to `pass_word` exactly once"),
    (PASS, LOOP, LOOP.replace(".iter()", ".iter().skip(1)"), "`pass` has not one loop"),
    (PASS, LOOP, f"{LOOP}\n        for j in 0..n {{\n        }}", "`pass` has not one loop"),
    (PASS, "    2 * u64::from(u32::from(refusal))\n", "    while true {\n    }\n    2 * u64::from(u32::from(refusal))\n", "`rank_of` has a loop"),
    (PASS, "≡ pass_step n (held_after ws) word)", "≡ held_after (ws ++ (word ∷ [])))", "the contract of `pass_word` does not cite `pass_step`"),
    (PASS, "≡ held_after words.now }", "≡ passed words.now }", "the contract of `pass` does not cite `held_after`"),
    (PASS, "fn pass_word(", "fn pass_one(", "not there: pass_word"),
    *((path, "pattern::check(words, separator)", "pattern::check(words, separator) + pattern::check(words, separator)",
       f"`{name}` does not call `pattern::check` exactly once") for path, name in CALLERS),
    ("crates/session/src/lib.rt", "pattern::check(words, separator)?;", "pattern::check(words, separator)?;\n        let again = sum_of(words);",
     "`start` does more with the words"),
]

if __name__ == "__main__":
    if sys.argv[1:] == ["test"]:
        report(findings(), f"one pass: {len(CALLERS)} calls check declared words by it")
    elif sys.argv[1:] == ["selftest"]:
        trials("one pass", findings, MISTAKES)
    else:
        sys.exit(__doc__)
