#!/usr/bin/env python3
"""Faults for the Rust crate and the C header, each of which has to be noticed by a test or by the compiler.

  tests/mutants.py list
  tests/mutants.py test
  tests/mutants.py NAME..

The proofs end at the library's functions, so what stands over them is only tested; this says what those tests notice. `test` puts one fault at a
time into a copy of bindings/ under target/mutants, two at once, and runs the tests there, against the archive that `bindings/staticlib` made in
target/staticlib, until one fails. NAME.. tries only these, and `list` says what each fault does. A fault that is none is in `NONE` with the reason.
Fails where a fault survives, or one in `NONE` does not; where the crate or the header alone does not compile with a fault that is not in `COMPILER`,
since a slip in the fault's own text would look like one that is noticed; where a text to replace does not stand once in its file; and where a
function has fewer than two faults.
"""
import os
import queue
import re
import shutil
import signal
import subprocess
import sys
import threading
import time
from collections import namedtuple

from tree import ROOT, files, read

SOURCES = [f"bindings/rust/src/{name}.rs" for name in ("lib", "field", "form", "refusal", "owners", "pattern", "protocol", "seal", "session", "ffi")]
LIB, FIELD, FORM, REFUSAL, OWNERS, PATTERN, PROTOCOL, SEAL, SESSION, FFI = SOURCES
HEADER = "bindings/c/tuilarder.h"
WORK = os.path.join(ROOT, "target", "mutants")
ARCHIVE = os.path.join(ROOT, "target", "staticlib", "libtuilarder.a")
# seconds for one command; a fault that makes a test run on is noticed
LIMIT = 300
# what a trial says of a fault that the compiler notices with no test's help
COMPILED = "the compiler"

CARGO = ["--offline", "--locked", "-q"]
# name and command, the quick ones first
CRATE_STEPS = [(COMPILED, ["cargo", "build", *CARGO])] + [
    (test, ["cargo", "test", *CARGO, "--test", test, *only]) for test, *only in (
        ("types",), ("api",), ("layout",), ("wiped_memory",), ("seal", "types::"), ("differential", "types::"), ("long_lists", "types_"),
        ("oracle_sessions", "types_"), ("oracle_owners", "types_"), ("oracle_tags", "types_"), ("oracle_seal", "types_"), ("published_values",))] + [
    ("declarations", ["../c/tests/declarations.py"]), ("differential", ["cargo", "test", *CARGO, "--test", "differential", "functions::"]),
    ("doc tests", ["cargo", "test", *CARGO, "--doc"]), ("long_calls", ["cargo", "test", *CARGO, "--test", "long_calls"])]
HEADER_STEPS = [(COMPILED, ["cc", "-std=c11", "-Wall", "-Wextra", "-Werror", "-pedantic", "-fsyntax-only", "-x", "c", "tuilarder.h"]),
                ("run-tests", ["./run-tests"])]

Fault = namedtuple("Fault", "name file old new what")


def of(file, *rows):
    """Rows of a name, the old text, the new text, and what that does."""
    return [Fault(row[0], file, *row[1:]) for row in rows]


def before(text, line):
    """Old and new text, to put a line before one that stands once."""
    return text, f"{line}\n{text}"


def exchanged(path, first, last, one, other):
    """Old and new text, with two names exchanged from one text to another; the old text is empty, and so does not stand once, if they are not there."""
    text = read(path)
    start, end = text.find(first), text.find(last) + len(last)
    return text[start:end], re.sub(rf"\b(?:{one}|{other})\b", lambda name: other if name[0] == one else one, text[start:end])


def called_for(function, other):
    """Old and new text, with which a declaration of src/ffi.rs is of another function of the library."""
    return before(f"pub fn {function}(", f'#[link_name = "{other}"]')


CRATE = of(
    LIB,
    ("permute_accepts", "refusal::result(unsafe { ffi::tuilarder_permute(field.number(), state) })",
     "let _ = refusal::result(unsafe { ffi::tuilarder_permute(field.number(), state) });\n    Ok(())", "a refused permutation is given as done"),
    ("permute_copy", "ffi::tuilarder_permute(field.number(), state)", "ffi::tuilarder_permute(field.number(), &mut state.clone())",
     "a copy of the state is permuted"),
    ("permute_reduces", *before("    // SAFETY: the state is lent", "    state[23] %= field.prime();"), "the last element is reduced, not refused"),
    ("permute_in_field_1", "ffi::tuilarder_permute(field.number(), state)", "ffi::tuilarder_permute(1, state)", "BabyBear's permutation in both fields"),
    ("constants_of_field_1", "ffi::tuilarder_generate(field.number(), buffer", "ffi::tuilarder_generate(1, buffer", "BabyBear's constants of both fields"),
    ("constants_with_zeros", "&buffer[..count]", "&buffer[..]", "the zeros behind BabyBear's constants are given too"),
    ("constants_696", "&buffer[..count]", "&buffer[..if count > 696 { 696 } else { count }]", "696 constants at most"),
    ("constants_copy", "ffi::tuilarder_generate(field.number(), buffer,", "ffi::tuilarder_generate(field.number(), &mut buffer.clone(),",
     "a copy of the buffer is filled"),
    ("max_round_constants", "MAX_ROUND_CONSTANTS: usize = 744", "MAX_ROUND_CONSTANTS: usize = 745", "745 places"),
    ("hash_cut", "data.as_ptr(), data.len(), ", "data.as_ptr(), data.len().min(1000), ", "1000 bytes are hashed at most"),
    ("hash_16_bits", "data.as_ptr(), data.len(), ", "data.as_ptr(), data.len() as u16 as usize, ", "the length is cut to 16 bits"),
    ("hash_not_given", "    digest\n}", "    digest[31] = 0;\n    digest\n}", "the last byte of the digest is lost"),
    ("std", "#![no_std]\n", "", "the crate needs `std`"),
    ("rate", "RATE: usize = 8", "RATE: usize = 9", "rate 9"),
    ("capacity_and_rate", "RATE: usize = 8;\n\n/// The state's inner elements.\npub const CAPACITY: usize = 16",
     "RATE: usize = 16;\n\n/// The state's inner elements.\npub const CAPACITY: usize = 8", "rate and capacity exchanged"),
) + of(
    FIELD,
    ("prime_of_baby_bear", "2013265921,\n", "2013265923,\n", "another prime"),
    ("prime_of_koala_bear", "2130706433,\n", "2147483647,\n", "another prime"),
    ("primes_exchanged", "            Field::BabyBear => 2013265921,\n            Field::KoalaBear => 2130706433,",
     "            Field::KoalaBear => 2013265921,\n            Field::BabyBear => 2130706433,", "each has the other's prime"),
    ("field_number_from_0", "self as u32\n", "self as u32 - 1\n", "the numbers are 0 and 1"),
    ("field_number_1", "self as u32\n", "1\n", "both have the number 1"),
    ("field_numbers_exchanged", "1 => Some(Field::BabyBear),\n            2 => Some(Field::KoalaBear),",
     "2 => Some(Field::BabyBear),\n            1 => Some(Field::KoalaBear),", "each number is the other field's"),
    ("field_of_any_number", "_ => None,", "_ => Some(Field::BabyBear),", "every other number is BabyBear's"),
    ("field_of_8_bits", "match number {", "match number & 0xff {", "numbers above 8 bits are fields too"),
    ("field_non_exhaustive", "#[repr(u32)]\n", "#[repr(u32)]\n#[non_exhaustive]\n", "a match of the two fields needs a third arm"),
    ("field_by_move", "#[derive(Clone, Copy, Debug,", "#[derive(Clone, Debug,", "a field is moved"),
) + of(
    FORM,
    ("form_number_from_0", "self as u32\n", "self as u32 - 1\n", "the numbers are 0 and 1"),
    ("form_number_1", "self as u32\n", "1\n", "both have the number 1"),
    ("form_numbers_exchanged", "1 => Some(Form::One),\n            2 => Some(Form::Two),", "2 => Some(Form::One),\n            1 => Some(Form::Two),",
     "each number is the other form's"),
    ("form_of_any_number", "_ => None,", "_ => Some(Form::One),", "every other number is form 1's"),
    ("form_of_8_bits", "match number {", "match number & 0xff {", "numbers above 8 bits are forms too"),
    ("form_non_exhaustive", "#[repr(u32)]\n", "#[repr(u32)]\n#[non_exhaustive]\n", "a match of the two forms needs a third arm"),
    ("form_by_move", "#[derive(Clone, Copy, Debug,", "#[derive(Clone, Debug,", "a form is moved"),
    ("form_1_with_tail", "Form::One => 0,", "Form::One => 4,", "four bytes behind the separator in form 1"),
    ("form_2_without_tail", "Form::Two => 4,", "Form::Two => 0,", "no bytes behind the separator in form 2"),
) + of(
    REFUSAL,
    ("number_of_the_next", "self as u32\n", "self as u32 + 1\n", "a refusal has the next one's number"),
    ("number_below_8", "self as u32\n", "self as u32 & 7\n", "numbers lose their fourth bit"),
    ("from_number_16_bits", "match number {", "match number & 0xffff {", "numbers above 16 bits are refusals too"),
    ("from_number_any", "_ => None,", "_ => Some(Refusal::NotTagString),", "every other number is refusal 13"),
    ("display_variant", "$(Refusal::$variant => $message,)*", "$(Refusal::$variant => stringify!($variant),)*", "the name in the message's place"),
    ("display_prefix", *before("                f.write_str(match self {", '                f.write_str("refused: ")?;'), "more words than the table's"),
    ("result_8_as_7", *before("    if number == 0 {", "    if number == 8 { return Err(Refusal::RecordNotOpen); }"), "8 is given as 7"),
    ("result_13_as_6", *before("    if number == 0 {", "    if number == 13 { return Err(Refusal::SeparatorTooLong); }"), "13 is given as 6"),
    ("result_10_accepted", "if number == 0 {", "if number == 0 || number == 10 {", "10 is given as accepted"),
    ("result_of_others", "unwrap_or_else(|| unreachable!(\"the library answered {number}\"))", "unwrap_or(Refusal::NotTagString)",
     "a number that is no refusal is given as 13"),
    ("rows_exchanged", *exchanged(REFUSAL, "12 BufferTooShort", "13 NotTagString", "12", "13"), "12 and 13 exchanged"),
    ("row_more", "    13 NotTagString", "    14 NotCard \"not a card line\",\n    13 NotTagString", "14, which belongs to cards, is a refusal"),
    ("exhaustive", "        #[non_exhaustive]\n", "", "a later version's refusal breaks callers' matches"),
    ("no_error", "impl core::error::Error for Refusal {}\n", "", "a refusal is no `Error`"),
    ("row_message", "\"separator over 256 bytes\"", "\"separator over 255 bytes\"", "a wrong figure in a message"),
    ("result_17_as_6", *before("    if number == 0 {", "    if number == 17 { return Err(Refusal::SeparatorTooLong); }"), "17 is given as 6"),
    ("row_of_owners", "16 OwnersGap", "99 OwnersGap", "16 is no refusal, and 99 is"),
    ("row_of_fields", "18 FieldUnknown", "99 FieldUnknown", "18 is no refusal, and 99 is"),
    ("row_of_calls", "19 CallTooLong", "99 CallTooLong", "19 is no refusal, and 99 is"),
    ("rows_of_notes", "20 SealLengthInvalid", "99 SealLengthInvalid", "20 is no refusal, and 99 is"),
    ("row_of_marks", "21 MarkDiffers", "99 MarkDiffers", "21 is no refusal, and 99 is"),
    ("row_of_forms", "22 FormUnknown", "99 FormUnknown", "22 is no refusal, and 99 is"),
    ("row_of_form_3", "form number neither 1 nor 2", "form number neither 1, 2 nor 3", "a wrong figure in a message"),
    ("row_of_32_blocks", "no blocks or over 31,", "no blocks or over 32,", "a wrong figure in a message"),
    ("result_21_accepted", "if number == 0 {", "if number == 0 || number == 21 {", "a note whose mark differs is given as opened"),
    ("result_20_as_12", *before("    if number == 0 {", "    if number == 20 { return Err(Refusal::BufferTooShort); }"), "20 is given as 12"),
    ("row_call_limit", "above 16,777,216 elements", "of 16,777,216 elements or more", "a message refuses the longest call"),
    ("row_not_unused", "merged length above 2147483647 (unused)", "merged length above 2147483647", "the message of 5 does not say that nothing gives it"),
    ("row_unused_gone", "    5 MergedLengthTooLong \"merged length above 2147483647 (unused)\",\n", "", "5 is no refusal"),
    ("row_4_not_unused", "last word is ABSORB (unused)", "last word is ABSORB", "the message of 4 does not say that nothing gives it"),
    ("row_4_gone", "    4 LastWordAbsorb \"last word is ABSORB (unused)\",\n", "", "4 is no refusal"),
    ("result_19_as_5", *before("    if number == 0 {", "    if number == 19 { return Err(Refusal::MergedLengthTooLong); }"), "19 is given as 5"),
    ("row_prime", "of the field's prime or more", "of 2013265921 or more", "a message names a prime that may be the other field's"),
) + of(
    OWNERS,
    ("owners_row_bytes", "ROW_BYTES: usize = 10", "ROW_BYTES: usize = 12", "rows of 12 bytes"),
    ("owners_max_rows", "MAX_ROWS: usize = 128", "MAX_ROWS: usize = 129", "129 rows"),
    ("owners_new_cut", "table.as_ptr(), table.len(), ", "table.as_ptr(), table.len() / 10 * 10, ", "a row that is cut short is passed over"),
    ("owners_new_128_rows", "table.as_ptr(), table.len(), ", "table.as_ptr(), table.len().min(1280), ", "row 129 is passed over"),
    ("owners_new_16_bits", "table.as_ptr(), table.len(), ", "table.as_ptr(), table.len() as u16 as usize, ", "the length is cut to 16 bits"),
    ("owners_new_32_bits", "table.as_ptr(), table.len(), ", "table.as_ptr(), table.len() as u32 as usize, ", "the length is cut to 32 bits"),
    ("owners_new_gap_accepted", "Err(Refusal::OwnersGap) => Err(OwnersFault::Gap(place))", "Err(Refusal::OwnersGap) => Ok(Owners { table })",
     "a table with a gap is accepted"),
    ("owners_new_gap_as_row", "Err(OwnersFault::Gap(place))", "Err(OwnersFault::Row(place))", "a gap is given as a bad row"),
    ("owners_new_row_from_0", "Err(OwnersFault::Row(place))", "Err(OwnersFault::Row(place - 1))", "rows are counted from 0"),
    ("owners_new_gap_31_bits", "Err(OwnersFault::Gap(place))", "Err(OwnersFault::Gap(place & 0x7fffffff))", "the gap's top bit is lost"),
    ("owner_table_127", "                self.table.len(),\n", "                self.table.len().min(1270),\n", "127 rows at most"),
    ("owner_separator_3", "                separator.len(),\n", "                separator.len() + 1,\n", "three bytes are enough"),
    ("owner_separator_4", "                separator.len(),\n", "                separator.len().min(4),\n", "only four bytes are lent"),
    ("owner_separator_8_bits", "                separator.len(),\n", "                separator.len() as u8 as usize,\n", "256 bytes are none"),
    ("owner_separator_32_bits", "                separator.len(),\n", "                separator.len() as u32 as usize,\n", "the length is cut to 32 bits"),
    ("owner_separator_256", *before("        let mut value = 0;", "        if separator.len() > 256 { return Err(Refusal::SeparatorTooLong); }"),
     "a separator of 257 bytes is refused"),
    ("owner_accepts", "result(number)?;", "let _ = result(number);", "a short separator is of line 0"),
    ("owner_line_15_bits", "Ok(value as u16)", "Ok(value as u16 & 0x7fff)", "the line's top bit is lost"),
    ("owner_value_start", "let mut value = 0;", "let mut value = 7;", "the value is another before the call"),
    ("owners_unchecked", "    table: &'a [u8],\n}", "    pub table: &'a [u8],\n}", "a table that nobody checked can be put in"),
    ("owners_of_any_lifetime", "pub fn new(table: &'a [u8]) -> Result<Owners<'a>, OwnersFault> {",
     "pub fn new(table: &[u8]) -> Result<Owners<'a>, OwnersFault> {\n"
     "        let table: &'a [u8] = unsafe { core::slice::from_raw_parts(table.as_ptr(), table.len()) };", "the bytes may change or be gone"),
    ("fault_non_exhaustive", *before("pub enum OwnersFault {", "#[non_exhaustive]"), "a match of the two cases needs a third arm"),
    ("owners_equal_by_place", "#[derive(Clone, Copy, Debug, PartialEq, Eq, Hash)]\npub struct Owners<'a> {",
     "impl PartialEq for Owners<'_> { fn eq(&self, o: &Owners) -> bool { core::ptr::eq(self.table, o.table) } }\nimpl Eq for Owners<'_> {}\n"
     "#[derive(Clone, Copy, Debug, Hash)]\npub struct Owners<'a> {", "equal bytes in two places are unequal"),
    ("owners_equal_by_length", "#[derive(Clone, Copy, Debug, PartialEq, Eq, Hash)]\npub struct Owners<'a> {",
     "impl PartialEq for Owners<'_> { fn eq(&self, o: &Owners) -> bool { self.table.len() == o.table.len() } }\nimpl Eq for Owners<'_> {}\n"
     "#[derive(Clone, Copy, Debug, Hash)]\npub struct Owners<'a> {", "tables of one length are equal"),
    ("fault_gap_as_15", "OwnersFault::Gap(_) => Refusal::OwnersGap", "OwnersFault::Gap(_) => Refusal::OwnersRowInvalid", "a gap has number 15"),
    ("fault_row_as_16", "OwnersFault::Row(_) => Refusal::OwnersRowInvalid", "OwnersFault::Row(_) => Refusal::OwnersGap", "a bad row has number 16"),
    ("fault_display_place", 'write!(f, "{refusal}: {number}")', 'write!(f, "{refusal}: {}", number & 0xffff)', "the gap that is shown is cut to 16 bits"),
    ("fault_display_row", 'write!(f, "{refusal}: row {row}")', 'write!(f, "row {row}")', "the message of 15 is not shown"),
    ("fault_no_error", "impl core::error::Error for OwnersFault {}\n", "", "a table's fault is no `Error`"),
) + of(
    PATTERN,
    ("absorb_bit", "ABSORB_BIT: u32 = 1 << 31", "ABSORB_BIT: u32 = 1 << 30", "the bit of ABSORB is the next one"),
    ("max_length", "MAX_LENGTH: u32 = ABSORB_BIT - 1", "MAX_LENGTH: u32 = ABSORB_BIT - 2", "the longest length is one less"),
    ("word_absorb_over", "ABSORB_BIT | length.min(MAX_LENGTH)", "ABSORB_BIT | length", "a length over 31 bits runs into the top bit"),
    ("word_squeeze_over", "Call::Squeeze(length) => length.min(MAX_LENGTH)", "Call::Squeeze(length) => length", "a long SQUEEZE becomes an ABSORB"),
    ("word_squeeze_mask", "Call::Squeeze(length) => length.min(MAX_LENGTH)", "Call::Squeeze(length) => length & MAX_LENGTH",
     "a long SQUEEZE becomes a short one"),
    ("word_absorb_limit", "ABSORB_BIT | length.min(MAX_LENGTH)", "ABSORB_BIT | length.min(Pattern::MAX_CALL)", "a long ABSORB becomes the longest"),
    ("word_squeeze_limit", "Call::Squeeze(length) => length.min(MAX_LENGTH)", "Call::Squeeze(length) => length.min(Pattern::MAX_CALL)",
     "a long SQUEEZE becomes the longest"),
    ("of_word_16_bits", "let length = word & MAX_LENGTH;", "let length = word & 0xffff;", "lengths lose their upper bits"),
    ("of_word_kind", "if word & ABSORB_BIT != 0 {", "if word & ABSORB_BIT == 0 {", "the kinds are exchanged"),
    ("of_word_above", "if word & ABSORB_BIT != 0 {", "if word > ABSORB_BIT {", "the top bit alone is a SQUEEZE"),
    ("new_long_before", *before("        // one more than a pattern can have", "        if calls.iter().any(|call| call.word() & MAX_LENGTH > Pattern::MAX_CALL) {\n"
     "            return Err(Refusal::CallTooLong);\n        }"), "19 is given before 1 and 2"),
    ("new_long_behind", *before("        Pattern::from_words(&words[..calls.len()", "        let shorter = words.map(|word| word & ABSORB_BIT | (word & MAX_LENGTH).min("
     "Pattern::MAX_CALL));\n        Pattern::from_words(&shorter[..if calls.len() < 65 { calls.len() } else { 65 }])?;"), "19 is given behind 3"),
    ("new_long_as_5", "calls.len().min(words.len())])", "calls.len().min(words.len())]).map_err(|refusal| match refusal {\n"
     "            Refusal::CallTooLong => Refusal::MergedLengthTooLong,\n            other => other,\n        })", "5 is given in the place of 19"),
    ("new_last_absorb", *before("        // one more than a pattern can have", "        if let Some(Call::Absorb(_)) = calls.last() {\n"
     "            return Err(Refusal::LastWordAbsorb);\n        }"), "4 is given, before all others"),
    ("new_last_absorb_behind", "calls.len().min(words.len())])", "calls.len().min(words.len())]).and_then(|pattern| match calls.last() {\n"
     "            Some(Call::Absorb(_)) => Err(Refusal::LastWordAbsorb),\n            _ => Ok(pattern),\n        })", "4 is given behind the others"),
    ("new_absorb_alone", "calls.len().min(words.len())])", "calls.len().min(words.len())]).and_then(|pattern| {\n"
     "            let squeezes = calls.iter().any(|call| matches!(call, Call::Squeeze(_)));\n"
     "            if squeezes { Ok(pattern) } else { Err(Refusal::LastWordAbsorb) }\n        })", "4 is given for ABSORB calls alone"),
    ("new_cut", "calls.len().min(words.len())", "calls.len().min(Pattern::MAX_WORDS)", "calls past the 64th are passed over"),
    ("new_16_bits", "calls.len().min(words.len())", "(calls.len() as u16 as usize).min(words.len())", "65537 calls are one"),
    ("new_32_bits", "calls.len().min(words.len())", "(calls.len() as u32 as usize).min(words.len())", "4294967297 calls are one"),
    ("from_words_limit_less", "write_tag(Form::One, words, &[], &mut [0; 4 * Pattern::MAX_WORDS])?;", "write_tag(Form::One, words, &[], &mut [0; 4 * Pattern::MAX_WORDS])?;\n"
     "        if words.iter().any(|word| word & MAX_LENGTH > 16_777_215) {\n            return Err(Refusal::CallTooLong);\n        }",
     "16,777,216 elements are too many"),
    ("from_words_limit_more", "        write_tag(Form::One, words, &[], &mut [0; 4 * Pattern::MAX_WORDS])?;", "        let mut checked = [0; Pattern::MAX_WORDS + 1];\n"
     "        for (to, word) in checked.iter_mut().zip(words) {\n            *to = *word - u32::from(word & MAX_LENGTH == 16_777_217);\n        }\n"
     "        write_tag(Form::One, &checked[..words.len().min(65)], &[], &mut [0; 4 * Pattern::MAX_WORDS])?;", "16,777,217 elements are accepted"),
    ("from_words_last_absorb", "write_tag(Form::One, words, &[], &mut [0; 4 * Pattern::MAX_WORDS])?;", "write_tag(Form::One, words, &[], &mut [0; 4 * Pattern::MAX_WORDS])?;\n"
     "        if words.last() >= Some(&ABSORB_BIT) {\n            return Err(Refusal::LastWordAbsorb);\n        }", "4 is given"),
    ("from_words_odd", "write_tag(Form::One, words, &[], &mut [0; 4 * Pattern::MAX_WORDS])?;", "if write_tag(Form::One, words, &[], &mut [0; 4 * Pattern::MAX_WORDS])? % 8 != 0 {\n"
     "            return Err(Refusal::WordCountOutOfRange);\n        }", "merged words of an odd number are refused"),
    ("from_words_squeeze_more", "copy_from_slice(words);\n        Ok(pattern)", "copy_from_slice(words);\n"
     "        if words.last() >= Some(&ABSORB_BIT) && words.len() < Pattern::MAX_WORDS {\n            pattern.words[words.len()] = 1;\n"
     "            pattern.count += 1;\n        }\n        Ok(pattern)", "a SQUEEZE is added behind a last ABSORB"),
    ("from_words_merged", "copy_from_slice(words);\n        Ok(pattern)", "copy_from_slice(words);\n        Ok(pattern.merged())",
     "the pattern is the merged one"),
    ("from_words_last", "pattern.words[..words.len()].copy_from_slice(words);",
     "pattern.words[..words.len().min(63)].copy_from_slice(&words[..words.len().min(63)]);", "the 64th word is 0"),
    ("from_words_buffer", "&mut [0; 4 * Pattern::MAX_WORDS])?", "&mut [0; 4 * Pattern::MAX_WORDS - 1])?", "64 merged words are refused"),
    ("from_words_unchecked", "write_tag(Form::One, words, &[], &mut [0; 4 * Pattern::MAX_WORDS])?;",
     "let _ = write_tag(Form::One, words, &[], &mut [0; 4 * Pattern::MAX_WORDS]);", "every list of up to 64 words is a pattern"),
    ("from_words_form_2", "write_tag(Form::One, words, &[], &mut [0; 4 * Pattern::MAX_WORDS])?;", "write_tag(Form::Two, words, &[], &mut [0; 4 * Pattern::MAX_WORDS])?;",
     "64 merged words have no room for a tail"),
    ("read_as_form_2", "read(Form::One, string, separator_length)", "read(Form::Two, string, separator_length)", "strings of form 1 are read as form 2's"),
    ("read_257", "read(Form::One, string, separator_length)", "read(Form::One, string, separator_length.min(256))", "a separator of 257 bytes is cut and read"),
    ("read_form_2_as_1", "read(Form::Two, string, 0)", "read(Form::One, string, 0)", "strings of form 2 are read as form 1's"),
    ("read_form_2_512", "read(Form::Two, string, 0)", "read(Form::Two, &string[..string.len().min(512)], 0)", "512 bytes of the string at most"),
    ("read_form_2_given", "read(Form::Two, string, 0)", "read(Form::Two, string, 300)", "another length is given in form 2"),
    ("read_number_1", "            form.number(),\n            string.as_ptr(),", "            1,\n            string.as_ptr(),", "every string is read as form 1's"),
    ("read_front", "&string[separator_start..separator_start + separator_count]", "&string[..separator_count]", "the separator is the string's start"),
    ("read_cut", "&string[separator_start..separator_start + separator_count]", "&string[separator_start..separator_start + separator_count.min(100)]",
     "100 bytes of it at most"),
    ("read_to_end", "&string[separator_start..separator_start + separator_count]", "&string[separator_start..]", "the tail is a part of the separator"),
    ("read_last", "&string[separator_start..separator_start + separator_count]", "&string[string.len() - separator_count..]",
     "the separator is the string's last part in form 2 too"),
    ("read_separator_32_bits", "            separator_length,\n            &mut words,", "            separator_length as u32 as usize,\n            &mut words,",
     "the separator's length is cut to 32 bits"),
    ("read_string_32_bits", "            string.len(),\n            separator_length,", "            string.len() as u32 as usize,\n            separator_length,",
     "the string's length is cut to 32 bits"),
    ("read_odd_as_13", "cut(&words[..count])?", "if count % 2 == 0 { cut(&words[..count])? } else { return Err(Refusal::NotTagString) }",
     "strings of an odd number of words get 13"),
    ("read_one_as_13", "cut(&words[..count])?", "if count > 1 { cut(&words[..count])? } else { return Err(Refusal::NotTagString) }",
     "strings of one word get 13"),
    ("read_even", "cut(&words[..count])?", "cut(&words[..if count > 1 { count & !1 } else { count }])?", "the last ABSORB is lost"),
    ("read_uncut", "cut(&words[..count])?", "Pattern { words, count }", "words longer than a call are in the pattern"),
    ("read_cut_to_limit", "cut(&words[..count])?", "Pattern { words: words.map(|word| word & ABSORB_BIT | (word & MAX_LENGTH).min(Pattern::MAX_CALL)), count }",
     "the rest of a long word is lost"),
    ("read_cut_unused", "cut(&words[..count])?", "cut(&words)?", "the unused words are cut too"),
    ("read_too_long_as_13", "cut(&words[..count])?", "cut(&words[..count]).map_err(|_| Refusal::NotTagString)?",
     "a string that is read, and has too long words, gets 13"),
    ("cut_accepts", "    result(number)?;\n    Ok(pattern)\n", "    let _ = result(number);\n    Ok(pattern)\n", "where 64 calls do not suffice, it gives no calls"),
    ("cut_words_62", "words.as_ptr(), words.len(), &mut pattern.words", "words.as_ptr(), words.len().min(62), &mut pattern.words", "62 words at most"),
    ("cut_copy", "&mut pattern.words, &mut pattern.count)", "&mut pattern.words.clone(), &mut pattern.count)", "a copy of the words is filled"),
    ("cut_count", "&mut pattern.words, &mut pattern.count)", "&mut pattern.words, &mut { pattern.count })", "a copy of the count is set"),
    ("words_63", "&self.words[..self.count]", "&self.words[..self.count.min(63)]", "the 64th word is left out"),
    ("words_all", "&self.words[..self.count]", "&self.words[..]", "the unused words are given too"),
    ("calls_63", "self.words().iter().map(", "self.words().iter().take(63).map(", "the 64th call is left out"),
    ("calls_back", "self.words().iter().map(", "self.words().iter().rev().map(", "the calls are given from the last"),
    ("merged_is_self", "let mut buffer = [0; 4 * Pattern::MAX_WORDS];",
     "if self.count > 40 { return self.clone(); }\n        let mut buffer = [0; 4 * Pattern::MAX_WORDS];", "over 40 words are not merged"),
    ("merged_cut", "Pattern::read(string, 0)", "Pattern::read(&string[..string.len().min(248)], 0)", "62 words of it at most"),
    ("merged_separator", ".tag_string(&[], &mut buffer)\n            .and_then(|string| Pattern::read(string, 0));",
     ".tag_string(&[], &mut buffer)\n            .and_then(|string| Pattern::read(string, string.len() / 128 * 8));", "two words are left out of over 31"),
    ("tag_string_longer", "Ok(&buffer[..length])", "Ok(&buffer[..(length + 1).min(buffer.len())])", "a byte more than was written"),
    ("tag_string_separator", "write_tag(form, self.words(), separator, buffer)?", "write_tag(form, self.words(), &separator[..separator.len().min(200)], buffer)?",
     "200 bytes of the separator at most"),
    ("tag_string_clears", *before("        let length = write_tag(form, self.words()", "        buffer.fill(0);"), "the buffer is cleared first"),
    ("tag_string_of_form_1", "write_tag(form, self.words(), separator, buffer)?", "write_tag(Form::One, self.words(), separator, buffer)?", "every string is of form 1"),
    ("tag_string_of_form_2", "self.tag_string_with_form(Form::One, separator, buffer)", "self.tag_string_with_form(Form::Two, separator, buffer)",
     "the string that names no form is of form 2"),
    ("tag_string_shorter", "self.tag_string_with_form(Form::One, separator, buffer)",
     "self.tag_string_with_form(Form::One, separator, buffer).map(|string| &string[..string.len().min(511)])", "the longest string of form 1 is a byte shorter"),
    ("debug_pattern_40", "debug_list().entries(self.calls())", "debug_list().entries(self.calls().take(40))", "40 calls are shown at most"),
    ("debug_pattern_name", 'f.write_str("Pattern ")?;\n', "", "the type's name is not shown"),
    ("write_tag_buffer_32_bits", "            buffer.len(),\n", "            buffer.len() as u32 as usize,\n", "the buffer's length is cut to 32 bits"),
    ("write_tag_words_cut", "            words.len(),\n", "            words.len().min(64),\n", "words past the 64th are passed over"),
    ("write_tag_separator_32_bits", "            separator.len(),\n", "            separator.len() as u32 as usize,\n",
     "the separator's length is cut to 32 bits"),
    ("write_tag_length", "Ok(written)", "Ok(written.min(515))", "the longest string is a byte shorter"),
    ("write_tag_number_1", "            form.number(),\n            words.as_ptr(),", "            1,\n            words.as_ptr(),", "every string is written in form 1"),
    ("write_tag_start", "let mut written = 0;", "let mut written = 7;", "the length is another before the call"),
    ("max_words", "MAX_WORDS: usize = 64", "MAX_WORDS: usize = 65", "65 words"),
    ("max_call_less", "MAX_CALL: u32 = 16_777_216", "MAX_CALL: u32 = 16_777_215", "calls of 16,777,215 elements"),
    ("max_call_more", "MAX_CALL: u32 = 16_777_216", "MAX_CALL: u32 = 16_777_217", "calls of 16,777,217 elements"),
    ("max_separator", "MAX_SEPARATOR: usize = 256", "MAX_SEPARATOR: usize = 255", "separators of 255 bytes"),
    ("max_tag_string", "Pattern::MAX_SEPARATOR + 4;", "Pattern::MAX_SEPARATOR + 3;", "tag strings of 515 bytes"),
    ("max_tag_string_of_form_1", "Pattern::MAX_SEPARATOR + 4;", "Pattern::MAX_SEPARATOR;", "tag strings of 512 bytes"),
    ("equal_by_count", "#[derive(Clone, PartialEq, Eq, Hash)]\npub struct Pattern",
     "impl PartialEq for Pattern { fn eq(&self, o: &Pattern) -> bool { self.count == o.count } }\nimpl Eq for Pattern {}\n"
     "#[derive(Clone, Hash)]\npub struct Pattern", "patterns of one count are equal"),
    ("equal_by_32", "#[derive(Clone, PartialEq, Eq, Hash)]\npub struct Pattern",
     "impl PartialEq for Pattern { fn eq(&self, o: &Pattern) -> bool { self.count == o.count && self.words[..32] == o.words[..32] } }\n"
     "impl Eq for Pattern {}\n#[derive(Clone, Hash)]\npub struct Pattern", "only 32 words are compared"),
    ("hash_by_place", "#[derive(Clone, PartialEq, Eq, Hash)]\npub struct Pattern",
     "impl core::hash::Hash for Pattern { fn hash<H: core::hash::Hasher>(&self, h: &mut H) { core::ptr::hash(self, h) } }\n"
     "#[derive(Clone, PartialEq, Eq)]\npub struct Pattern", "equal patterns have unequal hashes"),
) + of(
    PROTOCOL,
    ("protocol_new_in_form_2", "Protocol::with_form(field, Form::One, pattern, separator)", "Protocol::with_form(field, Form::Two, pattern, separator)",
     "a protocol that names no form is of form 2"),
    ("protocol_new_in_field_1", "Protocol::with_form(field, Form::One, pattern, separator)", "Protocol::with_form(Field::BabyBear, Form::One, pattern, separator)",
     "a protocol that names no form is of BabyBear"),
    ("protocol_string_of_form_1", ".tag_string_with_form(form, separator, &mut", ".tag_string_with_form(Form::One, separator, &mut", "every protocol's string is of form 1"),
    ("protocol_of_form_1", "            form,\n", "            form: Form::One,\n", "every protocol is of form 1"),
    ("protocol_separator_start", "separator.len() - form.tail_length(),", "separator.len(),", "in form 2 the separator is four bytes behind its place"),
    ("protocol_separator_200", ".tag_string_with_form(form, separator, &mut", ".tag_string_with_form(form, &separator[..separator.len().min(200)], &mut",
     "200 bytes of the separator at most are in the tag string"),
    ("protocol_separator_256", *before("        let mut tag_string = [0", "        let separator = &separator[..separator.len().min(256)];"),
     "a separator of 257 bytes is cut and accepted"),
    ("protocol_separator_32_bits", *before("        let mut tag_string = [0", "        let separator = &separator[..separator.len() as u32 as usize];"),
     "the separator's length is cut to 32 bits"),
    ("protocol_of_field_1", "            field,\n", "            field: Field::BabyBear,\n", "every protocol is of BabyBear"),
    ("protocol_of_merged", "pattern: pattern.clone(),", "pattern: pattern.merged(),", "the pattern is the merged one"),
    ("protocol_separator_length", "separator_length: separator.len(),", "separator_length: separator.len().min(100),", "100 bytes of the separator are given at most"),
    ("protocol_last_absorb", *before("        let mut tag_string = [0", "        if let Some(crate::Call::Absorb(_)) = pattern.calls().last() {\n"
     "            return Err(Refusal::LastWordAbsorb);\n        }"), "4 is given"),
    ("start_without_last_absorb", "(self.pattern.words(), self.separator());", "{\n            let words = self.pattern.words();\n"
     "            let last = words.iter().rposition(|word| word >> 31 == 0).unwrap_or(words.len() - 1);\n            (&words[..=last], self.separator())\n        };",
     "START does not get the ABSORB calls behind the last SQUEEZE"),
    ("start_in_field_1", "                self.field.number(),", "                1,", "every session is of BabyBear"),
    ("start_in_form_1", "                self.form.number(),", "                1,", "every session is of form 1"),
    ("start_in_form_2", "                self.form.number(),", "                2,", "every session is of form 2"),
    ("start_separator_10", "                separator.len(),", "                separator.len().min(10),", "10 bytes of the separator at most"),
    ("start_separator_255", "                separator.len(),", "                separator.len().min(255),", "255 bytes of the separator at most"),
    ("start_separator_8_bits", "                separator.len(),", "                separator.len() as u8 as usize,", "256 bytes are none"),
    ("start_words_62", "                words.len(),", "                words.len().min(62),", "words past the 62nd are passed over"),
    ("start_other_words", "(self.pattern.words(), self.separator());", "(&self.pattern.words()[self.pattern.words().len() % 2..], self.separator());",
     "a pattern of an odd count loses its first word"),
    ("start_whole_string", "(self.pattern.words(), self.separator());", "(self.pattern.words(), self.tag_string());", "the whole tag string is the separator"),
    ("start_merged", "        let (words, separator) = (self.pattern.words(), self.separator());",
     "        let merged = self.pattern.merged();\n        let (words, separator) = (merged.words(), self.separator());", "START gets the merged pattern"),
    ("start_unchecked", 'result(number).expect("all of these were accepted when the protocol was made");', "let _ = result(number);",
     "a refused START gives a closed session"),
    ("protocol_field_1", "        self.field\n", "        Field::BabyBear\n", "BabyBear is given as every protocol's field"),
    ("protocol_field_option", "pub fn field(&self) -> Field {\n        self.field\n", "pub fn field(&self) -> Option<Field> {\n        Some(self.field)\n",
     "a protocol may have no field"),
    ("protocol_form_1", "        self.form\n", "        Form::One\n", "form 1 is given as every protocol's"),
    ("protocol_form_option", "pub fn form(&self) -> Form {\n        self.form\n", "pub fn form(&self) -> Option<Form> {\n        Some(self.form)\n",
     "a protocol may have no form"),
    ("protocol_pattern_merged", "pub fn pattern(&self) -> &Pattern {\n        &self.pattern\n", "pub fn pattern(&self) -> Pattern {\n        self.pattern.merged()\n",
     "the merged pattern is given"),
    ("protocol_pattern_words", "pub fn pattern(&self) -> &Pattern {\n        &self.pattern\n", "pub fn pattern(&self) -> &[u32] {\n        self.pattern.words()\n",
     "its words alone are given"),
    ("protocol_separator_front", "self.tag_string()[self.separator_start..][..self.separator_length]", "self.tag_string()[..self.separator_length]",
     "the separator is the tag string's start"),
    ("protocol_separator_100", "self.tag_string()[self.separator_start..][..self.separator_length]",
     "self.tag_string()[self.separator_start..][..self.separator_length.min(100)]", "the first 100 bytes of the separator at most"),
    ("protocol_separator_last", "self.tag_string()[self.separator_start..][..self.separator_length]", "self.tag_string()[self.length - self.separator_length..]",
     "the tag string's last part is the separator in form 2 too"),
    ("protocol_string_all", "&self.tag_string[..self.length]", "&self.tag_string[..]", "the unused bytes are given too"),
    ("protocol_string_515", "&self.tag_string[..self.length]", "&self.tag_string[..self.length.min(515)]", "the longest string is a byte shorter"),
    ("protocol_equal_by_string", "#[derive(Clone, PartialEq, Eq, Hash)]\npub struct Protocol",
     "impl PartialEq for Protocol { fn eq(&self, o: &Protocol) -> bool { self.field == o.field && self.tag_string() == o.tag_string() } }\n"
     "impl Eq for Protocol {}\n#[derive(Clone, Hash)]\npub struct Protocol", "protocols of one tag string are equal"),
    ("protocol_equal_but_field", "#[derive(Clone, PartialEq, Eq, Hash)]\npub struct Protocol",
     "impl PartialEq for Protocol { fn eq(&self, o: &Protocol) -> bool { self.pattern == o.pattern && self.separator() == o.separator() } }\n"
     "impl Eq for Protocol {}\n#[derive(Clone, Hash)]\npub struct Protocol", "the field is not compared"),
    ("protocol_equal_but_form", "#[derive(Clone, PartialEq, Eq, Hash)]\npub struct Protocol",
     "impl PartialEq for Protocol { fn eq(&self, o: &Protocol) -> bool {\n"
     "    self.field == o.field && self.pattern == o.pattern && self.separator() == o.separator()\n} }\n"
     "impl Eq for Protocol {}\n#[derive(Clone, Hash)]\npub struct Protocol", "the form is not compared"),
    ("debug_protocol_form", '            .field("form", &self.form)\n', "", "the form is not shown"),
    ("debug_protocol_name", 'debug_struct("Protocol")', 'debug_struct("Session")', "another type's name is shown"),
    ("debug_protocol_separator", '&format_args!("\\"{}\\"", self.separator().escape_ascii())', "&self.separator()", "the separator is shown as numbers"),
    ("debug_protocol_field", '            .field("field", &self.field)\n', "", "the field is not shown"),
) + of(
    SEAL,
    ("seal_key_length", "KEY_LENGTH: usize = 8;", "KEY_LENGTH: usize = 9;", "keys of 9 elements"),
    ("seal_nonce_length", "NONCE_LENGTH: usize = 8;", "NONCE_LENGTH: usize = 4;", "nonces of 4 elements"),
    ("seal_mark_length", "MARK_LENGTH: usize = 8;", "MARK_LENGTH: usize = 1;", "marks of 1 element"),
    ("seal_max_blocks", "MAX_BLOCKS: usize = 31;", "MAX_BLOCKS: usize = 32;", "32 blocks"),
    ("seal_opens", "self.call(ffi::tuilarder_seal, plain, buffer)", "self.call(ffi::tuilarder_open, plain, buffer)", "sealing is opening"),
    ("seal_accepts", "self.call(ffi::tuilarder_seal, plain, buffer)", "let _ = self.call(ffi::tuilarder_seal, plain, buffer);\n        Ok(())",
     "a refused sealing is given as done"),
    ("seal_clears", *before("        self.call(ffi::tuilarder_seal, plain, buffer)", "        buffer.fill(0);"), "a refused sealing clears the buffer"),
    ("seal_without_mark", "self.call(ffi::tuilarder_seal, plain, buffer)",
     "self.call(ffi::tuilarder_seal, plain, buffer)?;\n        if let Some(last) = buffer.last_mut() { *last = 0; }\n        Ok(())", "the mark's last element is lost"),
    ("open_seals", "self.call(ffi::tuilarder_open, sealed, buffer)", "self.call(ffi::tuilarder_seal, sealed, buffer)", "opening is sealing"),
    ("open_accepts", "self.call(ffi::tuilarder_open, sealed, buffer)", "let _ = self.call(ffi::tuilarder_open, sealed, buffer);\n        Ok(())",
     "a wrong mark is accepted"),
    ("open_clears", "self.call(ffi::tuilarder_open, sealed, buffer)", "self.call(ffi::tuilarder_open, sealed, buffer).inspect_err(|_| buffer.fill(0))",
     "every refused opening clears the buffer"),
    ("open_leaves", "self.call(ffi::tuilarder_open, sealed, buffer)",
     "if self.call(ffi::tuilarder_open, sealed, buffer) == Err(Refusal::MarkDiffers) {\n            buffer.copy_from_slice(&sealed[..buffer.len()]);\n"
     "            return Err(Refusal::MarkDiffers);\n        }\n        self.call(ffi::tuilarder_open, sealed, buffer)", "with 21 the buffer holds the cipher"),
    ("open_mark_as_10", "self.call(ffi::tuilarder_open, sealed, buffer)",
     "self.call(ffi::tuilarder_open, sealed, buffer).map_err(|refusal| match refusal {\n            Refusal::MarkDiffers => Refusal::ElementNotReduced,\n"
     "            other => other,\n        })", "21 is given as 10"),
    ("open_length_first", *before("        self.call(ffi::tuilarder_open, sealed, buffer)", "        if sealed.len() != buffer.len() + 8 { return Err(Refusal::SealLengthInvalid); }"),
     "20 is given before 6"),
    ("note_in_field_1", "                self.field.number(),\n                self.key", "                1,\n                self.key", "every note is of BabyBear"),
    ("note_keys_exchanged", "                self.key.as_ptr(),\n                self.key.len(),\n                self.nonce.as_ptr(),\n",
     "                self.nonce.as_ptr(),\n                self.key.len(),\n                self.key.as_ptr(),\n", "key and nonce exchanged"),
    ("note_key_twice", "                self.nonce.as_ptr(),", "                self.key.as_ptr(),", "the key is the nonce too"),
    ("note_separator_100", "                self.separator.len(),", "                self.separator.len().min(100),", "100 bytes of the separator at most"),
    ("note_separator_256", "                self.separator.len(),", "                self.separator.len().min(256),", "a separator of 257 bytes is cut and accepted"),
    ("note_separator_32_bits", "                self.separator.len(),", "                self.separator.len() as u32 as usize,", "the separator's length is cut to 32 bits"),
    ("note_lengths_31", "                self.lengths.len(),", "                self.lengths.len().min(31),", "the blocks past the 31st are passed over"),
    ("note_lengths_8_bits", "                self.lengths.len(),", "                self.lengths.len() as u8 as usize,", "257 blocks are one"),
    ("note_lengths_32_bits", "                self.lengths.len(),", "                self.lengths.len() as u32 as usize,", "how many blocks there are is cut to 32 bits"),
    ("note_text_16_bits", "                text.len(),", "                text.len() as u16 as usize,", "the text's length is cut to 16 bits"),
    ("note_text_32_bits", "                text.len(),", "                text.len() as u32 as usize,", "the text's length is cut to 32 bits"),
    ("note_buffer_32_bits", "                buffer.len(),", "                buffer.len() as u32 as usize,", "the buffer's length is cut to 32 bits"),
    ("note_buffer_longer", "                buffer.len(),", "                buffer.len().min(text.len() + 8),", "the buffer may be longer than what is sealed"),
    ("note_empty", *before("        // SAFETY: the slices are valid for their lengths, and `&mut`", "        if self.lengths.is_empty() && text.is_empty() { return Ok(()); }"),
     "no blocks are accepted"),
    ("seal_shows_key", '            .field("nonce", &self.nonce)', '            .field("key", &self.key)\n            .field("nonce", &self.nonce)', "the key is shown"),
    ("seal_shows_field", '            .field("field", &self.field)\n            .field("nonce"', '            .field("nonce"', "the field is not shown"),
    ("seal_by_move", "#[derive(Clone, Copy)]\npub struct Seal", "#[derive(Clone)]\npub struct Seal", "a seal is moved"),
) + of(
    SESSION,
    ("session_field_open", "Field::from_number(self.record.field)", "Field::from_number(self.record.field * (self.record.status & 1))",
     "the field of a closed record is not given"),
    ("session_field_any", "Field::from_number(self.record.field)", "Field::from_number(self.record.field).or(Some(Field::BabyBear))",
     "a record with another number is given as BabyBear's"),
    ("session_field_8_bits", "Field::from_number(self.record.field)", "Field::from_number(self.record.field & 0xff)", "the number is cut to 8 bits"),
    ("session_form_open", "Form::from_number(self.record.form)", "Form::from_number(self.record.form * (self.record.status & 1))",
     "the form of a closed record is not given"),
    ("session_form_any", "Form::from_number(self.record.form)", "Form::from_number(self.record.form).or(Some(Form::One))",
     "a record with another number is given as form 1's"),
    ("session_form_8_bits", "Form::from_number(self.record.form)", "Form::from_number(self.record.form & 0xff)", "the number is cut to 8 bits"),
    ("fork_form", "Session { record: self.record }", "Session { record: Record { form: 1, ..self.record } }", "a fork is of form 1"),
    ("fork_field", "Session { record: self.record }", "Session { record: Record { field: 1, ..self.record } }", "a fork is of BabyBear"),
    ("absorb_4096", "elements.as_ptr(), elements.len()", "elements.as_ptr(), elements.len().min(4096)", "4096 elements at most"),
    ("absorb_16_bits", "elements.as_ptr(), elements.len()", "elements.as_ptr(), elements.len() as u16 as usize", "the length is cut to 16 bits"),
    ("absorb_32_bits", "elements.as_ptr(), elements.len()", "elements.as_ptr(), elements.len() as u32 as usize", "the length is cut to 32 bits"),
    ("absorb_empty", *before("        result(unsafe { ffi::tuilarder_absorb", "        if elements.is_empty() { return Ok(()); }"),
     "an empty call on a bad record is accepted"),
    ("absorb_declared", *before("        result(unsafe { ffi::tuilarder_absorb", "        if (16_777_217..1 << 31).contains(&elements.len()) {\n"
     "            return Err(Refusal::CallNotInPattern);\n        }"), "a call is no longer than a declared one"),
    ("squeeze_2000", "buffer.as_mut_ptr(), buffer.len()", "buffer.as_mut_ptr(), buffer.len().min(2000)", "2000 elements at most"),
    ("squeeze_32_bits", "buffer.as_mut_ptr(), buffer.len()", "buffer.as_mut_ptr(), buffer.len() as u32 as usize", "the length is cut to 32 bits"),
    ("squeeze_declared", *before("        result(unsafe { ffi::tuilarder_squeeze", "        if (16_777_217..1 << 31).contains(&buffer.len()) {\n"
     "            return Err(Refusal::CallNotInPattern);\n        }"), "a call is no longer than a declared one"),
    ("squeeze_empty", *before("        result(unsafe { ffi::tuilarder_squeeze", "        if buffer.is_empty() { return Ok(()); }"),
     "an empty call on a bad record is accepted"),
    ("squeeze_clears", *before("        result(unsafe { ffi::tuilarder_squeeze", "        buffer.fill(0);"), "a refused call clears the buffer"),
    ("challenge_accepts", "self.squeeze(&mut elements)?;", "let _ = self.squeeze(&mut elements);", "a refused challenge is zeros"),
    ("challenge_16", "self.squeeze(&mut elements)?", "self.squeeze(&mut elements[..if N < 16 { N } else { 16 }])?", "16 elements at most, then zeros"),
    ("finish_accepts", "result(unsafe { ffi::tuilarder_finish(&mut self.record) })",
     "let _ = result(unsafe { ffi::tuilarder_finish(&mut self.record) });\n        Ok(())", "every FINISH is accepted"),
    ("finish_keeps", "result(unsafe { ffi::tuilarder_finish(&mut self.record) })",
     "let answer = result(unsafe { ffi::tuilarder_finish(&mut self.record) });\n        core::mem::forget(self);\n        answer",
     "a record that FINISH turns away with 7 or 8 is not wiped"),
    ("finish_closed", *before("        // SAFETY: the record is this session's own.\n        result(", "        if self.record.status == 0 { return Ok(()); }"),
     "FINISH of a closed session is accepted"),
    ("finish_twice", *before("        result(unsafe { ffi::tuilarder_finish", "        let _ = unsafe { ffi::tuilarder_finish(&mut self.record) };"),
     "the library is asked twice, and the second time refuses"),
    ("finish_odd", *before("        // SAFETY: the record is this session's own.\n        result(", "        if self.record.status == 1 && self.record.count % 2 == 1 {\n"
     "            return Err(Refusal::RecordNotSound);\n        }"), "records of an odd number of words are not sound"),
    ("finish_before_last_absorb", *before("        // SAFETY: the record is this session's own.\n        result(",
     "        if self.record.status == 1 && self.record.count > 1 && self.record.count % 2 == 1 && self.record.phase + 1 == self.record.count {\n"
     "            return Ok(());\n        }"), "FINISH is accepted before the last message"),
    ("absorb_last_phase", *before("        result(unsafe { ffi::tuilarder_absorb", "        if self.record.status == 1 && self.record.phase + 1 == self.record.count {\n"
     "            return Err(Refusal::CallNotInPattern);\n        }"), "no last message is absorbed"),
    ("from_record_odd", "from_record(record: Record) -> Session {\n",
     "from_record(mut record: Record) -> Session {\n        if record.count % 2 == 1 { record.status = 0; }\n", "a record of an odd number of words is closed"),
    ("fork_phase", "Session { record: self.record }",
     "Session { record: Record { done: if self.record.phase > 2 { 0 } else { self.record.done }, ..self.record } }", "a fork starts its phase anew"),
    ("fork_permutations", "Session { record: self.record }", "Session { record: Record { permutations: 0, ..self.record } }", "a fork counts from 0"),
    ("fork_closed", "Session { record: self.record }", "Session { record: if self.record.status == 1 { self.record } else { Record::WIPED } }",
     "a fork of a closed record is wiped"),
    ("permutations_32_bits", "        self.record.permutations\n", "        u64::from(self.record.permutations as u32)\n", "the count is cut to 32 bits"),
    ("permutations_phase", "        self.record.permutations\n", "        u64::from(self.record.phase)\n", "the phase in the count's place"),
    ("record_closed", "        &self.record\n", "        if self.record.status == 1 { &self.record } else { &Record::WIPED }\n",
     "a closed record is given as wiped"),
    ("record_done", "        &self.record\n", "        if self.record.phase < self.record.count { &self.record } else { &Record::WIPED }\n",
     "a record whose pattern is done is given as wiped"),
    ("from_record_opens", "from_record(record: Record) -> Session {\n",
     "from_record(mut record: Record) -> Session {\n        if record.status != 0 { record.status = 1; }\n", "every status but 0 is open"),
    ("from_record_wipes", "from_record(record: Record) -> Session {\n",
     "from_record(mut record: Record) -> Session {\n        if record.status != 1 { record = Record::WIPED; }\n", "a closed record is wiped"),
    ("from_record_8_bits", "from_record(record: Record) -> Session {\n", "from_record(mut record: Record) -> Session {\n        record.status &= 0xff;\n",
     "the status is cut to 8 bits"),
    ("debug_open", "&(self.record.status == 1)", "&(self.record.status != 0)", "every status but 0 is shown as open"),
    ("debug_done", '.field("done", &self.record.done)', '.field("done", &self.record.absorb_position)', "another field in the place of `done`"),
    ("debug_state", '.field("done", &self.record.done)', '.field("done", &self.record.done)\n            .field("state", &self.record.state)',
     "the state is shown"),
    ("drop_open", *before("        unsafe { ptr::write_volatile", "        if self.record.status == 1 { return; }"), "an open record is left"),
    ("drop_closed", *before("        unsafe { ptr::write_volatile", "        if self.record.status != 1 { return; }"), "a closed record is left"),
    ("drop_state", "ptr::write_volatile(&mut self.record, Record::WIPED)", "ptr::write_volatile(&mut self.record.state, [0; 24])",
     "only the state is wiped"),
    ("drop_plain", "unsafe { ptr::write_volatile(&mut self.record, Record::WIPED) };\n        compiler_fence(Ordering::SeqCst);",
     "self.record = Record::WIPED;", "the write is not volatile"),
    ("session_clone", "pub struct Session {", "#[derive(Clone)]\npub struct Session {", "a session can be cloned"),
) + of(
    FFI,
    ("wiped_status", "        status: 0,\n", "        status: 2,\n", "a wiped record has status 2"),
    ("wiped_field", "        field: 0,\n", "        field: 1,\n", "a wiped record is of BabyBear"),
    ("wiped_form", "        form: 0,\n", "        form: 1,\n", "a wiped record is of form 1"),
    ("wiped_words", "        words: [0; 64],\n", "        words: [1; 64],\n", "a wiped record has words"),
    ("record_layout", "#[repr(C)]\n", "", "Rust orders the fields"),
    ("record_fields", "pub phase: u32,\n    /// How many elements of it are done.\n    pub done: u32,",
     "pub done: u32,\n    /// How many elements of it are done.\n    pub phase: u32,", "`phase` and `done` exchanged"),
    ("record_fields_asserted", *exchanged(FFI, "pub phase: u32,", "offset_of!(Record, done) == 372", "phase", "done"),
     "`phase` and `done` exchanged, in the assertions too"),
    ("record_status_asserted", *exchanged(FFI, "pub status: u32,", "offset_of!(Record, field) == 4", "status", "field"),
     "`status` and `field` exchanged, in the assertions too"),
    ("record_form_asserted", *exchanged(FFI, "pub field: u32,", "offset_of!(Record, form) == 8", "field", "form"),
     "`field` and `form` exchanged, in the assertions too"),
    ("record_without_form", "    /// The number of the form of its tag string.\n    pub form: u32,\n", "", "the record has no form"),
    ("record_without_field", "    /// The number of the field that its elements are of.\n    pub field: u32,\n", "", "the record has no field"),
    ("record_positions", "pub absorb_position: u32,\n    /// From 0 to 8.\n    pub squeeze_position: u32,",
     "pub squeeze_position: u32,\n    /// From 0 to 8.\n    pub absorb_position: u32,", "the positions exchanged"),
    ("record_words", "pub words: [u32; 64],", "pub words: [u32; 65],", "a word more"),
    ("layout_version", "(3 << 32) | 392", "(2 << 32) | 392", "the crate is for version 2"),
    ("layout_bytes", "(3 << 32) | 392", "(3 << 32) | 384", "records of 384 bytes"),
    ("layout_32_bits", "pub fn tuilarder_layout_3() -> u64;", "pub fn tuilarder_layout_3() -> u32;", "the answer has 32 bits"),
    ("layout_of_version_2", "pub fn tuilarder_layout_3() -> u64;", "pub fn tuilarder_layout_2() -> u64;", "the function of another version"),
    ("ffi_start_lengths", "words_len: usize,\n        separator: *const u8,\n        separator_len: usize,\n    ) -> u32;",
     "separator_len: usize,\n        separator: *const u8,\n        words_len: usize,\n    ) -> u32;", "the lengths' names exchanged"),
    ("ffi_start_finish", "pub fn tuilarder_start(", '#[link_name = "tuilarder_finish"]\n    pub fn tuilarder_start(', "START is FINISH"),
    ("ffi_start_name", "        record: *mut Record,\n        field: u32,", "        record: *mut Record,\n        number: u32,", "a parameter has another name"),
    ("ffi_start_numbers", "        field: u32,\n        form: u32,\n", "        form: u32,\n        field: u32,\n", "the names of field and form exchanged"),
    ("ffi_absorb_squeeze", *called_for("tuilarder_absorb", "tuilarder_squeeze"), "ABSORB is SQUEEZE"),
    ("ffi_absorb_finish", *called_for("tuilarder_absorb", "tuilarder_finish"), "ABSORB is FINISH"),
    ("ffi_squeeze_absorb", *called_for("tuilarder_squeeze", "tuilarder_absorb"), "SQUEEZE is ABSORB"),
    ("ffi_squeeze_const", "record: *mut Record, out: *mut u32, len", "record: *mut Record, out: *const u32, len", "what is written is lent as read only"),
    ("ffi_finish_permute", *called_for("tuilarder_finish", "tuilarder_permute"), "FINISH is the permutation"),
    ("ffi_finish_const", "tuilarder_finish(record: *mut Record)", "tuilarder_finish(record: *const Record)", "the record is lent as read only"),
    ("ffi_permute_finish", *called_for("tuilarder_permute", "tuilarder_finish"), "the permutation is FINISH"),
    ("ffi_permute_const", "state: *mut [u32; 24])", "state: *const [u32; 24])", "the state is lent as read only"),
    ("ffi_permute_name", "tuilarder_permute(field: u32", "tuilarder_permute(number: u32", "a parameter has another name"),
    ("ffi_generate_permute", *called_for("tuilarder_generate", "tuilarder_permute"), "the generator is the permutation"),
    ("ffi_generate_const", "constants: *mut [u32; 744]", "constants: *const [u32; 744]", "the constants are lent as read only"),
    ("ffi_generate_count", "constants: *mut [u32; 744], count: *mut usize", "constants: *mut [u32; 744], count: *const usize", "the count is lent as read only"),
    ("ffi_generate_name", "tuilarder_generate(field: u32, constants", "tuilarder_generate(field: u32, places", "a parameter has another name"),
    ("ffi_write_tag_lengths", "separator_len: usize,\n        out: *mut u8,\n        out_len: usize,",
     "out_len: usize,\n        out: *mut u8,\n        separator_len: usize,", "the lengths' names exchanged"),
    ("ffi_write_tag_form", "        form: u32,\n        words: *const u32,\n        words_len: usize,\n        separator: *const u8,\n        separator_len: usize,\n        out",
     "        field: u32,\n        words: *const u32,\n        words_len: usize,\n        separator: *const u8,\n        separator_len: usize,\n        out",
     "the form has the field's name"),
    ("ffi_write_tag_const", "out: *mut u8,", "out: *const u8,", "what is written is lent as read only"),
    ("ffi_read_tag_lengths", "len: usize,\n        separator_len: usize,\n        words: *mut", "separator_len: usize,\n        len: usize,\n        words: *mut",
     "the lengths' names exchanged"),
    ("ffi_read_tag_const", "        count: *mut usize,\n", "        count: *const usize,\n", "the count is lent as read only"),
    ("ffi_read_tag_place", "separator_start: *mut usize,\n        separator_count: *mut usize,", "separator_count: *mut usize,\n        separator_start: *mut usize,",
     "the names of place and length exchanged"),
    ("ffi_cut_const", "words_len: usize, calls: *mut [u32; 64]", "words_len: usize, calls: *const [u32; 64]", "the calls are lent as read only"),
    ("ffi_cut_count", "calls: *mut [u32; 64], count: *mut usize", "calls: *mut [u32; 64], count: *const usize", "the count is lent as read only"),
    ("ffi_cut_name", "words_len: usize, calls", "calls_len: usize, calls", "the length has another list's name"),
    ("ffi_cut_check_owners", *called_for("tuilarder_cut", "tuilarder_check_owners"), "cutting is the check of a table"),
    ("ffi_hash_answers", "out: *mut [u8; 32]);", "out: *mut [u8; 32]) -> u32;", "the hash has an answer"),
    ("ffi_hash_const", "out: *mut [u8; 32]);", "out: *const [u8; 32]);", "the digest is lent as read only"),
    ("ffi_check_owners_const", "place: *mut u32) -> u32;", "place: *const u32) -> u32;", "the place is lent as read only"),
    ("ffi_check_owners_name", "len: usize, place: *mut u32)", "len: usize, value: *mut u32)", "a parameter has another's name"),
    ("ffi_check_owners_hash", *called_for("tuilarder_check_owners", "tuilarder_sha3_256"), "checking a table is the hash"),
    ("ffi_owner_lengths", "table_len: usize,\n        separator: *const u8,\n        separator_len: usize,\n        value",
     "separator_len: usize,\n        separator: *const u8,\n        table_len: usize,\n        value", "the lengths' names exchanged"),
    ("ffi_owner_const", "value: *mut u32,\n", "value: *const u32,\n", "the value is lent as read only"),
    ("ffi_seal_open", *called_for("tuilarder_seal", "tuilarder_open"), "sealing is opening"),
    ("ffi_seal_name", "plain: *const u32,", "text: *const u32,", "a parameter has another name"),
    ("ffi_seal_const", "plain_len: usize,\n        out: *mut u32,", "plain_len: usize,\n        out: *const u32,", "what is written is lent as read only"),
    ("ffi_seal_text", "plain: *const u32,", "plain: *mut u32,", "what is only read is lent as written"),
    ("ffi_open_seal", *called_for("tuilarder_open", "tuilarder_seal"), "opening is sealing"),
    ("ffi_open_lengths", "cipher_len: usize,\n        out: *mut u32,\n        out_len: usize,", "out_len: usize,\n        out: *mut u32,\n        cipher_len: usize,",
     "the lengths' names exchanged"),
    ("ffi_open_const", "cipher_len: usize,\n        out: *mut u32,", "cipher_len: usize,\n        out: *const u32,", "what is written is lent as read only"),
)

C = of(
    HEADER,
    ("c_prime", "TUILARDER_BABY_BEAR_PRIME 2013265921u", "TUILARDER_BABY_BEAR_PRIME 2013265923u", "another prime"),
    ("c_prime_signed", "TUILARDER_BABY_BEAR_PRIME 2013265921u", "TUILARDER_BABY_BEAR_PRIME 2013265921", "the prime is signed"),
    ("c_other_prime", "TUILARDER_KOALA_BEAR_PRIME 2130706433u", "TUILARDER_KOALA_BEAR_PRIME 2147483647u", "another prime"),
    ("c_other_prime_signed", "TUILARDER_KOALA_BEAR_PRIME 2130706433u", "TUILARDER_KOALA_BEAR_PRIME 2130706433", "the prime is signed"),
    ("c_field", "TUILARDER_BABY_BEAR 1u", "TUILARDER_BABY_BEAR 0u", "BabyBear has the number 0"),
    ("c_field_signed", "TUILARDER_BABY_BEAR 1u", "TUILARDER_BABY_BEAR 1", "a field's number is signed"),
    ("c_other_field", "TUILARDER_KOALA_BEAR 2u", "TUILARDER_KOALA_BEAR 1u", "both fields have the number 1"),
    ("c_other_field_signed", "TUILARDER_KOALA_BEAR 2u", "TUILARDER_KOALA_BEAR 2", "a field's number is signed"),
    ("c_form", "TUILARDER_FORM_1 1u", "TUILARDER_FORM_1 2u", "both forms have the number 2"),
    ("c_form_signed", "TUILARDER_FORM_1 1u", "TUILARDER_FORM_1 1", "a form's number is signed"),
    ("c_other_form", "TUILARDER_FORM_2 2u", "TUILARDER_FORM_2 3u", "form 2 has the number 3"),
    ("c_other_form_signed", "TUILARDER_FORM_2 2u", "TUILARDER_FORM_2 2", "a form's number is signed"),
    ("c_form_number", "TUILARDER_FORM_UNKNOWN = 22", "TUILARDER_FORM_UNKNOWN = 18", "two numbers are one"),
    ("c_max_round_constants", "TUILARDER_MAX_ROUND_CONSTANTS 744", "TUILARDER_MAX_ROUND_CONSTANTS 696", "696 places"),
    ("c_field_number", "TUILARDER_FIELD_UNKNOWN = 18", "TUILARDER_FIELD_UNKNOWN = 8", "18 is 8"),
    ("c_rate", "TUILARDER_RATE 8", "TUILARDER_RATE 16", "rate 16"),
    ("c_capacity", "TUILARDER_CAPACITY 16", "TUILARDER_CAPACITY 8", "capacity 8"),
    ("c_width", "TUILARDER_WIDTH 24", "TUILARDER_WIDTH 25", "an element more"),
    ("c_absorb_bit", "0x80000000u", "0x40000000u", "the bit of ABSORB is the next one"),
    ("c_max_words", "TUILARDER_MAX_WORDS 64", "TUILARDER_MAX_WORDS 63", "a word less"),
    ("c_max_call_less", "TUILARDER_MAX_CALL 16777216u", "TUILARDER_MAX_CALL 16777215u", "calls of 16,777,215 elements"),
    ("c_max_call_more", "TUILARDER_MAX_CALL 16777216u", "TUILARDER_MAX_CALL 16777217u", "calls of 16,777,217 elements"),
    ("c_max_call_signed", "TUILARDER_MAX_CALL 16777216u", "TUILARDER_MAX_CALL 16777216", "the longest call is signed"),
    ("c_max_separator", "TUILARDER_MAX_SEPARATOR 256", "TUILARDER_MAX_SEPARATOR 255", "separators of 255 bytes"),
    ("c_max_tag_string", "TUILARDER_MAX_TAG_STRING 516", "TUILARDER_MAX_TAG_STRING 512", "tag strings of 512 bytes"),
    ("c_digest", "TUILARDER_DIGEST_LENGTH 32", "TUILARDER_DIGEST_LENGTH 31", "digests of 31 bytes"),
    ("c_number", "TUILARDER_ELEMENT_NOT_REDUCED = 10", "TUILARDER_ELEMENT_NOT_REDUCED = 9", "two numbers are one"),
    ("c_call_number", "TUILARDER_CALL_TOO_LONG = 19", "TUILARDER_CALL_TOO_LONG = 5", "19 is 5"),
    ("c_note_number", "TUILARDER_SEAL_LENGTH_INVALID = 20", "TUILARDER_SEAL_LENGTH_INVALID = 12", "20 is 12"),
    ("c_mark_number", "TUILARDER_MARK_DIFFERS = 21", "TUILARDER_MARK_DIFFERS = 20", "two numbers are one"),
    ("c_key_length", "TUILARDER_KEY_LENGTH 8", "TUILARDER_KEY_LENGTH 16", "keys of 16 elements"),
    ("c_nonce_length", "TUILARDER_NONCE_LENGTH 8", "TUILARDER_NONCE_LENGTH 4", "nonces of 4 elements"),
    ("c_mark_length", "TUILARDER_MARK_LENGTH 8", "TUILARDER_MARK_LENGTH 1", "marks of 1 element"),
    ("c_max_note_blocks", "TUILARDER_MAX_NOTE_BLOCKS 31", "TUILARDER_MAX_NOTE_BLOCKS 32", "32 blocks"),
    ("c_stack_start", "TUILARDER_STACK_START 3072", "TUILARDER_STACK_START 2048", "START takes more stack than is said"),
    ("c_stack_absorb", "TUILARDER_STACK_ABSORB 30720", "TUILARDER_STACK_ABSORB 28672", "ABSORB takes more stack than is said"),
    ("c_stack_seal", "TUILARDER_STACK_SEAL 32768", "TUILARDER_STACK_SEAL 29696", "sealing takes more stack than is said"),
    ("c_stack_finish", "TUILARDER_STACK_FINISH 256", "TUILARDER_STACK_FINISH 512", "FINISH takes less than half the stack that is said"),
    ("c_unused_number", "    TUILARDER_MERGED_LENGTH_TOO_LONG = 5,\n", "", "5 has no name"),
    ("c_unused_number_4", "    TUILARDER_LAST_WORD_ABSORB = 4,\n", "", "4 has no name"),
    ("c_numbers", "RECORD_NOT_OPEN = 7,\n    /* open record not sound */\n    TUILARDER_RECORD_NOT_SOUND = 8",
     "RECORD_NOT_OPEN = 8,\n    /* open record not sound */\n    TUILARDER_RECORD_NOT_SOUND = 7", "7 and 8 exchanged"),
    ("c_fields", "uint32_t phase;\n    /* how many elements of it are done */\n    uint32_t done;",
     "uint32_t done;\n    /* how many elements of it are done */\n    uint32_t phase;", "`phase` and `done` exchanged"),
    ("c_positions", "uint32_t absorb_position;\n    uint32_t squeeze_position;", "uint32_t squeeze_position;\n    uint32_t absorb_position;",
     "the positions exchanged"),
    ("c_fields_asserted", *exchanged(HEADER, "uint32_t phase;", "TUILARDER_MEMBER_AT(done, 372);", "phase", "done"),
     "`phase` and `done` exchanged, in the assertions too"),
    ("c_status_asserted", *exchanged(HEADER, "uint32_t status;", "TUILARDER_MEMBER_AT(field, 4);", "status", "field"),
     "`status` and `field` exchanged, in the assertions too"),
    ("c_form_asserted", *exchanged(HEADER, "uint32_t field;", "TUILARDER_MEMBER_AT(form, 8);", "field", "form"),
     "`field` and `form` exchanged, in the assertions too"),
    ("c_member_form_signed", "    uint32_t form;\n", "    int32_t form;\n", "the form's number is signed"),
    ("c_member_signed", "uint32_t count;", "int32_t count;", "a member is signed"),
    ("c_member_field_signed", "    uint32_t field;\n", "    int32_t field;\n", "the field's number is signed"),
    ("c_permutations_32_bits", "uint64_t permutations;", "uint32_t permutations, above;", "the count has 32 bits"),
    ("c_offset", "TUILARDER_MEMBER_AT(words, 108)", "TUILARDER_MEMBER_AT(words, 104)", "a wrong offset"),
    ("c_size", "== 392)", "== 388)", "a wrong size"),
    ("c_offset_unasserted", "TUILARDER_MEMBER_AT(phase, 368);\n", "", "an offset is not asserted"),
    ("c_32_bit_target", "TUILARDER_ASSERT(sizeof(size_t) == 8 && sizeof(void *) == 8);\n", "", "a target of 32 bits is accepted"),
    ("c_layout_version", "UINT64_C(3) << 32", "UINT64_C(2) << 32", "the header is for version 2"),
    ("c_layout_bytes", "<< 32 | 392", "<< 32 | 384", "records of 384 bytes"),
    ("c_guard", "#define TUILARDER_H\n", "", "the header cannot be taken in twice"),
    ("c_names", 'extern "C" {', 'extern "C++" {', "C++ looks for other names"),
    ("c_answers", "__attribute__((warn_unused_result)) uint32_t", "uint32_t", "an answer that nobody looks at is accepted"),
    ("c_answers_elsewhere", "#ifdef __GNUC__", "#ifdef __GNUC", "the attribute is for no compiler"),
    ("c_macro_left", "#undef TUILARDER_ANSWER\n", "", "a macro of the header's own is left behind"),
    ("c_other_macro_left", "#undef TUILARDER_MEMBER_AT\n", "", "a macro of the header's own is left behind"),
    ("c_layout_32_bits", "uint64_t tuilarder_layout_3(void)", "uint32_t tuilarder_layout_3(void)", "the answer has 32 bits"),
    ("c_layout_of_version_2", "uint64_t tuilarder_layout_3(void)", "uint64_t tuilarder_layout_2(void)", "the function of another version"),
    ("c_layout_no_prototype", "tuilarder_layout_3(void);", "tuilarder_layout_3();", "any arguments are accepted"),
    ("c_start_const", "uint32_t field, uint32_t form, const uint32_t *words", "uint32_t field, uint32_t form, uint32_t *words", "words that are only read are not const"),
    ("c_start_field", "*record, uint32_t field, uint32_t form, ", "*record, uint32_t form, ", "START takes no field"),
    ("c_start_form", "*record, uint32_t field, uint32_t form, ", "*record, uint32_t field, ", "START takes no form"),
    ("c_start_numbers", "*record, uint32_t field, uint32_t form, ", "*record, uint32_t form, uint32_t field, ", "the names of field and form exchanged"),
    ("c_start_field_64_bits", "tuilarder_start(struct tuilarder_session *record, uint32_t field", "tuilarder_start(struct tuilarder_session *record, uint64_t field",
     "the field's number has 64 bits"),
    ("c_start_lengths", "size_t words_length,\n                                 const uint8_t *separator, size_t separator_length);",
     "size_t separator_length,\n                                 const uint8_t *separator, size_t words_length);", "the lengths' names exchanged"),
    ("c_absorb_const", "const uint32_t *elements", "uint32_t *elements", "elements that are only read are not const"),
    ("c_absorb_order", "const uint32_t *elements, size_t length", "size_t length, const uint32_t *elements", "the length before the list"),
    ("c_squeeze_const", "uint32_t *out, size_t length", "const uint32_t *out, size_t length", "what is written is const"),
    ("c_squeeze_answer", "TUILARDER_ANSWER tuilarder_squeeze", "uint32_t tuilarder_squeeze", "its answer need not be looked at"),
    ("c_finish_const", "tuilarder_finish(struct", "tuilarder_finish(const struct", "the record that is wiped is const"),
    ("c_finish_void", "TUILARDER_ANSWER tuilarder_finish", "void tuilarder_finish", "it has no answer"),
    ("c_write_tag_lengths", "size_t separator_length, uint8_t *out, size_t out_length", "size_t out_length, uint8_t *out, size_t separator_length",
     "the lengths' names exchanged"),
    ("c_write_tag_form", "tuilarder_write_tag(uint32_t form, ", "tuilarder_write_tag(", "writing takes no form"),
    ("c_write_tag_written", "size_t out_length, size_t *written", "size_t out_length, uint32_t *written", "the length that is written has 32 bits"),
    ("c_read_tag_lengths", "size_t length, size_t separator_length,\n", "size_t separator_length, size_t length,\n", "the lengths' names exchanged"),
    ("c_read_tag_count", "words[TUILARDER_MAX_WORDS], size_t *count", "words[TUILARDER_MAX_WORDS], uint32_t *count", "the count that is written has 32 bits"),
    ("c_read_tag_form", "tuilarder_read_tag(uint32_t form, ", "tuilarder_read_tag(uint32_t field, ", "the form has the field's name"),
    ("c_read_tag_place", "size_t *separator_start, size_t *separator_count", "size_t *separator_count, size_t *separator_start",
     "the names of place and length exchanged"),
    ("c_read_tag_place_32_bits", "size_t *separator_start", "uint32_t *separator_start", "the place that is written has 32 bits"),
    ("c_read_tag_size", "uint32_t words[TUILARDER_MAX_WORDS], size_t", "uint32_t words[24], size_t", "room for 24 words"),
    ("c_cut_const", "tuilarder_cut(const uint32_t *words", "tuilarder_cut(uint32_t *words", "words that are only read are not const"),
    ("c_cut_calls", "size_t words_length, uint32_t calls[", "size_t words_length, const uint32_t calls[", "the calls that are written are const"),
    ("c_cut_count", "calls[TUILARDER_MAX_WORDS], size_t *count", "calls[TUILARDER_MAX_WORDS], uint32_t *count", "the count that is written has 32 bits"),
    ("c_cut_answer", "TUILARDER_ANSWER tuilarder_cut", "uint32_t tuilarder_cut", "its answer need not be looked at"),
    ("c_cut_name", "size_t words_length, uint32_t calls[", "size_t calls_length, uint32_t calls[", "the length has another list's name"),
    ("c_cut_size", "uint32_t calls[TUILARDER_MAX_WORDS]", "uint32_t calls[31]", "room for 31 calls"),
    ("c_permute_const", "tuilarder_permute(uint32_t field, uint32_t state", "tuilarder_permute(uint32_t field, const uint32_t state",
     "the state that is written is const"),
    ("c_permute_answer", "TUILARDER_ANSWER tuilarder_permute", "int32_t tuilarder_permute", "its answer is signed"),
    ("c_permute_order", "tuilarder_permute(uint32_t field, uint32_t state[TUILARDER_WIDTH])", "tuilarder_permute(uint32_t state[TUILARDER_WIDTH], uint32_t field)",
     "the field behind the state"),
    ("c_permute_name", "tuilarder_permute(uint32_t field", "tuilarder_permute(uint32_t number", "a parameter has another name"),
    ("c_permute_size", "uint32_t state[TUILARDER_WIDTH])", "uint32_t state[16])", "a state of 16 elements"),
    ("c_generate_const", "uint32_t constants[", "const uint32_t constants[", "the constants that are written are const"),
    ("c_generate_count", "constants[TUILARDER_MAX_ROUND_CONSTANTS], size_t *count", "constants[TUILARDER_MAX_ROUND_CONSTANTS], uint32_t *count",
     "the count that is written has 32 bits"),
    ("c_generate_answer", "TUILARDER_ANSWER tuilarder_generate", "uint32_t tuilarder_generate", "its answer need not be looked at"),
    ("c_generate_name", "tuilarder_generate(uint32_t field", "tuilarder_generate(uint32_t number", "a parameter has another name"),
    ("c_generate_size", "uint32_t constants[TUILARDER_MAX_ROUND_CONSTANTS]", "uint32_t constants[24]", "room for 24 constants"),
    ("c_hash_const", "tuilarder_sha3_256(const uint8_t *data", "tuilarder_sha3_256(uint8_t *data", "bytes that are only read are not const"),
    ("c_hash_length", "const uint8_t *data, size_t length", "const uint8_t *data, uint32_t length", "the length has 32 bits"),
    ("c_hash_size", "uint8_t out[TUILARDER_DIGEST_LENGTH]", "uint8_t out[8]", "a digest of 8 bytes"),
    ("c_owner_row_bytes", "TUILARDER_OWNER_ROW_BYTES 10", "TUILARDER_OWNER_ROW_BYTES 12", "rows of 12 bytes"),
    ("c_max_owner_rows", "TUILARDER_MAX_OWNER_ROWS 128", "TUILARDER_MAX_OWNER_ROWS 129", "129 rows"),
    ("c_owners_number", "TUILARDER_OWNERS_GAP = 16", "TUILARDER_OWNERS_GAP = 14", "16 is 14"),
    ("c_check_owners_const", "tuilarder_check_owners(const uint8_t *table", "tuilarder_check_owners(uint8_t *table", "a table that is only read is not const"),
    ("c_check_owners_place", "size_t length, uint32_t *place", "size_t length, size_t *place", "the place that is written has 64 bits"),
    ("c_check_owners_answer", "TUILARDER_ANSWER tuilarder_check_owners", "uint32_t tuilarder_check_owners", "its answer need not be looked at"),
    ("c_owner_lengths", "size_t table_length, const uint8_t *separator, size_t separator_length,\n                                 uint32_t *value",
     "size_t separator_length, const uint8_t *separator, size_t table_length,\n                                 uint32_t *value", "the lengths' names exchanged"),
    ("c_owner_value", "uint32_t *value", "uint16_t *value", "the value that is written has 16 bits"),
    ("c_owner_answer", "TUILARDER_ANSWER tuilarder_owner(", "uint32_t tuilarder_owner(", "its answer need not be looked at"),
    ("c_seal_answer", "TUILARDER_ANSWER tuilarder_seal(", "uint32_t tuilarder_seal(", "its answer need not be looked at"),
    ("c_seal_field_64_bits", "tuilarder_seal(uint32_t field", "tuilarder_seal(uint64_t field", "the field's number has 64 bits"),
    ("c_seal_plain", "const uint32_t *plain", "uint32_t *plain", "the note, which is only read, is not const"),
    ("c_seal_out", "size_t plain_length, uint32_t *out", "size_t plain_length, const uint32_t *out", "what is written is const"),
    ("c_seal_keys", "tuilarder_seal(uint32_t field, const uint32_t *key, size_t key_length, const uint32_t *nonce, size_t nonce_length",
     "tuilarder_seal(uint32_t field, const uint32_t *nonce, size_t nonce_length, const uint32_t *key, size_t key_length", "the names of key and nonce exchanged"),
    ("c_open_answer", "TUILARDER_ANSWER tuilarder_open(", "uint32_t tuilarder_open(", "its answer need not be looked at"),
    ("c_open_lengths", "size_t cipher_length, uint32_t *out, size_t out_length", "size_t out_length, uint32_t *out, size_t cipher_length", "the lengths' names exchanged"),
    ("c_open_out_32_bits", "size_t cipher_length, uint32_t *out, size_t out_length", "size_t cipher_length, uint32_t *out, uint32_t out_length",
     "the buffer's length has 32 bits"),
)

FAULTS = CRATE + C

# What changes nothing that a caller sees.
NONE = {
    "of_word_above": "the word that is the top bit alone has length 0, so it is in no pattern",
    "result_of_others": "the library answers with no other number, as is proved",
    "start_merged": "a pattern and the merged one have the same tag string, so their sessions are the same",
    "start_unchecked": "what a protocol holds was accepted when it was made, and START checks the same",
    "write_tag_start": "the library writes it in every call",
    "read_form_2_given": "in form 2 the length given is ignored, as is proved",
    "owner_separator_4": "a separator's number is its first four bytes",
    "owner_value_start": "the library writes it in every call",
    "c_offset_unasserted": "the field is in its place; the assertion is for a compiler that puts it elsewhere",
}

# What the crate's or the header's own assertions or types turn down, before any test.
COMPILER = {"rate", "record_layout", "record_fields", "record_positions", "record_words", "record_without_field", "record_without_form", "max_round_constants",
            "field_by_move", "form_by_move",
            "ffi_seal_const", "ffi_seal_text", "ffi_open_const", "c_width", "c_max_words", "c_fields", "c_positions", "c_offset", "c_size", "max_words"}


# ---- the list of faults

def functions(path):
    """The functions of a source, each with where it begins and ends; a body ends where a brace stands below the line's start."""
    text = read(path)
    if path == HEADER:
        return [(match[1], match.start(), match.end()) for match in re.finditer(r"^\w+ (tuilarder_\w+)\([^;]*\);", text, re.MULTILINE)]
    found = []
    for match in re.finditer(r"^( *)(?:[\w()]+ )*fn (\w+)", text, re.MULTILINE):
        opening = re.compile(r"\{|;$", re.MULTILINE).search(text, match.end())
        end = opening.end() if opening[0] == ";" else text.index(f"\n{match[1]}}}\n", opening.end())
        found.append((match[2], match.start(), end))
    return found


def not_once():
    for fault in FAULTS:
        count = read(fault.file).count(fault.old)
        if count != 1:
            yield f"{fault.name}: the text to replace stands {count} times in {fault.file}"


def not_read():
    """Functions of the crate that `functions` would pass over; and a source that is not in the list."""
    for path in files("bindings/rust/src/**/*.rs"):
        code = re.sub(r"^ *//.*$", "", read(path), flags=re.MULTILINE)
        if path not in SOURCES or len(re.findall(r"\bfn \w+", code)) != len(functions(path)):
            yield f"{path}: not all functions are read"


def too_few():
    for path in (*SOURCES, HEADER):
        places = [(read(path).find(fault.old), len(fault.old)) for fault in FAULTS if fault.file == path and fault.name not in NONE]
        for name, start, end in functions(path):
            count = sum(place < end and place + length > start for place, length in places)
            if count < 2:
                yield f"{path}: {name} has {count} faults, and has to have 2"


def wrong_names():
    names = [fault.name for fault in FAULTS]
    yield from (f"two faults are called {name}" for name in sorted({name for name in names if names.count(name) > 1}))
    yield from (f"no fault is called {name}" for name in sorted({*NONE, *COMPILER} - {*names}))


# ---- one trial

def fresh_copy(folder):
    """bindings/ alone is copied; what its tests read beside it is this checkout's. A copy is of now: with the times of the originals cargo would
    take what it built of an earlier fault."""
    os.makedirs(folder, exist_ok=True)
    shutil.rmtree(os.path.join(folder, "bindings"), ignore_errors=True)
    shutil.copytree(os.path.join(ROOT, "bindings"), os.path.join(folder, "bindings"), copy_function=shutil.copy,
                    ignore=shutil.ignore_patterns("target", "__pycache__"))
    for name in ("crates", "docs", "tests"):
        link = os.path.join(folder, name)
        if not os.path.islink(link):
            os.symlink(os.path.join(ROOT, name), link)


def run(command, folder, at):
    """The status and the output of a command; the status is None past the time limit."""
    environment = {**os.environ, "TUILARDER_ARCHIVE": ARCHIVE, "TUILARDER_ARCHIVE_DIR": os.path.dirname(ARCHIVE),
                   "CARGO_TARGET_DIR": os.path.join(folder, "cargo")}
    environment.pop("TUILARDER_SEED", None)
    process = subprocess.Popen(command, cwd=os.path.join(folder, at), env=environment, stdin=subprocess.DEVNULL, stdout=subprocess.PIPE,
                               stderr=subprocess.STDOUT, text=True, errors="replace", start_new_session=True)
    try:
        output = process.communicate(timeout=LIMIT)[0]
        return process.returncode, output
    except subprocess.TimeoutExpired:
        # the tests that the command started, too
        os.killpg(process.pid, signal.SIGKILL)
        process.communicate()
        return None, ""


def reason(status, output):
    """What a failed command says, in a few words."""
    if status is None:
        return "time limit"
    tests = sorted(set(re.findall(r"^    ([\w:]+)$", output, re.MULTILINE)))
    said = re.search(r"^.*(?:error(?:\[\w+\])?:|signal:|has parameters|has to be turned down).*$|^bindings/.*\.(?:c|cpp):\d+: .*$", output, re.MULTILINE)
    return ", ".join(tests) or (said[0].strip() if said else output.strip()[-150:])


def noticed(folder, file):
    """The first step that fails on the copy as it is, and what it says; None if all pass."""
    steps, at = (HEADER_STEPS, "bindings/c") if file == HEADER else (CRATE_STEPS, "bindings/rust")
    for name, command in steps:
        status, output = run(command, folder, at)
        if status != 0:
            return name, reason(status, output)
    return None


def put(folder, path, text):
    with open(os.path.join(folder, path), "w") as file:
        file.write(text)


def trial(folder, fault):
    text = read(fault.file)
    put(folder, fault.file, text.replace(fault.old, fault.new))
    found = noticed(folder, fault.file)
    put(folder, fault.file, text)
    return found


def verdict(fault, found):
    """Whether that is as expected, and a line."""
    if found is None:
        none = NONE.get(fault.name)
        return none is not None, f"survived, and is none: {none}" if none else f"SURVIVED: {fault.what}"
    if fault.name in NONE:
        return False, f"KILLED, and is said to be none, by {found[0]}: {found[1]}"
    if found[0] == COMPILED and fault.name not in COMPILER:
        return False, f"DOES NOT COMPILE: {found[1]}"
    return True, f"killed by {found[0]}: {found[1]}"


# ---- all of them

def worker(folder, kinds, waiting, results):
    """Takes faults from the queue, once the tests pass on a copy with none."""
    fresh_copy(folder)
    for file in kinds:
        found = noticed(folder, file)
        if found:
            results.append((None, False))
            print(f"with no fault, {found[0]} fails: {found[1]}", flush=True)
            return
    while True:
        try:
            fault = waiting.get_nowait()
        except queue.Empty:
            return
        began = time.monotonic()
        good, line = verdict(fault, trial(folder, fault))
        results.append((fault, good))
        print(f"{fault.name} ({time.monotonic() - began:.0f} s) {line[:200]}", flush=True)


def try_all(faults):
    if not os.path.isfile(ARCHIVE):
        sys.exit("no archive at target/staticlib/libtuilarder.a (bindings/staticlib makes it)")
    waiting, results = queue.Queue(), []
    for fault in faults:
        waiting.put(fault)
    kinds = sorted({fault.file if fault.file == HEADER else LIB for fault in faults})
    threads = [threading.Thread(target=worker, args=(os.path.join(WORK, str(k)), kinds, waiting, results), daemon=True)
               for k in range(min(2, len(faults)))]
    for thread in threads:
        thread.start()
    for thread in threads:
        thread.join()
    tried = {fault.name for fault, good in results if good}
    wrong = [fault.name for fault in faults if fault.name not in tried]
    none = sum(fault.name in NONE for fault in faults)
    if wrong or len(results) != len(faults):
        sys.exit(f"{len(faults)} faults, not as expected: {', '.join(wrong)}")
    print(f"{len(faults)} faults, {len(faults) - none} killed, {none} are none")


def main(arguments):
    findings = [*not_once(), *not_read(), *too_few(), *wrong_names()]
    by_name = {fault.name: fault for fault in FAULTS}
    if arguments == ["list"]:
        for fault in FAULTS:
            print(f"{fault.name}: {fault.file}: {fault.what}" + (f" (none: {NONE[fault.name]})" if fault.name in NONE else ""))
    if not arguments or findings:
        sys.exit("\n".join(findings) or __doc__)
    if arguments == ["test"]:
        try_all(FAULTS)
    elif arguments != ["list"]:
        unknown = [name for name in arguments if name not in by_name]
        if unknown:
            sys.exit(f"no fault is called {', '.join(unknown)}: tests/mutants.py list")
        try_all([by_name[name] for name in arguments])


if __name__ == "__main__":
    main(sys.argv[1:])
