//! The library that is linked is of the version and has the record that this crate declares, and its functions are declared with the types of
//! the C header.

use std::mem::size_of;

use tuilarder::ffi::{self, tuilarder_layout_3, Record, LAYOUT};

/// Version 3, and the record of documents 01 and 02: 96 numbers of four bytes, and the permutations, which have eight.
const VERSION: u64 = 3;
const RECORD_BYTES: u64 = 96 * 4 + 8;

#[test]
fn library_answers_the_layout_that_is_declared() {
    // SAFETY: the function takes nothing.
    let answered = unsafe { tuilarder_layout_3() };
    assert_eq!(answered, VERSION * 4_294_967_296 + RECORD_BYTES);
    assert_eq!(LAYOUT, answered);
    assert_eq!(LAYOUT % 4_294_967_296, size_of::<Record>() as u64);
}

// A call alone shows less: a pointer to what is written can be passed as one to what is only read, and an answer can be passed over.
const _: unsafe extern "C" fn(*mut Record, u32, u32, *const u32, usize, *const u8, usize) -> u32 = ffi::tuilarder_start;
const _: unsafe extern "C" fn(*mut Record, *const u32, usize) -> u32 = ffi::tuilarder_absorb;
const _: unsafe extern "C" fn(*mut Record, *mut u32, usize) -> u32 = ffi::tuilarder_squeeze;
const _: unsafe extern "C" fn(*mut Record) -> u32 = ffi::tuilarder_finish;
const _: unsafe extern "C" fn(u32, *mut [u32; 24]) -> u32 = ffi::tuilarder_permute;
const _: unsafe extern "C" fn(u32, *mut [u32; 744], *mut usize) -> u32 = ffi::tuilarder_generate;
const _: unsafe extern "C" fn(u32, *const u32, usize, *const u8, usize, *mut u8, usize, *mut usize) -> u32 =
    ffi::tuilarder_write_tag;
const _: unsafe extern "C" fn(u32, *const u8, usize, usize, *mut [u32; 64], *mut usize, *mut usize, *mut usize) -> u32 =
    ffi::tuilarder_read_tag;
const _: unsafe extern "C" fn(*const u32, usize, *mut [u32; 64], *mut usize) -> u32 = ffi::tuilarder_cut;
const _: unsafe extern "C" fn(*const u8, usize, *mut [u8; 32]) = ffi::tuilarder_sha3_256;
const _: unsafe extern "C" fn(*const u8, usize, *mut u32) -> u32 = ffi::tuilarder_check_owners;
const _: unsafe extern "C" fn(*const u8, usize, *const u8, usize, *mut u32) -> u32 = ffi::tuilarder_owner;

/// Field, key, nonce, separator, lengths, text and buffer; each list with its length.
type OfNotes = unsafe extern "C" fn(
    u32,
    *const u32,
    usize,
    *const u32,
    usize,
    *const u8,
    usize,
    *const u32,
    usize,
    *const u32,
    usize,
    *mut u32,
    usize,
) -> u32;
const _: OfNotes = ffi::tuilarder_seal;
const _: OfNotes = ffi::tuilarder_open;
