// SHA3-256 of 512 bytes, by the library and by OpenSSL: in one call, and with algorithm and context kept from call to call, which is
// OpenSSL's fastest way. Each digest goes into the next message, and all must end in the same message.
#[macro_use]
mod library;
mod measure;

use measure::{compare, Way};
use std::ffi::{c_char, c_int, c_uint, c_void};
use std::hint::black_box;
use std::ptr::{null, null_mut};

libraries! {
    tuilarder_sha3_256(*const u8, usize, *mut [u8; 32]);
}

#[link(name = "crypto")]
extern "C" {
    fn EVP_sha3_256() -> *const c_void;
    fn EVP_Digest(data: *const u8, size: usize, digest: *mut u8, written: *mut c_uint, md: *const c_void, engine: *mut c_void) -> c_int;
    fn EVP_MD_fetch(context: *mut c_void, name: *const c_char, properties: *const c_char) -> *mut c_void;
    fn EVP_MD_CTX_new() -> *mut c_void;
    fn EVP_DigestInit_ex(context: *mut c_void, md: *const c_void, engine: *mut c_void) -> c_int;
    fn EVP_DigestUpdate(context: *mut c_void, data: *const u8, size: usize) -> c_int;
    fn EVP_DigestFinal_ex(context: *mut c_void, digest: *mut u8, written: *mut c_uint) -> c_int;
}

type Hash<'a> = Box<dyn Fn(&[u8; 512], &mut [u8; 32]) + 'a>;

fn hash_into(message: &mut [u8; 512], hash: &Hash) {
    let mut digest = [0; 32];
    hash(black_box(message), &mut digest);
    message[..32].copy_from_slice(&digest);
}

fn by_library(library: &Library, message: &[u8; 512], digest: &mut [u8; 32]) {
    unsafe { (library.tuilarder_sha3_256)(message.as_ptr(), message.len(), digest) }
}

fn by_one_call(message: &[u8; 512], digest: &mut [u8; 32]) {
    let done = unsafe { EVP_Digest(message.as_ptr(), message.len(), digest.as_mut_ptr(), null_mut(), EVP_sha3_256(), null_mut()) };
    assert_eq!(done, 1);
}

fn main() {
    let (algorithm, context) = unsafe { (EVP_MD_fetch(null_mut(), c"SHA3-256".as_ptr(), null()), EVP_MD_CTX_new()) };
    let by_context = |message: &[u8; 512], digest: &mut [u8; 32]| unsafe {
        assert_eq!(EVP_DigestInit_ex(context, algorithm, null_mut()), 1);
        assert_eq!(EVP_DigestUpdate(context, message.as_ptr(), message.len()), 1);
        assert_eq!(EVP_DigestFinal_ex(context, digest.as_mut_ptr(), null_mut()), 1);
    };
    let mut hashes: Vec<(&str, Hash)> =
        vec![("OpenSSL, one call", Box::new(by_one_call)), ("OpenSSL, algorithm and context kept", Box::new(by_context))];
    for library in Library::all() {
        hashes.push((library.name, Box::new(|message, digest| by_library(library, message, digest))));
    }
    let mut messages = vec![[7; 512]; hashes.len()];
    let timed = hashes.iter().zip(&mut messages);
    let ways = timed.map(|((name, hash), message)| Way::new(name, || hash_into(message, hash))).collect();
    compare("SHA3-256 of 512 bytes", 1000, ways);
    assert!(messages.iter().all(|message| *message == messages[0]));
}
