//! Links the static library: the one in `TUILARDER_ARCHIVE_DIR`, or else the one that `bindings/staticlib` makes of this checkout. Either
//! has to be of the version that the crate is written for.

use std::env;
use std::fs;
use std::path::{Path, PathBuf};
use std::process::{exit, Command};

/// The directory of an archive to link; empty is as not set.
const DIRECTORY: &str = "TUILARDER_ARCHIVE_DIR";

/// The function whose name says the archive's version. `src/ffi.rs` declares it.
const LAYOUT: &str = "tuilarder_layout_3";

fn main() {
    println!("cargo:rerun-if-env-changed={DIRECTORY}");
    check_target();
    let directory = env::var_os(DIRECTORY).filter(|directory| !directory.is_empty());
    let (archive, origin) = match &directory {
        Some(directory) => (given(Path::new(directory)), DIRECTORY),
        None => (built(), "bindings/staticlib"),
    };
    check_version(&archive, origin);
    // rt removes its own output when it starts from nothing, so cargo keeps a copy with what it builds
    let kept = variable("OUT_DIR");
    let copy = Path::new(&kept).join("libtuilarder.a");
    // an earlier copy may be read-only, as the archive that it was made of
    let _ = fs::remove_file(&copy);
    if let Err(error) = fs::copy(&archive, &copy) {
        fail(&format!("{} to {}: {error}", archive.display(), copy.display()));
    }
    println!("cargo:rustc-link-search=native={kept}");
    println!("cargo:rustc-link-lib=static=tuilarder");
}

fn fail(message: &str) -> ! {
    eprintln!("tuilarder: {message}");
    exit(1)
}

fn variable(name: &str) -> String {
    env::var(name).unwrap_or_else(|_| fail(&format!("cargo did not set {name}")))
}

fn check_target() {
    for (name, wanted) in [("ARCH", "x86_64"), ("OS", "linux"), ("POINTER_WIDTH", "64")] {
        if variable(&format!("CARGO_CFG_TARGET_{name}")) != wanted {
            let target = variable("TARGET");
            fail(&format!(
                "the library is for x86-64 Linux only, and the target is {target}"
            ));
        }
    }
}

/// Fails here for an archive of another version, whose functions or record may be others under the same names. `origin` says whose it is.
fn check_version(archive: &Path, origin: &str) {
    let path = archive.display();
    let bytes = fs::read(archive).unwrap_or_else(|error| fail(&format!("{origin}: {path}: {error}")));
    // in the archive's index and in an object's table of names a zero byte ends each
    let name = format!("{LAYOUT}\0");
    if !bytes.windows(name.len()).any(|part| part == name.as_bytes()) {
        fail(&format!(
            "{origin}: {path} is not of this crate's version: it has no {LAYOUT}"
        ));
    }
}

/// The archive in the directory that the caller names; a relative path is from this crate's directory.
fn given(directory: &Path) -> PathBuf {
    let archive = directory.join("libtuilarder.a");
    println!("cargo:rerun-if-changed={}", archive.display());
    archive
}

/// The archive that `rt` makes. It is no reason to run again, since `rt` writes it while this script runs.
fn built() -> PathBuf {
    let root = Path::new(&variable("CARGO_MANIFEST_DIR")).join("../..");
    println!("cargo:rerun-if-changed={}", root.join("crates.txt").display());
    // not a whole crate: what `rt` makes stands in it too
    let crates = fs::read_dir(root.join("crates")).unwrap_or_else(|error| fail(&format!("crates: {error}")));
    for path in crates.flatten().map(|entry| entry.path()) {
        for part in ["src", "specs", "proofs"]
            .map(|part| path.join(part))
            .iter()
            .filter(|part| part.exists())
        {
            println!("cargo:rerun-if-changed={}", part.display());
        }
    }
    // what rt says is for people: on this script's standard output cargo would read it
    let output = match Command::new(root.join("bindings/staticlib")).output() {
        Ok(output) => output,
        Err(error) => fail(&format!("bindings/staticlib: {error}")),
    };
    if !output.status.success() {
        eprint!("{}", String::from_utf8_lossy(&output.stdout));
        eprint!("{}", String::from_utf8_lossy(&output.stderr));
        fail(&format!(
            "bindings/staticlib: {}. It needs rt, of the Rattle kit, on the path; or set TUILARDER_ARCHIVE_DIR to the directory of a libtuilarder.a",
            output.status
        ));
    }
    root.join("target/staticlib/libtuilarder.a")
}
