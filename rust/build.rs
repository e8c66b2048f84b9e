//! Has the Rattle toolchain prove and build the static library, and links it.
//!
//! QUIC_VERSION_LIB_DIR names a folder with another libc_interface.a to link in its place; the
//! toolchain is then not run. That is how a wrong library is tried.

use std::env;
use std::ffi::OsString;
use std::fs;
use std::io::{self, ErrorKind};
use std::path::{Path, PathBuf};
use std::process::{exit, Command};

const ARCHIVE: &str = "libc_interface.a";
const FOLDER_VARIABLE: &str = "QUIC_VERSION_LIB_DIR";
/// The function whose name has the number of the interface that this crate is written for.
const INTERFACE: &str = "qv_interface_9";

fn main() {
    println!("cargo:rerun-if-changed=build.rs");
    println!("cargo:rerun-if-env-changed={}", FOLDER_VARIABLE);
    let target = (
        variable("CARGO_CFG_TARGET_ARCH"),
        variable("CARGO_CFG_TARGET_OS"),
    );
    if target != ("x86_64".into(), "linux".into()) {
        stop("the library is for x86-64 Linux only");
    }
    let archive = match env::var_os(FOLDER_VARIABLE) {
        Some(folder) => given(Path::new(&folder)),
        None => proved(),
    };
    if let Err(error) = fits(&archive) {
        stop(&format!("{}: {}", archive.display(), error));
    }
    // A copy, so that what is removed with an out/ folder is not missed by the next build.
    let out = PathBuf::from(variable("OUT_DIR"));
    if let Err(error) = fs::copy(&archive, out.join(ARCHIVE)) {
        stop(&format!("{}: {}", archive.display(), error));
    }
    println!("cargo:rustc-link-search=native={}", out.display());
    println!("cargo:rustc-link-lib=static=c_interface");
}

/// The archive of a folder that the caller names.
fn given(folder: &Path) -> PathBuf {
    let archive = folder.join(ARCHIVE);
    println!("cargo:rerun-if-changed={}", archive.display());
    archive
}

/// The archive that the toolchain proves and writes, in the repository around this crate.
fn proved() -> PathBuf {
    let root = match Path::new(&variable("CARGO_MANIFEST_DIR")).parent() {
        Some(root) => root.to_path_buf(),
        None => stop("this crate has to lie in its repository, as the folder rust/"),
    };
    println!(
        "cargo:rerun-if-changed={}",
        root.join("crates.txt").display()
    );
    for input in inputs(&root.join("crates")) {
        println!("cargo:rerun-if-changed={}", input.display());
    }
    let folder = root.join("crates").join("c_interface");
    let made = Command::new("rt").arg("lib").current_dir(&folder).status();
    match made {
        Ok(status) if status.success() => {}
        Ok(status) => stop(&format!(
            "`rt lib` in crates/c_interface failed: {}. If an earlier run was interrupted, remove \
             the folders crates/*/out and try again",
            status
        )),
        Err(error) if error.kind() == ErrorKind::NotFound => stop(&format!(
            "`rt` of the Rattle toolchain is not on the PATH. Put it there, or set {} to a \
             folder that holds {}",
            FOLDER_VARIABLE, ARCHIVE
        )),
        Err(error) => stop(&format!("`rt` could not be run: {}", error)),
    }
    folder.join("out").join(ARCHIVE)
}

/// What the archive is made of: of each crate all but out/, which the toolchain writes.
fn inputs(crates: &Path) -> Vec<PathBuf> {
    let folders = fs::read_dir(crates).into_iter().flatten().flatten();
    folders
        .flat_map(|folder| ["src", "specs", "proofs"].map(|part| folder.path().join(part)))
        .filter(|part| part.exists())
        .collect()
}

/// Whether the archive has the interface of this crate: its symbols are names that end in a 0.
fn fits(archive: &Path) -> io::Result<()> {
    let symbol = [INTERFACE.as_bytes(), &[0]].concat();
    let bytes = fs::read(archive)?;
    if bytes.windows(symbol.len()).any(|name| name == symbol) {
        return Ok(());
    }
    let other = format!("a library of another interface, without {}", INTERFACE);
    Err(io::Error::new(ErrorKind::InvalidData, other))
}

fn variable(name: &str) -> OsString {
    match env::var_os(name) {
        Some(value) => value,
        None => stop(&format!("cargo did not set {}", name)),
    }
}

fn stop(why: &str) -> ! {
    eprintln!("quic-version: {}", why);
    exit(1)
}
