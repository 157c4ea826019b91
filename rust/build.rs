//! Finds the proved static library libaes18.a and tells cargo to link it: the one in the folder that AES18_ARCHIVE names, or else the one
//! that `tools/staticlib` makes in the repository around this package.

use std::path::{Path, PathBuf};
use std::process::{exit, Command};
use std::{env, io};

fn main() {
    println!("cargo:rerun-if-env-changed=AES18_ARCHIVE");
    let named = env::var_os("AES18_ARCHIVE").filter(|folder| !folder.is_empty());
    let folder = match named {
        Some(folder) => given(PathBuf::from(folder)),
        None => made(&repository()),
    };
    println!("cargo:rustc-link-search=native={}", folder.display());
    println!("cargo:rustc-link-lib=static=aes18");
}

/// The folder that AES18_ARCHIVE names, which must hold the archive.
fn given(folder: PathBuf) -> PathBuf {
    let archive = folder.join("libaes18.a");
    println!("cargo:rerun-if-changed={}", archive.display());
    if !archive.is_file() {
        fail(&format!(
            "there is no file {}, which AES18_ARCHIVE asks for",
            archive.display()
        ));
    }
    folder
}

/// The repository's root, one folder above this package.
fn repository() -> PathBuf {
    let package = env::var_os("CARGO_MANIFEST_DIR").expect("cargo sets CARGO_MANIFEST_DIR");
    let package = PathBuf::from(package);
    package.parent().map(Path::to_path_buf).unwrap_or(package)
}

/// Has the toolchain prove the crate `aes18_c` and write its archive, and answers the archive's folder.
fn made(root: &Path) -> PathBuf {
    println!("cargo:rerun-if-changed={}", root.join("crates.txt").display());
    // Not the folder `out` of a crate, which rt writes.
    for part in sources(&root.join("crates")) {
        println!("cargo:rerun-if-changed={}", part.display());
    }
    if let Err(error) = Command::new("rt").arg("version").output() {
        if error.kind() == io::ErrorKind::NotFound {
            fail(
                "the command 'rt' of the Rattle toolchain is not on the PATH; \
                 install it, or set AES18_ARCHIVE to the folder of a libaes18.a already made",
            );
        }
        fail(&format!("the command 'rt' cannot be run: {error}"));
    }
    let mut command = Command::new(root.join("tools").join("staticlib"));
    match command.current_dir(root).status() {
        Ok(status) if status.success() => root.join("target").join("staticlib"),
        Ok(status) => fail(&format!("the command 'tools/staticlib' ended with {status}")),
        Err(error) => fail(&format!("the command 'tools/staticlib' cannot be run: {error}")),
    }
}

/// The folders that hold what is proved, of each crate.
fn sources(crates: &Path) -> Vec<PathBuf> {
    let listed = crates.read_dir().map(|found| found.flatten().collect::<Vec<_>>());
    let crates = listed.unwrap_or_default();
    let parts = crates.iter().flat_map(|one| ["src", "specs", "proofs"].map(|part| one.path().join(part)));
    parts.filter(|part| part.is_dir()).collect()
}

/// Ends the build with a message.
fn fail(message: &str) -> ! {
    eprintln!("aes18: {message}");
    exit(1)
}
