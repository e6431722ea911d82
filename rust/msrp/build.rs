//! Finds the archive of the library for C, and links it.

use std::path::{Path, PathBuf};
use std::process::{exit, Command};
use std::{env, fs};

const ARCHIVE: &str = "libmsrp.a";

/// The folder that the user names.
fn named() -> Option<PathBuf> {
    env::var_os("MSRP_LIB_DIR").map(PathBuf::from)
}

/// The folder `lib` of the release, or of the prefix, that contains this crate.
fn in_release() -> Option<PathBuf> {
    let here = fs::canonicalize(env::var_os("CARGO_MANIFEST_DIR")?).ok()?;
    let mut folders = here.ancestors().map(|folder| folder.join("lib"));
    folders.find(|folder| folder.join(ARCHIVE).exists())
}

/// The folder that pkg-config names.
fn by_pkg_config() -> Option<PathBuf> {
    let mut command = Command::new("pkg-config");
    let output = command.args(["--variable=libdir", "msrp"]).output().ok()?;
    let folder = String::from_utf8(output.stdout).ok()?;
    output.status.success().then(|| folder.trim().into())
}

fn link(folder: &Path) {
    println!("cargo:rerun-if-changed={}", folder.join(ARCHIVE).display());
    println!("cargo:rustc-link-search=native={}", folder.display());
    println!("cargo:rustc-link-lib=static=msrp");
}

fn main() {
    println!("cargo:rerun-if-env-changed=MSRP_LIB_DIR");
    println!("cargo:rerun-if-env-changed=PKG_CONFIG_PATH");
    match named().or_else(in_release).or_else(by_pkg_config) {
        Some(folder) if folder.join(ARCHIVE).exists() => link(&folder),
        _ => {
            eprintln!("cannot find {ARCHIVE}; set MSRP_LIB_DIR to its folder: the lib of a release of msrp");
            exit(1);
        }
    }
}
