//! Links the proved library: the archive that `compare/archive` builds, and the toolchain's C heap, by
//! which it allocates.

use std::env;
use std::path::{Path, PathBuf};
use std::process::Command;

fn main() {
    let manifest = PathBuf::from(
        env::var_os("CARGO_MANIFEST_DIR").expect("cargo names the manifest's folder"),
    );
    link(
        &manifest.join("../crates/boundary/out"),
        "boundary",
        "build it with compare/archive",
    );
    link(
        &toolchain().join("c"),
        "libc_c",
        "the toolchain has its C heap there",
    );
}

/// The folder of the toolchain, in which the page stands that `rt doc` names.
fn toolchain() -> PathBuf {
    let said = Command::new("rt")
        .arg("doc")
        .output()
        .expect("rt, of the Rattle toolchain, is on the path");
    let page = PathBuf::from(
        String::from_utf8(said.stdout)
            .expect("rt doc names a page")
            .trim(),
    );
    page.parent()
        .expect("the page stands in a folder")
        .to_path_buf()
}

/// Links lib{name}.a of a folder, and does it again when it changes.
fn link(folder: &Path, name: &str, otherwise: &str) {
    let archive = folder.join(format!("lib{name}.a"));
    println!("cargo::rerun-if-changed={}", archive.display());
    if !archive.is_file() {
        println!(
            "cargo::error={} is not there: {otherwise}",
            archive.display()
        );
        return;
    }
    println!("cargo::rustc-link-search=native={}", folder.display());
    println!("cargo::rustc-link-lib=static={name}");
}
