//! Makes the proved archive, by the script `archive` beside this file, and links it.

use std::env;
use std::fs;
use std::path::{Path, PathBuf};
use std::process::Command;

fn main() {
    let package = folder("CARGO_MANIFEST_DIR");
    let root = package.parent().expect("host/ stands in the repository");
    for source in ["crates.txt", "host/archive"] {
        println!("cargo:rerun-if-changed={}", root.join(source).display());
    }
    // not a crate's out/, which making the archive changes
    for entry in fs::read_dir(root.join("crates")).expect("the crates stand in crates/") {
        let folder = entry.expect("a crate is a folder").path();
        for source in ["src", "specs", "proofs"].map(|part| folder.join(part)) {
            if source.exists() {
                println!("cargo:rerun-if-changed={}", source.display());
            }
        }
    }

    // In cargo's own folder, because `rt ci` sets aside what stands in the crates' out/ at any time.
    let out = folder("OUT_DIR");
    make_archive(&package, &out);
    println!("cargo:rustc-link-search=native={}", out.display());
    println!("cargo:rustc-link-lib=static=lunkaseyo");
    // tests/header.rs links a C program against the same archive
    let archive = out.join("liblunkaseyo.a");
    println!("cargo:rustc-env=LUNKASEYO_ARCHIVE={}", archive.display());
}

/// A folder that cargo names to build scripts.
fn folder(variable: &str) -> PathBuf {
    PathBuf::from(env::var_os(variable).expect("cargo names its folders"))
}

fn make_archive(package: &Path, out: &Path) {
    let made = Command::new(package.join("archive"))
        .arg(out)
        .output()
        .expect("host/archive can be started");
    assert!(
        made.status.success(),
        "host/archive made no archive; it needs `rt` of the Rattle kit, and `ar`, on the path:\n{}{}",
        String::from_utf8_lossy(&made.stdout),
        String::from_utf8_lossy(&made.stderr),
    );
}
