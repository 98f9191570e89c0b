//! The machine's C compiler, and the programs that it makes with the archive.

use std::path::{Path, PathBuf};
use std::process::Command;

/// A file of this package.
pub fn file(path: &str) -> PathBuf {
    Path::new(env!("CARGO_MANIFEST_DIR")).join(path)
}

/// A place for what a test makes.
pub fn made(name: &str) -> PathBuf {
    Path::new(env!("CARGO_TARGET_TMPDIR")).join(name)
}

/// The compiler, with every warning an error and the header to be found.
pub fn compiler() -> Command {
    let mut cc = Command::new("cc");
    cc.args(["-std=c99", "-pedantic", "-Wall", "-Wextra", "-Werror"]);
    cc.arg("-I").arg(file(""));
    cc
}

/// What the program of this one source, linked to the archive, prints. It is to end with status 0.
pub fn output_of(source: &str, name: &str) -> String {
    let program = made(name);
    let archive = env!("LUNKASEYO_ARCHIVE");
    run(compiler()
        .arg(file(source))
        .arg(archive)
        .arg("-o")
        .arg(&program));
    run(&mut Command::new(&program))
}

/// What a command prints that is to end with status 0.
pub fn run(command: &mut Command) -> String {
    let ended = command
        .output()
        .unwrap_or_else(|fault| panic!("{command:?}: {fault}"));
    let printed = String::from_utf8_lossy(&ended.stdout).into_owned();
    assert!(
        ended.status.success(),
        "{command:?}: {}\n{printed}{}",
        ended.status,
        String::from_utf8_lossy(&ended.stderr),
    );
    printed
}
