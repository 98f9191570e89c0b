//! `lunkaseyo.h`: it declares what the archive has, and tests/header.c calls all of it from C and gets the
//! answers.

mod c;
mod declared;

use std::collections::BTreeSet;
use std::process::Command;

use declared::names_in;

/// The last word of each line that `nm` prints of a file, where it prints several: a symbol's name.
fn symbols(file: impl AsRef<std::ffi::OsStr>, which: &[&str]) -> BTreeSet<String> {
    let listed = c::run(Command::new("nm").args(which).arg(file.as_ref()));
    let symbol = |line: &str| {
        let mut fields = line.split_whitespace().rev();
        let name = fields.next()?;
        fields.next().map(|_| name.to_owned())
    };
    listed.lines().filter_map(symbol).collect()
}

#[test]
fn a_c_program_links_and_gets_the_answers() {
    assert_eq!(c::output_of("tests/header.c", "header"), "");
}

#[test]
fn the_archive_has_what_the_header_declares() {
    let declared = names_in("lunkaseyo.h");
    assert_eq!(declared.len(), 21);
    let defined = symbols(
        env!("LUNKASEYO_ARCHIVE"),
        &["--extern-only", "--defined-only"],
    );
    assert_eq!(defined, declared);
    assert_eq!(names_in("src/ffi.rs"), declared);
}

#[test]
fn the_c_program_calls_what_the_header_declares() {
    // what the compiler left to the archive: a name in a comment is not among it
    let object = c::made("calls.o");
    let source = c::file("tests/header.c");
    c::run(c::compiler().arg("-c").arg(source).arg("-o").arg(&object));
    let called = symbols(&object, &["--undefined-only"]);
    for name in names_in("lunkaseyo.h") {
        assert!(
            called.contains(&name),
            "tests/header.c does not call {name}"
        );
    }
}
