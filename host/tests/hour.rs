//! examples/hour, run as a user runs it: what it prints, and how it ends.

#[path = "../examples/hour/check.rs"]
mod check;
#[path = "../examples/hour/row.rs"]
mod row;

use std::collections::BTreeSet;
use std::ffi::OsStr;
use std::fs::{self, File};
use std::path::{Path, PathBuf};
use std::process::Command;
use std::{env, str};

use lunkaseyo::{byte_text, Kind};
use row::{Row, KINDS};

/// What the hour printed, and its status.
struct Hour {
    lines: Vec<String>,
    status: Option<i32>,
}

/// Runs the example, which `cargo test` builds beside the tests unless it is asked for a single one.
fn hour(arguments: impl IntoIterator<Item = impl AsRef<OsStr>>) -> Hour {
    let this = env::current_exe().expect("the test's own program");
    let built = this
        .parent()
        .and_then(Path::parent)
        .expect("cargo's folders");
    let ended = Command::new(built.join("examples/hour"))
        .args(arguments)
        .output()
        .expect("it is there after `cargo build --examples`");
    let printed = str::from_utf8(&ended.stdout).expect("it prints text");
    Hour {
        lines: printed.lines().map(str::to_owned).collect(),
        status: ended.status.code(),
    }
}

impl Hour {
    /// The lines that begin so.
    fn lines(&self, beginning: &str) -> Vec<&str> {
        let lines = self.lines.iter().map(String::as_str);
        lines.filter(|line| line.starts_with(beginning)).collect()
    }

    /// The table, read back; each row is to end with its size in words.
    fn rows(&self) -> Vec<Row> {
        let lines = self.lines.iter();
        let table = lines
            .skip_while(|line| !line.starts_with("unit  kind"))
            .skip(1);
        table.map_while(|line| row_of(line)).collect()
    }
}

/// The row that a line is, if it is one.
fn row_of(line: &str) -> Option<Row> {
    let fields: Vec<&str> = line.split_whitespace().collect();
    let number = |place: usize| fields.get(place)?.parse().ok();
    let row = Row {
        unit: number(0)?,
        kind: KINDS
            .into_iter()
            .find(|&kind| row::name(kind) == fields[1])?,
        offset: number(2)?,
        size: number(3)?,
        id: number(4)?,
    };
    let words = byte_text(row.size).expect("a range of a block");
    assert_eq!(fields[5..].join(" "), words.as_str());
    Some(row)
}

/// A file of so many zero bytes.
fn file(name: &str, bytes: u64) -> PathBuf {
    let path = Path::new(env!("CARGO_TARGET_TMPDIR")).join(name);
    let made = File::create(&path).and_then(|file| file.set_len(bytes));
    made.expect("a file can be made");
    path
}

/// Fails unless the ranges follow each other without overlap, and those of two kinds on different pages.
fn assert_apart(mut rows: Vec<Row>) {
    rows.sort_by_key(|row| row.offset);
    for pair in rows.windows(2) {
        let end = pair[0].offset + pair[0].size;
        assert!(end <= pair[1].offset, "{} meets {}", pair[0], pair[1]);
        // the first byte of the page after the left one's
        let next_page = (end + row::PAGE - 1) / row::PAGE * row::PAGE;
        let one_kind = pair[0].kind == pair[1].kind;
        assert!(
            one_kind || next_page <= pair[1].offset,
            "{} and {}",
            pair[0],
            pair[1]
        );
    }
}

#[test]
fn forty_samples_are_placed_and_given_back() {
    let hour = hour([""; 0]);
    assert_eq!(hour.status, Some(0));
    let rows = hour.rows();
    assert_eq!(rows.len(), 80);
    for (place, row) in rows.iter().enumerate() {
        assert_eq!(row.unit, 1 + place as u64 / 2);
        assert_eq!(row.kind, KINDS[place % 2]);
    }
    for unit in rows.chunks(2) {
        assert_eq!(unit[1].size, 8 * unit[0].size);
    }
    let ids: BTreeSet<u64> = rows.iter().map(|row| row.id).collect();
    assert_eq!(ids.len(), 80);
    assert_apart(rows);
    let checked = [
        "checked: no two of 80 ranges overlap",
        "checked: no buffer is on a page of 1024 bytes with an image",
    ];
    assert_eq!(hour.lines("checked: "), checked);
    assert!(hour.lines("leaked: ").is_empty());
    assert_eq!(hour.lines("night: "), ["night: 0 leaked, 0.00 B allocated"]);
}

#[test]
fn the_samples_are_removed() {
    let hour = hour([""; 0]);
    let (count, folder) = hour.lines[0]
        .split_once(" sample files in ")
        .expect("it says where");
    assert_eq!(count, "40");
    assert!(!Path::new(folder).exists());
}

#[test]
fn what_is_forgotten_leaks() {
    let hour = hour(["--forget", "3"]);
    assert_eq!(hour.status, Some(0));
    let rows = hour.rows();
    let image = rows
        .iter()
        .find(|row| row.unit == 3 && row.kind == Kind::NonLinear);
    let leaks = hour.lines("leaked: ");
    let expected = format!(
        "leaked: unit 3, image, id {}, ",
        image.expect("it is placed").id
    );
    assert_eq!(leaks.len(), 1);
    assert!(leaks[0].starts_with(&expected), "{}", leaks[0]);
    assert_eq!(hour.lines("night: 1 leaked, ").len(), 1);
}

#[test]
fn an_empty_file_is_told_and_the_hour_goes_on() {
    let hour = hour([file("one", 100), file("empty", 0), file("three", 5000)]);
    assert_eq!(hour.status, Some(0));
    let refused =
        ["buffer", "image"].map(|kind| format!("unit 2, {kind}: refusal 3: the size is 0"));
    assert_eq!(hour.lines("unit 2"), refused);
    let rows = hour.rows();
    let placed: Vec<_> = rows.iter().map(|row| (row.unit, row.size)).collect();
    assert_eq!(placed, [(1, 100), (1, 800), (3, 5000), (3, 40000)]);
    assert_apart(rows);
    assert_eq!(hour.lines("night: 0 leaked").len(), 1);
}

#[test]
fn what_does_not_fit_is_told_and_the_hour_goes_on() {
    let large = file("large", 40 << 20);
    let hour = hour([&large, &file("small", 10)]);
    fs::remove_file(large).expect("it was there");
    assert_eq!(hour.status, Some(0));
    // blocks grow to 256 MiB, and the image has 320
    assert_eq!(hour.lines("five past"), ["five past: a block of 256.00 MB"]);
    let refused = ["unit 1, image: refusal 7: no free chunk holds the request"];
    assert_eq!(hour.lines("unit 1"), refused);
    assert_eq!(hour.rows().len(), 3);
}

#[test]
fn where_slots_end_it_is_told_and_the_hour_goes_on() {
    let hour = hour(vec![file("repeated", 10); 300]);
    assert_eq!(hour.status, Some(0));
    // a slot for each, and one for what is left of the block
    assert_eq!(hour.rows().len(), 511);
    let no_slot = "refusal 9: a chunk would have to be split, and no slot is empty";
    let refused = hour.lines.iter().filter(|line| line.ends_with(no_slot));
    assert_eq!(refused.count(), 600 - 511);
    assert_apart(hour.rows());
}

#[test]
fn wrong_arguments_are_status_2() {
    let one = file("argument", 1).into_os_string();
    let beside = |argument: &str| vec![one.clone(), argument.into()];
    for arguments in [
        vec!["no such file".into()],
        beside("--unknown"),
        beside("--forget"),
        [beside("--forget"), vec!["x".into()]].concat(),
        [beside("--forget"), vec!["2".into()]].concat(),
    ] {
        assert_eq!(hour(&arguments).status, Some(2), "{arguments:?}");
    }
}

#[test]
fn the_check_finds_what_is_wrong() {
    let at = |kind, offset, size, id| Row {
        unit: 1,
        kind,
        offset,
        size,
        id,
    };
    let (buffer, image) = (Kind::Linear, Kind::NonLinear);
    let found = |a, b| check::faults(&[a, at(buffer, 1 << 30, 1, 9), b]);
    let none: [&str; 0] = [];
    assert_eq!(found(at(buffer, 0, 10, 1), at(buffer, 10, 1, 2)), none);
    assert_eq!(found(at(buffer, 0, 1024, 1), at(image, 1024, 1, 2)), none);
    let overlap = ["ids 1 and 2 overlap"];
    assert_eq!(found(at(buffer, 0, 11, 1), at(buffer, 10, 1, 2)), overlap);
    assert_eq!(found(at(image, 5, 1, 1), at(buffer, 0, 11, 2)), overlap);
    let page = ["ids 1 and 2 share a page"];
    assert_eq!(found(at(buffer, 0, 1025, 1), at(image, 1536, 1, 2)), page);
    assert_eq!(found(at(image, 2047, 9, 1), at(buffer, 1024, 1, 2)), page);
}
