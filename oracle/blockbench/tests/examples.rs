//! The paper's example, and one for each rule of lines that is easily missed.

use lunkaseyo_oracle_blockbench::bench::Bench;

/// What an input is answered with.
fn answers(input: impl AsRef<[u8]>) -> String {
    let mut output = Vec::new();
    let answered = Bench::default().run(input.as_ref(), &mut output);
    answered.expect("memory takes all that is written");
    String::from_utf8(output).expect("answers are text")
}

/// What a line is answered with after this block was made and 100 bytes were taken.
fn after_a_block(line: impl AsRef<[u8]>) -> String {
    let before = b"n 4096 8\na 100 1 1 1024 7\n";
    let all = answers([before, line.as_ref()].concat());
    let rest = all.strip_prefix("0 0 0 0\n0 0 2 100\n");
    rest.expect("the first two are accepted").to_string()
}

const TWO_TO_THE_64: &str = "18446744073709551616";
const LAST_NUMBER: &str = "18446744073709551615";

#[test]
fn the_papers_example() {
    let input = "n 4096 8\na 100 1 1 1024 7\na 256 64 2 1024 8\nf 2\nf 2\n";
    let output = "0 0 0 0\n0 0 2 100\n0 1024 3 1280\n0 0 0 1180\n10 0 0 1180\n";
    assert_eq!(answers(input), output);
}

#[test]
fn the_papers_steps() {
    let input =
        "n 4096 8\na 100 1 1 1024 0\na 256 64 2 1024 0\na 16 16 1 1024 0\nf 2\na 16 1 1 1024 0\n\
        a 100 1 2 1024 0\nf 3\nf 2\nf 2\na 0 1 1 1024 0\na 1 0 1 1024 0\na 1 3 1 1024 0\n";
    let output = "0 0 0 0\n0 0 2 100\n0 1024 3 1280\n0 2048 4 2064\n0 0 0 1964\n0 2064 5 1980\n\
        0 0 2 2080\n0 0 0 900\n0 0 0 800\n10 0 0 800\n3 0 0 800\n4 0 0 800\n4 0 0 800\n";
    assert_eq!(answers(input), output);
}

#[test]
fn lines_end_at_line_feeds_and_the_last_needs_none() {
    assert_eq!(answers(""), "");
    assert_eq!(answers("\n"), "?\n");
    assert_eq!(answers("n 1 1"), "0 0 0 0\n");
    assert_eq!(answers("n 1 1\n\n"), "0 0 0 0\n?\n");
    assert_eq!(answers(b"\xff\0\nn 1 1\n"), "?\n0 0 0 0\n");
}

#[test]
fn numbers_are_digits_of_a_value_below_2_to_the_64() {
    for line in ["f 2", "f 02", &format!("f {}2", "0".repeat(100_000))] {
        assert_eq!(after_a_block(line), "0 0 0 0\n", "{line}");
    }
    assert_eq!(after_a_block(format!("f {LAST_NUMBER}")), "10 0 0 100\n");
    assert_eq!(after_a_block(format!("f 0{LAST_NUMBER}")), "10 0 0 100\n");
    let numbers = ["+2", "-2", "0x2", "2.", "2e0", "2_", "", TWO_TO_THE_64];
    for number in numbers.map(String::from).into_iter().chain([
        format!("1{}", "0".repeat(20)),
        "9".repeat(100),
        format!("{TWO_TO_THE_64}2"),
    ]) {
        assert_eq!(after_a_block(format!("f {number}")), "?\n", "{number}");
    }
}

#[test]
fn one_space_stands_between_and_none_elsewhere() {
    let lines = [
        "f  2",
        " f 2",
        "f 2 ",
        "f\t2",
        "f 2\r",
        "f 2\0",
        "\0f 2",
        "F 2",
        "f",
        "f ",
        "f2",
        "f 2 3",
        " ",
        "x 2",
        "ff 2",
        "n 1",
        "n 1 1 1",
        "a 1 1 1 1",
        "a 1 1 1 1 1 1",
    ];
    for line in lines {
        assert_eq!(after_a_block(line), "?\n", "{line:?}");
    }
    assert_eq!(after_a_block(format!("f 2{}", " ".repeat(100_000))), "?\n");
}

#[test]
fn slots_outside_1_to_512_leave_the_block() {
    for line in [
        "n 64 0",
        "n 64 513",
        "n 0 0",
        "n 0 513",
        "n 64 18446744073709551615",
    ] {
        assert_eq!(
            after_a_block([line, "\nf 2"].concat()),
            "?\n0 0 0 0\n",
            "{line}"
        );
    }
    assert_eq!(answers("n 64 512\na 1 1 1 1 0\n"), "0 0 0 0\n0 0 2 1\n");
}

#[test]
fn a_refused_size_ends_the_block() {
    for size in ["0", "1099511627777", LAST_NUMBER] {
        let lines = format!("n {size} 8\nf 2\na 1 1 1 1 0\nn 1099511627776 1\n");
        assert_eq!(after_a_block(lines), "13 0 0 0\n?\n?\n0 0 0 0\n", "{size}");
    }
}

#[test]
fn calls_before_a_block_and_renames_are_unreadable() {
    assert_eq!(answers("f 1\na 1 1 1 1 0\nn 1 1\n"), "?\n?\n0 0 0 0\n");
    assert_eq!(after_a_block("r 2 5"), "?\n");
}

#[test]
fn a_refused_call_prints_what_is_allocated() {
    let refused = [
        ("a 0 0 0 0 0", 3),
        ("a 1 3 0 0 0", 4),
        ("a 1 1 0 0 0", 5),
        ("a 1 1 0 1 0", 6),
        ("a 1 1 257 1 0", 6),
        ("a 3997 1 1 1 0", 7),
        ("a 18446744073709551615 1 1 1 0", 7),
        ("f 0", 10),
        ("f 1", 10),
        ("f 3", 10),
    ];
    for (line, number) in refused {
        assert_eq!(after_a_block(line), format!("{number} 0 0 100\n"), "{line}");
    }
    assert_eq!(
        answers("n 4096 1\na 1 1 1 1 0\na 4096 1 1 1 0\n"),
        "0 0 0 0\n9 0 0 0\n0 0 1 4096\n"
    );
}
