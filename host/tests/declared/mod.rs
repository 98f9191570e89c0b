//! The archive's functions, as a source of this package names them.

use std::collections::BTreeSet;
use std::fs;
use std::path::Path;

/// The functions that a source declares or calls: our names with a bracket behind them, outside of comments.
pub fn names_in(source: &str) -> BTreeSet<String> {
    let file = Path::new(env!("CARGO_MANIFEST_DIR")).join(source);
    let text = without_comments(&fs::read_to_string(file).expect("a source of this package"));
    let name = |(at, _)| {
        let (name, _) = text[at..].split_once('(')?;
        let is_one_word = name.chars().all(|c| c == '_' || c.is_ascii_alphanumeric());
        is_one_word.then(|| name.to_owned())
    };
    text.match_indices("lunkaseyo_").filter_map(name).collect()
}

/// The text of C or of Rust with a space in place of each comment.
fn without_comments(text: &str) -> String {
    let (mut rest, mut kept) = (text, String::new());
    while let Some(at) = ["//", "/*"].iter().filter_map(|sign| rest.find(sign)).min() {
        let end = if rest[at..].starts_with("//") {
            "\n"
        } else {
            "*/"
        };
        kept += &rest[..at];
        kept += " ";
        rest = rest[at + 2..]
            .split_once(end)
            .map_or("", |(_, behind)| behind);
    }
    kept + rest
}

#[test]
fn comments_are_left_out() {
    let text = "a // f(\nb /* g( // */ c /// h(\nd /* i(";
    assert_eq!(without_comments(text), "a  b   c  d  ");
}
