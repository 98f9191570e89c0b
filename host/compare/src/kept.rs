//! Recorded answers that are kept in the repository.

use std::fs;
use std::path::Path;

/// Fails unless the file, named from the repository's root, holds what is recorded now.
pub fn assert_kept(file: &str, recorded: &str) {
    let root = Path::new(env!("CARGO_MANIFEST_DIR")).join("../..");
    let kept =
        fs::read_to_string(root.join(file)).unwrap_or_else(|fault| panic!("{file}: {fault}"));
    for (place, (kept, recorded)) in kept.lines().zip(recorded.lines()).enumerate() {
        assert_eq!(kept, recorded, "line {} of {file}", place + 1);
    }
    assert_eq!(kept.len(), recorded.len(), "the length of {file}");
}
