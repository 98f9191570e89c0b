//! What comparisons count their steps by.

/// A sort of steps: a name, and the test that picks them. A step may be of several.
pub struct Sort<Test> {
    /// What is special about them.
    pub name: &'static str,
    /// Whether a step is one of them.
    pub has: Test,
}

/// The sort with this name and this test.
pub const fn sort<Test>(name: &'static str, has: Test) -> Sort<Test> {
    Sort { name, has }
}
