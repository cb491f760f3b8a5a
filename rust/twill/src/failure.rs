//! Why the tool ends without a result.

#[derive(Debug, PartialEq, Eq)]
pub struct Failure {
    /// The exit status.
    pub status: u8,
    /// One line for the user; none where it was printed already.
    pub line: Option<String>,
}

impl Failure {
    /// The library refused.
    pub const fn refused(line: String) -> Self {
        Self { status: 1, line: Some(line) }
    }

    /// The command line is not one of the tool's.
    pub const fn usage(line: String) -> Self {
        Self { status: 2, line: Some(line) }
    }

    /// A file cannot be read, is malformed, or cannot be written.
    pub const fn file(line: String) -> Self {
        Self { status: 3, line: Some(line) }
    }
}
