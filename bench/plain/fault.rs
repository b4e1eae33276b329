//! Why a run ends without its output.

/// The status of a run, and its line on standard error.
pub struct Fault {
    pub status: u8,
    pub line: String,
}

/// The fault of an input that is refused.
pub fn refused(line: impl AsRef<str>) -> Fault {
    Fault {
        status: 1,
        line: format!("refused {}", line.as_ref()),
    }
}

/// The fault of a file that can't be read or written.
pub fn failed(line: &str) -> Fault {
    Fault {
        status: 3,
        line: format!("failed {line}"),
    }
}

/// The fault of the words of a command line.
pub fn command_line() -> Fault {
    Fault {
        status: 2,
        line: String::from("refused command line"),
    }
}
