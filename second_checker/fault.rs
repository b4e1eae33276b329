//! What is wrong with a text.

use std::error::Error;
use std::fmt::{self, Display, Formatter};

/// The first fault of a benchmark text or of a text that is checked, by the name that the program gives it, which
/// docs/refusals.md explains. Lines count from 1.
#[derive(Clone, Copy, Debug, PartialEq, Eq, Hash)]
pub enum Fault {
    /// The benchmark text has nothing but blank lines.
    NoBlock,
    /// The first fault of the benchmark text, and its line.
    Text(&'static str, usize),
    /// The benchmark text has no block of the number.
    Index,
    /// The first fault of the checked text, in one of lines 1 to 4 or in the last; or a count that is in no form or too
    /// great.
    Certificate(&'static str),
    /// The first fault of the checked text, in this line: of trees or directions, or a count that the search refutes.
    Tree(&'static str, usize),
}

impl Display for Fault {
    fn fmt(&self, out: &mut Formatter) -> fmt::Result {
        match self {
            Fault::NoBlock => write!(out, "refused text NoBlock"),
            Fault::Text(name, line) => write!(out, "refused text {name} {line}"),
            Fault::Index => write!(out, "refused index"),
            Fault::Certificate(name) => write!(out, "refused certificate {name}"),
            Fault::Tree(name, line) => write!(out, "refused certificate {name} {line}"),
        }
    }
}

impl Error for Fault {}
