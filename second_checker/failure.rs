//! Why a run prints no result: its line on standard error, and its status.

use crate::fault::Fault;
use std::fmt::{self, Display, Formatter};

pub enum Failure {
    /// The words are not those of the command.
    CommandLine,
    /// A file can't be opened.
    Open,
    /// A file can't be read.
    Device,
    /// A file has more bytes than its limit.
    TooLong,
    /// The output can't be written.
    Write,
    /// There is not enough memory for a file.
    Memory,
    /// A text has a fault.
    Text(Fault),
    /// The bounds of a lawful text, where a least makespan was asked for.
    Bounds(u64, u64),
}

impl Failure {
    /// 2 for the command line, 3 for files and streams, 1 for everything else.
    pub fn status(&self) -> u8 {
        match self {
            Failure::CommandLine => 2,
            Failure::Open | Failure::Device | Failure::TooLong | Failure::Write => 3,
            _ => 1,
        }
    }
}

impl From<Fault> for Failure {
    fn from(fault: Fault) -> Failure {
        Failure::Text(fault)
    }
}

impl Display for Failure {
    fn fmt(&self, out: &mut Formatter) -> fmt::Result {
        match self {
            Failure::CommandLine => write!(out, "refused command line"),
            Failure::Open => write!(out, "failed open"),
            Failure::Device => write!(out, "failed read Device"),
            Failure::TooLong => write!(out, "failed read TooLong"),
            Failure::Write => write!(out, "failed write Device"),
            Failure::Memory => write!(out, "refused memory"),
            Failure::Text(fault) => write!(out, "{fault}"),
            Failure::Bounds(lower, upper) => write!(out, "refused bounds {lower} {upper}"),
        }
    }
}
