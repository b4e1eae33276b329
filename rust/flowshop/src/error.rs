//! What is refused, and where the fault is.

use crate::call::Refused;
use flowshop_sys as sys;
use std::fmt::{self, Display, Formatter};

/// What was refused, and where the fault is. Jobs, machines, rows, places and lines count from 1.
#[derive(Clone, Copy, Debug, PartialEq, Eq, Hash)]
#[non_exhaustive]
pub enum Error {
    /// Memory ran out.
    Memory,
    /// The processor lacks something of x86-64-v2, for which the library is compiled, such as SSE4.2 or POPCNT.
    Processor,
    /// The jobs of a shop are not 1 to 800.
    Jobs,
    /// The machines of a shop are not 1 to 26.
    Machines,
    /// A row of a table has another length than its first row.
    Row {
        /// The first such row.
        row: usize,
    },
    /// A time is above 999,999.
    Time {
        /// The job of the first such time, machine by machine.
        job: usize,
        /// Its machine.
        machine: usize,
    },
    /// A seed is not 1 to 2,147,483,646.
    Seed,
    /// A list has another length than the shop has jobs.
    Length,
    /// A list has a job that is none of the shop.
    Job {
        /// The place of the first fault in the list.
        place: usize,
    },
    /// A job stands twice in a list.
    Twice {
        /// Its second place.
        place: usize,
    },
    /// The depth of a plan is above 3.
    Depth,
    /// The budget of a plan is not 1 to 100,000,000.
    Budget,
    /// The version of a plan is not 1 or 2.
    Version,
    /// A width is above 65,536.
    Width,
    /// The rounds are above 100,000,000.
    Rounds,
    /// The work is above 1,000,000.
    Work,
    /// The directions are not 1 to 1,000,000,000.
    Directions,
    /// The depth of a plan is above the number of jobs.
    PlanDepth,
    /// A plan has more than 100,000 trees.
    PlanPrefixes,
    /// A tree is longer than the budget.
    OverBudget {
        /// Which one, counted from 0.
        tree: usize,
    },
    /// Line 1 of a certificate names none.
    Header,
    /// Line 2 of a certificate is not that of the shop.
    Size,
    /// Line 3 of a certificate has not the value, or not both bounds; or line 5 of a counted one has no count.
    Value,
    /// Line 4 of a certificate is no sequence of the shop.
    Sequence,
    /// The makespan of the sequence on line 4 is not the value, or not the upper bound, of line 3.
    NotAttained,
    /// A line of a certificate is not one tree, its directions do not prove the lower bound, or its count is not
    /// that of the search.
    Tree {
        /// The line.
        line: usize,
    },
    /// A bound in a tree is below the value.
    Weak {
        /// The line.
        line: usize,
    },
    /// A line of a certificate leads to a makespan below the value, or below the lower bound.
    Low {
        /// The line.
        line: usize,
    },
    /// What follows the trees, the directions or the count of a certificate is not its last line alone.
    End,
    /// A counted certificate states more nodes than the check may open. It may be lawful.
    Most,
    /// A benchmark text has no line that is not blank.
    NoBlock,
    /// A line of words is wanted in a benchmark text.
    Label {
        /// The line, or the one after the last where the text ends.
        line: usize,
    },
    /// A line of numbers of a benchmark text has a byte that is neither a digit nor a blank.
    Byte {
        /// The line.
        line: usize,
    },
    /// A number of a benchmark text is above 4,294,967,295.
    Number {
        /// The line.
        line: usize,
    },
    /// The head of a block has not five numbers.
    Head {
        /// The line, or the one after the last where the text ends.
        line: usize,
    },
    /// The jobs, the machines or a time of a block are not within the limits.
    Limits {
        /// The line.
        line: usize,
    },
    /// A block has not one time for each job and machine.
    Times {
        /// The line, or the one after the last where the text ends.
        line: usize,
    },
    /// A benchmark text has no block of an index.
    Index {
        /// How many blocks it has.
        blocks: usize,
    },
    /// The library gave an outcome that this crate does not know, as one of another version may.
    Unknown {
        /// The status.
        status: u32,
        /// The place.
        place: usize,
    },
}

impl From<Refused> for Error {
    fn from(refused: Refused) -> Error {
        let Refused { status, place } = refused;
        match status {
            20..=22 => of_list(status, place),
            14 | 31..=50 => of_options(status, place),
            60..=69 => of_certificate(status, place),
            70..=77 => of_text(status, place),
            sys::FLOWSHOP_MEMORY => Error::Memory,
            sys::FLOWSHOP_CPU => Error::Processor,
            sys::FLOWSHOP_JOBS => Error::Jobs,
            sys::FLOWSHOP_MACHINES => Error::Machines,
            _ => Error::Unknown { status, place },
        }
    }
}

fn of_list(status: u32, place: usize) -> Error {
    match status {
        sys::FLOWSHOP_LENGTH => Error::Length,
        sys::FLOWSHOP_JOB => Error::Job { place },
        sys::FLOWSHOP_TWICE => Error::Twice { place },
        _ => Error::Unknown { status, place },
    }
}

fn of_options(status: u32, place: usize) -> Error {
    match status {
        sys::FLOWSHOP_SEED => Error::Seed,
        sys::FLOWSHOP_DEPTH => Error::Depth,
        sys::FLOWSHOP_BUDGET => Error::Budget,
        sys::FLOWSHOP_VERSION => Error::Version,
        sys::FLOWSHOP_WIDTH => Error::Width,
        sys::FLOWSHOP_ROUNDS => Error::Rounds,
        sys::FLOWSHOP_WORK => Error::Work,
        sys::FLOWSHOP_DIRECTIONS => Error::Directions,
        sys::FLOWSHOP_PLAN_DEPTH => Error::PlanDepth,
        sys::FLOWSHOP_PLAN_PREFIXES => Error::PlanPrefixes,
        sys::FLOWSHOP_OVER_BUDGET => Error::OverBudget { tree: place },
        _ => Error::Unknown { status, place },
    }
}

fn of_certificate(status: u32, place: usize) -> Error {
    match status {
        sys::FLOWSHOP_HEADER => Error::Header,
        sys::FLOWSHOP_SIZE => Error::Size,
        sys::FLOWSHOP_VALUE => Error::Value,
        sys::FLOWSHOP_SEQUENCE => Error::Sequence,
        sys::FLOWSHOP_NOT_ATTAINED => Error::NotAttained,
        sys::FLOWSHOP_TREE => Error::Tree { line: place },
        sys::FLOWSHOP_WEAK => Error::Weak { line: place },
        sys::FLOWSHOP_LOW => Error::Low { line: place },
        sys::FLOWSHOP_END => Error::End,
        sys::FLOWSHOP_MOST => Error::Most,
        _ => Error::Unknown { status, place },
    }
}

fn of_text(status: u32, place: usize) -> Error {
    match status {
        sys::FLOWSHOP_NO_BLOCK => Error::NoBlock,
        sys::FLOWSHOP_LABEL => Error::Label { line: place },
        sys::FLOWSHOP_BYTE => Error::Byte { line: place },
        sys::FLOWSHOP_NUMBER => Error::Number { line: place },
        sys::FLOWSHOP_HEAD => Error::Head { line: place },
        sys::FLOWSHOP_LIMITS => Error::Limits { line: place },
        sys::FLOWSHOP_TIMES => Error::Times { line: place },
        sys::FLOWSHOP_INDEX => Error::Index { blocks: place },
        _ => Error::Unknown { status, place },
    }
}

impl Error {
    /// A number that is not within its limits: what it is, and the least and the greatest one.
    fn limits(&self) -> Option<(&'static str, u32, u32)> {
        Some(match self {
            Error::Jobs => ("the number of jobs", 1, sys::FLOWSHOP_MAX_JOBS),
            Error::Machines => ("the number of machines", 1, sys::FLOWSHOP_MAX_MACHINES),
            Error::Seed => ("the seed", 1, sys::FLOWSHOP_MAX_SEED),
            Error::Depth => ("the depth", 0, sys::FLOWSHOP_MAX_DEPTH),
            Error::Budget => ("the budget", 1, sys::FLOWSHOP_MAX_BUDGET),
            Error::Version => ("the version", sys::FLOWSHOP_MIN_VERSION, sys::FLOWSHOP_MAX_VERSION),
            Error::Width => ("the width", 0, sys::FLOWSHOP_MAX_WIDTH),
            Error::Rounds => ("the number of rounds", 0, sys::FLOWSHOP_MAX_ROUNDS),
            Error::Work => ("the work", 0, sys::FLOWSHOP_MAX_WORK),
            Error::Directions => ("the number of directions", 1, sys::FLOWSHOP_MAX_DIRECTIONS),
            Error::PlanPrefixes => ("the number of trees", 1, sys::FLOWSHOP_MAX_PREFIXES),
            _ => return None,
        })
    }

    /// What is wrong, without its place.
    fn sentence(&self) -> &'static str {
        match self {
            Error::Memory => "memory ran out",
            Error::Processor => "the processor lacks something of x86-64-v2, such as SSE4.2",
            Error::Row { .. } => "the length is not that of the first row",
            Error::Time { .. } => "the time is above the limit",
            Error::Length => "the list has another length than there are jobs",
            Error::Job { .. } => "this is no job of the shop",
            Error::Twice { .. } => "this job stands before in the list",
            Error::PlanDepth => "the depth is above the number of jobs",
            Error::OverBudget { .. } => "the tree is longer than the budget",
            Error::Header => "line 1 names no certificate",
            Error::Size => "line 2 is not that of the shop",
            Error::Value => "line 3 has not the value, or not both bounds, or line 5 no count",
            Error::Sequence => "line 4 is no sequence of the shop",
            Error::NotAttained => "the sequence on line 4 has not the makespan of line 3",
            Error::Tree { .. } => "this is not one whole proof",
            Error::Weak { .. } => "a bound is below the value",
            Error::Low { .. } => "a makespan is below what is to be proved",
            Error::End => "what follows the proof is not the last line alone",
            Error::Most => "the text states more nodes than the check may open",
            Error::NoBlock => "the text is empty, or has blanks alone",
            Error::Label { .. } => "a line of words is wanted",
            Error::Byte { .. } => "a line of numbers has another byte than digits and blanks",
            Error::Number { .. } => "a number is above 4294967295",
            Error::Head { .. } => "the head of a block is five numbers",
            Error::Limits { .. } => "the jobs, the machines or a time are not within the limits",
            Error::Times { .. } => "there has to be one time for each job and machine",
            Error::Index { .. } => "the text has no such block",
            _ => "the outcome is none of this version",
        }
    }
}

impl Display for Error {
    fn fmt(&self, out: &mut Formatter) -> fmt::Result {
        if let Some((what, least, most)) = self.limits() {
            return write!(out, "{what} has to be {least} to {most}");
        }
        let sentence = self.sentence();
        match *self {
            Error::Row { row } => write!(out, "row {row}: {sentence}"),
            Error::Time { job, machine } => {
                write!(out, "job {job} on machine {machine}: {sentence}")
            }
            Error::Job { place } | Error::Twice { place } => {
                write!(out, "place {place}: {sentence}")
            }
            Error::OverBudget { tree } => write!(out, "tree {tree}, from 0: {sentence}"),
            Error::Tree { line }
            | Error::Weak { line }
            | Error::Low { line }
            | Error::Label { line }
            | Error::Byte { line }
            | Error::Number { line }
            | Error::Head { line }
            | Error::Limits { line }
            | Error::Times { line } => write!(out, "line {line}: {sentence}"),
            Error::Index { blocks } => write!(out, "{sentence}: it has {blocks}"),
            Error::Unknown { status, place } => {
                write!(out, "status {status} at {place}: {sentence}")
            }
            _ => out.write_str(sentence),
        }
    }
}

impl std::error::Error for Error {}
