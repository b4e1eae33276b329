//! What calls give: sequences, bounds, certificates and timetables.

use crate::call::{Bounded, Reached};
use std::fmt::{self, Display, Formatter};

/// A sequence of a shop: each of its jobs once, which count from 1; and its makespan.
///
/// It is written as its jobs, with spaces between them.
#[derive(Clone, Debug, PartialEq, Eq, Hash)]
pub struct Sequence {
    jobs: Vec<u16>,
    makespan: u64,
}

impl Sequence {
    pub(crate) fn new(jobs: Vec<u16>, makespan: u64) -> Sequence {
        Sequence { jobs, makespan }
    }

    /// The jobs in their order.
    pub fn jobs(&self) -> &[u16] {
        &self.jobs
    }

    /// The time at which the last job leaves the last machine.
    pub fn makespan(&self) -> u64 {
        self.makespan
    }
}

impl From<Reached> for Sequence {
    fn from(reached: Reached) -> Sequence {
        Sequence::new(reached.sequence, reached.makespan)
    }
}

impl AsRef<[u16]> for Sequence {
    fn as_ref(&self) -> &[u16] {
        &self.jobs
    }
}

impl Display for Sequence {
    fn fmt(&self, out: &mut Formatter) -> fmt::Result {
        let mut mark = "";
        for job in &self.jobs {
            write!(out, "{mark}{job}")?;
            mark = " ";
        }
        Ok(())
    }
}

/// Bounds between which the least makespan of a shop lies, and a sequence that has the upper one.
///
/// They are written as `optimal 12` where both are one number, and else as `bounds 11 13`.
#[derive(Clone, Debug, PartialEq, Eq, Hash)]
pub struct Bounds {
    lower: u64,
    upper: u64,
    sequence: Sequence,
}

impl Bounds {
    /// No sequence has a makespan below this.
    pub fn lower(&self) -> u64 {
        self.lower
    }

    /// The makespan of the sequence.
    pub fn upper(&self) -> u64 {
        self.upper
    }

    /// Whether both bounds are one number, which is the least makespan then.
    pub fn is_optimal(&self) -> bool {
        self.lower == self.upper
    }

    /// A sequence that has the upper bound.
    pub fn sequence(&self) -> &Sequence {
        &self.sequence
    }
}

impl From<Bounded> for Bounds {
    fn from(bounded: Bounded) -> Bounds {
        Bounds { lower: bounded.lower, upper: bounded.upper, sequence: Sequence::new(bounded.sequence, bounded.upper) }
    }
}

impl AsRef<[u16]> for Bounds {
    fn as_ref(&self) -> &[u16] {
        self.sequence.as_ref()
    }
}

impl Display for Bounds {
    fn fmt(&self, out: &mut Formatter) -> fmt::Result {
        if self.is_optimal() {
            write!(out, "optimal {}", self.upper)
        } else {
            write!(out, "bounds {} {}", self.lower, self.upper)
        }
    }
}

/// A certificate: bounds of the least makespan, and a text that proves them, which any checker reads.
#[derive(Clone, Debug, PartialEq, Eq, Hash)]
pub struct Certificate {
    bounds: Bounds,
    text: String,
}

impl Certificate {
    pub(crate) fn new((bounded, text): (Bounded, Vec<u8>)) -> Certificate {
        Certificate { bounds: bounded.into(), text: text_of(text) }
    }

    /// The bounds that the text proves, and its sequence.
    pub fn bounds(&self) -> &Bounds {
        &self.bounds
    }

    /// The text, which ends with a line feed.
    pub fn text(&self) -> &str {
        &self.text
    }
}

impl AsRef<[u8]> for Certificate {
    fn as_ref(&self) -> &[u8] {
        self.text.as_bytes()
    }
}

impl AsRef<[u16]> for Certificate {
    fn as_ref(&self) -> &[u16] {
        self.bounds.as_ref()
    }
}

/// A text of the library, whose bytes are ASCII.
pub(crate) fn text_of(bytes: Vec<u8>) -> String {
    String::from_utf8(bytes).unwrap_or_else(|other| String::from_utf8_lossy(other.as_bytes()).into_owned())
}

/// An operation of a timetable: a job on a machine, which count from 1.
#[derive(Clone, Copy, Debug, PartialEq, Eq, Hash)]
pub struct Operation {
    /// The job.
    pub job: u16,
    /// The machine.
    pub machine: usize,
    /// When it starts.
    pub start: u64,
    /// When it ends.
    pub end: u64,
}

/// When each job of a sequence starts and ends on each machine, where each starts as early as it can.
#[derive(Clone, Debug, PartialEq, Eq, Hash)]
pub struct Timetable {
    pub(crate) jobs: Vec<u16>,
    pub(crate) machines: usize,
    pub(crate) starts: Vec<u64>,
    pub(crate) ends: Vec<u64>,
}

impl Timetable {
    /// When the operations start: for each job, in the order of the sequence, a time for each machine.
    pub fn starts(&self) -> &[u64] {
        &self.starts
    }

    /// When the operations end, in the order of the starts.
    pub fn ends(&self) -> &[u64] {
        &self.ends
    }

    /// The operations, in the same order.
    pub fn operations(&self) -> impl Iterator<Item = Operation> + '_ {
        let machines = 1..=self.machines;
        let each = self.jobs.iter();
        let each = each.flat_map(move |&job| machines.clone().map(move |machine| (job, machine)));
        let spans = self.starts.iter().zip(&self.ends);
        each.zip(spans).map(|((job, machine), (&start, &end))| Operation { job, machine, start, end })
    }
}

/// The best sequence of a beam or of rounds, and how the search ended.
#[derive(Clone, Debug, PartialEq, Eq, Hash)]
pub struct Best {
    /// The sequence.
    pub sequence: Sequence,
    /// Whether its makespan has Taillard's bound, so that no sequence has a smaller one, or the search ended because a
    /// pass dropped nothing, of which nothing proves that.
    pub whole: bool,
}

impl From<Reached> for Best {
    fn from(reached: Reached) -> Best {
        Best { whole: reached.whole, sequence: reached.into() }
    }
}
