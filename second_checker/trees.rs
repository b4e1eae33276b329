//! The trees of a certificate: why no sequence has a makespan below its value.
//!
//! There is a line for each list of so many distinct jobs as the depth says, in lexicographic order, with one tree. A
//! tree speaks of all sequences that begin with a list:
//!
//! - a point, where the list has all jobs and its makespan is at least the value;
//! - the letter of a machine, `A` for the first, where jobs are left and the bound of the list on that machine is at
//!   least the value;
//! - a plus, where jobs are left, followed by a tree for the list with each job left put after its last, in increasing
//!   order of jobs.
//!
//! Each sequence follows one branch to a point or a letter, so none is below the value.

use crate::fault::Fault;
use crate::heading::Bound;
use crate::shop::{self, PerMachine, Shop, MAX_MACHINES};

/// The reading of the trees. Each call of a list leaves the jobs left as it found them.
struct Reader<'a> {
    shop: &'a Shop,
    bound: Bound,
    value: u64,
    /// The text from the next byte on, and the number of its line.
    rest: &'a [u8],
    line: usize,
    /// The jobs that are not in the list that is read now, in increasing order.
    left: Vec<usize>,
}

/// Checks the lines of trees, and gives what follows them.
pub fn check<'a>(
    shop: &'a Shop,
    bound: Bound,
    value: u64,
    depth: usize,
    text: &'a [u8],
) -> Result<&'a [u8], Fault> {
    let left = shop.all_jobs();
    let mut reader = Reader {
        shop,
        bound,
        value,
        rest: text,
        line: 5,
        left,
    };
    reader.read_lines(&[0; MAX_MACHINES], depth)?;
    Ok(reader.rest)
}

impl Reader<'_> {
    fn fault<T>(&self, name: &'static str) -> Result<T, Fault> {
        Err(Fault::Tree(name, self.line))
    }

    /// The next byte, if there is one.
    fn next(&mut self) -> Option<u8> {
        let (&byte, rest) = self.rest.split_first()?;
        self.rest = rest;
        Some(byte)
    }

    /// Reads the lines of all lists that have so many jobs more than the list of this front.
    fn read_lines(&mut self, front: &PerMachine, more: usize) -> Result<(), Fault> {
        if more > 0 {
            return self.read_longer(front, |reader, front| reader.read_lines(front, more - 1));
        }
        self.read_tree(front)?;
        // The line ends with its tree.
        if self.next() != Some(b'\n') {
            return self.fault("Tree");
        }
        self.line += 1;
        Ok(())
    }

    /// Reads what stands for the list of this front with each job left put after its last, in increasing order.
    fn read_longer(
        &mut self,
        front: &PerMachine,
        read: impl Fn(&mut Self, &PerMachine) -> Result<(), Fault>,
    ) -> Result<(), Fault> {
        for place in 0..self.left.len() {
            let job = self.left.remove(place);
            let mut longer = *front;
            shop::put_after(&mut longer, &self.shop.jobs[job].times);
            read(self, &longer)?;
            self.left.insert(place, job);
        }
        Ok(())
    }

    /// Reads the tree of the list of this front. It calls itself once for each job that a list has more.
    fn read_tree(&mut self, front: &PerMachine) -> Result<(), Fault> {
        let has_all = self.left.is_empty();
        match self.next() {
            Some(b'.') if has_all => {
                let makespan = front[self.shop.machines - 1];
                if makespan < self.value {
                    return self.fault("Low");
                }
                Ok(())
            }
            Some(b'+') if !has_all => self.read_longer(front, Self::read_tree),
            Some(letter) if letter.is_ascii_uppercase() && !has_all => {
                let machine = usize::from(letter - b'A');
                if machine >= self.shop.machines {
                    return self.fault("Tree");
                }
                if self.bound_on(machine, front) < self.value {
                    return self.fault("Weak");
                }
                Ok(())
            }
            // No byte of a tree, one that may not stand here, or the end of the text.
            _ => self.fault("Tree"),
        }
    }

    /// The bound of the list of this front on a machine, where jobs are left.
    ///
    /// No job left starts on the machine before a time. From then on all their times there must pass, and after the
    /// last of them the least time that one of them needs on the machines after it.
    fn bound_on(&self, machine: usize, front: &PerMachine) -> u64 {
        let jobs = || self.left.iter().map(|&job| &self.shop.jobs[job]);
        let owed: u64 = jobs().map(|job| job.times[machine]).sum();
        let after = jobs().map(|job| job.after[machine]).min().unwrap_or(0);
        let start = match self.bound {
            // Version 1, the machine bound: when the list has left the machine.
            Bound::Machine => front[machine],
            Bound::Released => self.release(machine, front),
        };
        start + owed + after
    }

    /// The release of a machine, of version 2: a time before which no job left can start there.
    ///
    /// It is the greatest, over the machines up to this one, of the time at which the list has left that machine, plus
    /// the least time that one of the jobs left needs from that machine to the one before this one.
    fn release(&self, machine: usize, front: &PerMachine) -> u64 {
        let from = |earlier: usize| {
            let jobs = self.left.iter().map(|&job| &self.shop.jobs[job]);
            let least = jobs
                .map(|job| job.before[machine] - job.before[earlier])
                .min();
            front[earlier] + least.unwrap_or(0)
        };
        (0..=machine).map(from).max().unwrap_or(0)
    }
}
