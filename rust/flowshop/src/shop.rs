//! The shop, and what is asked of it.

use crate::call::{self, Numbers, Read, Refused};
use crate::results::text_of;
use crate::{Beam, Best, Bounds, Certificate, Effort, Error, Found, Node, Plan, Rounds, Tally};
use crate::{Sequence, Timetable};
use flowshop_sys as sys;

/// A shop: jobs 1 to 800 at most that visit machines 1 to 26 at most in this order, with a whole number as the time of
/// each job on each machine. Every machine takes the jobs in one common order.
#[derive(Clone, Debug, PartialEq, Eq, Hash)]
pub struct Shop {
    jobs: u32,
    machines: u32,
    /// Machine by machine.
    times: Vec<u32>,
}

/// A block of a benchmark text: its shop, and what its head states, which nothing tests.
#[derive(Clone, Debug, PartialEq, Eq, Hash)]
#[non_exhaustive]
pub struct Block {
    /// The shop.
    pub shop: Shop,
    /// The seed of its times.
    pub seed: u32,
    /// An upper bound of its least makespan.
    pub upper: u32,
    /// A lower bound of it.
    pub lower: u32,
}

impl Block {
    /// Reads the block of an index, which counts from 1. The whole text is tested.
    ///
    /// ```
    /// let text = "jobs, machines and others\n3 3 0 0 0\ntimes\n4 0 0\n0 8 2\n4 0 1\n";
    /// let block = flowshop::Block::read(text, 1)?;
    /// assert_eq!(block.shop.time(2, 2), Some(8));
    /// # Ok::<(), flowshop::Error>(())
    /// ```
    pub fn read(text: impl AsRef<[u8]>, index: u32) -> Result<Block, Error> {
        let Read { jobs, machines, times, seed, upper, lower } = call::block(text.as_ref(), index)?;
        let shop = Shop { jobs, machines, times };
        Ok(Block { shop, seed, upper, lower })
    }

    /// How many blocks a text has.
    pub fn count(text: impl AsRef<[u8]>) -> Result<usize, Error> {
        // No block has the index 0, which is refused when the whole text was read.
        match Block::read(text, 0) {
            Err(Error::Index { blocks }) => Ok(blocks),
            Err(error) => Err(error),
            Ok(_) => Ok(0),
        }
    }
}

/// A size as the library takes it. What is greater is above each limit.
fn size(count: usize) -> u32 {
    u32::try_from(count).unwrap_or(u32::MAX)
}

/// Whether the library takes these numbers as a shop.
fn test(numbers: Numbers) -> Result<(), Refused> {
    // The list of no jobs is refused when all numbers were tested.
    match call::makespan(numbers, &[]) {
        Err(refused) if refused.status != sys::FLOWSHOP_LENGTH => Err(refused),
        _ => Ok(()),
    }
}

impl Shop {
    /// The shop of a table with a row for each job, which has a time for each machine.
    ///
    /// ```
    /// use flowshop::{Error, Shop};
    /// let shop = Shop::from_jobs(&[[4, 0, 4], [0, 8, 0], [0, 2, 1]])?;
    /// assert_eq!((shop.jobs(), shop.machines(), shop.time(1, 3)), (3, 3, Some(4)));
    /// let refused = Shop::from_jobs(&[[4, 0], [0, 1_000_000]]);
    /// assert_eq!(refused, Err(Error::Time { job: 2, machine: 2 }));
    /// # Ok::<(), Error>(())
    /// ```
    pub fn from_jobs<R: AsRef<[u32]>>(rows: &[R]) -> Result<Shop, Error> {
        let machines = rows.first().map_or(0, |row| row.as_ref().len());
        Shop::of_rows(rows.len(), machines, rows, |times| {
            for machine in 0..machines {
                times.extend(rows.iter().filter_map(|row| row.as_ref().get(machine)));
            }
        })
    }

    /// The shop of a table with a row for each machine, which has a time for each job.
    ///
    /// ```
    /// let shop = flowshop::Shop::from_machines(&[[4, 0, 0], [0, 8, 2], [4, 0, 1]])?;
    /// assert_eq!(shop.time(1, 3), Some(4));
    /// # Ok::<(), flowshop::Error>(())
    /// ```
    pub fn from_machines<R: AsRef<[u32]>>(rows: &[R]) -> Result<Shop, Error> {
        let jobs = rows.first().map_or(0, |row| row.as_ref().len());
        Shop::of_rows(jobs, rows.len(), rows, |times| {
            rows.iter().for_each(|row| times.extend(row.as_ref()));
        })
    }

    /// The shop of a table with so many jobs and machines, whose times are added machine by machine.
    fn of_rows<R: AsRef<[u32]>>(
        jobs: usize,
        machines: usize,
        rows: &[R],
        add: impl FnOnce(&mut Vec<u32>),
    ) -> Result<Shop, Error> {
        let (jobs, machines) = (size(jobs), size(machines));
        let numbers = |times| Numbers { jobs, machines, times };
        // With no times at all the jobs and the machines are tested before the table is read.
        match test(numbers(&[])) {
            Err(refused) if refused.status != sys::FLOWSHOP_COUNT => return Err(refused.into()),
            _ => {}
        }
        let length = |row: &R| row.as_ref().len();
        let other = rows.iter().position(|row| Some(length(row)) != rows.first().map(length));
        if let Some(place) = other {
            return Err(Error::Row { row: place + 1 });
        }
        let mut times = Vec::new();
        add(&mut times);
        test(numbers(&times)).map_err(|refused| match refused.status {
            sys::FLOWSHOP_TIME => {
                let (place, jobs) = (refused.place.saturating_sub(1), jobs.max(1) as usize);
                Error::Time { job: place % jobs + 1, machine: place / jobs + 1 }
            }
            _ => refused.into(),
        })?;
        Ok(Shop { jobs, machines, times })
    }

    /// The shop of a seed, by Taillard's generator.
    ///
    /// ```
    /// let shop = flowshop::Shop::generate(20, 5, 873_654_221)?;
    /// assert_eq!(shop.time(1, 1), Some(54));
    /// # Ok::<(), flowshop::Error>(())
    /// ```
    pub fn generate(jobs: usize, machines: usize, seed: u32) -> Result<Shop, Error> {
        let (jobs, machines) = (size(jobs), size(machines));
        Ok(Shop { jobs, machines, times: call::generate(jobs, machines, seed)? })
    }

    /// The numbers that a call takes.
    fn numbers(&self) -> Numbers<'_> {
        Numbers { jobs: self.jobs, machines: self.machines, times: &self.times }
    }

    /// How many jobs there are.
    pub fn jobs(&self) -> usize {
        self.jobs as usize
    }

    /// How many machines there are.
    pub fn machines(&self) -> usize {
        self.machines as usize
    }

    /// The times, machine by machine, and for each machine job by job.
    pub fn times(&self) -> &[u32] {
        &self.times
    }

    /// The time of a job on a machine, which count from 1.
    pub fn time(&self, job: usize, machine: usize) -> Option<u32> {
        let rows = self.times.chunks(self.jobs()).nth(machine.checked_sub(1)?)?;
        rows.get(job.checked_sub(1)?).copied()
    }

    /// A list of jobs as a sequence of the shop.
    ///
    /// ```
    /// use flowshop::{Error, Shop};
    /// let shop = Shop::from_jobs(&[[4, 0, 4], [0, 8, 0], [0, 2, 1]])?;
    /// assert_eq!(shop.sequence([1, 2, 3])?.makespan(), 15);
    /// assert_eq!(shop.sequence([1, 2, 1]), Err(Error::Twice { place: 3 }));
    /// # Ok::<(), Error>(())
    /// ```
    pub fn sequence(&self, jobs: impl AsRef<[u16]>) -> Result<Sequence, Error> {
        let makespan = self.makespan(&jobs)?;
        Ok(Sequence::new(jobs.as_ref().to_vec(), makespan))
    }

    /// The makespan of a sequence.
    pub fn makespan(&self, sequence: impl AsRef<[u16]>) -> Result<u64, Error> {
        Ok(call::makespan(self.numbers(), sequence.as_ref())?)
    }

    /// The makespans of many sequences, which stand one behind the other. The place of an error is counted over all
    /// jobs.
    ///
    /// ```
    /// use flowshop::{Error, Shop};
    /// let shop = Shop::from_jobs(&[[4, 0, 4], [0, 8, 0], [0, 2, 1]])?;
    /// assert_eq!(shop.makespans([1, 2, 3, 2, 1, 3])?, [15, 13]);
    /// assert_eq!(shop.makespans([1, 2, 3, 2, 1, 2]), Err(Error::Twice { place: 6 }));
    /// # Ok::<(), Error>(())
    /// ```
    pub fn makespans(&self, sequences: impl AsRef<[u16]>) -> Result<Vec<u64>, Error> {
        Ok(call::makespans(self.numbers(), sequences.as_ref())?)
    }

    /// When each job of a sequence starts and ends on each machine.
    ///
    /// ```
    /// let shop = flowshop::Shop::from_jobs(&[[3, 2], [1, 4], [2, 2]])?;
    /// let timetable = shop.timetable([2, 3, 1])?;
    /// assert_eq!(timetable.starts(), [0, 1, 1, 5, 3, 7]);
    /// assert_eq!(timetable.ends(), [1, 5, 3, 7, 6, 9]);
    /// # Ok::<(), flowshop::Error>(())
    /// ```
    pub fn timetable(&self, sequence: impl AsRef<[u16]>) -> Result<Timetable, Error> {
        let jobs = sequence.as_ref().to_vec();
        let (starts, ends) = call::timetable(self.numbers(), &jobs)?;
        Ok(Timetable { jobs, machines: self.machines(), starts, ends })
    }

    /// The picture of the timetable of a sequence, as SVG text. `lower` is a number below which no sequence has a
    /// makespan, or 0 for none; nothing tests it. The title says that the makespan is optimal where it is that number.
    pub fn picture(&self, sequence: impl AsRef<[u16]>, lower: u64) -> Result<String, Error> {
        let text = call::picture(self.numbers(), sequence.as_ref(), lower)?;
        Ok(text_of(text))
    }

    /// The starting sequence of Nawaz, Enscore and Ham.
    pub fn neh(&self) -> Result<Sequence, Error> {
        Ok(call::neh(self.numbers())?.into())
    }

    /// A sequence whose makespan is at most that of a start, by a beam search and two runs of iterated greedy search.
    pub fn improve(&self, start: impl AsRef<[u16]>, effort: &Effort) -> Result<Sequence, Error> {
        Ok(call::improve(self.numbers(), start.as_ref(), effort)?.into())
    }

    /// The best sequence of a two-ended beam search; its makespan is at most that of a start.
    pub fn beam(&self, start: impl AsRef<[u16]>, beam: &Beam) -> Result<Best, Error> {
        Ok(call::beam(self.numbers(), start.as_ref(), beam)?.into())
    }

    /// The best sequence of rounds of iterated greedy search; its makespan is at most that of a start.
    pub fn rounds(&self, start: impl AsRef<[u16]>, rounds: &Rounds) -> Result<Best, Error> {
        Ok(call::rounds(self.numbers(), start.as_ref(), rounds)?.into())
    }

    /// Bounds of the least makespan with a two-ended certificate of them, by searches from a start and from better
    /// sequences. The text has at most so many directions, 1 to 1,000,000,000: the more it may have, the longer the
    /// searches take where they do not find the least makespan. [`DIRECTIONS`](crate::DIRECTIONS) are as many as the
    /// program has.
    ///
    /// ```
    /// use flowshop::{Effort, Shop, DIRECTIONS};
    /// let shop = Shop::from_jobs(&[[4, 0, 4], [0, 8, 0], [0, 2, 1]])?;
    /// let found = shop.certify(shop.neh()?, &Effort::default(), DIRECTIONS)?;
    /// assert_eq!(found.bounds().to_string(), "optimal 12");
    /// assert_eq!(shop.check(&found)?, *found.bounds());
    /// # Ok::<(), flowshop::Error>(())
    /// ```
    pub fn certify(&self, start: impl AsRef<[u16]>, effort: &Effort, directions: u32) -> Result<Certificate, Error> {
        let found = call::certify(self.numbers(), start.as_ref(), effort, directions)?;
        Ok(Certificate::new(found))
    }

    /// The least makespan with a certificate of trees, by a search from a start, which can take long.
    pub fn solve(&self, start: impl AsRef<[u16]>, plan: &Plan) -> Result<Certificate, Error> {
        let found = call::solve(self.numbers(), start.as_ref(), plan)?;
        Ok(Certificate::new(found))
    }

    /// The bounds that a text proves, a certificate of any kind, and the sequence that it states. Every lawful text is
    /// accepted, whoever made it, and nothing else; but a counted certificate of more than 10,000,000,000 nodes is
    /// refused. The check of a counted one makes the search again that found its bounds, and may take as long.
    ///
    /// ```
    /// use flowshop::{Error, Shop};
    /// let shop = Shop::from_jobs(&[[4, 0, 4], [0, 8, 0], [0, 2, 1]])?;
    /// let bounds = shop.check("flowshop two-ended 1\n3 3\n11 13\n2 1 3\n-\nend\n")?;
    /// assert_eq!((bounds.lower(), bounds.sequence().jobs()), (11, &[2, 1, 3][..]));
    /// let refused = shop.check("flowshop two-ended 1\n3 3\n12 13\n2 1 3\n-\nend\n");
    /// assert_eq!(refused, Err(Error::Tree { line: 5 }));
    /// # Ok::<(), Error>(())
    /// ```
    pub fn check(&self, text: impl AsRef<[u8]>) -> Result<Bounds, Error> {
        Ok(call::check(self.numbers(), text.as_ref(), None)?.into())
    }

    /// The same, where a counted certificate may state at most so many nodes.
    ///
    /// ```
    /// use flowshop::{Error, Shop};
    /// let shop = Shop::from_jobs(&[[4, 0, 4], [0, 8, 0], [0, 2, 1]])?;
    /// let text = "flowshop counted 1\n3 3\n12 12\n3 1 2\n2\nend\n";
    /// assert!(shop.check_within(text, 2)?.is_optimal());
    /// assert_eq!(shop.check_within(text, 1), Err(Error::Most));
    /// # Ok::<(), Error>(())
    /// ```
    pub fn check_within(&self, text: impl AsRef<[u8]>, most: u64) -> Result<Bounds, Error> {
        Ok(call::check(self.numbers(), text.as_ref(), Some(most))?.into())
    }

    /// Searches for directions that prove that no sequence of a node has a makespan below a number, at most as many as
    /// `most`; with none the node itself is left, where its bound is below the number. Of a fault of the node the place
    /// is that in its first list and then its last one, as one list.
    ///
    /// ```
    /// use flowshop::{Found, Node, Shop};
    /// let shop = Shop::from_jobs(&[[4, 0, 4], [0, 8, 0], [0, 2, 1]])?;
    /// let found = shop.prove(&Node::default(), 12, 100)?;
    /// assert_eq!(found, Found::Proved { directions: "++".to_string() });
    /// # Ok::<(), flowshop::Error>(())
    /// ```
    pub fn prove(&self, node: &Node, number: u64, most: usize) -> Result<Found, Error> {
        call::prove(self.numbers(), (&node.first, &node.last), number, most)?.try_into()
    }

    /// Makes the search of [`prove`](Shop::prove) and counts its directions, at most as many as the budget, so that it
    /// needs no memory for them. The faults are the same.
    ///
    /// ```
    /// use flowshop::{Node, Shop, Tally};
    /// let shop = Shop::from_jobs(&[[4, 0, 4], [0, 8, 0], [0, 2, 1]])?;
    /// let found = shop.tally(&Node::default(), 12, 1_000_000_000_000_000)?;
    /// assert_eq!(found, Tally::Proved { count: 2 });
    /// # Ok::<(), flowshop::Error>(())
    /// ```
    pub fn tally(&self, node: &Node, number: u64, budget: u64) -> Result<Tally, Error> {
        call::tally(self.numbers(), (&node.first, &node.last), number, budget)?.try_into()
    }
}
