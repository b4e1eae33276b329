//! The nodes of the two-ended tree, which a two-ended certificate and a counted one share.
//!
//! A node has two lists with no job twice: one that begins the sequence, and one that ends it. At the root both are
//! empty. Its children have one of the jobs left put at one end: after the last of the first list, or before the first
//! of the second one.

use crate::shop::{self, Job, Shop};
use std::array;
use std::ops::{Add, Sub};

/// A number of a node. No bound is above that of a grid path, (jobs + machines - 1) times the greatest time, which is
/// less than `GREATEST`.
pub trait Number:
    Copy + Ord + Default + Add<Output = Self> + Sub<Output = Self> + TryFrom<u64> + Into<i64>
{
    const GREATEST: Self;

    /// A number; the greatest one where it is beyond it, which no bound reaches.
    fn of(number: u64) -> Self {
        Self::try_from(number).unwrap_or(Self::GREATEST)
    }
}

impl Number for i16 {
    const GREATEST: i16 = i16::MAX;
}

impl Number for i32 {
    const GREATEST: i32 = i32::MAX;
}

/// One of the two places at which a job is put.
#[derive(Clone, Copy, PartialEq, Eq)]
pub enum End {
    /// After the last of the first list.
    Front,
    /// Before the first of the second list.
    Back,
}

impl End {
    pub fn other(self) -> End {
        match self {
            End::Front => End::Back,
            End::Back => End::Front,
        }
    }
}

/// What a node's bound is made of, on each of `M` machines.
#[derive(Clone, Copy)]
pub struct Node<T, const M: usize> {
    /// The completion time of the first list on each machine. Where the list is empty it is the head of the machine:
    /// the least time that one job of the shop needs on the machines before it.
    pub front: [T; M],
    /// The back of the second list on each machine: the least time from its start there to its end on the last machine.
    /// Where the list is empty it is the tail of the machine: the least time that one job of the shop needs on the
    /// machines after it.
    pub back: [T; M],
    /// The times of the jobs in neither list on each machine, all together.
    pub owed: [T; M],
}

/// The nodes of a shop, with as many machines more as make `M`. They come last and no job needs any time on them, so
/// they change no makespan and no bound.
pub struct Nodes<T, const M: usize> {
    /// The times of each job.
    pub jobs: Vec<[T; M]>,
    /// The node of two empty lists.
    pub root: Node<T, M>,
}

impl<T: Number, const M: usize> Nodes<T, M> {
    pub fn new(shop: &Shop) -> Nodes<T, M> {
        let least = |time: fn(&Job, usize) -> u64, machine: usize| {
            let times = shop.jobs.iter().map(|job| time(job, machine));
            T::of(times.min().unwrap_or(0))
        };
        let sum = |machine: usize| shop.jobs.iter().map(|job| job.times[machine]).sum();
        let times = |job: &Job| array::from_fn(|machine| T::of(job.times[machine]));
        Nodes {
            jobs: shop.jobs.iter().map(times).collect(),
            root: Node {
                front: array::from_fn(|machine| least(|job, machine| job.before[machine], machine)),
                back: array::from_fn(|machine| least(|job, machine| job.after[machine], machine)),
                owed: array::from_fn(|machine| T::of(sum(machine))),
            },
        }
    }

    /// A node with one of the jobs left put at an end.
    ///
    /// Heads and tails need no rule of their own here: a job's own time before a machine is at least its head.
    pub fn child(&self, node: &Node<T, M>, end: End, job: usize) -> Node<T, M> {
        let times = &self.jobs[job];
        let (mut front, mut back, mut owed) = (node.front, node.back, node.owed);
        match end {
            End::Front => shop::put_after(&mut front, times),
            End::Back => shop::put_before(&mut back, times),
        }
        for (owed, &time) in owed.iter_mut().zip(times) {
            *owed = *owed - time;
        }
        Node { front, back, owed }
    }
}

impl<T: Number, const M: usize> Node<T, M> {
    /// The bound: the greatest, over the machines, of the sum of front, times of the jobs left, and back.
    ///
    /// The first list leaves a machine at the front, or the first job comes there no sooner than at the head. From then
    /// on the times of the jobs left pass there, and after them the back, or the tail. So no sequence of the node has a
    /// smaller makespan. Where no job is left the bound is the makespan.
    pub fn bound(&self) -> T {
        let on = |machine: usize| self.front[machine] + self.owed[machine] + self.back[machine];
        (0..M).map(on).max().unwrap_or_default()
    }
}
