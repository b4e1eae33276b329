//! The search for directions that prove a number, and the two-ended text of what it found.
//!
//! A node has the jobs that begin the sequence and those that end it. Its children at an end have one job more there.

use crate::blocks::push_line;
use crate::fault::{Fault, refused};
use crate::search::numbers_from_one;
use crate::shop::{Instance, MAX_MACHINES, Row};
use std::ops::Range;

/// Where a child has its job.
#[derive(Clone, Copy, PartialEq)]
enum End {
    Front,
    Back,
}

/// What a node has on each machine.
#[derive(Clone, Copy)]
struct Node {
    /// When the jobs that begin the sequence are done.
    front: Row,
    /// What the jobs left need.
    owed: Row,
    /// The time from the first job of those that end the sequence to the end.
    back: Row,
}

/// Why a search stops early.
enum Stop {
    /// A sequence has a makespan below the number.
    Below,
    /// More directions are needed than the budget has.
    Over,
}

/// A search, and where it stands.
struct Search<'a> {
    instance: &'a Instance,
    number: u32,
    budget: usize,
    /// The jobs left, in increasing order.
    left: Vec<usize>,
    /// The children below the number of the nodes above, and of this one.
    below: Vec<usize>,
    directions: Vec<u8>,
}

impl Node {
    /// The node of no job at either end: the least heads and tails of all jobs.
    fn root(instance: &Instance) -> Node {
        let mut root = Node {
            front: [u32::MAX; MAX_MACHINES],
            owed: [0; MAX_MACHINES],
            back: [u32::MAX; MAX_MACHINES],
        };
        for job in &instance.jobs {
            for machine in 0..instance.machines {
                root.front[machine] = root.front[machine].min(job.before[machine]);
                root.owed[machine] += job.times[machine];
                root.back[machine] = root.back[machine].min(job.behind[machine]);
            }
        }
        root
    }

    fn bound(&self, machines: usize) -> u32 {
        let rows = self.front.iter().zip(&self.owed).zip(&self.back);
        let bounds = rows.map(|((front, owed), back)| front + owed + back);
        bounds.take(machines).max().unwrap_or(0)
    }

    /// The child that has a job at an end.
    fn child(&self, instance: &Instance, end: End, job: usize) -> Node {
        let mut child = *self;
        let times = &instance.jobs[job].times[..instance.machines];
        for (owed, time) in child.owed.iter_mut().zip(times) {
            *owed -= time;
        }
        let put = |free: u32, (at, time): (&mut u32, &u32)| {
            *at = free.max(*at) + time;
            *at
        };
        match end {
            End::Front => child.front.iter_mut().zip(times).fold(0, put),
            End::Back => {
                let back = &mut child.back[..instance.machines];
                back.iter_mut().zip(times).rev().fold(0, put)
            }
        };
        child
    }
}

impl Search<'_> {
    /// Adds the children at an end that are below the number. Returns how many they are, and the sum of the bounds of
    /// all children there.
    fn open(&mut self, node: &Node, end: End) -> (usize, u64) {
        let before = self.below.len();
        let mut sum = 0;
        for &job in &self.left {
            let bound = node
                .child(self.instance, end, job)
                .bound(self.instance.machines);
            sum += u64::from(bound);
            if bound < self.number {
                self.below.push(job);
            }
        }
        (self.below.len() - before, sum)
    }

    /// How many children below the number the children at an end have, where these stand at so many places: each at the
    /// end at which it has fewer.
    fn weight(&mut self, node: &Node, end: End, children: Range<usize>) -> usize {
        let mut weight = 0;
        for place in children {
            let job = self.below[place];
            let at = self.left.partition_point(|&other| other < job);
            self.left.remove(at);
            let child = node.child(self.instance, end, job);
            let before = self.below.len();
            let (fronts, _) = self.open(&child, End::Front);
            let (backs, _) = self.open(&child, End::Back);
            self.below.truncate(before);
            self.left.insert(at, job);
            weight += fronts.min(backs);
        }
        weight
    }

    /// Writes the directions of a node below the number.
    fn walk(&mut self, node: &Node) -> Result<(), Stop> {
        if self.left.is_empty() {
            return Err(Stop::Below);
        }
        if self.directions.len() == self.budget {
            return Err(Stop::Over);
        }
        let first = self.below.len();
        let (fronts, front_sum) = self.open(node, End::Front);
        let (backs, back_sum) = self.open(node, End::Back);
        let middle = first + fronts;
        let mut takes_front = fronts < backs || fronts == backs && front_sum >= back_sum;
        let (fewer, more) = (fronts.min(backs), fronts.max(backs));
        if self.left.len() >= 3 && fewer >= 2 && 3 * fewer >= 2 * more {
            let front = self.weight(node, End::Front, first..middle);
            let back = self.weight(node, End::Back, middle..middle + backs);
            if front != back {
                takes_front = front < back;
            }
        }
        let (end, sign, children) = if takes_front {
            (End::Front, b'+', first..middle)
        } else {
            (End::Back, b'-', middle..middle + backs)
        };
        self.directions.push(sign);
        for place in children {
            let job = self.below[place];
            let at = self.left.partition_point(|&other| other < job);
            self.left.remove(at);
            self.walk(&node.child(self.instance, end, job))?;
            self.left.insert(at, job);
        }
        self.below.truncate(first);
        Ok(())
    }
}

/// The two-ended text that proves a number, with the starting sequence.
pub fn two_ended(instance: &Instance, number: u32, budget: usize) -> Result<Vec<u8>, Fault> {
    let mut search = Search {
        instance,
        number,
        budget,
        left: (0..instance.jobs.len()).collect(),
        below: Vec::new(),
        directions: Vec::new(),
    };
    let root = Node::root(instance);
    if root.bound(instance.machines) < number {
        search.walk(&root).map_err(|stop| match stop {
            Stop::Below => refused("below"),
            Stop::Over => refused("over"),
        })?;
    }
    let (sequence, makespan) = instance.start();
    let (jobs, machines) = (instance.jobs.len(), instance.machines);
    let mut text = format!("flowshop two-ended 1\n{jobs} {machines}\n{number} {makespan}\n");
    push_line(&mut text, &numbers_from_one(&sequence));
    let mut text = text.into_bytes();
    text.append(&mut search.directions);
    text.extend_from_slice(b"\nend\n");
    Ok(text)
}
