//! The cut, the search below each prefix, and what is written of it.

use crate::blocks::push_line;
use crate::fault::{Fault, refused};
use crate::shop::{Bound, Front, Instance};
use std::thread;

pub const MAX_DEPTH: usize = 3;
const MAX_WORKERS: usize = 64;
const MAX_PREFIXES: usize = 100_000;
const MAX_BUDGET: usize = 100_000_000;

/// The lists of distinct jobs of one length, in lexicographic order.
pub struct Cut {
    jobs: usize,
    next: Option<Vec<usize>>,
}

impl Cut {
    pub fn new(jobs: usize, depth: usize) -> Cut {
        Cut {
            jobs,
            next: Some((0..depth).collect()),
        }
    }

    /// The list behind another one.
    fn behind(&self, mut list: Vec<usize>) -> Option<Vec<usize>> {
        let depth = list.len();
        while let Some(last) = list.pop() {
            if let Some(job) = (last + 1..self.jobs).find(|job| !list.contains(job)) {
                list.push(job);
                while list.len() < depth {
                    list.extend((0..self.jobs).find(|job| !list.contains(job)));
                }
                return Some(list);
            }
        }
        None
    }
}

impl Iterator for Cut {
    type Item = Vec<usize>;

    fn next(&mut self) -> Option<Vec<usize>> {
        let list = self.next.take()?;
        self.next = self.behind(list.clone());
        Some(list)
    }
}

/// The jobs that are not in a list, in increasing order.
pub fn jobs_left(jobs: usize, list: &[usize]) -> Vec<usize> {
    (0..jobs).filter(|job| !list.contains(job)).collect()
}

/// The search below one prefix.
struct Search<'a> {
    instance: &'a Instance,
    bound: Bound,
    budget: usize,
    list: Vec<usize>,
    left: Vec<usize>,
    incumbent: u64,
    best: Option<Vec<usize>>,
    tree: Vec<u8>,
}

/// The tree of a prefix, and the least makespan below that of the start, with its first sequence.
struct Found {
    tree: Vec<u8>,
    best: Option<(u64, Vec<usize>)>,
}

impl Search<'_> {
    /// Writes the tree of the list; `false` where the budget does not suffice.
    fn walk(&mut self, front: &Front) -> bool {
        if self.tree.len() == self.budget {
            return false;
        }
        if self.left.is_empty() {
            self.tree.push(b'.');
            let makespan = front[self.instance.machines - 1];
            if makespan < self.incumbent {
                self.incumbent = makespan;
                self.best = Some(self.list.clone());
            }
            return true;
        }
        let cutting = self
            .instance
            .cutting_machine(self.bound, front, &self.left, self.incumbent);
        if let Some(machine) = cutting {
            self.tree.push(b'A' + machine as u8);
            return true;
        }
        self.tree.push(b'+');
        for place in 0..self.left.len() {
            let job = self.left.remove(place);
            self.list.push(job);
            let mut below = *front;
            self.instance.push(&mut below, job);
            if !self.walk(&below) {
                return false;
            }
            self.list.pop();
            self.left.insert(place, job);
        }
        true
    }
}

/// What a prefix answers for the makespan of the start; `None` where its tree is longer than the budget.
fn answer(instance: &Instance, prefix: &[usize], start: u64, options: &Options) -> Option<Found> {
    let mut search = Search {
        instance,
        bound: options.bound,
        budget: options.budget,
        list: prefix.to_vec(),
        left: jobs_left(instance.jobs.len(), prefix),
        incumbent: start,
        best: None,
        tree: Vec::new(),
    };
    if !search.walk(&instance.front_of(prefix)) {
        return None;
    }
    let least = search.incumbent;
    Some(Found {
        tree: search.tree,
        best: search.best.map(|sequence| (least, sequence)),
    })
}

/// What the words of a command line ask of a search.
pub struct Request {
    pub workers: usize,
    pub depth: usize,
    pub budget: usize,
    pub version: u32,
}

/// A request within the limits.
pub struct Options {
    workers: usize,
    depth: usize,
    budget: usize,
    bound: Bound,
}

impl Request {
    /// The options of a request, or the first refusal.
    pub fn options(&self, jobs: usize) -> Result<Options, Fault> {
        if !(1..=MAX_WORKERS).contains(&self.workers) {
            return Err(refused("option Workers"));
        }
        if self.depth > MAX_DEPTH {
            return Err(refused("option Depth"));
        }
        if !(1..=MAX_BUDGET).contains(&self.budget) {
            return Err(refused("option Budget"));
        }
        let bound = Bound::of_version(self.version).ok_or_else(|| refused("option Version"))?;
        if self.depth > jobs {
            return Err(refused("plan Depth"));
        }
        if (jobs - self.depth + 1..=jobs).product::<usize>() > MAX_PREFIXES {
            return Err(refused("plan Prefixes"));
        }
        Ok(Options {
            workers: self.workers,
            depth: self.depth,
            budget: self.budget,
            bound,
        })
    }
}

/// The certificate of an instance.
pub fn solve(instance: &Instance, options: &Options) -> Result<Vec<u8>, Fault> {
    let (mut sequence, start) = instance.start();
    let prefixes: Vec<_> = Cut::new(instance.jobs.len(), options.depth).collect();
    // A worker stops at its first prefix over the budget: no later answer is looked at.
    let work = |worker| {
        let mine = prefixes.iter().skip(worker).step_by(options.workers);
        mine.map_while(|prefix| answer(instance, prefix, start, options))
            .collect::<Vec<_>>()
    };
    let answers: Vec<_> = thread::scope(|scope| {
        let start_worker = |worker| scope.spawn(move || work(worker));
        let running: Vec<_> = (0..options.workers).map(start_worker).collect();
        running.into_iter().map(|worker| worker.join()).collect()
    });
    let mut lanes = Vec::with_capacity(options.workers);
    for answers in answers {
        let answers = answers.map_err(|_| refused("run Threads"))?;
        lanes.push(answers.into_iter());
    }
    let mut least = start;
    let mut trees = Vec::with_capacity(prefixes.len());
    for number in 0..prefixes.len() {
        let Some(found) = lanes[number % options.workers].next() else {
            return Err(refused(format!("run OverBudget {number}")));
        };
        trees.push(found.tree);
        match found.best {
            Some((makespan, found)) if makespan < least => (least, sequence) = (makespan, found),
            _ => {}
        }
    }
    let mut text = format!("flowshop certificate {}\n", options.bound.version());
    push_line(
        &mut text,
        &[instance.jobs.len(), instance.machines, options.depth],
    );
    push_line(&mut text, &[least]);
    push_line(&mut text, &numbers_from_one(&sequence));
    Ok(with_trees(text, &trees))
}

/// The numbers of jobs, as they stand in texts.
pub fn numbers_from_one(jobs: &[usize]) -> Vec<usize> {
    jobs.iter().map(|job| job + 1).collect()
}

/// The first lines of a text with a line for each tree behind them, and the last line.
fn with_trees(head: String, trees: &[Vec<u8>]) -> Vec<u8> {
    let mut text = head.into_bytes();
    text.reserve(trees.iter().map(|tree| tree.len() + 1).sum::<usize>() + 4);
    for tree in trees {
        text.extend_from_slice(tree);
        text.push(b'\n');
    }
    text.extend_from_slice(b"end\n");
    text
}
