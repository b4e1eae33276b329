//! The improvement of sequences in plain safe Rust, with no proofs and no other crates: a program to measure beside.
//!
//! It is written apart from the proved crates, and shares instances, bounds and the starting sequence with
//! `plain.rs`. It improves the starting sequence of a generated instance: by a
//! two-ended beam search (`beam.rs`), by rounds from the start, and by rounds from the best of the beam. It prints the
//! sequence and its makespan; and on standard error what each of the three came to, in how many steps, and how long it
//! took.
//!
//! Build it with `rustc --edition 2024 -O bench/improve.rs`, and run it with jobs, machines, the instance's seed, the
//! greatest width of the beam, rounds, the seed of the rounds, and the steps of the whole in millions. With a number
//! behind these it makes the beam alone, and looks for a sequence below the number.

mod beam;
#[allow(dead_code)]
#[path = "plain/shop.rs"]
mod shop;

use beam::Beam;
use shop::{Instance, MAX_MACHINES, Row, generated};
use std::env;
use std::process::ExitCode;
use std::time::Instant;

/// How many jobs a round takes out, where there are so many.
const TAKEN_OUT: usize = 4;

/// A sequence and its makespan.
#[derive(Clone, PartialEq)]
struct Known {
    jobs: Vec<usize>,
    makespan: u32,
}

/// When rounds end, and the seed of their random numbers.
struct Limits {
    rounds: u32,
    seed: u64,
    steps: u64,
}

/// Taillard's random numbers.
struct Generator {
    state: u64,
}

impl Generator {
    fn next(&mut self, low: usize, high: usize) -> usize {
        self.state = self.state * 16_807 % 2_147_483_647;
        low + (self.state as usize * (high - low + 1)) / 2_147_483_647
    }
}

impl Instance {
    /// The tails of a list with a job before it.
    fn push_tails(&self, job: usize, tails: &Row, longer: &mut Row) {
        let times = &self.jobs[job].times[..self.machines];
        let mut behind = 0;
        for ((at, &tail), &time) in longer.iter_mut().zip(tails).zip(times).rev() {
            behind = tail.max(behind) + time;
            *at = behind;
        }
    }

    /// The makespan with a job put in between heads and tails; and the heads become those with the next job behind.
    fn span_and_push(&self, heads: &mut Row, job: usize, tails: &Row, next: usize) -> u32 {
        let times = &self.jobs[job].times[..self.machines];
        let next_times = &self.jobs[next].times[..self.machines];
        let (mut head, mut most, mut free) = (0, 0, 0);
        let times = times.iter().zip(next_times);
        for ((at, &tail), (&time, &next_time)) in heads.iter_mut().zip(tails).zip(times) {
            head = head.max(*at) + time;
            most = most.max(head + tail);
            free = free.max(*at) + next_time;
            *at = free;
        }
        most
    }

    /// Puts a job in at the earliest place of least makespan, and returns that makespan.
    fn place(&self, list: &mut Vec<usize>, job: usize, tails: &mut [Row]) -> u32 {
        let last = list.len();
        tails[last] = [0; MAX_MACHINES];
        for (place, &next) in list.iter().enumerate().rev() {
            let (before, behind) = tails.split_at_mut(place + 1);
            self.push_tails(next, &behind[0], &mut before[place]);
        }
        let mut heads = [0; MAX_MACHINES];
        let mut best = (0, u32::MAX);
        for (place, (&next, tails)) in list.iter().zip(&tails[..last]).enumerate() {
            let makespan = self.span_and_push(&mut heads, job, tails, next);
            if makespan < best.1 {
                best = (place, makespan);
            }
        }
        let makespan = self.span_between(&heads, job, &tails[last]);
        if makespan < best.1 {
            best = (last, makespan);
        }
        list.insert(best.0, job);
        best.1
    }

    /// The best sequence of rounds from a start, how many rounds there were, and their steps.
    fn rounds(&self, start: &Known, limits: &Limits) -> (Known, u32, u64) {
        let jobs = self.jobs.len();
        let least = self.lower_bound() as u32;
        let mut generator = Generator { state: limits.seed };
        let (mut best, mut current) = (start.clone(), start.clone());
        let mut list = Vec::with_capacity(jobs);
        let mut taken = Vec::with_capacity(TAKEN_OUT);
        let mut order = Vec::with_capacity(jobs);
        let mut tails = vec![[0; MAX_MACHINES]; jobs + 1];
        let mut steps = 0;
        let taken_at = |length: usize| (3 * length * self.machines) as u64;
        for round in 0..limits.rounds {
            if best.makespan <= least || steps >= limits.steps {
                return (best, round, steps);
            }
            list.clone_from(&current.jobs);
            taken.clear();
            for _ in 0..TAKEN_OUT.min(jobs) {
                let place = generator.next(1, list.len());
                taken.push(list.remove(place - 1));
            }
            let mut makespan = 0;
            for &job in &taken {
                steps += taken_at(list.len());
                makespan = self.place(&mut list, job, &mut tails);
            }
            loop {
                let before = makespan;
                order.clear();
                order.extend(0..jobs);
                for i in (2..=jobs).rev() {
                    let a = generator.next(1, i);
                    order.swap(i - 1, a - 1);
                }
                for &job in &order {
                    let place = list.iter().position(|&other| other == job);
                    list.remove(place.expect("each job is there"));
                    steps += taken_at(list.len());
                    makespan = self.place(&mut list, job, &mut tails);
                }
                if makespan == before {
                    break;
                }
            }
            if makespan <= current.makespan {
                current.jobs.clone_from(&list);
                current.makespan = makespan;
            }
            if makespan < best.makespan {
                best.jobs.clone_from(&list);
                best.makespan = makespan;
            }
        }
        (best, limits.rounds, steps)
    }

    /// The same, with a line on standard error.
    fn rounds_told(&self, from: &str, start: &Known, limits: &Limits) -> Known {
        let begin = Instant::now();
        let (best, rounds, steps) = self.rounds(start, limits);
        let took = begin.elapsed().as_secs_f64();
        eprintln!("{rounds} rounds from {from}: {}, {steps} steps, {took:.6} seconds", best.makespan);
        best
    }

    /// A beam, with a line on standard error; and whether it ended as whole.
    fn beam_told(&self, start: &Known, width: u64, steps: u64, number: Option<u32>) -> (Known, bool) {
        let begin = Instant::now();
        let mut beam = Beam::new(self, start.clone(), steps, number);
        let is_whole = beam.run(width);
        let took = begin.elapsed().as_secs_f64();
        let (makespan, steps) = (beam.best.makespan, beam.steps);
        eprintln!("beam: {makespan}, {steps} steps, whole {is_whole}, {took:.6} seconds");
        (beam.best, is_whole)
    }
}

/// The better of two, and on a tie the second.
fn better(one: Known, other: Known) -> Known {
    if one.makespan < other.makespan { one } else { other }
}

/// What is asked for on the command line.
struct Asked {
    jobs: usize,
    machines: usize,
    instance_seed: u32,
    width: u64,
    rounds: u32,
    seed: u64,
    millions: u64,
    number: Option<u32>,
}

impl Asked {
    /// The seven numbers, each in its range, and perhaps one more.
    fn of(words: &[String]) -> Option<Asked> {
        let least = [1, 1, 1, 0, 0, 1, 0];
        let greatest = [800, 26, 2_147_483_646, 65_536, 100_000_000, 2_147_483_646, 1_000_000];
        let number = match words.len() {
            7 => None,
            8 => Some(words[7].parse().ok()?),
            _ => return None,
        };
        let mut numbers = [0; 7];
        for (i, word) in words[..7].iter().enumerate() {
            numbers[i] = word.parse().ok()?;
            if numbers[i] < least[i] || numbers[i] > greatest[i] {
                return None;
            }
        }
        let [jobs, machines, instance_seed, width, rounds, seed, millions] = numbers;
        Some(Asked {
            jobs: jobs as usize,
            machines: machines as usize,
            instance_seed: instance_seed as u32,
            width,
            rounds: rounds as u32,
            seed,
            millions,
            number,
        })
    }

    fn limits(&self, steps: u64) -> Limits {
        Limits { rounds: self.rounds, seed: self.seed, steps }
    }

    /// The best of the beam and of the rounds from both.
    fn improve(&self, instance: &Instance, start: Known) -> Known {
        let steps = self.millions * 1_000_000;
        let least = instance.lower_bound() as u32;
        let (beamed, is_whole) = instance.beam_told(&start, self.width, steps * 12 / 17, self.number);
        if is_whole || self.number.is_some() || beamed.makespan <= least {
            return beamed;
        }
        let mut best = beamed.clone();
        // Rounds from the same sequence would be the first ones of those below.
        if beamed != start {
            let known = instance.rounds_told("start", &start, &self.limits(steps / 17));
            if known.makespan <= least {
                return known;
            }
            best = better(known, best);
        }
        let known = instance.rounds_told("beam", &beamed, &self.limits(steps * 4 / 17));
        better(best, known)
    }
}

fn main() -> ExitCode {
    let words: Vec<String> = env::args().skip(1).collect();
    let Some(asked) = Asked::of(&words) else {
        eprintln!("improve JOBS MACHINES INSTANCE_SEED WIDTH ROUNDS SEED MILLIONS [NUMBER]");
        return ExitCode::from(2);
    };
    let times = generated(asked.jobs, asked.machines, asked.instance_seed);
    let instance = Instance::new(asked.jobs, asked.machines, &times);
    let (jobs, makespan) = instance.start();
    let start = Known { jobs, makespan: makespan as u32 };
    eprintln!("start: {}, bound {}", start.makespan, instance.lower_bound());
    let best = asked.improve(&instance, start);
    let words: Vec<String> = best.jobs.iter().map(|job| (job + 1).to_string()).collect();
    println!("sequence {}", words.join(" "));
    println!("makespan {}", best.makespan);
    ExitCode::SUCCESS
}
