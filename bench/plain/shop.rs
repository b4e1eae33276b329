//! Instances, their makespans and bounds, and the starting sequence.
//!
//! Jobs and machines are counted from 0 here, and from 1 in texts.

use std::cmp::Reverse;

pub const MAX_JOBS: usize = 800;
pub const MAX_MACHINES: usize = 26;

/// The completion time on each machine, after some jobs.
pub type Front = [u64; MAX_MACHINES];

/// A time for each machine.
pub type Row = [u32; MAX_MACHINES];

/// The bound that a letter names.
#[derive(Clone, Copy)]
pub enum Bound {
    /// The machine bound, that of version 1.
    Machine,
    /// The released bound, that of version 2.
    Released,
}

impl Bound {
    /// The bound of a version.
    pub fn of_version(version: u32) -> Option<Bound> {
        match version {
            1 => Some(Bound::Machine),
            2 => Some(Bound::Released),
            _ => None,
        }
    }

    /// The version of a bound.
    pub fn version(self) -> u32 {
        match self {
            Bound::Machine => 1,
            Bound::Released => 2,
        }
    }
}

pub struct Job {
    pub times: Row,
    /// What the job needs before each machine.
    pub before: Row,
    /// What the job needs behind each machine.
    pub behind: Row,
    total: u64,
}

pub struct Instance {
    pub machines: usize,
    pub jobs: Vec<Job>,
}

impl Instance {
    /// The instance of times that come machine by machine.
    pub fn new(jobs: usize, machines: usize, times: &[u32]) -> Instance {
        let job_of = |job| {
            let times_of_job = || (0..machines).map(|machine| times[machine * jobs + job]);
            let total: u32 = times_of_job().sum();
            let mut made = Job {
                times: [0; MAX_MACHINES],
                before: [0; MAX_MACHINES],
                behind: [0; MAX_MACHINES],
                total: u64::from(total),
            };
            let mut before = 0;
            for (machine, time) in times_of_job().enumerate() {
                made.times[machine] = time;
                made.before[machine] = before;
                before += time;
                made.behind[machine] = total - before;
            }
            made
        };
        Instance {
            machines,
            jobs: (0..jobs).map(job_of).collect(),
        }
    }

    /// Puts a job behind those of a front.
    pub fn push(&self, front: &mut Front, job: usize) {
        let mut free = 0;
        let times = &self.jobs[job].times[..self.machines];
        for (at, &time) in front.iter_mut().zip(times) {
            free = free.max(*at) + u64::from(time);
            *at = free;
        }
    }

    pub fn front_of(&self, jobs: &[usize]) -> Front {
        let mut front = [0; MAX_MACHINES];
        for &job in jobs {
            self.push(&mut front, job);
        }
        front
    }

    pub fn makespan(&self, jobs: &[usize]) -> u64 {
        self.front_of(jobs)[self.machines - 1]
    }

    /// Whether the bound of a front and the jobs left is at least a value on a machine.
    #[inline]
    pub fn reaches(
        &self,
        bound: Bound,
        front: &Front,
        left: &[usize],
        machine: usize,
        value: u64,
    ) -> bool {
        let mut owed = 0;
        let mut least = u32::MAX;
        for &job in left {
            let job = &self.jobs[job];
            owed += u64::from(job.times[machine]);
            least = least.min(job.behind[machine]);
        }
        let behind = owed + u64::from(least);
        if front[machine] + behind >= value {
            return true;
        }
        match bound {
            Bound::Machine => false,
            Bound::Released => self.is_released_late(front, left, machine, value - behind),
        }
    }

    /// Whether an earlier machine keeps every job left from a machine until a time.
    fn is_released_late(&self, front: &Front, left: &[usize], machine: usize, time: u64) -> bool {
        let keeps = |earlier: usize| {
            let mut left = left.iter().map(|&job| &self.jobs[job].before);
            left.all(|before| front[earlier] + u64::from(before[machine] - before[earlier]) >= time)
        };
        (0..machine).any(keeps)
    }

    /// The first machine whose bound is at least a value.
    pub fn cutting_machine(
        &self,
        bound: Bound,
        front: &Front,
        left: &[usize],
        value: u64,
    ) -> Option<usize> {
        (0..self.machines).find(|&machine| self.reaches(bound, front, left, machine, value))
    }

    /// Taillard's lower bound.
    pub fn lower_bound(&self) -> u64 {
        let mut greatest = 0;
        for machine in 0..self.machines {
            let mut owed = 0;
            let mut head = u64::MAX;
            let mut tail = u64::MAX;
            for job in &self.jobs {
                let time = u64::from(job.times[machine]);
                owed += time;
                head = head.min(u64::from(job.before[machine]));
                tail = tail.min(u64::from(job.behind[machine]));
            }
            greatest = greatest.max(head + owed + tail);
        }
        let longest = self.jobs.iter().map(|job| job.total).max().unwrap_or(0);
        greatest.max(longest)
    }

    /// The starting sequence of Nawaz, Enscore and Ham, and its makespan.
    pub fn start(&self) -> (Vec<usize>, u64) {
        let mut order: Vec<usize> = (0..self.jobs.len()).collect();
        order.sort_by_key(|&job| Reverse(self.jobs[job].total));
        let mut tails = vec![[0; MAX_MACHINES]; order.len() + 1];
        let mut sequence = Vec::with_capacity(order.len());
        let mut makespan = 0;
        for job in order {
            let (place, least) = self.best_place(&sequence, job, &mut tails);
            sequence.insert(place, job);
            makespan = least;
        }
        (sequence, u64::from(makespan))
    }

    /// The earliest place of least makespan for a job among others, and that makespan.
    fn best_place(&self, sequence: &[usize], job: usize, tails: &mut [Row]) -> (usize, u32) {
        let mut tail = [0; MAX_MACHINES];
        tails[sequence.len()] = tail;
        for (place, &next) in sequence.iter().enumerate().rev() {
            let times = &self.jobs[next].times[..self.machines];
            let mut behind = 0;
            for (at, &time) in tail.iter_mut().zip(times).rev() {
                behind = behind.max(*at) + time;
                *at = behind;
            }
            tails[place] = tail;
        }
        let mut heads = [0; MAX_MACHINES];
        let mut best = (0, u32::MAX);
        for (place, tails) in tails[..=sequence.len()].iter().enumerate() {
            let makespan = self.span_between(&heads, job, tails);
            if makespan < best.1 {
                best = (place, makespan);
            }
            if let Some(&next) = sequence.get(place) {
                let mut free = 0;
                for (at, &time) in heads
                    .iter_mut()
                    .zip(&self.jobs[next].times[..self.machines])
                {
                    free = free.max(*at) + time;
                    *at = free;
                }
            }
        }
        best
    }

    /// The makespan with a job put in between the heads of the jobs before it and the tails of those behind it.
    pub fn span_between(&self, heads: &Row, job: usize, tails: &Row) -> u32 {
        let times = &self.jobs[job].times[..self.machines];
        let mut head = 0;
        let mut most = 0;
        for ((&free, &time), &tail) in heads.iter().zip(times).zip(tails) {
            head = free.max(head) + time;
            most = most.max(head + tail);
        }
        most
    }
}

/// An instance by Taillard's generator, its times machine by machine.
pub fn generated(jobs: usize, machines: usize, seed: u32) -> Vec<u32> {
    let mut state = u64::from(seed);
    let mut next = || {
        state = state * 16_807 % 2_147_483_647;
        1 + (state * 99 / 2_147_483_647) as u32
    };
    (0..jobs * machines).map(|_| next()).collect()
}
