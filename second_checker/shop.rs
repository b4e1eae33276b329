//! The shop: jobs that visit all machines in one order, with a time for each job and machine.
//!
//! All numbers here are small: the greatest makespan is that of 800 jobs on 26 machines, (800 + 26 - 1) times 999,999.

use std::ops::Add;

/// The most jobs and machines of a shop, and the greatest time.
pub const MAX_JOBS: usize = 800;
pub const MAX_MACHINES: usize = 26;
pub const MAX_TIME: u32 = 999_999;

/// A number for each machine, and for as many more as make the most. No job needs any time on those.
pub type PerMachine = [u64; MAX_MACHINES];

pub struct Job {
    /// The time that the job needs on each machine.
    pub times: PerMachine,
    /// The time that it needs on the machines before each machine, all together.
    pub before: PerMachine,
    /// The time that it needs on the machines after each machine, all together.
    pub after: PerMachine,
}

impl Job {
    fn new(times: PerMachine) -> Job {
        let (mut before, mut after) = ([0; MAX_MACHINES], [0; MAX_MACHINES]);
        for machine in 1..MAX_MACHINES {
            before[machine] = before[machine - 1] + times[machine - 1];
        }
        for machine in (1..MAX_MACHINES).rev() {
            after[machine - 1] = after[machine] + times[machine];
        }
        Job {
            times,
            before,
            after,
        }
    }
}

pub struct Shop {
    pub machines: usize,
    pub jobs: Vec<Job>,
}

impl Shop {
    /// The shop of times that come machine by machine, and for each machine job by job.
    pub fn new(jobs: usize, machines: usize, times: &[u32]) -> Shop {
        let mut rows = vec![[0; MAX_MACHINES]; jobs];
        for (machine, times) in times.chunks(jobs).take(machines).enumerate() {
            for (row, &time) in rows.iter_mut().zip(times) {
                row[machine] = u64::from(time);
            }
        }
        Shop {
            machines,
            jobs: rows.into_iter().map(Job::new).collect(),
        }
    }

    /// The jobs of no list: all of them, in increasing order.
    pub fn all_jobs(&self) -> Vec<usize> {
        (0..self.jobs.len()).collect()
    }

    /// The makespan of a list: the time at which its last job leaves the last machine.
    pub fn makespan(&self, list: &[usize]) -> u64 {
        let mut front = [0; MAX_MACHINES];
        for &job in list {
            put_after(&mut front, &self.jobs[job].times);
        }
        front[self.machines - 1]
    }
}

/// Puts a job with these times after the last of a list.
///
/// The front of a list is its completion time on each machine. A job begins on a machine when it has left the machine
/// before and the list has left this machine, whichever is later.
pub fn put_after<T: Copy + Default + Ord + Add<Output = T>, const M: usize>(
    front: &mut [T; M],
    times: &[T; M],
) {
    let mut done = T::default();
    for (entry, &time) in front.iter_mut().zip(times) {
        done = done.max(*entry) + time;
        *entry = done;
    }
}

/// Puts a job with these times before the first of a list.
///
/// The back of a list is, for each machine, the least time from the start of its first job there to the end of its last
/// job on the last machine. Its rule is that of the front, from the last machine to the first.
pub fn put_before<T: Copy + Default + Ord + Add<Output = T>, const M: usize>(
    back: &mut [T; M],
    times: &[T; M],
) {
    let mut done = T::default();
    for (entry, &time) in back.iter_mut().zip(times).rev() {
        done = done.max(*entry) + time;
        *entry = done;
    }
}
