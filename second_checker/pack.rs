//! Jobs side by side: the bounds of many children of a node at once.
//!
//! The loops below do the same for each lane of a group, so that a compiler can make one instruction of several lanes.

use crate::node::{End, Node, Nodes, Number};

/// How many jobs a group has.
pub const LANES: usize = 16;

/// A number for each job of a group.
pub type Lanes<T> = [T; LANES];

/// Jobs in increasing order, in groups. All jobs left are among them.
pub struct Pack<T, const M: usize> {
    pub jobs: Vec<usize>,
    /// The times of the jobs, for each group and each machine.
    times: Vec<[Lanes<T>; M]>,
    /// Which jobs are left, for each group: 0 for one that is, and else the greatest number, below which is no bound.
    gone: Vec<Lanes<T>>,
}

impl<T: Number, const M: usize> Pack<T, M> {
    /// The pack of these jobs, which are all left.
    pub fn new(nodes: &Nodes<T, M>, jobs: Vec<usize>) -> Pack<T, M> {
        let mut times = Vec::new();
        let mut gone = Vec::new();
        for group in jobs.chunks(LANES) {
            let mut columns = [[T::default(); LANES]; M];
            for (lane, &job) in group.iter().enumerate() {
                for (column, &time) in columns.iter_mut().zip(&nodes.jobs[job]) {
                    column[lane] = time;
                }
            }
            times.push(columns);
            let mut is_gone = [T::GREATEST; LANES];
            is_gone[..group.len()].fill(T::default());
            gone.push(is_gone);
        }
        Pack { jobs, times, gone }
    }

    /// Takes the job at a place out of the jobs left.
    pub fn take(&mut self, place: u16) {
        self.set(place, T::GREATEST);
    }

    /// Puts the job at a place back.
    pub fn put_back(&mut self, place: u16) {
        self.set(place, T::default());
    }

    fn set(&mut self, place: u16, gone: T) {
        let place = usize::from(place);
        self.gone[place / LANES][place % LANES] = gone;
    }

    /// The jobs left.
    pub fn left(&self) -> Vec<usize> {
        let jobs = self.jobs.iter().zip(self.gone.iter().flatten());
        jobs.filter(|(_, &gone)| gone == T::default())
            .map(|(&job, _)| job)
            .collect()
    }

    /// The bounds of the children of a node at an end, for each group.
    pub fn bounds<'a>(
        &'a self,
        node: &'a Node<T, M>,
        end: End,
    ) -> impl Iterator<Item = Lanes<T>> + 'a {
        let groups = self.times.iter().zip(&self.gone);
        groups.map(move |(times, gone)| bounds(times, gone, node, end))
    }

    /// How many children of a node at an end have a bound below a number.
    pub fn count_below(&self, node: &Node<T, M>, end: End, number: T) -> u16 {
        let bounds = self.bounds(node, end);
        bounds.map(|lanes| count_below(&lanes, number)).sum()
    }
}

/// For each job of a group the bound of the child that has it put at an end; the greatest number where it is gone.
fn bounds<T: Number, const M: usize>(
    times: &[Lanes<T>; M],
    gone: &Lanes<T>,
    node: &Node<T, M>,
    end: End,
) -> Lanes<T> {
    let (list, other) = match end {
        End::Front => (&node.front, &node.back),
        End::Back => (&node.back, &node.front),
    };
    let numbers = list.iter().zip(other.iter().zip(&node.owed));
    match end {
        End::Front => greatest(gone, times.iter().zip(numbers)),
        End::Back => greatest(gone, times.iter().zip(numbers).rev()),
    }
}

/// For each job the greatest sum, over the machines, of when it starts there and how much comes from then on; or the
/// number given, where that is greater.
///
/// A job starts when it has left the machine before, and the list at whose end it is put has left this one. From then
/// on come the times of the jobs left, its own among them, and the back of the other list. So a machine comes with the
/// times of the jobs, the front of the list, the back of the other one, and the times of all jobs left. Where a job is
/// put before the last list, the machines come from the last one on, and front and back change places.
#[inline(always)]
fn greatest<'a, T: Number + 'a>(
    given: &Lanes<T>,
    machines: impl Iterator<Item = (&'a Lanes<T>, (&'a T, (&'a T, &'a T)))>,
) -> Lanes<T> {
    let (mut done, mut bounds) = ([T::default(); LANES], *given);
    for (times, (&list, (&other, &owed))) in machines {
        for lane in 0..LANES {
            let start = done[lane].max(list);
            bounds[lane] = bounds[lane].max(start + (other + owed));
            done[lane] = start + times[lane];
        }
    }
    bounds
}

/// How many of these bounds are below a number.
pub fn count_below<T: Number>(bounds: &Lanes<T>, number: T) -> u16 {
    let count = |count: u8, &bound: &T| count + u8::from(bound < number);
    u16::from(bounds.iter().fold(0, count))
}

/// The sum of these bounds. Jobs that are gone, and lanes without a job, add the same at both ends of a node.
pub fn sum<T: Number>(bounds: &[Lanes<T>]) -> i64 {
    bounds.iter().flatten().map(|&bound| bound.into()).sum()
}
