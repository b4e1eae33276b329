//! The calls of the library, with slices in the place of pointers and counts. All unsafe code of the crate stands here.
//! What is lent to a call lives until the call returns, each pointer goes with its own count, and what a call writes is
//! its own; so each call is made as the header says.
#![allow(unsafe_code)]

use crate::options::{Beam, Effort, Plan, Rounds};
use flowshop_sys as sys;
use std::mem::MaybeUninit;

/// A call that was not done.
#[derive(Clone, Copy, Debug)]
pub(crate) struct Refused {
    pub(crate) status: u32,
    pub(crate) place: usize,
}

/// The numbers of a shop, with times machine by machine. They may be no shop.
#[derive(Clone, Copy)]
pub(crate) struct Numbers<'a> {
    pub(crate) jobs: u32,
    pub(crate) machines: u32,
    pub(crate) times: &'a [u32],
}

impl Numbers<'_> {
    /// The record of a call, which is used while the times are borrowed.
    fn record(&self) -> sys::flowshop_shop {
        sys::flowshop_shop {
            jobs: self.jobs,
            machines: self.machines,
            times: self.times.as_ptr(),
            times_count: self.times.len(),
        }
    }
}

/// A block of a benchmark text.
pub(crate) struct Read {
    pub(crate) jobs: u32,
    pub(crate) machines: u32,
    pub(crate) times: Vec<u32>,
    pub(crate) seed: u32,
    pub(crate) upper: u32,
    pub(crate) lower: u32,
}

/// A sequence, its makespan, and how the search for it ended.
pub(crate) struct Reached {
    pub(crate) sequence: Vec<u16>,
    pub(crate) makespan: u64,
    pub(crate) whole: bool,
}

/// A sequence, and bounds of which the upper one is its makespan.
pub(crate) struct Bounded {
    pub(crate) sequence: Vec<u16>,
    pub(crate) lower: u64,
    pub(crate) upper: u64,
}

/// What a search for directions came to. The sequence is empty where none is below the number, and there are no
/// directions where they are only counted.
pub(crate) struct Searched {
    pub(crate) found: u32,
    pub(crate) sequence: Vec<u16>,
    pub(crate) makespan: u64,
    pub(crate) directions: Vec<u8>,
    pub(crate) count: u64,
    pub(crate) rest: Vec<u16>,
}

/// Room for results: memory of which the library writes the first entries.
struct Room<T> {
    entries: Vec<T>,
    count: usize,
}

impl<T: Copy> Room<T> {
    fn new(count: usize) -> Result<Room<T>, Refused> {
        let mut entries = Vec::new();
        let reserved = entries.try_reserve_exact(count);
        reserved.map_err(|_| Refused { status: sys::FLOWSHOP_MEMORY, place: 0 })?;
        Ok(Room { entries, count })
    }

    fn pointer(&mut self) -> *mut T {
        self.entries.as_mut_ptr()
    }

    /// The first entries.
    ///
    /// # Safety
    /// So many entries were written, and there is room for them.
    unsafe fn taken(mut self, count: usize) -> Vec<T> {
        self.entries.set_len(count);
        self.entries.shrink_to_fit();
        self.entries
    }
}

/// Touches as much stack as a call needs. A thread that has less ends the process here, as Rust ends one whose stack
/// overflows, and not in the library, which could write beyond the end of the stack.
#[inline(never)]
fn need_stack() {
    let mut room = MaybeUninit::<[u8; sys::FLOWSHOP_STACK as usize]>::uninit();
    let pointer = room.as_mut_ptr();
    // SAFETY: the pointer is read, and not what it is to. As this read is volatile, the room has to be there.
    unsafe { std::ptr::read_volatile(&pointer) };
}

/// Makes a call, and says whether it is done.
fn done(call: impl FnOnce() -> sys::flowshop_outcome) -> Result<(), Refused> {
    need_stack();
    let sys::flowshop_outcome { status, place } = call();
    if status == sys::FLOWSHOP_DONE {
        Ok(())
    } else {
        Err(Refused { status, place })
    }
}

/// The version of the library.
pub(crate) fn version() -> u32 {
    // SAFETY: it takes nothing.
    unsafe { sys::flowshop_version() }
}

/// The times of the greatest shop.
const MOST_TIMES: usize = (sys::FLOWSHOP_MAX_JOBS * sys::FLOWSHOP_MAX_MACHINES) as usize;

pub(crate) fn generate(jobs: u32, machines: u32, seed: u32) -> Result<Vec<u32>, Refused> {
    let mut times = Room::new(MOST_TIMES)?;
    // SAFETY: the pointer goes with its count. A call that is done wrote the times of the shop, which has room.
    unsafe {
        done(|| sys::flowshop_generate(jobs, machines, seed, times.pointer(), times.count))?;
        Ok(times.taken(jobs as usize * machines as usize))
    }
}

pub(crate) fn block(text: &[u8], index: u32) -> Result<Read, Refused> {
    let mut times = Room::new(MOST_TIMES)?;
    let mut read = sys::flowshop_benchmark {
        jobs: 0,
        machines: 0,
        times: times.pointer(),
        times_count: times.count,
        seed: 0,
        upper: 0,
        lower: 0,
    };
    // SAFETY: each pointer goes with its count. A call that is done wrote the times of the shop, which has room.
    let times = unsafe {
        done(|| sys::flowshop_block(text.as_ptr(), text.len(), index, &mut read))?;
        times.taken(read.jobs as usize * read.machines as usize)
    };
    Ok(Read { jobs: read.jobs, machines: read.machines, times, seed: read.seed, upper: read.upper, lower: read.lower })
}

pub(crate) fn makespan(shop: Numbers, sequence: &[u16]) -> Result<u64, Refused> {
    let (shop, mut value) = (shop.record(), 0);
    let (jobs, count) = (sequence.as_ptr(), sequence.len());
    // SAFETY: each pointer goes with its count.
    done(|| unsafe { sys::flowshop_makespan(&shop, jobs, count, &mut value) })?;
    Ok(value)
}

/// The makespans of many sequences of the shop, which stand one behind the other.
pub(crate) fn makespans(shop: Numbers, sequences: &[u16]) -> Result<Vec<u64>, Refused> {
    let count = sequences.len() / (shop.jobs as usize).max(1);
    let mut values = Room::new(count)?;
    let (shop, jobs) = (shop.record(), sequences.as_ptr());
    // SAFETY: each pointer goes with its count. A call that is done wrote an entry for each sequence.
    unsafe {
        done(|| sys::flowshop_makespans(&shop, jobs, sequences.len(), values.pointer(), count))?;
        Ok(values.taken(count))
    }
}

/// When each operation of a sequence of the shop starts and ends.
pub(crate) fn timetable(shop: Numbers, sequence: &[u16]) -> Result<(Vec<u64>, Vec<u64>), Refused> {
    let count = shop.times.len();
    let (mut starts, mut ends) = (Room::new(count)?, Room::new(count)?);
    let mut spans =
        sys::flowshop_spans { starts: starts.pointer(), starts_count: count, ends: ends.pointer(), ends_count: count };
    let (shop, jobs) = (shop.record(), sequence.as_ptr());
    // SAFETY: each pointer goes with its count. A call that is done wrote as many entries as the shop has times.
    unsafe {
        done(|| sys::flowshop_timetable(&shop, jobs, sequence.len(), &mut spans))?;
        Ok((starts.taken(count), ends.taken(count)))
    }
}

/// The bytes of a text that a call writes. Where it has no room, it is written again with as much as it needs.
fn written(
    mut room: Room<u8>,
    mut call: impl FnMut(&mut sys::flowshop_text) -> sys::flowshop_outcome,
) -> Result<Vec<u8>, Refused> {
    loop {
        let mut text = sys::flowshop_text { bytes: room.pointer(), bytes_count: room.count, length: 0 };
        match done(|| call(&mut text)) {
            // SAFETY: a call that is done wrote so many bytes, for which there was room.
            Ok(()) => return Ok(unsafe { room.taken(text.length) }),
            Err(refused) if refused.status == sys::FLOWSHOP_ROOM && refused.place > room.count => {
                room = Room::new(refused.place)?;
            }
            Err(refused) => return Err(refused),
        }
    }
}

/// How many bytes a text may have that is written again where it is longer.
const FEW_BYTES: usize = 1 << 24;

/// Room for a text of at most so many bytes; for fewer where there is not so much memory.
fn room_for(most: usize) -> Result<Room<u8>, Refused> {
    Room::new(most).or_else(|_| Room::new(most.min(FEW_BYTES)))
}

pub(crate) fn picture(shop: Numbers, sequence: &[u16], lower: u64) -> Result<Vec<u8>, Refused> {
    let (shop, jobs, count) = (shop.record(), sequence.as_ptr(), sequence.len());
    written(Room::new(0)?, |text| {
        // SAFETY: each pointer goes with its count.
        unsafe { sys::flowshop_picture(&shop, jobs, count, lower, text) }
    })
}

/// The sequence of as many jobs that a call writes.
fn reached(
    jobs: u32,
    call: impl FnOnce(&mut sys::flowshop_reached) -> sys::flowshop_outcome,
) -> Result<Reached, Refused> {
    let mut sequence = Room::new(jobs as usize)?;
    let mut room =
        sys::flowshop_reached { sequence: sequence.pointer(), sequence_count: sequence.count, makespan: 0, whole: 0 };
    done(|| call(&mut room))?;
    Ok(Reached {
        // SAFETY: a call that is done wrote as many jobs as the shop has, for which there was room.
        sequence: unsafe { sequence.taken(jobs as usize) },
        makespan: room.makespan,
        whole: room.whole == 1,
    })
}

pub(crate) fn neh(shop: Numbers) -> Result<Reached, Refused> {
    let record = shop.record();
    reached(shop.jobs, |room| {
        // SAFETY: each pointer goes with its count.
        unsafe { sys::flowshop_neh(&record, room) }
    })
}

/// The record of an effort.
fn effort_of(effort: &Effort) -> sys::flowshop_effort {
    sys::flowshop_effort { width: effort.width, rounds: effort.rounds, seed: effort.seed, work: effort.work }
}

pub(crate) fn improve(shop: Numbers, start: &[u16], effort: &Effort) -> Result<Reached, Refused> {
    let (record, effort) = (shop.record(), effort_of(effort));
    reached(shop.jobs, |room| {
        // SAFETY: each pointer goes with its count.
        unsafe { sys::flowshop_improve(&record, start.as_ptr(), start.len(), &effort, room) }
    })
}

pub(crate) fn beam(shop: Numbers, start: &[u16], beam: &Beam) -> Result<Reached, Refused> {
    let record = shop.record();
    let options = sys::flowshop_beam_options { number: beam.number, width: beam.width, steps: beam.steps };
    reached(shop.jobs, |room| {
        // SAFETY: each pointer goes with its count.
        unsafe { sys::flowshop_beam(&record, start.as_ptr(), start.len(), &options, room) }
    })
}

pub(crate) fn rounds(shop: Numbers, start: &[u16], rounds: &Rounds) -> Result<Reached, Refused> {
    let record = shop.record();
    let options = sys::flowshop_rounds_options { rounds: rounds.rounds, seed: rounds.seed, steps: rounds.steps };
    reached(shop.jobs, |room| {
        // SAFETY: each pointer goes with its count.
        unsafe { sys::flowshop_rounds(&record, start.as_ptr(), start.len(), &options, room) }
    })
}

/// The bounds, and the sequence of as many jobs, that a call writes, with what else it gives.
fn bounded<R>(
    jobs: u32,
    call: impl FnOnce(&mut sys::flowshop_bounds) -> Result<R, Refused>,
) -> Result<(Bounded, R), Refused> {
    let mut sequence = Room::new(jobs as usize)?;
    let mut room =
        sys::flowshop_bounds { sequence: sequence.pointer(), sequence_count: sequence.count, lower: 0, upper: 0 };
    let given = call(&mut room)?;
    let bounded = Bounded {
        // SAFETY: a call that is done wrote as many jobs as the shop has, for which there was room.
        sequence: unsafe { sequence.taken(jobs as usize) },
        lower: room.lower,
        upper: room.upper,
    };
    Ok((bounded, given))
}

/// What a text proves; one that states at most so many nodes, where a number is given.
pub(crate) fn check(shop: Numbers, text: &[u8], most: Option<u64>) -> Result<Bounded, Refused> {
    let (record, bytes, count) = (shop.record(), text.as_ptr(), text.len());
    let (found, ()) = bounded(shop.jobs, |bounds| {
        // SAFETY: each pointer goes with its count.
        done(|| unsafe {
            match most {
                None => sys::flowshop_check(&record, bytes, count, bounds),
                Some(most) => sys::flowshop_check_within(&record, bytes, count, most, bounds),
            }
        })
    })?;
    Ok(found)
}

pub(crate) fn solve(shop: Numbers, start: &[u16], plan: &Plan) -> Result<(Bounded, Vec<u8>), Refused> {
    let record = shop.record();
    let options = sys::flowshop_plan { depth: plan.depth, budget: plan.budget, version: plan.version };
    // There are at most as many trees as lists of so many jobs, and a tree has a line.
    let trees = (shop.jobs as usize).saturating_pow(plan.depth);
    let most = trees.saturating_mul(plan.budget as usize + 1);
    let room = room_for(most.saturating_add(3200))?;
    bounded(shop.jobs, |bounds| {
        written(room, |text| {
            let (jobs, count) = (start.as_ptr(), start.len());
            // SAFETY: each pointer goes with its count.
            unsafe { sys::flowshop_solve(&record, jobs, count, &options, bounds, text) }
        })
    })
}

pub(crate) fn certify(
    shop: Numbers,
    start: &[u16],
    effort: &Effort,
    directions: u32,
) -> Result<(Bounded, Vec<u8>), Refused> {
    let (record, effort) = (shop.record(), effort_of(effort));
    let room = room_for(directions as usize + 3300)?;
    bounded(shop.jobs, |bounds| {
        written(room, |text| {
            let (jobs, count) = (start.as_ptr(), start.len());
            // SAFETY: each pointer goes with its count.
            unsafe { sys::flowshop_certify(&record, jobs, count, &effort, directions, bounds, text) }
        })
    })
}

/// Searches the node of two lists by a call that takes a part with room for directions, or with none where it counts.
fn searched(
    shop: Numbers,
    (first, last): (&[u16], &[u16]),
    mut directions: Option<Room<u8>>,
    call: impl FnOnce(*const sys::flowshop_node, *mut sys::flowshop_part) -> sys::flowshop_outcome,
) -> Result<Searched, Refused> {
    let jobs = shop.jobs as usize;
    let mut sequence = Room::new(jobs)?;
    let mut rest = Room::new(jobs * (jobs + 4))?;
    let node = sys::flowshop_node {
        first: first.as_ptr(),
        first_count: first.len(),
        last: last.as_ptr(),
        last_count: last.len(),
    };
    let mut part = sys::flowshop_part {
        sequence: sequence.pointer(),
        sequence_count: sequence.count,
        directions: directions.as_mut().map_or(std::ptr::null_mut(), Room::pointer),
        directions_count: directions.as_ref().map_or(0, |room| room.count),
        rest: rest.pointer(),
        rest_count: rest.count,
        found: 0,
        makespan: 0,
        directions_length: 0,
        rest_length: 0,
    };
    // SAFETY: each pointer goes with its count. A call that is done wrote as many directions, where there is room for
    // them, and numbers as it says, and a sequence of the shop where one is below the number.
    unsafe {
        done(|| call(&node, &mut part))?;
        let is_below = part.found == sys::FLOWSHOP_BELOW;
        Ok(Searched {
            found: part.found,
            sequence: sequence.taken(if is_below { jobs } else { 0 }),
            makespan: part.makespan,
            directions: directions.map_or(Vec::new(), |room| room.taken(part.directions_length)),
            count: part.directions_length as u64,
            rest: rest.taken(part.rest_length),
        })
    }
}

/// Searches the node of two lists below a number, with room for so many directions.
pub(crate) fn prove(shop: Numbers, lists: (&[u16], &[u16]), number: u64, most: usize) -> Result<Searched, Refused> {
    // SAFETY: the node and the part are those of this search, and each pointer goes with its count.
    let call = |node, part| unsafe { sys::flowshop_prove(&shop.record(), node, number, part) };
    searched(shop, lists, Some(Room::new(most)?), call)
}

/// Searches the node of two lists below a number, and counts so many directions at most.
pub(crate) fn tally(shop: Numbers, lists: (&[u16], &[u16]), number: u64, budget: u64) -> Result<Searched, Refused> {
    // SAFETY: the node and the part are those of this search, and each pointer goes with its count. No room for
    // directions is looked at.
    let call = |node, part| unsafe { sys::flowshop_tally(&shop.record(), node, number, budget, part) };
    searched(shop, lists, None, call)
}
