//! The calls of the library flowshop for permutation flow shops: the records, numbers and calls of its header for C,
//! `library/flowshop.h`, under the same names. What each of them means, and what a caller has to keep, stands there.
//! The crate `flowshop` makes these calls safely.

#![no_std]
#![allow(non_camel_case_types)]

/// The version of the header that this crate follows.
pub const FLOWSHOP_LIBRARY_VERSION: u32 = 2_000_000;

// The limits.
/// The most jobs.
pub const FLOWSHOP_MAX_JOBS: u32 = 800;
/// The most machines.
pub const FLOWSHOP_MAX_MACHINES: u32 = 26;
/// The greatest time.
pub const FLOWSHOP_MAX_TIME: u32 = 999_999;
/// The greatest seed.
pub const FLOWSHOP_MAX_SEED: u32 = 2_147_483_646;
/// The greatest width of a beam.
pub const FLOWSHOP_MAX_WIDTH: u32 = 65_536;
/// The most rounds.
pub const FLOWSHOP_MAX_ROUNDS: u32 = 100_000_000;
/// The most work, in millions of steps.
pub const FLOWSHOP_MAX_WORK: u32 = 1_000_000;
/// The most directions of a certificate.
pub const FLOWSHOP_MAX_DIRECTIONS: u32 = 1_000_000_000;
/// The greatest depth.
pub const FLOWSHOP_MAX_DEPTH: u32 = 3;
/// The most prefixes of a plan.
pub const FLOWSHOP_MAX_PREFIXES: u32 = 100_000;
/// The greatest budget of a tree, in bytes.
pub const FLOWSHOP_MAX_BUDGET: u32 = 100_000_000;
/// The least version of a certificate with trees.
pub const FLOWSHOP_MIN_VERSION: u32 = 1;
/// The greatest version of a certificate with trees.
pub const FLOWSHOP_MAX_VERSION: u32 = 2;

/// How many bytes of stack the thread of a call needs.
pub const FLOWSHOP_STACK: u32 = 131_072;

// What a search for directions came to.
/// The directions prove the number.
pub const FLOWSHOP_PROVED: u32 = 1;
/// A sequence is below the number.
pub const FLOWSHOP_BELOW: u32 = 2;
/// There are more directions than there is room for, or than may be counted.
pub const FLOWSHOP_OVER: u32 = 3;
/// Of the task of a run: a beam or rounds came to a sequence.
pub const FLOWSHOP_REACHED: u32 = 4;

// What is known of a place of a search that is shared.
/// It waits to be given.
pub const FLOWSHOP_WAITS: u32 = 0;
/// It is given to a worker.
pub const FLOWSHOP_GIVEN: u32 = 1;
/// Its directions are written, and what is left of it stands behind it.
pub const FLOWSHOP_SEARCHED: u32 = 2;
/// A sequence below the number comes behind its directions.
pub const FLOWSHOP_AT_SEQUENCE: u32 = 3;
/// It stands behind such a sequence, and counts for nothing.
pub const FLOWSHOP_DROPPED: u32 = 4;

// What a run asks for.
/// Nothing more.
pub const FLOWSHOP_TASK_END: u32 = 0;
/// `flowshop_prove` or `flowshop_tally` from the root, or the same in parts.
pub const FLOWSHOP_TASK_SEARCH: u32 = 1;
/// `flowshop_beam`.
pub const FLOWSHOP_TASK_BEAM: u32 = 2;
/// `flowshop_rounds`.
pub const FLOWSHOP_TASK_ROUNDS: u32 = 3;

// The sequence from which a beam or rounds begin.
/// The start of the run.
pub const FLOWSHOP_FROM_START: u32 = 0;
/// The best sequence.
pub const FLOWSHOP_FROM_BEST: u32 = 1;
/// The sequence that was the best before this one.
pub const FLOWSHOP_FROM_BEFORE: u32 = 2;

/// Declares the statuses, and the call that names them.
macro_rules! statuses {
    ($($(#[$doc:meta])* $name:ident = $value:literal;)*) => {
        $($(#[$doc])* pub const $name: u32 = $value;)*

        /// The name of a status without `FLOWSHOP_`; `?` where it is none.
        pub fn flowshop_status_name(status: u32) -> &'static str {
            let name = match status {
                $($name => stringify!($name),)*
                _ => "?",
            };
            name.strip_prefix("FLOWSHOP_").unwrap_or(name)
        }
    };
}

statuses! {
    /// The call is done.
    FLOWSHOP_DONE = 0;
    /// Memory ran out.
    FLOWSHOP_MEMORY = 1;
    /// A slice for results is too short; place: the entries that it needs.
    FLOWSHOP_ROOM = 2;
    /// The processor lacks something of x86-64-v2, such as SSE4.2 or POPCNT.
    FLOWSHOP_CPU = 3;
    /// A pointer is null: an argument, or of a slice.
    FLOWSHOP_NULL = 4;
    /// The jobs are not 1 to 800.
    FLOWSHOP_JOBS = 10;
    /// The machines are not 1 to 26.
    FLOWSHOP_MACHINES = 11;
    /// There are not jobs * machines times.
    FLOWSHOP_COUNT = 12;
    /// A time is above 999999; place: the first, counted from 1.
    FLOWSHOP_TIME = 13;
    /// The seed of random numbers is not 1 to 2147483646.
    FLOWSHOP_SEED = 14;
    /// The list has another length than there are jobs.
    FLOWSHOP_LENGTH = 20;
    /// A job is not one of the shop; place: the first fault, counted from 1.
    FLOWSHOP_JOB = 21;
    /// A job stands twice in the list; place: its second place.
    FLOWSHOP_TWICE = 22;
    /// The depth is above 3.
    FLOWSHOP_DEPTH = 31;
    /// The budget is not 1 to 100000000.
    FLOWSHOP_BUDGET = 32;
    /// The version is not 1 or 2.
    FLOWSHOP_VERSION = 33;
    /// The width is above 65536.
    FLOWSHOP_WIDTH = 34;
    /// The rounds are above 100000000.
    FLOWSHOP_ROUNDS = 35;
    /// The work is above 1000000.
    FLOWSHOP_WORK = 36;
    /// The directions are not 1 to 1000000000; of a run, not 1 to 1000000000000000.
    FLOWSHOP_DIRECTIONS = 37;
    /// A run is told what is no answer to a task that it may ask for.
    FLOWSHOP_ANSWER = 38;
    /// The depth is above the number of jobs.
    FLOWSHOP_PLAN_DEPTH = 40;
    /// There are more than 100000 lists of so many jobs.
    FLOWSHOP_PLAN_PREFIXES = 41;
    /// A tree is longer than the budget; place: its prefix, counted from 0.
    FLOWSHOP_OVER_BUDGET = 50;
    /// Line 1 of a certificate is at fault.
    FLOWSHOP_HEADER = 60;
    /// Line 2 of a certificate is at fault.
    FLOWSHOP_SIZE = 61;
    /// Line 3 of a certificate is at fault, or line 5 of a counted one.
    FLOWSHOP_VALUE = 62;
    /// Line 4 of a certificate is no sequence of the shop.
    FLOWSHOP_SEQUENCE = 63;
    /// The makespan of the sequence is not the value, or not the upper bound.
    FLOWSHOP_NOT_ATTAINED = 64;
    /// A line is not one tree, no directions that prove the bound, or not how many nodes the search opens; place: the
    /// line.
    FLOWSHOP_TREE = 65;
    /// Of a certificate of version 1 or 2: a bound is below the value; place: the line.
    FLOWSHOP_WEAK = 66;
    /// A makespan is below the value, or below the lower bound; place: the line.
    FLOWSHOP_LOW = 67;
    /// What follows the trees, the directions or the count is not the last line alone.
    FLOWSHOP_END = 68;
    /// A counted certificate states more nodes than the caller allows; it may be lawful.
    FLOWSHOP_MOST = 69;
    /// A benchmark text has no line that is not blank.
    FLOWSHOP_NO_BLOCK = 70;
    /// A line of words is wanted; place, here and in the next five: the line.
    FLOWSHOP_LABEL = 71;
    /// A line of numbers has a byte that is neither a digit nor a blank.
    FLOWSHOP_BYTE = 72;
    /// A number is above 4294967295.
    FLOWSHOP_NUMBER = 73;
    /// The head of a block has not five numbers.
    FLOWSHOP_HEAD = 74;
    /// The jobs, the machines or a time are not within the limits.
    FLOWSHOP_LIMITS = 75;
    /// There is not one time for each job and machine.
    FLOWSHOP_TIMES = 76;
    /// The text has no block of this index; place: how many blocks it has.
    FLOWSHOP_INDEX = 77;
}

/// The outcome of a call: its status, and the place of the fault.
#[must_use]
#[repr(C)]
#[derive(Clone, Copy, Debug)]
pub struct flowshop_outcome {
    pub status: u32,
    pub place: usize,
}

/// The limits.
#[repr(C)]
#[derive(Clone, Copy, Debug)]
pub struct flowshop_limit_numbers {
    pub max_jobs: u32,
    pub max_machines: u32,
    pub max_time: u32,
    pub max_number: u32,
    pub max_job: u32,
    pub max_seed: u32,
    pub max_width: u32,
    pub max_rounds: u32,
    pub max_work: u32,
    pub max_directions: u32,
    pub max_depth: u32,
    pub max_prefixes: u32,
    pub max_budget: u32,
    pub min_version: u32,
    pub max_version: u32,
    pub max_workers: u32,
    pub max_text: u32,
    pub max_certificate: u32,
    pub max_beside: u32,
    pub max_nodes: u64,
    pub max_counted: u64,
}

/// A shop.
#[repr(C)]
#[derive(Clone, Copy, Debug)]
pub struct flowshop_shop {
    pub jobs: u32,
    pub machines: u32,
    pub times: *const u32,
    pub times_count: usize,
}

/// Room for a block of a benchmark text, and what it states.
#[repr(C)]
#[derive(Clone, Copy, Debug)]
pub struct flowshop_benchmark {
    pub jobs: u32,
    pub machines: u32,
    pub times: *mut u32,
    pub times_count: usize,
    pub seed: u32,
    pub upper: u32,
    pub lower: u32,
}

/// Room for the times at which operations start and end.
#[repr(C)]
#[derive(Clone, Copy, Debug)]
pub struct flowshop_spans {
    pub starts: *mut u64,
    pub starts_count: usize,
    pub ends: *mut u64,
    pub ends_count: usize,
}

/// Room for a text, and its length.
#[repr(C)]
#[derive(Clone, Copy, Debug)]
pub struct flowshop_text {
    pub bytes: *mut u8,
    pub bytes_count: usize,
    pub length: usize,
}

/// Room for a sequence, its makespan, and how the search for it ended.
#[repr(C)]
#[derive(Clone, Copy, Debug)]
pub struct flowshop_reached {
    pub sequence: *mut u16,
    pub sequence_count: usize,
    pub makespan: u64,
    pub whole: u32,
}

/// Room for a sequence, and bounds between which the least makespan lies.
#[repr(C)]
#[derive(Clone, Copy, Debug)]
pub struct flowshop_bounds {
    pub sequence: *mut u16,
    pub sequence_count: usize,
    pub lower: u64,
    pub upper: u64,
}

/// How much a search of better sequences may do.
#[repr(C)]
#[derive(Clone, Copy, Debug)]
pub struct flowshop_effort {
    pub width: u32,
    pub rounds: u32,
    pub seed: u32,
    pub work: u32,
}

/// The options of a search for a certificate of version 1 or 2.
#[repr(C)]
#[derive(Clone, Copy, Debug)]
pub struct flowshop_plan {
    pub depth: u32,
    pub budget: u32,
    pub version: u32,
}

/// The options of a beam search.
#[repr(C)]
#[derive(Clone, Copy, Debug)]
pub struct flowshop_beam_options {
    pub number: u64,
    pub width: u32,
    pub steps: u64,
}

/// The options of rounds of iterated greedy search.
#[repr(C)]
#[derive(Clone, Copy, Debug)]
pub struct flowshop_rounds_options {
    pub rounds: u32,
    pub seed: u32,
    pub steps: u64,
}

/// Where a run of `certify` stands.
#[repr(C)]
#[derive(Clone, Copy, Debug)]
pub struct flowshop_run_state {
    pub lower: u64,
    pub upper: u64,
    pub least: u64,
    pub inner: [u64; 11],
    pub tasks: u32,
    pub step: u32,
    pub inner_place: [u32; 2],
}

/// A task of a run.
#[repr(C)]
#[derive(Clone, Copy, Debug)]
pub struct flowshop_task {
    pub kind: u32,
    pub origin: u32,
    pub number: u64,
    pub budget: u64,
    pub beam: flowshop_beam_options,
    pub rounds: flowshop_rounds_options,
}

/// What became of a task.
#[repr(C)]
#[derive(Clone, Copy, Debug)]
pub struct flowshop_answer {
    pub found: u32,
    pub whole: u32,
    pub makespan: u64,
    pub directions: u64,
}

/// A place of a search that is shared.
#[repr(C)]
#[derive(Clone, Copy, Debug)]
pub struct flowshop_place {
    pub written: u64,
    pub next: u64,
    pub state: u32,
    pub skip: u32,
}

/// Where a search stands that is shared.
#[repr(C)]
#[derive(Clone, Copy, Debug)]
pub struct flowshop_search_state {
    pub budget: u64,
    pub written: u64,
    pub settled: u64,
    pub first_open: u64,
    pub open: u64,
    pub places: u64,
    pub reached: u64,
}

/// What became of a place that was given.
#[repr(C)]
#[derive(Clone, Copy, Debug)]
pub struct flowshop_searched {
    pub written: u64,
    pub left: u32,
    pub reached: u32,
}

/// A node of the two-ended tree.
#[repr(C)]
#[derive(Clone, Copy, Debug)]
pub struct flowshop_node {
    pub first: *const u16,
    pub first_count: usize,
    pub last: *const u16,
    pub last_count: usize,
}

/// Room for what a search for directions comes to, and what is said of it.
#[repr(C)]
#[derive(Clone, Copy, Debug)]
pub struct flowshop_part {
    pub sequence: *mut u16,
    pub sequence_count: usize,
    pub directions: *mut u8,
    pub directions_count: usize,
    pub rest: *mut u16,
    pub rest_count: usize,
    pub found: u32,
    pub makespan: u64,
    pub directions_length: usize,
    pub rest_length: usize,
}

/// The node of two empty lists: its sequences are all of the shop.
pub fn flowshop_root() -> flowshop_node {
    static NONE: u16 = 0;
    flowshop_node { first: &NONE, first_count: 0, last: &NONE, last_count: 0 }
}

extern "C" {
    /// The version of the library as one number.
    pub fn flowshop_version() -> u32;
    /// All limits.
    pub fn flowshop_limits(limits: *mut flowshop_limit_numbers) -> flowshop_outcome;
    /// The shop of a seed, by Taillard's generator.
    pub fn flowshop_generate(
        jobs: u32,
        machines: u32,
        seed: u32,
        times: *mut u32,
        times_count: usize,
    ) -> flowshop_outcome;
    /// The block of a benchmark text that an index names, counted from 1.
    pub fn flowshop_block(
        text: *const u8,
        text_count: usize,
        index: u32,
        block: *mut flowshop_benchmark,
    ) -> flowshop_outcome;
    /// The makespan of a sequence.
    pub fn flowshop_makespan(
        shop: *const flowshop_shop,
        sequence: *const u16,
        sequence_count: usize,
        makespan: *mut u64,
    ) -> flowshop_outcome;
    /// The makespans of many sequences, which stand one behind the other.
    pub fn flowshop_makespans(
        shop: *const flowshop_shop,
        sequences: *const u16,
        sequences_count: usize,
        makespans: *mut u64,
        makespans_count: usize,
    ) -> flowshop_outcome;
    /// When each job of a sequence starts and ends on each machine.
    pub fn flowshop_timetable(
        shop: *const flowshop_shop,
        sequence: *const u16,
        sequence_count: usize,
        spans: *mut flowshop_spans,
    ) -> flowshop_outcome;
    /// The picture of the timetable of a sequence, as SVG text.
    pub fn flowshop_picture(
        shop: *const flowshop_shop,
        sequence: *const u16,
        sequence_count: usize,
        lower: u64,
        text: *mut flowshop_text,
    ) -> flowshop_outcome;
    /// The starting sequence of Nawaz, Enscore and Ham, and its makespan.
    pub fn flowshop_neh(shop: *const flowshop_shop, start: *mut flowshop_reached) -> flowshop_outcome;
    /// A sequence whose makespan is at most that of a start, by beams and rounds.
    pub fn flowshop_improve(
        shop: *const flowshop_shop,
        start: *const u16,
        start_count: usize,
        effort: *const flowshop_effort,
        reached: *mut flowshop_reached,
    ) -> flowshop_outcome;
    /// The bounds that a text proves, and the sequence that it states.
    pub fn flowshop_check(
        shop: *const flowshop_shop,
        text: *const u8,
        text_count: usize,
        bounds: *mut flowshop_bounds,
    ) -> flowshop_outcome;
    /// The same, where the caller says how many nodes a counted certificate may state.
    pub fn flowshop_check_within(
        shop: *const flowshop_shop,
        text: *const u8,
        text_count: usize,
        most: u64,
        bounds: *mut flowshop_bounds,
    ) -> flowshop_outcome;
    /// The least makespan, a sequence that has it, and a certificate with trees.
    pub fn flowshop_solve(
        shop: *const flowshop_shop,
        start: *const u16,
        start_count: usize,
        plan: *const flowshop_plan,
        bounds: *mut flowshop_bounds,
        certificate: *mut flowshop_text,
    ) -> flowshop_outcome;
    /// Bounds of the least makespan, a sequence, and a two-ended certificate.
    pub fn flowshop_certify(
        shop: *const flowshop_shop,
        start: *const u16,
        start_count: usize,
        effort: *const flowshop_effort,
        directions: u32,
        bounds: *mut flowshop_bounds,
        text: *mut flowshop_text,
    ) -> flowshop_outcome;
    /// A part of a search for directions that prove a number.
    pub fn flowshop_prove(
        shop: *const flowshop_shop,
        node: *const flowshop_node,
        number: u64,
        part: *mut flowshop_part,
    ) -> flowshop_outcome;
    /// The same search, which counts its directions.
    pub fn flowshop_tally(
        shop: *const flowshop_shop,
        node: *const flowshop_node,
        number: u64,
        budget: u64,
        part: *mut flowshop_part,
    ) -> flowshop_outcome;
    /// Begins a search that is shared.
    pub fn flowshop_search(
        budget: u64,
        places: *mut flowshop_place,
        places_count: usize,
        search: *mut flowshop_search_state,
    ) -> flowshop_outcome;
    /// Gives the first place in order that waits.
    pub fn flowshop_search_give(
        search: *const flowshop_search_state,
        places: *mut flowshop_place,
        places_count: usize,
        place: *mut u64,
    ) -> flowshop_outcome;
    /// Takes what became of a place that was given.
    pub fn flowshop_search_put(
        search: *mut flowshop_search_state,
        places: *mut flowshop_place,
        places_count: usize,
        place: u64,
        searched: *const flowshop_searched,
        first: *mut u64,
    ) -> flowshop_outcome;
    /// What a shared search came to.
    pub fn flowshop_search_found(
        search: *const flowshop_search_state,
        found: *mut u32,
        place: *mut u64,
    ) -> flowshop_outcome;
    /// The best sequence of a two-ended beam search.
    pub fn flowshop_beam(
        shop: *const flowshop_shop,
        start: *const u16,
        start_count: usize,
        options: *const flowshop_beam_options,
        reached: *mut flowshop_reached,
    ) -> flowshop_outcome;
    /// The best sequence of rounds of iterated greedy search.
    pub fn flowshop_rounds(
        shop: *const flowshop_shop,
        start: *const u16,
        start_count: usize,
        options: *const flowshop_rounds_options,
        reached: *mut flowshop_reached,
    ) -> flowshop_outcome;
    /// A run of `certify` from a sequence.
    pub fn flowshop_run(
        shop: *const flowshop_shop,
        start: *const u16,
        start_count: usize,
        directions: u64,
        limited: u32,
        run: *mut flowshop_run_state,
    ) -> flowshop_outcome;
    /// What a run asks for next.
    pub fn flowshop_run_next(
        run: *mut flowshop_run_state,
        effort: *const flowshop_effort,
        task: *mut flowshop_task,
    ) -> flowshop_outcome;
    /// Tells a run what became of the task that it asked for last.
    pub fn flowshop_run_put(
        run: *mut flowshop_run_state,
        task: *const flowshop_task,
        answer: *const flowshop_answer,
        better: *mut u32,
    ) -> flowshop_outcome;
    /// The two-ended certificate of a sequence, a lower bound and directions.
    pub fn flowshop_run_text(
        shop: *const flowshop_shop,
        sequence: *const u16,
        sequence_count: usize,
        lower: u64,
        directions: *const u8,
        directions_count: usize,
        text: *mut flowshop_text,
    ) -> flowshop_outcome;
    /// The counted certificate of a sequence, a lower bound and how many directions there are.
    pub fn flowshop_run_counted(
        shop: *const flowshop_shop,
        sequence: *const u16,
        sequence_count: usize,
        lower: u64,
        count: u64,
        text: *mut flowshop_text,
    ) -> flowshop_outcome;
}
