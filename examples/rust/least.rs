//! Finds the least makespan of a small shop, and checks its certificate.
use std::process::ExitCode;

// As library/flowshop.h declares them: a slice is a pointer and its length.
#[repr(C)]
struct Outcome {
    status: u32,
    place: usize,
}

#[repr(C)]
struct Shop {
    jobs: u32,
    machines: u32,
    times: *const u32,
    times_count: usize,
}

#[repr(C)]
struct Reached {
    sequence: *mut u16,
    sequence_count: usize,
    makespan: u64,
    whole: u32,
}

#[repr(C)]
struct Effort {
    width: u32,
    rounds: u32,
    seed: u32,
    work: u32,
}

#[repr(C)]
struct Bounds {
    sequence: *mut u16,
    sequence_count: usize,
    lower: u64,
    upper: u64,
}

#[repr(C)]
struct Text {
    bytes: *mut u8,
    bytes_count: usize,
    length: usize,
}

#[rustfmt::skip]
#[link(name = "flowshop", kind = "static")]
unsafe extern "C" {
    fn flowshop_neh(shop: &Shop, start: &mut Reached) -> Outcome;
    fn flowshop_certify(shop: &Shop, start: *const u16, start_count: usize, effort: &Effort, directions: u32,
        bounds: &mut Bounds, text: &mut Text) -> Outcome;
    fn flowshop_check(shop: &Shop, text: *const u8, text_count: usize, bounds: &mut Bounds) -> Outcome;
}

fn main() -> ExitCode {
    let times = [4u32, 0, 0, 0, 8, 2, 4, 0, 1]; // three machines, each with the times of three jobs
    let (mut start, mut best, mut bytes) = ([0u16; 3], [0u16; 3], [0u8; 4300]);
    let shop = Shop { jobs: 3, machines: 3, times: times.as_ptr(), times_count: times.len() };
    let effort = Effort { width: 16, rounds: 100, seed: 1, work: 1 };
    let mut begun = Reached { sequence: start.as_mut_ptr(), sequence_count: 3, makespan: 0, whole: 0 };
    let mut bounds = Bounds { sequence: best.as_mut_ptr(), sequence_count: 3, lower: 0, upper: 0 };
    let mut text = Text { bytes: bytes.as_mut_ptr(), bytes_count: bytes.len(), length: 0 };
    // SAFETY: each pointer is that of an array that lives here, and goes with its own length.
    let outcome = unsafe {
        let mut outcome = flowshop_neh(&shop, &mut begun);
        if outcome.status == 0 {
            outcome = flowshop_certify(&shop, begun.sequence, 3, &effort, 1000, &mut bounds, &mut text);
        }
        if outcome.status == 0 {
            outcome = flowshop_check(&shop, text.bytes, text.length, &mut bounds);
        }
        outcome
    };
    if outcome.status != 0 {
        println!("refused {} at {}", outcome.status, outcome.place);
        return ExitCode::FAILURE;
    }
    if bounds.lower == bounds.upper {
        print!("least makespan");
    } else {
        print!("at least {}; found", bounds.lower);
    }
    println!(" {}: {} {} {}", bounds.upper, best[0], best[1], best[2]);
    ExitCode::SUCCESS
}
