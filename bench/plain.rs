//! The work of `flowshop` in plain safe Rust, with no proofs and no other crates: a program to measure beside.
//!
//! It is written apart from the proved crates, from the rules of docs/formats.md, and writes the same texts. Each
//! bound is computed anew at each node, and each insertion's makespan from fronts and tails. Of workers, prefix `i`
//! belongs to worker `i mod k`. It checks no texts: second_checker does.
//!
//! Build it with `rustc --edition 2024 -O bench/plain.rs`.

#[path = "plain/blocks.rs"]
mod blocks;
#[path = "plain/fault.rs"]
mod fault;
#[path = "plain/search.rs"]
mod search;
#[path = "plain/shop.rs"]
mod shop;
#[path = "plain/two_ended.rs"]
mod two_ended;

use blocks::{Block, push_line, read_blocks};
use fault::{Fault, command_line, failed, refused};
use search::{Request, numbers_from_one, solve};
use shop::{Instance, MAX_JOBS, MAX_MACHINES, generated};
use std::env;
use std::fs::File;
use std::io::{self, Read, Write};
use std::process::ExitCode;
use two_ended::two_ended;

const MAX_TEXT: u64 = 16_777_216;

fn open(name: &str) -> Result<Box<dyn Read>, Fault> {
    if name == "stdin" {
        return Ok(Box::new(io::stdin()));
    }
    match File::open(name) {
        Ok(file) => Ok(Box::new(file)),
        Err(_) => Err(failed("open")),
    }
}

fn read_all(source: impl Read, limit: u64) -> Result<Vec<u8>, Fault> {
    let mut bytes = Vec::new();
    source
        .take(limit + 1)
        .read_to_end(&mut bytes)
        .map_err(|_| failed("read Device"))?;
    if bytes.len() as u64 > limit {
        return Err(failed("read TooLong"));
    }
    Ok(bytes)
}

/// The instance of one block of a text, counted from 1.
fn read_instance(source: impl Read, index: u32) -> Result<Instance, Fault> {
    let blocks = read_blocks(&read_all(source, MAX_TEXT)?)?;
    (index as usize)
        .checked_sub(1)
        .and_then(|place| blocks.get(place))
        .map(Block::instance)
        .ok_or_else(|| refused("index"))
}

fn run_span(file: impl Read, index: u32, jobs: &[u16]) -> Result<Vec<u8>, Fault> {
    let instance = read_instance(file, index)?;
    if jobs.len() != instance.jobs.len() {
        return Err(refused("sequence Length"));
    }
    let mut sequence = Vec::with_capacity(jobs.len());
    let mut seen = vec![false; jobs.len()];
    for (place, &job) in jobs.iter().enumerate() {
        if job == 0 || usize::from(job) > jobs.len() {
            return Err(refused(format!("sequence Job {}", place + 1)));
        }
        let job = usize::from(job) - 1;
        if seen[job] {
            return Err(refused(format!("sequence Twice {}", place + 1)));
        }
        seen[job] = true;
        sequence.push(job);
    }
    Ok(format!("makespan {}\n", instance.makespan(&sequence)).into_bytes())
}

fn run_gen(jobs: u32, machines: u32, seed: u32) -> Result<Vec<u8>, Fault> {
    let name = if !(1..=MAX_JOBS).contains(&(jobs as usize)) {
        "Jobs"
    } else if !(1..=MAX_MACHINES).contains(&(machines as usize)) {
        "Machines"
    } else if !(1..=2_147_483_646).contains(&seed) {
        "Seed"
    } else {
        ""
    };
    if !name.is_empty() {
        return Err(refused(format!("instance {name}")));
    }
    let mut block = Block {
        head: [jobs, machines, seed, 0, 0],
        times: generated(jobs as usize, machines as usize, seed),
    };
    let instance = block.instance();
    block.head[3] = instance.start().1 as u32;
    block.head[4] = instance.lower_bound() as u32;
    Ok(block.text().into_bytes())
}

fn run_neh(file: impl Read, index: u32) -> Result<Vec<u8>, Fault> {
    let (sequence, makespan) = read_instance(file, index)?.start();
    let mut text = String::from("sequence ");
    push_line(&mut text, &numbers_from_one(&sequence));
    text.push_str(&format!("makespan {makespan}\n"));
    Ok(text.into_bytes())
}

fn run_solve(file: impl Read, index: u32, request: &Request) -> Result<Vec<u8>, Fault> {
    let instance = read_instance(file, index)?;
    let options = request.options(instance.jobs.len())?;
    solve(&instance, &options)
}

/// The two-ended certificate whose lower bound is a number, where directions within the budget prove it.
fn run_two_ended(
    file: impl Read,
    index: u32,
    number: u32,
    budget: usize,
) -> Result<Vec<u8>, Fault> {
    two_ended(&read_instance(file, index)?, number, budget)
}

fn argument<T: std::str::FromStr>(word: &str) -> Result<T, Fault> {
    word.parse().map_err(|_| command_line())
}

/// What the options of `solve` ask for.
fn request(words: &[&str]) -> Result<Request, Fault> {
    let mut request = Request {
        workers: 1,
        depth: 1,
        budget: 1_000_000,
        version: 1,
    };
    for pair in words.chunks(2) {
        let [name, value] = *pair else {
            return Err(command_line());
        };
        match name {
            "--workers" => request.workers = argument::<u32>(value)? as usize,
            "--depth" => request.depth = argument::<u32>(value)? as usize,
            "--budget" => request.budget = argument::<u32>(value)? as usize,
            "--certificate" => request.version = argument(value)?,
            _ => return Err(command_line()),
        }
    }
    Ok(request)
}

/// What the command of a line writes.
fn output(words: &[&str]) -> Result<Vec<u8>, Fault> {
    match words {
        ["span", file, index, jobs @ ..] if !jobs.is_empty() => {
            let jobs: Result<Vec<u16>, Fault> = jobs.iter().map(|job| argument(job)).collect();
            let (index, jobs) = (argument(index)?, jobs?);
            run_span(open(file)?, index, &jobs)
        }
        ["gen", jobs, machines, seed] => {
            run_gen(argument(jobs)?, argument(machines)?, argument(seed)?)
        }
        ["neh", file, index] => {
            let index = argument(index)?;
            run_neh(open(file)?, index)
        }
        ["solve", file, index, rest @ ..] => {
            let (index, request) = (argument(index)?, request(rest)?);
            run_solve(open(file)?, index, &request)
        }
        ["two-ended", file, index, number, budget] => {
            let (number, budget) = (argument(number)?, argument(budget)?);
            let index = argument(index)?;
            run_two_ended(open(file)?, index, number, budget)
        }
        _ => Err(command_line()),
    }
}

fn main() -> ExitCode {
    let words: Vec<String> = env::args().skip(1).collect();
    let words: Vec<&str> = words.iter().map(String::as_str).collect();
    let written = output(&words).and_then(|text| {
        let mut out = io::stdout().lock();
        let written = out.write_all(&text).and_then(|()| out.flush());
        written.map_err(|_| failed("write Device"))
    });
    match written {
        Ok(()) => ExitCode::SUCCESS,
        Err(fault) => {
            eprintln!("{}", fault.line);
            ExitCode::from(fault.status)
        }
    }
}
