//! A second checker of certificates, two-ended and counted certificates of permutation flow shops.
//!
//! It is a program of its own, in plain safe Rust. It was written apart from the proved checker of `flowshop`, by the
//! same authors, from the rules of the texts alone. It is not proved, and shares no source file with a solver, nor with
//! the plain Rust of bench/ and the plain Python of tests/: its recurrences are its own on purpose.
//!
//! Build it with any rustc from 1.63 on: `rustc --edition 2021 -O second_checker/main.rs -o second`.
//!
//! - `shop.rs`: the shop, and the two recurrences;
//! - `blocks.rs`: the benchmark text;
//! - `heading.rs`: lines 1 to 4 of a text, which say what it claims;
//! - `trees.rs`: the trees of a certificate;
//! - `node.rs`: the nodes of the tree of a two-ended or counted certificate, and their bounds;
//! - `directions.rs`: the directions of a two-ended certificate;
//! - `search.rs`, `pack.rs`: the search of a counted certificate, and the bounds of many children at once;
//! - `check.rs`, `fault.rs`: the check of a whole text, and what is wrong with one;
//! - `files.rs`, `failure.rs`: files, and the lines of refused runs.
//!
//! `lib.rs` makes a library of the same files but the last two, for cargo.
//!
//! Jobs and machines count from 0 in the program, and from 1 in texts. A run holds the text that it checks, and little
//! beside: no call is deeper than a list of all jobs is long.

#![forbid(unsafe_code)]

mod blocks;
mod check;
mod directions;
mod failure;
mod fault;
mod files;
mod heading;
mod node;
mod pack;
mod search;
mod shop;
mod trees;

use check::{check, MOST_NODES};
use failure::Failure;
use heading::Claim;
use std::env;
use std::ffi::OsString;
use std::io::{self, Write};
use std::process::ExitCode;

const HELP: &str = "\
Checks a text that says what the least makespan of a permutation flow shop is, or between which bounds it is.

Usage: second check FILE INDEX CERT [--sequence] [--optimal] [--most N]

  FILE        The file of the benchmark text, or stdin for standard input
  INDEX       The number of the block in the text, from 1
  CERT        The file of the certificate, two-ended or counted certificate; /dev/stdin for a pipe
  --sequence  Prints the sequence of the text and its makespan
  --optimal   Refuses a text whose bounds differ
  --most N    Refuses a counted certificate of more than N nodes; of more than 10,000,000,000 where it is left out
  --help      Prints this

It prints `optimal V` where V is the least makespan, or `bounds L U` where no sequence has a makespan below L and that
of the text has the makespan U. Otherwise it prints one line on standard error, and ends with a status that is not 0.

This checker was written apart from the proved one of flowshop, by the same authors. It is not proved.
";

/// What the command line asks for.
struct Request<'a> {
    file: &'a str,
    index: u32,
    cert: &'a str,
    sequence: bool,
    optimal: bool,
    /// How many nodes a counted certificate may say at most.
    most: u64,
}

/// Reads the command line: the word `check`, and behind it three names, and each option at most once, in any order.
fn request_of(words: &[String]) -> Option<Request<'_>> {
    let (mut sequence, mut optimal, mut most) = (false, false, None);
    let mut names = Vec::new();
    let (command, words) = words.split_first()?;
    let mut words = words.iter().map(String::as_str);
    while let Some(word) = words.next() {
        // The number of an option is the next word, or stands behind `=`.
        let joined = word.split_once('=');
        match joined.map_or((word, None), |(name, number)| (name, Some(number))) {
            ("--sequence", None) if !sequence => sequence = true,
            ("--optimal", None) if !optimal => optimal = true,
            ("--most", number) if most.is_none() => {
                most = Some(number.or_else(|| words.next())?.parse().ok()?);
            }
            _ if word.starts_with('-') => return None,
            _ => names.push(word),
        }
    }
    match names[..] {
        [file, index, cert] if command == "check" => Some(Request {
            file,
            index: index.parse().ok()?,
            cert,
            sequence,
            optimal,
            most: most.unwrap_or(MOST_NODES),
        }),
        _ => None,
    }
}

/// The line that says what a lawful text proves.
fn line(claim: &Claim) -> String {
    if claim.lower == claim.upper {
        format!("optimal {}\n", claim.upper)
    } else {
        format!("bounds {} {}\n", claim.lower, claim.upper)
    }
}

/// The lines of the sequence and of its makespan.
fn sequence_lines(claim: &Claim) -> String {
    let mut jobs = String::new();
    for job in &claim.sequence {
        jobs.push(' ');
        jobs.push_str(&(job + 1).to_string());
    }
    format!("sequence{jobs}\nmakespan {}\n", claim.upper)
}

/// What the run prints on standard output.
fn output(request: &Request) -> Result<String, Failure> {
    // Both files are opened before the first byte is read, and the benchmark text is read first.
    let file = files::open_text(request.file)?;
    let cert = files::open(request.cert)?;
    let shop = blocks::read(&files::read_text(file)?, request.index)?;
    let text = files::read_certificate(cert)?;
    let claim = check(&shop, &text, request.most)?;
    if request.optimal && claim.lower != claim.upper {
        return Err(Failure::Bounds(claim.lower, claim.upper));
    }
    Ok(if request.sequence {
        sequence_lines(&claim)
    } else {
        line(&claim)
    })
}

/// Does what the words of the command line ask for.
fn run() -> Result<(), Failure> {
    let words: Result<Vec<_>, _> = env::args_os().skip(1).map(OsString::into_string).collect();
    let words = words.map_err(|_| Failure::CommandLine)?;
    let text = if words.iter().any(|word| word == "--help") {
        HELP.to_string()
    } else {
        output(&request_of(&words).ok_or(Failure::CommandLine)?)?
    };
    let mut out = io::stdout();
    let written = out.write_all(text.as_bytes()).and_then(|()| out.flush());
    written.map_err(|_| Failure::Write)
}

fn main() -> ExitCode {
    match run() {
        Ok(()) => ExitCode::SUCCESS,
        Err(failure) => {
            // Where standard error is closed the status alone is left to tell.
            let _ = writeln!(io::stderr(), "{failure}");
            ExitCode::from(failure.status())
        }
    }
}
