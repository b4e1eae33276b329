//! The lines of a text before its proof: what it is, of which sizes, what it claims, and its sequence.
//!
//! | Line | Certificate | Two-ended certificate | Counted certificate |
//! |---|---|---|---|
//! | 1 | `flowshop certificate 1` or `2` | `flowshop two-ended 1` | `flowshop counted 1` |
//! | 2 | jobs, machines, depth | jobs, machines | jobs, machines |
//! | 3 | the value | `L` and `U` | `L` and `U` |
//! | 4 | a sequence that has the value | a sequence that has `U` | a sequence that has `U` |
//!
//! LF ends each line. Numbers are decimal without leading zeros, with one space between those of a line. A line that is
//! in any other form, that is not there or that no LF ends is at fault, and the first line at fault decides.

use crate::fault::Fault;
use crate::shop::Shop;

/// The greatest depth, which is also at most the number of jobs.
const MAX_DEPTH: u64 = 3;

/// The bound that a letter stands for.
#[derive(Clone, Copy)]
pub enum Bound {
    /// That of version 1.
    Machine,
    /// That of version 2.
    Released,
}

/// What kind of text line 1 names.
#[derive(Clone, Copy)]
pub enum Kind {
    Certificate(Bound),
    TwoEnded,
    Counted,
}

/// What a text claims: no sequence has a makespan below `lower`, and its sequence has `upper`.
pub struct Claim {
    pub kind: Kind,
    /// How many jobs each list has that a tree is written for.
    pub depth: usize,
    pub lower: u64,
    pub upper: u64,
    pub sequence: Vec<usize>,
    /// How many nodes the search of a counted certificate opens, once that was checked.
    pub nodes: Option<u64>,
}

/// What lines 1 to 4 of a text claim of a shop, and what follows them.
pub fn read<'a>(shop: &Shop, text: &'a [u8]) -> Result<(Claim, &'a [u8]), Fault> {
    let mut rest = text;
    let kind = take_line(&mut rest)
        .and_then(kind_of)
        .ok_or(Fault::Certificate("Header"))?;
    let depth = take_line(&mut rest)
        .and_then(|line| depth_of(shop, kind, line))
        .ok_or(Fault::Certificate("Size"))?;
    let (lower, upper) = take_line(&mut rest)
        .and_then(|line| values_of(kind, line))
        .ok_or(Fault::Certificate("Value"))?;
    let sequence = take_line(&mut rest)
        .and_then(|line| sequence_of(shop, line))
        .ok_or(Fault::Certificate("Sequence"))?;
    if shop.makespan(&sequence) != upper {
        return Err(Fault::Certificate("NotAttained"));
    }
    let claim = Claim {
        kind,
        depth,
        lower,
        upper,
        sequence,
        nodes: None,
    };
    Ok((claim, rest))
}

/// Takes the next line off a text, and gives it without its LF; none where no LF ends it.
pub fn take_line<'a>(rest: &mut &'a [u8]) -> Option<&'a [u8]> {
    let end = rest.iter().position(|&byte| byte == b'\n')?;
    let line = &rest[..end];
    *rest = &rest[end + 1..];
    Some(line)
}

/// The kind of text that line 1 names.
fn kind_of(line: &[u8]) -> Option<Kind> {
    match line {
        b"flowshop certificate 1" => Some(Kind::Certificate(Bound::Machine)),
        b"flowshop certificate 2" => Some(Kind::Certificate(Bound::Released)),
        b"flowshop two-ended 1" => Some(Kind::TwoEnded),
        b"flowshop counted 1" => Some(Kind::Counted),
        _ => None,
    }
}

/// The depth on line 2, whose jobs and machines are those of the shop. Certificates without trees have none.
fn depth_of(shop: &Shop, kind: Kind, line: &[u8]) -> Option<usize> {
    let jobs = shop.jobs.len() as u64;
    let (sizes, depth) = match kind {
        Kind::Certificate(_) => {
            let mut sizes = numbers(line, 3)?;
            let depth = sizes.pop()?;
            (sizes, depth)
        }
        Kind::TwoEnded | Kind::Counted => (numbers(line, 2)?, 0),
    };
    let fits = sizes == [jobs, shop.machines as u64] && depth <= MAX_DEPTH && depth <= jobs;
    usize::try_from(depth).ok().filter(|_| fits)
}

/// The bounds on line 3. A certificate has one number, which is both.
fn values_of(kind: Kind, line: &[u8]) -> Option<(u64, u64)> {
    match kind {
        Kind::Certificate(_) => numbers(line, 1).map(|value| (value[0], value[0])),
        Kind::TwoEnded | Kind::Counted => numbers(line, 2).map(|values| (values[0], values[1])),
    }
}

/// The sequence on line 4, which has each job number once.
fn sequence_of(shop: &Shop, line: &[u8]) -> Option<Vec<usize>> {
    let mut is_left = vec![true; shop.jobs.len()];
    let mut sequence = Vec::new();
    for number in numbers(line, shop.jobs.len())? {
        let job = usize::try_from(number).ok()?.checked_sub(1)?;
        let is_left = is_left.get_mut(job)?;
        if !*is_left {
            return None;
        }
        *is_left = false;
        sequence.push(job);
    }
    Some(sequence)
}

/// The numbers of a line, where it has so many and one space between each two.
fn numbers(line: &[u8], count: usize) -> Option<Vec<u64>> {
    let mut numbers = Vec::new();
    for word in line.split(|&byte| byte == b' ') {
        if numbers.len() == count {
            return None;
        }
        numbers.push(number(word)?);
    }
    (numbers.len() == count).then_some(numbers)
}

/// The number of a word: digits without leading zeros, at most 18,446,744,073,709,551,615.
pub fn number(word: &[u8]) -> Option<u64> {
    if word.is_empty() || (word.len() > 1 && word[0] == b'0') {
        return None;
    }
    word.iter().try_fold(0_u64, |value, byte| {
        if !byte.is_ascii_digit() {
            return None;
        }
        value.checked_mul(10)?.checked_add(u64::from(byte - b'0'))
    })
}
