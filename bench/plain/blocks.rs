//! Benchmark texts.

use crate::fault::{Fault, refused};
use crate::shop::{Instance, MAX_JOBS, MAX_MACHINES};

const MAX_TIME: u32 = 999_999;

pub struct Block {
    /// Jobs, machines, seed, upper and lower bound.
    pub head: [u32; 5],
    /// The times, machine by machine.
    pub times: Vec<u32>,
}

impl Block {
    fn jobs(&self) -> usize {
        self.head[0] as usize
    }

    fn machines(&self) -> usize {
        self.head[1] as usize
    }

    /// The instance of the block.
    pub fn instance(&self) -> Instance {
        Instance::new(self.jobs(), self.machines(), &self.times)
    }

    /// The block as it is written.
    pub fn text(&self) -> String {
        let mut text = String::from(
            "number of jobs, number of machines, initial seed, upper bound and lower bound :\n",
        );
        push_line(&mut text, &self.head);
        text.push_str("processing times :\n");
        for row in self.times.chunks(self.jobs()) {
            push_line(&mut text, row);
        }
        text
    }
}

/// Puts numbers behind a text, with single spaces between them and a line end behind them.
pub fn push_line<T: ToString>(text: &mut String, numbers: &[T]) {
    for (place, number) in numbers.iter().enumerate() {
        if place > 0 {
            text.push(' ');
        }
        text.push_str(&number.to_string());
    }
    text.push('\n');
}

/// What the next line of a text must bring.
#[derive(Clone, Copy)]
enum Wanted {
    Label,
    Head,
    TimesLabel,
    Times,
}

/// What was read of a text so far.
struct Reading {
    wanted: Wanted,
    head: Vec<u32>,
    times: Vec<u32>,
    /// How many times the block has.
    size: usize,
    blocks: Vec<Block>,
}

fn text_fault(name: &str, line: usize) -> Fault {
    refused(format!("text {name} {line}"))
}

/// The blocks of a text.
pub fn read_blocks(text: &[u8]) -> Result<Vec<Block>, Fault> {
    let mut reading = Reading {
        wanted: Wanted::Label,
        head: Vec::new(),
        times: Vec::new(),
        size: 0,
        blocks: Vec::new(),
    };
    let mut lines = 0;
    for line in text.split(|&byte| byte == b'\n') {
        lines += 1;
        let first = line.iter().find(|byte| !b" \t\r".contains(byte));
        match first {
            None => {}
            Some(byte) if byte.is_ascii_digit() => reading.numbers(line, lines)?,
            Some(_) => reading.label(lines)?,
        }
    }
    let ends_in_line = text.last().is_some_and(|&byte| byte != b'\n');
    let end = if ends_in_line { lines + 1 } else { lines };
    match reading.wanted {
        Wanted::Label if reading.blocks.is_empty() => Err(refused("text NoBlock")),
        Wanted::Label => Ok(reading.blocks),
        Wanted::Head => Err(text_fault("Head", end)),
        Wanted::TimesLabel => Err(text_fault("Label", end)),
        Wanted::Times => Err(text_fault("Times", end)),
    }
}

impl Reading {
    fn label(&mut self, line: usize) -> Result<(), Fault> {
        self.wanted = match self.wanted {
            Wanted::Label => Wanted::Head,
            Wanted::TimesLabel => Wanted::Times,
            Wanted::Head => return Err(text_fault("Head", line)),
            Wanted::Times => return Err(text_fault("Times", line)),
        };
        Ok(())
    }

    fn numbers(&mut self, bytes: &[u8], line: usize) -> Result<(), Fault> {
        match self.wanted {
            Wanted::Label | Wanted::TimesLabel => Err(text_fault("Label", line)),
            Wanted::Head => self.head_numbers(bytes, line),
            Wanted::Times => self.time_numbers(bytes, line),
        }
    }

    fn head_numbers(&mut self, bytes: &[u8], line: usize) -> Result<(), Fault> {
        push_numbers(&mut self.head, bytes, line)?;
        if self.head.len() > 5 {
            return Err(text_fault("Head", line));
        }
        if self.head.len() == 5 {
            let jobs = self.head[0] as usize;
            let machines = self.head[1] as usize;
            if !(1..=MAX_JOBS).contains(&jobs) || !(1..=MAX_MACHINES).contains(&machines) {
                return Err(text_fault("Limits", line));
            }
            self.size = jobs * machines;
            self.wanted = Wanted::TimesLabel;
        }
        Ok(())
    }

    fn time_numbers(&mut self, bytes: &[u8], line: usize) -> Result<(), Fault> {
        let before = self.times.len();
        push_numbers(&mut self.times, bytes, line)?;
        if self.times.len() > self.size {
            return Err(text_fault("Times", line));
        }
        let brought = &self.times[before..];
        if brought.iter().any(|&time| time > MAX_TIME) {
            return Err(text_fault("Limits", line));
        }
        if self.times.len() == self.size {
            let mut head = [0; 5];
            head.copy_from_slice(&self.head);
            self.head.clear();
            let times = std::mem::take(&mut self.times);
            self.blocks.push(Block { head, times });
            self.wanted = Wanted::Label;
        }
        Ok(())
    }
}

/// Puts the numbers of a line behind others.
fn push_numbers(numbers: &mut Vec<u32>, line: &[u8], number: usize) -> Result<(), Fault> {
    let mut value = None;
    let mut too_large = false;
    for &byte in line.iter().chain(b" ") {
        match (byte, value) {
            (b'0'..=b'9', _) => {
                let digit = u64::from(byte - b'0');
                value = Some(value.map_or(digit, |high: u64| high.saturating_mul(10).saturating_add(digit)));
            }
            (b' ' | b'\t' | b'\r', Some(whole)) => {
                let fitting = u32::try_from(whole);
                too_large |= fitting.is_err();
                numbers.push(fitting.unwrap_or(0));
                value = None;
            }
            (b' ' | b'\t' | b'\r', None) => {}
            _ => return Err(text_fault("Byte", number)),
        }
    }
    if too_large {
        return Err(text_fault("Number", number));
    }
    Ok(())
}
