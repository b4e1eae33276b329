//! The benchmark text: blocks, one after another, each with the times of a shop.
//!
//! A block is a label line, number lines with five numbers (jobs, machines and three more that nothing relies on), a
//! label line, and number lines with the times. A line is blank where it has nothing but blanks: spaces, tabs and CRs.
//! Its first byte that is no blank makes another line a number line where it is a digit, and a label line otherwise.
//! Blank lines are passed over. The first line at fault decides; lines count from 1.

use crate::fault::Fault;
use crate::shop::{Shop, MAX_JOBS, MAX_MACHINES, MAX_TIME};

/// What is wanted at a line.
#[derive(Clone, Copy)]
enum Wanted {
    /// The label line that begins a block.
    FirstLabel,
    /// Numbers of the head, until there are five.
    Head,
    /// The label line between head and times.
    SecondLabel,
    /// Times, until there is one for each job and machine.
    Times,
}

/// What was read so far.
struct Reader {
    wanted: Wanted,
    /// The numbers of the head, or the times, of the block that is being read.
    numbers: Vec<u32>,
    jobs: usize,
    machines: usize,
    /// How many whole blocks were read.
    blocks: u32,
    /// The number of the block that is asked for, and its shop once it was read.
    index: u32,
    shop: Option<Shop>,
}

/// The shop of the block of this number, from 1, of a text without faults.
pub fn read(text: &[u8], index: u32) -> Result<Shop, Fault> {
    let mut reader = Reader {
        wanted: Wanted::FirstLabel,
        numbers: Vec::new(),
        jobs: 0,
        machines: 0,
        blocks: 0,
        index,
        shop: None,
    };
    let mut count = 0;
    // A line ends with LF or with the end of the text.
    for line in text.split_inclusive(|&byte| byte == b'\n') {
        count += 1;
        let line = line.strip_suffix(b"\n").unwrap_or(line);
        match line.iter().find(|&&byte| !is_blank(byte)) {
            None => {}
            Some(byte) if byte.is_ascii_digit() => reader.number_line(line, count)?,
            Some(_) => reader.label_line(count)?,
        }
    }
    // What is missing at the end of the text is at fault on the line after the last.
    match reader.wanted {
        Wanted::FirstLabel if reader.blocks == 0 => Err(Fault::NoBlock),
        Wanted::FirstLabel => reader.shop.ok_or(Fault::Index),
        Wanted::Head => Err(Fault::Text("Head", count + 1)),
        Wanted::SecondLabel => Err(Fault::Text("Label", count + 1)),
        Wanted::Times => Err(Fault::Text("Times", count + 1)),
    }
}

fn is_blank(byte: u8) -> bool {
    matches!(byte, b' ' | b'\t' | b'\r')
}

/// The words of a line: what stands between its blanks.
fn words(line: &[u8]) -> impl Iterator<Item = &[u8]> {
    line.split(|&byte| is_blank(byte))
        .filter(|word| !word.is_empty())
}

/// The number of a word of digits, which may have leading zeros; none where it is above 4,294,967,295.
fn number(word: &[u8]) -> Option<u32> {
    word.iter().try_fold(0_u32, |value, byte| {
        value.checked_mul(10)?.checked_add(u32::from(byte - b'0'))
    })
}

impl Reader {
    fn label_line(&mut self, line: usize) -> Result<(), Fault> {
        self.wanted = match self.wanted {
            Wanted::FirstLabel => Wanted::Head,
            Wanted::SecondLabel => Wanted::Times,
            Wanted::Head => return Err(Fault::Text("Head", line)),
            Wanted::Times => return Err(Fault::Text("Times", line)),
        };
        Ok(())
    }

    fn number_line(&mut self, bytes: &[u8], line: usize) -> Result<(), Fault> {
        match self.wanted {
            Wanted::FirstLabel | Wanted::SecondLabel => Err(Fault::Text("Label", line)),
            Wanted::Head => self.head_line(bytes, line),
            Wanted::Times => self.times_line(bytes, line),
        }
    }

    /// Adds the numbers of a line, at most until there are as many as wanted.
    ///
    /// The tests come in this order: a byte that is neither a digit nor a blank; a number above the greatest; more
    /// numbers than wanted.
    fn add(
        &mut self,
        bytes: &[u8],
        wanted: usize,
        name: &'static str,
        line: usize,
    ) -> Result<(), Fault> {
        if !bytes
            .iter()
            .all(|&byte| byte.is_ascii_digit() || is_blank(byte))
        {
            return Err(Fault::Text("Byte", line));
        }
        if words(bytes).any(|word| number(word).is_none()) {
            return Err(Fault::Text("Number", line));
        }
        if words(bytes).count() > wanted - self.numbers.len() {
            return Err(Fault::Text(name, line));
        }
        self.numbers.extend(words(bytes).filter_map(number));
        Ok(())
    }

    fn head_line(&mut self, bytes: &[u8], line: usize) -> Result<(), Fault> {
        self.add(bytes, 5, "Head", line)?;
        if self.numbers.len() == 5 {
            self.jobs = self.numbers[0] as usize;
            self.machines = self.numbers[1] as usize;
            // The sizes are tested once the head is whole.
            if !(1..=MAX_JOBS).contains(&self.jobs) || !(1..=MAX_MACHINES).contains(&self.machines)
            {
                return Err(Fault::Text("Limits", line));
            }
            self.numbers.clear();
            self.wanted = Wanted::SecondLabel;
        }
        Ok(())
    }

    fn times_line(&mut self, bytes: &[u8], line: usize) -> Result<(), Fault> {
        let (before, size) = (self.numbers.len(), self.jobs * self.machines);
        self.add(bytes, size, "Times", line)?;
        if self.numbers[before..].iter().any(|&time| time > MAX_TIME) {
            return Err(Fault::Text("Limits", line));
        }
        if self.numbers.len() == size {
            self.blocks = self.blocks.saturating_add(1);
            if self.blocks == self.index {
                self.shop = Some(Shop::new(self.jobs, self.machines, &self.numbers));
            }
            self.numbers.clear();
            self.wanted = Wanted::FirstLabel;
        }
        Ok(())
    }
}
