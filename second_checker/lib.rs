//! The second checker of certificates, two-ended and counted certificates of permutation flow shops, as a library.
//!
//! It was written apart from the proved checker of `flowshop`, by the same authors, from the rules of the texts alone,
//! in plain safe Rust. It is not proved. A check of trees or directions calls itself once for each job of a list: with
//! 800 jobs it needs 1.5 MB of stack. Threads of the standard library have 2 MB. The search of a counted certificate
//! does not call itself.
//!
//! ```
//! use second_checker::{Fault, Shop};
//! let shop = Shop::read(b"label\n3 3 0 0 0\nlabel\n4 0 0\n0 8 2\n4 0 1\n", 1)?;
//! let bounds = shop.check(b"flowshop two-ended 1\n3 3\n12 12\n3 1 2\n++\nend\n")?;
//! assert_eq!((bounds.lower, bounds.upper), (12, 12));
//! let refused = shop.check(b"flowshop two-ended 1\n3 3\n12 12\n3 1 2\n+\nend\n");
//! assert_eq!(refused, Err(Fault::Tree("Tree", 5)));
//! # Ok::<(), Fault>(())
//! ```

#![forbid(unsafe_code)]
#![deny(missing_docs)]

mod blocks;
mod check;
mod directions;
mod fault;
mod heading;
mod node;
mod pack;
mod search;
mod shop;
mod trees;

pub use check::MOST_NODES;
pub use fault::Fault;

/// A shop of at most 800 jobs and 26 machines, with times of at most 999,999.
pub struct Shop(shop::Shop);

/// What a lawful text proves: no sequence has a makespan below `lower`, and its sequence has `upper`.
#[derive(Clone, Debug, PartialEq, Eq, Hash)]
pub struct Bounds {
    /// The lower bound.
    pub lower: u64,
    /// The upper bound.
    pub upper: u64,
    /// The jobs of the sequence, which count from 1.
    pub sequence: Vec<usize>,
    /// How many nodes the search of a counted certificate opens; none for a text of another kind.
    pub nodes: Option<u64>,
}

impl Shop {
    /// The shop of the block of this number, from 1, of a benchmark text.
    pub fn read(text: &[u8], index: u32) -> Result<Shop, Fault> {
        blocks::read(text, index).map(Shop)
    }

    /// The shop of a table with a row for each job, which has a time for each machine; none where it is beyond the
    /// limits, or its rows have not one length.
    ///
    /// ```
    /// use second_checker::Shop;
    /// let shop = Shop::from_jobs(&[[4, 0, 4], [0, 8, 0], [0, 2, 1]]).unwrap();
    /// let bounds = shop.check(b"flowshop two-ended 1\n3 3\n11 13\n2 1 3\n-\nend\n").unwrap();
    /// assert_eq!(bounds.sequence, [2, 1, 3]);
    /// assert!(Shop::from_jobs(&[vec![4, 0], vec![1]]).is_none());
    /// ```
    pub fn from_jobs<R: AsRef<[u32]>>(rows: &[R]) -> Option<Shop> {
        let (jobs, machines) = (rows.len(), rows.first()?.as_ref().len());
        let is_row = |row: &R| {
            let times = row.as_ref();
            times.len() == machines && times.iter().all(|&time| time <= shop::MAX_TIME)
        };
        let is_within = jobs <= shop::MAX_JOBS && (1..=shop::MAX_MACHINES).contains(&machines);
        if !is_within || !rows.iter().all(is_row) {
            return None;
        }
        let column = |machine| rows.iter().filter_map(move |row| row.as_ref().get(machine));
        let times: Vec<u32> = (0..machines).flat_map(column).copied().collect();
        Some(Shop(shop::Shop::new(jobs, machines, &times)))
    }

    /// Checks a certificate of any kind; a counted one may say [`MOST_NODES`] at most.
    pub fn check(&self, text: &[u8]) -> Result<Bounds, Fault> {
        self.check_at_most(text, MOST_NODES)
    }

    /// Checks a certificate of any kind; a counted one may say at most so many nodes, since its check opens them all.
    ///
    /// ```
    /// use second_checker::{Fault, Shop};
    /// let shop = Shop::from_jobs(&[[4, 0, 4], [0, 8, 0], [0, 2, 1]]).unwrap();
    /// let text = b"flowshop counted 1\n3 3\n12 12\n3 1 2\n2\nend\n";
    /// assert_eq!(shop.check_at_most(text, 2).unwrap().nodes, Some(2));
    /// assert_eq!(shop.check_at_most(text, 1), Err(Fault::Certificate("Most")));
    /// ```
    pub fn check_at_most(&self, text: &[u8], most: u64) -> Result<Bounds, Fault> {
        let claim = check::check(&self.0, text, most)?;
        Ok(Bounds {
            lower: claim.lower,
            upper: claim.upper,
            sequence: claim.sequence.iter().map(|job| job + 1).collect(),
            nodes: claim.nodes,
        })
    }
}
