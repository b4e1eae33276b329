//! Exact permutation flow shops, with certificates that a proved checker reads.
//!
//! In a permutation flow shop each job visits machines 1 to m in that order, and every machine takes the jobs in one
//! common order. The makespan is the time at which the last job leaves the last machine. This crate finds an order of
//! least makespan, or else bounds that it proves, and gives a certificate of them. A checker that uses nothing of the
//! search reads it.
//!
//! ```
//! use flowshop::{Effort, Shop, DIRECTIONS};
//! // A row for each job, with its time on each machine.
//! let shop = Shop::from_jobs(&[[4, 0, 4], [0, 8, 0], [0, 2, 1]])?;
//! let found = shop.certify(shop.neh()?, &Effort::default(), DIRECTIONS)?;
//! let checked = shop.check(found.text())?;
//! assert!(checked.is_optimal());
//! assert_eq!((checked.upper(), checked.sequence().to_string()), (12, "3 1 2".to_string()));
//! # Ok::<(), flowshop::Error>(())
//! ```
//!
//! Each call is one of the library, whose functions are proved to meet their contracts; its header, `flowshop.h`, says
//! what is proved of each. This crate only hands over numbers, and is tested. Bad input is an [`Error`], and nothing
//! panics on it.
//!
//! A call runs on the thread that makes it, until it ends; any number of threads may make calls. A call needs 128 kB of
//! stack beside what its thread has used, whatever the shop is; threads of the standard library have 2 MB. With less
//! the process ends, as where any stack of Rust overflows.

#![deny(missing_docs, unsafe_code)]

mod call;
mod error;
mod options;
mod results;
mod search;
mod shop;

pub use error::Error;
pub use options::{Beam, Effort, Plan, Rounds};
pub use results::{Best, Bounds, Certificate, Operation, Sequence, Timetable};
pub use search::{Found, Node, Part, Tally};
pub use shop::{Block, Shop};

/// The most directions of a certificate that the program's `certify` makes, where no number is given.
pub const DIRECTIONS: u32 = 100_000_000;

/// The version of the library that is linked, as three numbers.
///
/// ```
/// assert_eq!(flowshop::version(), (2, 0, 0));
/// ```
pub fn version() -> (u32, u32, u32) {
    let number = call::version();
    (number / 1_000_000, number / 1000 % 1000, number % 1000)
}
