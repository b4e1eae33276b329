//! The check of a whole text.

use crate::directions;
use crate::fault::Fault;
use crate::heading::{self, Claim, Kind};
use crate::search;
use crate::shop::Shop;
use crate::trees;

/// The most nodes that a counted certificate may have opened, where no other number is named.
pub const MOST_NODES: u64 = 10_000_000_000;

/// Checks a whole text of a shop: what it claims, or its first fault. A counted certificate may have at most so many
/// nodes opened.
pub fn check(shop: &Shop, text: &[u8], most: u64) -> Result<Claim, Fault> {
    let (mut claim, rest) = heading::read(shop, text)?;
    let rest = match claim.kind {
        Kind::Counted => {
            let (nodes, rest) = search::check(shop, claim.lower, most, rest)?;
            claim.nodes = Some(nodes);
            rest
        }
        Kind::TwoEnded => directions::check(shop, claim.lower, rest)?,
        Kind::Certificate(bound) => trees::check(shop, bound, claim.lower, claim.depth, rest)?,
    };
    // The last line is `end` with its LF, and nothing follows.
    if rest != b"end\n" {
        return Err(Fault::Certificate("End"));
    }
    Ok(claim)
}
