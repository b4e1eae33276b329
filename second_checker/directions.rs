//! The directions of a two-ended certificate: why no sequence has a makespan below `L`.
//!
//! Line 5 has one sign for each node (`node.rs`) that has to be opened, in the order in which the walk comes to them:
//!
//! - a node whose bound is at least `L` has no sign, since none of its sequences is below `L`;
//! - any other node with jobs left has a plus or a minus, followed by the signs of its children in increasing order of
//!   jobs. With a plus a child has one of the jobs left put after the last of the first list, with a minus before the
//!   first of the second list;
//! - a node whose bound is below `L` and that has no job left is a sequence below `L`, so the text is at fault.
//!
//! The line ends with the last of these signs.

use crate::fault::Fault;
use crate::node::{End, Node, Nodes, Number};
use crate::shop::{Shop, MAX_MACHINES};

/// The line of the directions.
const LINE: usize = 5;

/// The walk over the nodes that have a sign.
struct Walk<'a> {
    nodes: Nodes<i32, MAX_MACHINES>,
    lower: i32,
    /// The text from the next byte on.
    rest: &'a [u8],
    /// The jobs that are in neither list of the node that is read now, in increasing order.
    left: Vec<usize>,
}

/// Checks the line of directions, and gives what follows it.
pub fn check<'a>(shop: &Shop, lower: u64, text: &'a [u8]) -> Result<&'a [u8], Fault> {
    let mut walk = Walk {
        nodes: Nodes::new(shop),
        lower: Number::of(lower),
        rest: text,
        left: shop.all_jobs(),
    };
    let root = walk.nodes.root;
    if root.bound() < walk.lower {
        walk.open(&root)?;
    }
    walk.rest
        .strip_prefix(b"\n")
        .ok_or(Fault::Tree("Tree", LINE))
}

impl Walk<'_> {
    /// The end that the next sign names; the end of the line, or of the text, names none.
    fn sign(&mut self) -> Option<End> {
        let (&byte, rest) = self.rest.split_first()?;
        self.rest = rest;
        match byte {
            b'+' => Some(End::Front),
            b'-' => Some(End::Back),
            _ => None,
        }
    }

    /// Reads the signs of a node whose bound is below `L`, and of all nodes below it. It calls itself once for each job
    /// that is put into a list, and leaves the jobs left as it found them.
    fn open(&mut self, node: &Node<i32, MAX_MACHINES>) -> Result<(), Fault> {
        if self.left.is_empty() {
            return Err(Fault::Tree("Low", LINE));
        }
        let end = self.sign().ok_or(Fault::Tree("Tree", LINE))?;
        for place in 0..self.left.len() {
            let job = self.left[place];
            let child = self.nodes.child(node, end, job);
            if child.bound() < self.lower {
                self.left.remove(place);
                self.open(&child)?;
                self.left.insert(place, job);
            }
        }
        Ok(())
    }
}
