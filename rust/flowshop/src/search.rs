//! Parts of a search for the directions of a two-ended certificate.

use crate::call::Searched;
use crate::results::{text_of, Sequence};
use crate::Error;
use flowshop_sys as sys;

/// A node of the two-ended tree: its sequences begin with its first list, and end with its last one. The default is the
/// node of two empty lists, whose sequences are all of the shop.
#[derive(Clone, Debug, Default, PartialEq, Eq, Hash)]
pub struct Node {
    /// The jobs that its sequences begin with.
    pub first: Vec<u16>,
    /// The jobs that they end with.
    pub last: Vec<u16>,
}

/// What a search for directions came to, of which each is `+` for the front or `-` for the back.
#[derive(Clone, Debug, PartialEq, Eq, Hash)]
pub enum Found {
    /// The directions prove that no sequence of the node is below the number.
    Proved {
        /// The directions.
        directions: String,
    },
    /// A sequence of the node is below the number.
    Below {
        /// The first such sequence, in the order of the search.
        sequence: Sequence,
        /// The directions before it.
        directions: String,
    },
    /// There are more directions than there was room for.
    Over {
        /// The first ones, as many as there was room for.
        directions: String,
        /// The parts with which the search goes on, in order.
        parts: Vec<Part>,
    },
}

/// What a search came to that counts its directions.
#[derive(Clone, Debug, PartialEq, Eq, Hash)]
pub enum Tally {
    /// So many directions prove that no sequence of the node is below the number.
    Proved {
        /// How many directions there are.
        count: u64,
    },
    /// A sequence of the node is below the number.
    Below {
        /// The first such sequence, in the order of the search.
        sequence: Sequence,
        /// How many directions come before it.
        count: u64,
    },
    /// There are more directions than the budget.
    Over {
        /// How many were counted, which is the budget.
        count: u64,
        /// The parts with which the search goes on, in order.
        parts: Vec<Part>,
    },
}

/// A part of a search: a node, or some children of one at an end. Parts can be searched at once, and elsewhere: the
/// directions of a search are those of its parts, joined in order, up to the first that has a sequence below the
/// number.
///
/// ```
/// use flowshop::{Found, Node, Shop};
/// let shop = Shop::from_jobs(&[[4, 0, 4], [0, 8, 0], [0, 2, 1]])?;
/// // One direction at a time.
/// let (mut directions, mut left) = (String::new(), vec![Node::default()]);
/// while let Some(node) = left.pop() {
///     match shop.prove(&node, 12, 1)? {
///         Found::Proved { directions: more } => directions += &more,
///         Found::Over { directions: more, parts } => {
///             directions += &more;
///             let nodes: Vec<Node> = parts.iter().flat_map(|part| part.nodes()).collect();
///             left.extend(nodes.into_iter().rev());
///         }
///         Found::Below { sequence, .. } => panic!("{sequence} is below 12"),
///     }
/// }
/// assert_eq!(directions, "++");
/// # Ok::<(), flowshop::Error>(())
/// ```
#[derive(Clone, Debug, PartialEq, Eq, Hash)]
pub struct Part {
    node: Node,
    end: End,
    jobs: Vec<u16>,
}

/// What a part is, beside its node.
#[derive(Clone, Copy, Debug, PartialEq, Eq, Hash)]
enum End {
    /// The node itself.
    Whole,
    /// Those of its children that put a job behind the first list.
    Front,
    /// Those of its children that put a job before the last list.
    Back,
}

impl Part {
    /// The nodes of the part, in the order of the search.
    pub fn nodes(&self) -> impl Iterator<Item = Node> + '_ {
        let whole = (self.end == End::Whole).then(|| self.node.clone());
        let children = self.jobs.iter().map(move |&job| {
            let mut child = self.node.clone();
            match self.end {
                End::Back => child.last.insert(0, job),
                _ => child.first.push(job),
            }
            child
        });
        whole.into_iter().chain(children)
    }
}

/// Takes so many numbers off a list.
fn take(rest: &mut &[u16], count: u16) -> Option<Vec<u16>> {
    let count = usize::from(count);
    let taken = rest.get(..count)?.to_vec();
    *rest = rest.get(count..)?;
    Some(taken)
}

/// Takes a part off a list: how many jobs its lists have, how many follow, and an end; then the lists and the jobs.
fn part(rest: &mut &[u16]) -> Option<Part> {
    let (first, last, jobs, end) = match take(rest, 4)?[..] {
        [first, last, jobs, 0] => (first, last, jobs, End::Whole),
        [first, last, jobs, 1] => (first, last, jobs, End::Front),
        [first, last, jobs, 2] => (first, last, jobs, End::Back),
        _ => return None,
    };
    let (first, last) = (take(rest, first)?, take(rest, last)?);
    Some(Part { node: Node { first, last }, end, jobs: take(rest, jobs)? })
}

/// The parts of a list of numbers.
fn parts(mut rest: &[u16]) -> Option<Vec<Part>> {
    let mut parts = Vec::new();
    while !rest.is_empty() {
        parts.push(part(&mut rest)?);
    }
    Some(parts)
}

impl Searched {
    /// The error of a kind, or of parts, that nobody knows.
    fn unknown(&self) -> Error {
        Error::Unknown { status: sys::FLOWSHOP_DONE, place: self.found as usize }
    }
}

impl TryFrom<Searched> for Found {
    type Error = Error;

    fn try_from(searched: Searched) -> Result<Found, Error> {
        let unknown = searched.unknown();
        let directions = text_of(searched.directions);
        match searched.found {
            sys::FLOWSHOP_PROVED => Ok(Found::Proved { directions }),
            sys::FLOWSHOP_BELOW => {
                Ok(Found::Below { sequence: Sequence::new(searched.sequence, searched.makespan), directions })
            }
            sys::FLOWSHOP_OVER => Ok(Found::Over { directions, parts: parts(&searched.rest).ok_or(unknown)? }),
            _ => Err(unknown),
        }
    }
}

impl TryFrom<Searched> for Tally {
    type Error = Error;

    fn try_from(searched: Searched) -> Result<Tally, Error> {
        let (unknown, count) = (searched.unknown(), searched.count);
        match searched.found {
            sys::FLOWSHOP_PROVED => Ok(Tally::Proved { count }),
            sys::FLOWSHOP_BELOW => {
                Ok(Tally::Below { sequence: Sequence::new(searched.sequence, searched.makespan), count })
            }
            sys::FLOWSHOP_OVER => Ok(Tally::Over { count, parts: parts(&searched.rest).ok_or(unknown)? }),
            _ => Err(unknown),
        }
    }
}
