//! The search of a counted certificate: that no sequence has a makespan below `L`, and how many nodes that takes.
//!
//! A node (`node.rs`) whose bound is at least `L` is not opened, since none of its sequences is below `L`. Any other
//! node with jobs left is opened: one end is chosen, and the children at that end follow, in increasing order of the
//! job. A node whose bound is below `L` and that has no job left is a sequence below `L`, which ends the search.
//!
//! Which end is chosen decides how many nodes are opened. The rule:
//!
//! - the plain rule takes the end with fewer children below `L`; of equal numbers the end where the bounds of all
//!   children sum to more; of equal sums the front;
//! - the look-ahead comes after it where at least three jobs are left, each end has at least two children below `L`,
//!   and three times the smaller of these two numbers is at least twice the larger. A child below `L` counts for as
//!   many children below `L` as it has at that end where it has fewer. The weight of an end is the sum of this over its
//!   children below `L`. The end that the plain rule did not take is taken where its weight is the smaller one.
//!
//! Nodes that wait stand in a list, so that no call is deeper for a longer list of jobs.

use crate::fault::Fault;
use crate::heading;
use crate::node::{End, Node, Nodes, Number};
use crate::pack::{count_below, sum, Lanes, Pack, LANES};
use crate::shop::{Shop, MAX_MACHINES};

/// The line of the count.
const LINE: usize = 5;

/// How many children of a node are below `L` at the front, and how many at the back.
type Counts = [u16; 2];

/// The last job of a node: the end at which it was put, and its place in the pack of the node above.
#[derive(Clone, Copy)]
struct Put {
    end: End,
    place: u16,
}

/// A node that has to be opened.
struct Waiting {
    /// How many nodes are above it.
    depth: u16,
    put: Put,
    /// Its children, where the look-ahead counted them already. Where there is none at one end, nothing is said of the
    /// other one.
    counts: Option<Counts>,
}

impl Waiting {
    fn new(depth: usize, put: Put, counts: Option<Counts>) -> Waiting {
        // A shop has 800 jobs at most.
        let depth = depth as u16;
        Waiting { depth, put, counts }
    }
}

/// The search for `L` in a shop, whose nodes have `M` machines.
struct Search<T, const M: usize> {
    nodes: Nodes<T, M>,
    lower: T,
    /// The node that was opened last, and the nodes above it, from the root on; and the last jobs of all but the root.
    path: Vec<Node<T, M>>,
    puts: Vec<Put>,
    /// The packs of the root, and of each node of the path with a multiple of `LANES` jobs left. The last one has all
    /// jobs left of the last node.
    packs: Vec<Pack<T, M>>,
    /// The nodes that have to be opened, the next one last.
    waiting: Vec<Waiting>,
    /// The bounds of the children of the last node at both ends, as far as they were asked for.
    bounds: [Vec<Lanes<T>>; 2],
}

/// Checks the line of the count, which may be at most `most`: the count, and what follows the line.
pub fn check<'a>(
    shop: &Shop,
    lower: u64,
    most: u64,
    text: &'a [u8],
) -> Result<(u64, &'a [u8]), Fault> {
    let mut rest = text;
    let count = heading::take_line(&mut rest).and_then(heading::number);
    let count = count.ok_or(Fault::Certificate("Value"))?;
    if count > most {
        return Err(Fault::Certificate("Most"));
    }
    let greatest = shop.jobs.iter().flat_map(|job| job.times).max();
    let path = (shop.jobs.len() + shop.machines) as u64 * greatest.unwrap_or(0);
    let opened = if path < i16::GREATEST as u64 {
        search::<i16>(shop, lower, count)
    } else {
        search::<i32>(shop, lower, count)
    }?;
    if opened < count {
        return Err(Fault::Tree("Tree", LINE));
    }
    Ok((count, rest))
}

/// How many nodes the search below a number opens; a fault where it opens more than so many, or reaches a sequence.
fn search<T: Number>(shop: &Shop, lower: u64, most: u64) -> Result<u64, Fault> {
    match shop.machines {
        0..=5 => Search::<T, 5>::new(shop, lower).opened(most),
        6..=10 => Search::<T, 10>::new(shop, lower).opened(most),
        11..=20 => Search::<T, 20>::new(shop, lower).opened(most),
        _ => Search::<T, MAX_MACHINES>::new(shop, lower).opened(most),
    }
}

impl<T: Number, const M: usize> Search<T, M> {
    fn new(shop: &Shop, lower: u64) -> Search<T, M> {
        let nodes = Nodes::new(shop);
        let packs = vec![Pack::new(&nodes, shop.all_jobs())];
        Search {
            nodes,
            lower: T::of(lower),
            path: Vec::new(),
            puts: Vec::new(),
            packs,
            waiting: Vec::new(),
            bounds: [Vec::new(), Vec::new()],
        }
    }

    fn opened(mut self, most: u64) -> Result<u64, Fault> {
        let root = self.nodes.root;
        if root.bound() >= self.lower {
            return Ok(0);
        }
        if most == 0 {
            return Err(Fault::Tree("Tree", LINE));
        }
        self.path.push(root);
        self.open(None);
        let mut opened = 1;
        while let Some(next) = self.waiting.pop() {
            if usize::from(next.depth) == self.nodes.jobs.len() {
                return Err(Fault::Tree("Low", LINE));
            }
            if opened == most {
                return Err(Fault::Tree("Tree", LINE));
            }
            opened += 1;
            // A node that has no children below `L` at one end has none at the end that is taken.
            if !matches!(next.counts, Some([0, _] | [_, 0])) {
                self.go_to(&next);
                self.open(next.counts);
            }
        }
        Ok(opened)
    }

    /// How many jobs the last node of the path has left.
    fn left(&self) -> usize {
        self.nodes.jobs.len() - self.puts.len()
    }

    /// The pack that has the jobs left of the last node.
    fn pack(&mut self) -> &mut Pack<T, M> {
        let last = self.packs.len() - 1;
        &mut self.packs[last]
    }

    /// Makes a node the last one of the path.
    fn go_to(&mut self, next: &Waiting) {
        while self.path.len() > usize::from(next.depth) {
            if self.left() % LANES == 0 {
                self.packs.pop();
            }
            self.path.pop();
            if let Some(put) = self.puts.pop() {
                self.pack().put_back(put.place);
            }
        }
        let Put { end, place } = next.put;
        let job = self.pack().jobs[usize::from(place)];
        let node = self.nodes.child(&self.path[self.path.len() - 1], end, job);
        self.pack().take(place);
        self.path.push(node);
        self.puts.push(next.put);
        if self.left() % LANES == 0 {
            let left = self.pack().left();
            self.packs.push(Pack::new(&self.nodes, left));
        }
    }

    /// Lets the children of the last node wait that have to be opened.
    fn open(&mut self, known: Option<Counts>) {
        if let Some(end) = known.and_then(|counts| self.end_by_counts(counts)) {
            self.look(end);
            return self.wait(end);
        }
        // There is often no child below `L` at the end where the node was put itself. Then there is none at the end
        // that is taken.
        let first = self.puts.last().map_or(End::Front, |put| put.end);
        let mut counts = [0; 2];
        for end in [first, first.other()] {
            counts[end as usize] = self.look(end);
            if counts[end as usize] == 0 {
                return;
            }
        }
        let end = self.end_by_plain_rule(counts);
        if !self.looks_ahead(counts) {
            return self.wait(end);
        }
        let (weight, children) = self.weigh(end, usize::MAX);
        let (other, others) = self.weigh(end.other(), weight);
        let taken = if other < weight { others } else { children };
        self.waiting.extend(taken.into_iter().rev());
    }

    /// Works out the bounds of the children of the last node at an end, and how many are below `L`.
    fn look(&mut self, end: End) -> u16 {
        let node = &self.path[self.path.len() - 1];
        let pack = &self.packs[self.packs.len() - 1];
        let bounds = &mut self.bounds[end as usize];
        bounds.clear();
        bounds.extend(pack.bounds(node, end));
        bounds
            .iter()
            .map(|lanes| count_below(lanes, self.lower))
            .sum()
    }

    /// The end that is taken, where these numbers of children below `L` alone decide that.
    fn end_by_counts(&self, counts: Counts) -> Option<End> {
        let [front, back] = counts;
        if front == back || self.looks_ahead(counts) {
            return None;
        }
        Some(if front < back { End::Front } else { End::Back })
    }

    /// The end that the plain rule takes, where the bounds of both ends were worked out.
    fn end_by_plain_rule(&self, [front, back]: Counts) -> End {
        let sum = |end: End| sum(&self.bounds[end as usize]);
        if front < back || (front == back && sum(End::Front) >= sum(End::Back)) {
            End::Front
        } else {
            End::Back
        }
    }

    /// Whether the look-ahead comes after the plain rule.
    fn looks_ahead(&self, [front, back]: Counts) -> bool {
        let (smaller, larger) = (front.min(back), front.max(back));
        self.left() >= 3 && smaller >= 2 && 3 * smaller >= 2 * larger
    }

    /// The weight of an end of the last node, with its children below `L`; or a number that is at least `most`.
    fn weigh(&mut self, end: End, most: usize) -> (usize, Vec<Waiting>) {
        let (nodes, lower, depth) = (&self.nodes, self.lower, self.path.len());
        let (node, last) = (&self.path[depth - 1], self.packs.len() - 1);
        let pack = &mut self.packs[last];
        let (mut weight, mut children) = (0, Vec::new());
        for place in places(&self.bounds[end as usize], lower) {
            let child = nodes.child(node, end, pack.jobs[usize::from(place)]);
            pack.take(place);
            // Where the child has none at one end, those at the other end need not be counted.
            let mut counts = [0; 2];
            for each in [end, end.other()] {
                counts[each as usize] = pack.count_below(&child, each, lower);
                if counts[each as usize] == 0 {
                    break;
                }
            }
            pack.put_back(place);
            let put = Put { end, place };
            children.push(Waiting::new(depth, put, Some(counts)));
            weight += usize::from(counts[0].min(counts[1]));
            if weight >= most {
                break;
            }
        }
        (weight, children)
    }

    /// Lets the children of the last node at an end wait that are below `L`.
    fn wait(&mut self, end: End) {
        let depth = self.path.len();
        let places = places(&self.bounds[end as usize], self.lower).rev();
        let children = places.map(|place| Waiting::new(depth, Put { end, place }, None));
        self.waiting.extend(children);
    }
}

/// The places at which these bounds are below a number.
fn places<T: Number>(bounds: &[Lanes<T>], number: T) -> impl DoubleEndedIterator<Item = u16> + '_ {
    let bound = move |place: usize| bounds[place / LANES][place % LANES];
    (0..(LANES * bounds.len()) as u16).filter(move |&place| bound(usize::from(place)) < number)
}
