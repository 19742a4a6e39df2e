//! Graph algorithms over a copy of a version, and over its lists where they lie. They are written in C, tested, and not proved.
//! `docs/ALGORITHMS.md` has the exact meanings.
//!
//! ```
//! use edgebpf::algorithms::{to_the_end, Graph};
//! use edgebpf::{Batch, Feed, Store};
//!
//! let mut store = Store::new(4).unwrap();
//! store.apply(Feed::A, &Batch::from_iter([(0, 1), (1, 0), (1, 2), (2, 1)])).unwrap();
//! let graph = Graph::of(&store.pin().unwrap()).unwrap();
//! assert_eq!(graph.components(to_the_end).unwrap(), [0, 0, 0, 3]);
//! let search = graph.bfs(&[0], to_the_end).unwrap();
//! assert_eq!((search.levels, search.reached), (vec![0, 1, 2, u32::MAX], 3));
//! ```
//!
//! Each algorithm goes in pieces. Before each of them it asks its last parameter, with how much is done and of how much, whether to go on;
//! `to_the_end` always does.
mod calls;
mod live;
mod pairs;

use crate::error::{zeros, Error};
use crate::version::{Csr, Version};
use calls::*;
pub use live::{LiveComponents, LiveRank, LiveTriangles};
pub use pairs::{bfs_within, pair_scores, Candidates, Score};
use std::fmt;
use std::ptr::null;

/// The level or the parent of a vertex that a search did not reach.
pub const NO_VERTEX: u32 = u32::MAX;
/// A rank of 1 in whole numbers.
pub const ONE: u64 = 1 << 40;
/// Vertices of a piece.
const PIECE: usize = 1 << 14;
const HUNDREDTHS: u32 = 100;

/// Why there is no answer.
#[derive(Clone, Copy, Debug, PartialEq, Eq)]
#[non_exhaustive]
pub enum Failure {
    /// `NoMemory`, `VertexRange` for a vertex that is not in the graph, `Lengths` for arrays that do not fit together.
    Error(Error),
    /// The algorithm is for graphs that have an edge back for each edge.
    NotMirrored,
    /// There is no root; or weights are not one for each vertex, of which none is negative and one is more than 0; or a damping is not from 0
    /// to 1, or to 100 in hundredths; or candidates are asked for by `Jaccard`.
    Argument,
    /// The edits of an update do not explain how many edges the two versions have, or these have not as many vertices.
    Edits,
    /// It was told not to go on.
    Stopped,
    /// An update was told not to go on, or failed, after it had changed something.
    CutOff,
}

impl From<Error> for Failure {
    fn from(error: Error) -> Self {
        Failure::Error(error)
    }
}

impl fmt::Display for Failure {
    fn fmt(&self, to: &mut fmt::Formatter<'_>) -> fmt::Result {
        match self {
            Failure::Error(error) => error.fmt(to),
            Failure::NotMirrored => to.write_str("the graph has an edge without an edge back"),
            Failure::Argument => to.write_str("an argument is outside of what the algorithm takes"),
            Failure::Edits => to.write_str("the edits are not all edits between the two versions"),
            Failure::CutOff => to.write_str("an update was cut off"),
            Failure::Stopped => to.write_str("the algorithm was told not to go on"),
        }
    }
}

impl std::error::Error for Failure {}

/// Goes on whatever is done, for algorithms that nobody watches.
pub fn to_the_end(_done: u64, _of: u64) -> bool {
    true
}

/// What a search found, with a place for each vertex.
#[derive(Clone, Debug, PartialEq, Eq)]
pub struct Search {
    /// How many edges the shortest way from a root has; `NO_VERTEX` where there is none.
    pub levels: Vec<u32>,
    /// The least vertex that is before it on such a way; a root is its own.
    pub parents: Vec<u32>,
    /// How many vertices have a way.
    pub reached: usize,
}

/// Ranks of vertices.
#[derive(Clone, Debug, PartialEq)]
pub struct Rank {
    /// A rank for each vertex, 1 in all.
    pub ranks: Vec<f64>,
    /// How many rounds there were.
    pub rounds: u32,
    /// By how much all ranks together changed in the last of them.
    pub change: f64,
}

/// Labels of vertices.
#[derive(Clone, Debug, PartialEq, Eq)]
pub struct Labels {
    /// A label for each vertex.
    pub labels: Vec<u32>,
    /// How many rounds there were.
    pub rounds: u32,
    /// How many labels changed in the last of them: 0 if they are final.
    pub changed: usize,
}

/// How PageRank is made.
#[derive(Clone, Copy, Debug)]
pub struct RankOptions<'a> {
    /// Which share of walks goes on, 0 to 1.
    pub damping: f64,
    /// It ends when all ranks together change by less.
    pub within: f64,
    /// It ends after so many rounds, however much they change.
    pub most: u32,
    /// A weight for each vertex, where walks begin: personalised PageRank. What vertices without an edge have goes there, too.
    pub start: Option<&'a [f64]>,
    /// The ranks to begin with.
    pub first: Option<&'a [f64]>,
}

impl Default for RankOptions<'_> {
    fn default() -> Self {
        RankOptions { damping: 0.85, within: 1e-9, most: 100, start: None, first: None }
    }
}

/// A copy of all edges of a version.
#[derive(Clone, Debug)]
pub struct Graph {
    csr: Csr,
    vertices: u32,
}

/// How far a whole is that has several passes over the vertices.
struct Watched<F> {
    go_on: F,
    done: u64,
    of: u64,
}

impl<F: FnMut(u64, u64) -> bool> Watched<F> {
    fn new(go_on: F, of: u64) -> Self {
        Watched { go_on, done: 0, of }
    }

    /// So much more is done: whether to go on.
    fn more(&mut self, count: usize) -> Result<(), Failure> {
        self.done += count as u64;
        if (self.go_on)(self.done, self.of) {
            Ok(())
        } else {
            Err(Failure::Stopped)
        }
    }

    /// A pass over so many things in pieces.
    fn pass(&mut self, count: usize, mut piece: impl FnMut(usize, usize)) -> Result<(), Failure> {
        for begin in (0..count).step_by(PIECE) {
            let end = count.min(begin + PIECE);
            piece(begin, end);
            self.more(end - begin)?;
        }
        Ok(())
    }
}

/// So many vertices, each with its own number.
fn numbered(count: usize) -> Result<Vec<u32>, Error> {
    let mut all: Vec<u32> = zeros(count)?;
    for (number, place) in all.iter_mut().enumerate() {
        *place = number as u32;
    }
    Ok(all)
}

/// So many of one number.
fn filled<T: Clone + Default>(count: usize, number: T) -> Result<Vec<T>, Error> {
    let mut all = zeros(count)?;
    all.fill(number);
    Ok(all)
}

/// A search under way.
struct Searching {
    search: Search,
    found: Vec<u32>,
    at: usize,
}

impl Searching {
    /// One of which nothing but the roots is found, each once.
    fn new(vertices: u32, roots: &[u32]) -> Result<Self, Failure> {
        if roots.iter().any(|&root| root >= vertices) {
            return Err(Error::VertexRange.into());
        }
        if roots.is_empty() {
            return Err(Failure::Argument);
        }
        let count = vertices as usize;
        let search = Search { levels: filled(count, NO_VERTEX)?, parents: filled(count, NO_VERTEX)?, reached: 0 };
        let mut begun = Searching { search, found: zeros(count)?, at: 0 };
        for &root in roots {
            let own = &mut begun.search;
            if own.levels[root as usize] == NO_VERTEX {
                (own.levels[root as usize], own.parents[root as usize]) = (0, root);
                begun.found[own.reached] = root;
                own.reached += 1;
            }
        }
        Ok(begun)
    }

    /// Goes on until nothing is left. `follow` is given the queue, how many vertices it may follow, the levels and the parents.
    fn finish<F: FnMut(u64, u64) -> bool>(
        mut self,
        mut watched: Watched<F>,
        mut follow: impl FnMut(*mut RawQueue, usize, *mut u32, *mut u32) -> Result<(), Failure>,
    ) -> Result<Search, Failure> {
        watched.more(0)?;
        while self.at < self.search.reached {
            let mut queue = RawQueue { vertices: self.found.as_mut_ptr(), at: self.at, end: self.search.reached };
            follow(&mut queue, PIECE, self.search.levels.as_mut_ptr(), self.search.parents.as_mut_ptr())?;
            watched.more(queue.at - self.at)?;
            (self.at, self.search.reached) = (queue.at, queue.end);
        }
        Ok(self.search)
    }
}

impl Graph {
    /// The copy of a version. `NoMemory`.
    pub fn of(version: &Version) -> Result<Graph, Error> {
        let csr = version.csr()?;
        let vertices = version.vertices();
        Ok(Graph { csr, vertices })
    }

    /// Its edges.
    pub fn csr(&self) -> &Csr {
        &self.csr
    }

    fn raw(&self) -> RawGraph {
        RawGraph { starts: self.csr.starts.as_ptr(), targets: self.csr.targets.as_ptr(), vertices: self.vertices }
    }

    fn count(&self) -> usize {
        self.vertices as usize
    }

    fn watched<F: FnMut(u64, u64) -> bool>(&self, go_on: F, passes: u64) -> Watched<F> {
        Watched::new(go_on, passes * u64::from(self.vertices))
    }

    /// Breadth first search along the edges' direction, from one vertex or several. `VertexRange`, and `Argument` without a root.
    pub fn bfs(&self, roots: &[u32], go_on: impl FnMut(u64, u64) -> bool) -> Result<Search, Failure> {
        let (begun, graph) = (Searching::new(self.vertices, roots)?, self.raw());
        begun.finish(self.watched(go_on, 1), |queue, count, levels, parents| {
            // SAFETY: the graph is a version's, all vertices are in it, and the queue and the arrays have a place for each.
            unsafe { edgebpf_search_from(&graph, queue, count, self.vertices, levels, parents) };
            Ok(())
        })
    }

    /// The components, whatever the direction of edges: each vertex has the least vertex of its own.
    pub fn components(&self, go_on: impl FnMut(u64, u64) -> bool) -> Result<Vec<u32>, Failure> {
        let (graph, mut up) = (self.raw(), numbered(self.count())?);
        // SAFETY: the graph is a version's, and `up` has a place for each vertex.
        self.watched(go_on, 1).pass(self.count(), |from, to| unsafe {
            edgebpf_join_edges(&graph, from as u32, to as u32, up.as_mut_ptr());
        })?;
        // SAFETY: no `up` is greater than its vertex.
        unsafe { edgebpf_name_parts(self.vertices, up.as_mut_ptr()) };
        Ok(up)
    }

    /// A weight for each vertex, divided by their sum.
    fn shares(&self, weights: &[f64]) -> Result<Vec<f64>, Failure> {
        if weights.len() != self.count() {
            return Err(Error::Lengths.into());
        }
        let total: f64 = weights.iter().sum();
        if !total.is_finite() || total <= 0.0 || weights.iter().any(|&weight| weight < 0.0) {
            return Err(Failure::Argument);
        }
        let mut shares: Vec<f64> = zeros(weights.len())?;
        for (share, weight) in shares.iter_mut().zip(weights) {
            *share = weight / total;
        }
        Ok(shares)
    }

    /// PageRank, which sums to 1. `Lengths` and `Argument`.
    pub fn pagerank(&self, options: &RankOptions<'_>, go_on: impl FnMut(u64, u64) -> bool) -> Result<Rank, Failure> {
        let (damping, count) = (options.damping, self.count());
        if !(0.0..=1.0).contains(&damping) || options.within.is_nan() || options.within < 0.0 {
            return Err(Failure::Argument);
        }
        let start = options.start.map(|weights| self.shares(weights)).transpose()?;
        let even = 1.0 / count as f64;
        let mut ranks = match (options.first, &start) {
            (Some(first), _) => self.shares(first)?,
            (None, Some(start)) => start.clone(),
            (None, None) => filled(count, even)?,
        };
        let mut rounds = Rank { ranks: Vec::new(), rounds: 0, change: 0.0 };
        let (mut gives, mut sums) = (zeros(count)?, zeros(count)?);
        let mut watched = self.watched(go_on, 2 * u64::from(options.most));
        watched.more(0)?;
        while rounds.rounds < options.most && (rounds.rounds == 0 || rounds.change >= options.within) {
            let kept = self.spread(&mut watched, &ranks, &mut gives, &mut sums)?;
            let base = (1.0 - damping + damping * kept) * if start.is_some() { 1.0 } else { even };
            let from = start.as_ref().map_or(null(), |start| start.as_ptr());
            // SAFETY: the arrays have a place for each vertex.
            rounds.change = unsafe {
                edgebpf_rank_finish(0, self.vertices, damping, base, from, ranks.as_ptr(), sums.as_mut_ptr())
            };
            std::mem::swap(&mut ranks, &mut sums);
            rounds.rounds += 1;
        }
        Ok(Rank { ranks, ..rounds })
    }

    /// What each vertex gives, summed by its targets. Returns what those without an edge have.
    fn spread<F: FnMut(u64, u64) -> bool>(
        &self,
        watched: &mut Watched<F>,
        ranks: &[f64],
        gives: &mut [f64],
        sums: &mut [f64],
    ) -> Result<f64, Failure> {
        let (graph, mut kept) = (self.raw(), 0.0);
        // SAFETY: the graph is a version's, and the arrays have a place for each vertex.
        watched.pass(self.count(), |from, to| unsafe {
            kept += edgebpf_rank_gives(&graph, from as u32, to as u32, ranks.as_ptr(), gives.as_mut_ptr());
        })?;
        sums.fill(0.0);
        // SAFETY: as before.
        watched.pass(self.count(), |from, to| unsafe {
            edgebpf_rank_spread(&graph, from as u32, to as u32, gives.as_ptr(), sums.as_mut_ptr());
        })?;
        Ok(kept)
    }

    /// PageRank in whole numbers, of which `ONE` is one: the same bits everywhere. `damping` is in hundredths, 0 to 100 (`Argument`).
    pub fn pagerank_fixed(
        &self,
        rounds: u32,
        damping: u32,
        go_on: impl FnMut(u64, u64) -> bool,
    ) -> Result<Vec<u64>, Failure> {
        if damping > HUNDREDTHS {
            return Err(Failure::Argument);
        }
        let (graph, vertices) = (self.raw(), u64::from(self.vertices));
        let (mut ranks, mut gives) = (filled(self.count(), ONE / vertices)?, zeros(self.count())?);
        let mut watched = self.watched(go_on, 2 * u64::from(rounds));
        watched.more(0)?;
        for _ in 0..rounds {
            let mut kept = 0;
            // SAFETY: the graph is a version's, and the arrays have a place for each vertex.
            watched.pass(self.count(), |from, to| unsafe {
                kept +=
                    edgebpf_fixed_gives(&graph, from as u32, to as u32, damping, ranks.as_ptr(), gives.as_mut_ptr());
            })?;
            let all = u64::from(HUNDREDTHS);
            ranks.fill((ONE * (all - u64::from(damping)) + u64::from(damping) * kept) / (all * vertices));
            // SAFETY: as before.
            watched.pass(self.count(), |from, to| unsafe {
                edgebpf_fixed_spread(&graph, from as u32, to as u32, gives.as_ptr(), ranks.as_mut_ptr());
            })?;
        }
        Ok(ranks)
    }

    /// Whether it has an edge back for each edge.
    pub fn is_mirrored(&self, go_on: impl FnMut(u64, u64) -> bool) -> Result<bool, Failure> {
        let mut watched = self.watched(go_on, 1);
        match self.mirrored(&mut watched) {
            Err(Failure::NotMirrored) => Ok(false),
            other => other.map(|()| true),
        }
    }

    fn mirrored<F: FnMut(u64, u64) -> bool>(&self, watched: &mut Watched<F>) -> Result<(), Failure> {
        let (graph, mut met, mut is_mirrored) = (self.raw(), filled(self.csr.starts.len(), 0)?, true);
        met.copy_from_slice(&self.csr.starts);
        // SAFETY: the graph is a version's, and `met` is the copy of its starts.
        watched.pass(self.count(), |from, to| unsafe {
            is_mirrored = is_mirrored && edgebpf_is_mirrored(&graph, from as u32, to as u32, met.as_mut_ptr()) != 0;
        })?;
        is_mirrored.then_some(()).ok_or(Failure::NotMirrored)
    }

    /// Degrees without loops, and the greatest of them.
    fn degrees<F: FnMut(u64, u64) -> bool>(&self, watched: &mut Watched<F>) -> Result<(Vec<u32>, u32), Failure> {
        let (graph, mut degrees, mut most) = (self.raw(), zeros::<u32>(self.count())?, 0);
        // SAFETY: the graph is a version's, and there is a degree for each vertex.
        watched.pass(self.count(), |from, to| unsafe {
            most = most.max(edgebpf_degrees(&graph, from as u32, to as u32, degrees.as_mut_ptr()));
        })?;
        Ok((degrees, most))
    }

    /// The greatest k for which each vertex is in the k-core. Loops do not count. `NotMirrored`.
    pub fn cores(&self, go_on: impl FnMut(u64, u64) -> bool) -> Result<Vec<u32>, Failure> {
        let (graph, mut watched) = (self.raw(), self.watched(go_on, 3));
        self.mirrored(&mut watched)?;
        let (mut cores, most) = self.degrees(&mut watched)?;
        let (mut order, mut place, mut bins) = (zeros(self.count())?, zeros(self.count())?, zeros(most as usize + 2)?);
        let arrays = (order.as_mut_ptr(), place.as_mut_ptr(), bins.as_mut_ptr());
        // SAFETY: no degree is greater than `most`, and there are as many places as said.
        unsafe { edgebpf_order_by_degree(self.vertices, cores.as_ptr(), most, arrays.0, arrays.1, arrays.2) };
        // SAFETY: the graph is a version's and mirrored, and the arrays are those of its degrees.
        watched.pass(self.count(), |from, to| unsafe {
            edgebpf_cores(&graph, from as u32, to as u32, cores.as_mut_ptr(), arrays.0, arrays.1, arrays.2);
        })?;
        Ok(cores)
    }

    /// In how many triangles each vertex is; a third of the sum are all of them. Loops do not count. `NotMirrored`.
    pub fn triangles(&self, go_on: impl FnMut(u64, u64) -> bool) -> Result<Vec<u64>, Failure> {
        Ok(self.triangles_and_degrees(go_on)?.0)
    }

    fn triangles_and_degrees(&self, go_on: impl FnMut(u64, u64) -> bool) -> Result<(Vec<u64>, Vec<u32>), Failure> {
        let (graph, mut watched) = (self.raw(), self.watched(go_on, 5));
        self.mirrored(&mut watched)?;
        let (degrees, _) = self.degrees(&mut watched)?;
        let mut starts: Vec<u64> = zeros(self.count() + 1)?;
        // SAFETY: the graph is a version's, and the arrays are as long as said.
        watched.pass(self.count(), |from, to| unsafe {
            edgebpf_count_up(&graph, from as u32, to as u32, degrees.as_ptr(), starts.as_mut_ptr());
        })?;
        let mut targets: Vec<u32> = zeros(starts[self.count()] as usize)?;
        // SAFETY: as before, and there is a target for each edge that was counted.
        watched.pass(self.count(), |from, to| unsafe {
            edgebpf_write_up(&graph, from as u32, to as u32, degrees.as_ptr(), starts.as_ptr(), targets.as_mut_ptr());
        })?;
        let up = RawGraph { starts: starts.as_ptr(), targets: targets.as_ptr(), vertices: self.vertices };
        let (mut marks, mut each) = (filled(self.count(), NO_VERTEX)?, zeros(self.count())?);
        // SAFETY: the graph was written just now, and the arrays have a place for each vertex.
        watched.pass(self.count(), |from, to| unsafe {
            edgebpf_triangles(&up, from as u32, to as u32, marks.as_mut_ptr(), each.as_mut_ptr());
        })?;
        Ok((each, degrees))
    }

    /// Which share of the pairs of each vertex's neighbours are edges; 0 where there are fewer than two. Loops do not count. `NotMirrored`.
    pub fn clustering(&self, go_on: impl FnMut(u64, u64) -> bool) -> Result<Vec<f64>, Failure> {
        let (each, degrees) = self.triangles_and_degrees(go_on)?;
        let mut shares: Vec<f64> = zeros(each.len())?;
        for ((share, count), degree) in shares.iter_mut().zip(each).zip(degrees) {
            let pairs = f64::from(degree) * (f64::from(degree) - 1.0) / 2.0;
            *share = if pairs > 0.0 { count as f64 / pairs } else { 0.0 };
        }
        Ok(shares)
    }

    /// A maximal independent set: whether each vertex is in it. Vertices are taken in an order that the seed gives, each of which no
    /// neighbour was taken before. Loops do not count. `NotMirrored`.
    pub fn independent_set(&self, seed: u32, go_on: impl FnMut(u64, u64) -> bool) -> Result<Vec<bool>, Failure> {
        let (graph, mut watched) = (self.raw(), self.watched(go_on, 2));
        self.mirrored(&mut watched)?;
        let (mut order, mut states) = (numbered(self.count())?, zeros::<u8>(self.count())?);
        order.sort_unstable_by_key(|&vertex| (hashed(u64::from(vertex) + (u64::from(seed) << 32)), vertex));
        // SAFETY: the graph is a version's, and each vertex stands once in the order.
        watched.pass(self.count(), |from, to| unsafe {
            edgebpf_take_independent(&graph, order.as_ptr().add(from), to - from, states.as_mut_ptr());
        })?;
        let mut is_in: Vec<bool> = zeros(self.count())?;
        for (chosen, state) in is_in.iter_mut().zip(states) {
            *chosen = state == 1;
        }
        Ok(is_in)
    }

    /// Communities by labels, after at most so many rounds.
    pub fn label_propagation(&self, most: u32, go_on: impl FnMut(u64, u64) -> bool) -> Result<Labels, Failure> {
        let (graph, mut votes) = (self.raw(), zeros(self.count())?);
        let mut found = Labels { labels: numbered(self.count())?, rounds: 0, changed: self.count() };
        let mut watched = self.watched(go_on, u64::from(most));
        watched.more(0)?;
        while found.changed > 0 && found.rounds < most {
            let (labels, mut changed) = (found.labels.as_mut_ptr(), 0);
            // SAFETY: the graph is a version's, and there is a label and a vote for each vertex.
            watched.pass(self.count(), |from, to| unsafe {
                changed += edgebpf_label_round(&graph, from as u32, to as u32, labels, votes.as_mut_ptr());
            })?;
            (found.changed, found.rounds) = (changed, found.rounds + 1);
        }
        Ok(found)
    }

    /// How many vertices have 0, 1, 2, .. targets.
    pub fn degree_distribution(&self) -> Result<Vec<u64>, Error> {
        let degrees = || self.csr.starts.windows(2).map(|ends| (ends[1] - ends[0]) as usize);
        let mut counts = zeros(degrees().max().unwrap_or(0) + 1)?;
        for degree in degrees() {
            counts[degree] += 1;
        }
        Ok(counts)
    }
}

/// `hash` of tools/edgebpf.h.
fn hashed(mut number: u64) -> u64 {
    for _ in 0..2 {
        number = (number ^ number >> 32).wrapping_mul(0xd6e8_feb8_6659_fd93);
    }
    number ^ number >> 32
}
