//! What reads a small part of a version, whose lists are read where they lie.
use super::calls::{edgebpf_pair_scores, edgebpf_search_lent, edgebpf_two_steps, Lender};
use super::{Failure, Search, Searching, Watched, PIECE};
use crate::error::{zeros, Error};
use crate::version::Version;
use std::ptr::null;

/// How a pair is scored by the targets that both have.
#[derive(Clone, Copy, Debug, PartialEq, Eq, Hash)]
pub enum Score {
    /// How many they are.
    Common,
    /// Which share of all their targets; 0 where both have none.
    Jaccard,
    /// The sum of 1 / log d, where d is how many targets a common one has, without those of one.
    AdamicAdar,
    /// The sum of 1 / d, without those of none.
    Allocation,
}

impl Score {
    fn number(self) -> u32 {
        match self {
            Score::Common => 0,
            Score::Jaccard => 1,
            Score::AdamicAdar => 2,
            Score::Allocation => 3,
        }
    }
}

/// A search up to a level, as `Graph::bfs` has it. `VertexRange`, and `Argument` without a root.
pub fn bfs_within(
    version: &Version,
    roots: &[u32],
    most: u32,
    go_on: impl FnMut(u64, u64) -> bool,
) -> Result<Search, Failure> {
    let vertices = version.vertices();
    let (begun, mut lender) = (Searching::new(vertices, roots)?, Lender::of(version));
    begun.finish(Watched::new(go_on, u64::from(vertices)), |queue, count, levels, parents| {
        // SAFETY: all vertices are in the version, and the queue and the arrays have a place for each.
        unsafe { edgebpf_search_lent(&mut lender, queue, count, most, levels, parents) };
        lender.answered()
    })
}

/// The score of each pair. `Lengths` and `VertexRange`.
pub fn pair_scores(
    version: &Version,
    score: Score,
    sources: &[u32],
    targets: &[u32],
    go_on: impl FnMut(u64, u64) -> bool,
) -> Result<Vec<f64>, Failure> {
    let vertices = version.vertices();
    if sources.len() != targets.len() {
        return Err(Error::Lengths.into());
    }
    if sources.iter().chain(targets).any(|&vertex| vertex >= vertices) {
        return Err(Error::VertexRange.into());
    }
    let (mut lender, mut scores) = (Lender::of(version), zeros(sources.len())?);
    let mut spare = zeros(2 * vertices as usize)?;
    let mut watched = Watched::new(go_on, sources.len() as u64);
    watched.more(0)?;
    for (begin, part) in (0..).step_by(PIECE).zip(sources.chunks(PIECE)) {
        // SAFETY: all vertices are in the version, and the arrays are as long as said.
        unsafe {
            edgebpf_pair_scores(
                &mut lender,
                score.number(),
                part.as_ptr(),
                targets[begin..].as_ptr(),
                part.len(),
                null(),
                vertices,
                spare.as_mut_ptr(),
                scores[begin..].as_mut_ptr(),
            )
        };
        lender.answered()?;
        watched.more(part.len())?;
    }
    Ok(scores)
}

/// Friends of friends: vertices two edges away, and the score of each. It keeps some arrays from question to question.
#[derive(Debug)]
pub struct Candidates<'a> {
    version: &'a Version,
    score: Score,
    spare: Vec<u32>,
    scores: Vec<f64>,
    found: Vec<u32>,
    numbers: Vec<f64>,
}

impl<'a> Candidates<'a> {
    /// `Argument` for `Jaccard`; `NoMemory`.
    pub fn new(version: &'a Version, score: Score) -> Result<Self, Failure> {
        if score == Score::Jaccard {
            return Err(Failure::Argument);
        }
        let count = version.vertices() as usize;
        let (spare, scores) = (zeros(2 * count)?, zeros(count)?);
        Ok(Candidates { version, score, spare, scores, found: zeros(count)?, numbers: zeros(count)? })
    }

    /// So many vertices with the greatest scores, the least vertex first where scores are equal. None of them is the vertex itself
    /// or a target of it. `VertexRange`.
    pub fn of(&mut self, vertex: u32, count: usize) -> Result<Vec<(u32, f64)>, Failure> {
        let (vertices, mut lender) = (self.version.vertices(), Lender::of(self.version));
        if vertex >= vertices {
            return Err(Error::VertexRange.into());
        }
        // SAFETY: the vertex is in the version, and the arrays have a place or two for each; all scores are 0.
        let many = unsafe {
            edgebpf_two_steps(
                &mut lender,
                self.score.number(),
                vertex,
                vertices,
                self.spare.as_mut_ptr(),
                self.scores.as_mut_ptr(),
                self.found.as_mut_ptr(),
                self.numbers.as_mut_ptr(),
            )
        };
        lender.answered()?;
        let mut best: Vec<(u32, f64)> =
            self.found[..many].iter().copied().zip(self.numbers[..many].iter().copied()).collect();
        best.sort_unstable_by(|one, other| other.1.total_cmp(&one.1).then(one.0.cmp(&other.0)));
        best.truncate(count);
        Ok(best)
    }
}
