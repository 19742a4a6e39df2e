//! A version of a store's graph.
use crate::calls::{
    edgebpf_numbers, edgebpf_version_copy, edgebpf_version_degree, edgebpf_version_degrees,
    edgebpf_version_has_edge, edgebpf_version_info, edgebpf_version_lend_from, edgebpf_version_lists,
    edgebpf_version_neighbour, edgebpf_version_share, RawInfo, RawSlice,
};
use crate::error::{done, zeros, Error, LENGTHS, NO_NEIGHBOUR};
use crate::handle::Handle;
use crate::program::Program;
use crate::MOST_VERTICES;
use std::ptr::null;
use std::slice::from_raw_parts;

const SLICES_AT_ONCE: usize = 64;

/// A version of a graph. It stays as it is while its store is edited, and after its store is dropped.
///
/// It may be sent to another thread, and is no `Sync`: for a second thread `share` makes another handle of it, in some tens of
/// nanoseconds.
#[derive(Debug)]
pub struct Version(pub(crate) Handle);

/// How the numbers of a vertex's edges become one value.
#[derive(Clone, Copy, Debug, PartialEq, Eq, Hash)]
pub enum Reduction {
    /// Their sum modulo 2^64; 0 where there is none.
    Sum,
    /// The least; 2^64 - 1 where there is none.
    Min,
    /// The greatest; 0 where there is none.
    Max,
}

impl Reduction {
    /// What two parts reduce to together.
    pub(crate) fn join(self, one: u64, other: u64) -> u64 {
        match self {
            Reduction::Sum => one.wrapping_add(other),
            Reduction::Min => one.min(other),
            Reduction::Max => one.max(other),
        }
    }

    /// Its number in the library.
    pub(crate) fn number(self) -> u32 {
        match self {
            Reduction::Sum => 0,
            Reduction::Min => 1,
            Reduction::Max => 2,
        }
    }

    /// What no edge gives.
    pub(crate) fn none(self) -> u64 {
        match self {
            Reduction::Min => u64::MAX,
            _ => 0,
        }
    }

    /// What the edges of two parts give together.
    pub(crate) fn combine(self, one: u64, other: u64) -> u64 {
        match self {
            Reduction::Sum => one.wrapping_add(other),
            Reduction::Min => one.min(other),
            Reduction::Max => one.max(other),
        }
    }
}

/// What all edges of a run have together.
#[derive(Clone, Copy, Debug, PartialEq, Eq)]
pub struct Totals {
    /// The number of edges.
    pub edges: u64,
    /// The reduction of all their numbers.
    pub total: u64,
}

/// The edges of some vertices, one vertex after another: those of the vertex at place `i` lead to `targets[starts[i]..starts[i + 1]]`,
/// ascending. Of `Version::csr` the vertex at place `i` is `i`.
#[derive(Clone, Debug, PartialEq, Eq)]
pub struct Csr {
    /// One place for each vertex, and one more.
    pub starts: Vec<u64>,
    /// One target for each edge.
    pub targets: Vec<u32>,
}

impl Version {
    /// Another handle of the same version, for another thread. `NoMemory`.
    pub fn share(&self) -> Result<Version, Error> {
        let other = Handle::empty();
        // SAFETY: this handle was written by the library, and the other is empty.
        done(unsafe { edgebpf_version_share(self.0.at(), other.at()) })?;
        Ok(Version(other))
    }

    fn info(&self) -> RawInfo {
        let mut info = RawInfo::default();
        // SAFETY: the handle holds a version, so the call is done.
        unsafe { edgebpf_version_info(self.0.at(), &mut info) };
        info
    }

    /// How many rebases there were before it.
    pub fn epoch(&self) -> u64 {
        self.info().epoch
    }

    /// How many batches there were since the last rebase.
    pub fn number(&self) -> u64 {
        self.info().number
    }

    /// How many edges it has.
    pub fn edges(&self) -> u64 {
        self.info().edges
    }

    /// How many vertices it has.
    pub fn vertices(&self) -> u32 {
        self.info().vertices
    }

    /// How many neighbours a vertex has. A vertex outside the graph has none.
    pub fn degree(&self, vertex: u32) -> u32 {
        let mut count = 0;
        // SAFETY: the handle holds a version.
        unsafe { edgebpf_version_degree(self.0.at(), vertex, &mut count) };
        count
    }

    /// How many neighbours each vertex of a frontier has, which may name vertices in any order and more than once. `NoMemory`.
    pub fn degrees(&self, frontier: &[u32]) -> Result<Vec<u32>, Error> {
        let mut counts = zeros(frontier.len())?;
        // SAFETY: the handle holds a version, and the arrays are as long as said.
        done(unsafe {
            edgebpf_version_degrees(self.0.at(), frontier.as_ptr(), frontier.len(), counts.as_mut_ptr(), counts.len())
        })?;
        Ok(counts)
    }

    /// The neighbours of the vertices of a frontier, copied. It may name vertices in any order and more than once, at most 268,435,456
    /// (`Lengths`). `NoMemory`.
    pub fn lists(&self, frontier: &[u32]) -> Result<Csr, Error> {
        if frontier.len() > MOST_VERTICES as usize {
            return Err(Error::Lengths);
        }
        let mut lists = Csr { starts: zeros(frontier.len() + 1)?, targets: Vec::new() };
        let mut count = 0;
        // Without room it says how many there are.
        let status = self.lists_into(frontier, &mut lists, &mut count);
        if status == LENGTHS && count > 0 {
            lists.targets = zeros(count)?;
            done(self.lists_into(frontier, &mut lists, &mut count))?;
        } else {
            done(status)?;
        }
        Ok(lists)
    }

    fn lists_into(&self, frontier: &[u32], lists: &mut Csr, count: &mut usize) -> u32 {
        let (starts, targets) = (&mut lists.starts, &mut lists.targets);
        // SAFETY: the handle holds a version, and the arrays are as long as said.
        unsafe {
            edgebpf_version_lists(
                self.0.at(),
                frontier.as_ptr(),
                frontier.len(),
                starts.as_mut_ptr(),
                starts.len(),
                targets.as_mut_ptr(),
                targets.len(),
                count,
            )
        }
    }

    /// Whether there is an edge.
    pub fn has_edge(&self, source: u32, target: u32) -> bool {
        let mut answer = 0;
        // SAFETY: the handle holds a version.
        unsafe { edgebpf_version_has_edge(self.0.at(), source, target, &mut answer) };
        answer != 0
    }

    /// The neighbour at a place, from 0, of those in ascending order.
    pub fn neighbour(&self, vertex: u32, place: u32) -> Option<u32> {
        let mut neighbour = 0;
        // SAFETY: the handle holds a version.
        let status = unsafe { edgebpf_version_neighbour(self.0.at(), vertex, place, &mut neighbour) };
        (status != NO_NEIGHBOUR).then_some(neighbour)
    }

    /// The slices in which the targets of a vertex lie, ascending. They are not copied: each lies in the version, which it borrows.
    pub fn slices(&self, vertex: u32) -> Vec<&[u32]> {
        let (mut found, mut place) = (Vec::new(), 0);
        loop {
            let before = found.len();
            self.lend_from(vertex, place, &mut found);
            place += found[before..].iter().map(|slice: &&[u32]| slice.len() as u32).sum::<u32>();
            if found.len() - before < SLICES_AT_ONCE {
                return found;
            }
        }
    }

    /// Some slices more, from the neighbour at a place on: all that are left if they are fewer than `SLICES_AT_ONCE`.
    fn lend_from<'a>(&'a self, vertex: u32, place: u32, found: &mut Vec<&'a [u32]>) {
        let mut room = [RawSlice { at: null(), count: 0 }; SLICES_AT_ONCE];
        let mut lent = 0;
        // SAFETY: the handle holds a version, and there is room for as many slices as said.
        unsafe { edgebpf_version_lend_from(self.0.at(), vertex, place, room.as_mut_ptr(), room.len(), &mut lent) };
        // SAFETY: the library wrote these slices. They stay as they are while the handle holds the version, which is at least as long
        // as `self` is borrowed.
        found.extend(room[..lent].iter().map(|slice| unsafe { from_raw_parts(slice.at, slice.count) }));
    }

    /// The targets of a vertex, ascending.
    pub fn neighbours(&self, vertex: u32) -> impl Iterator<Item = u32> + '_ {
        self.slices(vertex).into_iter().flatten().copied()
    }

    /// All edges, copied. `NoMemory`.
    pub fn csr(&self) -> Result<Csr, Error> {
        let info = self.info();
        let edges = usize::try_from(info.edges).map_err(|_| Error::NoMemory)?;
        let mut csr = Csr { starts: zeros(info.vertices as usize + 1)?, targets: zeros(edges)? };
        let (starts, targets) = (&mut csr.starts, &mut csr.targets);
        // SAFETY: the handle holds a version, and the arrays are as long as said.
        let status = unsafe {
            edgebpf_version_copy(self.0.at(), starts.as_mut_ptr(), starts.len(), targets.as_mut_ptr(), targets.len())
        };
        done(status)?;
        Ok(csr)
    }

    /// Runs a program on each edge of the vertices of a frontier, in any order and at most 268,435,456 of them, and writes for each
    /// vertex the reduction of its edges' numbers. `Lengths` where there are not as many values as vertices, and `ArgumentLength`;
    /// then nothing is written.
    pub fn run(
        &self,
        program: &Program,
        argument: &[u8],
        frontier: &[u32],
        reduction: Reduction,
        values: &mut [u64],
    ) -> Result<Totals, Error> {
        self.without_columns().run(program, argument, frontier, reduction, values)
    }

    /// Runs a program on each edge of the vertices from `first` on, as many as there are values, as `run` does with a frontier of them:
    /// no array of them is made, but of 1,024 at a time. `Lengths` where they are more than 268,435,456, or go past 2^32.
    pub fn run_range(
        &self,
        program: &Program,
        argument: &[u8],
        first: u32,
        reduction: Reduction,
        values: &mut [u64],
    ) -> Result<Totals, Error> {
        self.without_columns().run_range(program, argument, first, reduction, values)
    }

    /// The number of each edge, in the order of `csr`. `ArgumentLength` and `NoMemory`.
    pub fn numbers(&self, program: &Program, argument: &[u8]) -> Result<Vec<u64>, Error> {
        let edges = usize::try_from(self.edges()).map_err(|_| Error::NoMemory)?;
        let mut numbers = zeros(edges)?;
        // SAFETY: the handles hold a version and a program, and the slices are as long as said.
        done(unsafe {
            edgebpf_numbers(
                self.0.at(),
                program.handle.at(),
                argument.as_ptr(),
                argument.len(),
                numbers.as_mut_ptr(),
                numbers.len(),
            )
        })?;
        Ok(numbers)
    }
}
