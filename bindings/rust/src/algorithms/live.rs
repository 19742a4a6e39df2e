//! Answers about a graph that are kept while batches come. Each update takes the next version, and the edits between the two.
use super::calls::*;
use super::{filled, numbered, Failure, Graph, Watched, NO_VERTEX};
use crate::error::{zeros, Error};
use crate::version::Version;
use std::fmt;

/// So many vertices are read, edges looked up or residuals pushed before it is asked whether to go on.
const READ_AT_ONCE: usize = 1 << 12;
/// Residuals are pushed that are so many times their limits, so that small ones add up before they go on.
const TIMES: [f64; 4] = [64.0, 16.0, 4.0, 1.0];
/// Once pushes went along one edge of so many, whole rounds do the rest.
const SHARE_OF_EDGES: u64 = 4;

/// The edges that came and those that are gone between two versions, ascending.
struct Changes {
    came: Vec<(u32, u32)>,
    gone: Vec<(u32, u32)>,
}

fn columns(edges: &[(u32, u32)]) -> (Vec<u32>, Vec<u32>) {
    edges.iter().copied().unzip()
}

/// Whether each pair is an edge.
fn have_edges<F: FnMut(u64, u64) -> bool>(
    version: &Version,
    edges: &[(u32, u32)],
    watched: &mut Watched<F>,
) -> Result<Vec<u8>, Failure> {
    let ((sources, targets), mut answers) = (columns(edges), zeros::<u8>(edges.len())?);
    let mut lender = Lender::of(version);
    for begin in (0..edges.len()).step_by(READ_AT_ONCE) {
        let count = READ_AT_ONCE.min(edges.len() - begin);
        let (from, to) = (sources[begin..].as_ptr(), targets[begin..].as_ptr());
        // SAFETY: there are so many pairs, and a place for the answer to each.
        unsafe { edgebpf_have_edges(&mut lender, from, to, count, answers[begin..].as_mut_ptr()) };
        watched.more(count)?;
    }
    lender.answered()?;
    Ok(answers)
}

impl Changes {
    /// `VertexRange`, and `Edits` where the edits do not explain how many edges the two versions have.
    fn between<F: FnMut(u64, u64) -> bool>(
        old: &Version,
        new: &Version,
        edits: &[&[(u32, u32)]],
        watched: &mut Watched<F>,
    ) -> Result<Changes, Failure> {
        let vertices = old.vertices();
        let mut edges = edits.concat();
        if new.vertices() != vertices {
            return Err(Failure::Edits);
        }
        if edges.iter().any(|&(source, target)| source >= vertices || target >= vertices) {
            return Err(Error::VertexRange.into());
        }
        edges.sort_unstable();
        edges.dedup();
        let (before, after) = (have_edges(old, &edges, watched)?, have_edges(new, &edges, watched)?);
        let chosen = |wanted: (u8, u8)| {
            let both = edges.iter().zip(before.iter().copied().zip(after.iter().copied()));
            both.filter(|(_, found)| *found == wanted).map(|(edge, _)| *edge).collect::<Vec<_>>()
        };
        let changes = Changes { came: chosen((0, 1)), gone: chosen((1, 0)) };
        if old.edges() + changes.came.len() as u64 != new.edges() + changes.gone.len() as u64 {
            return Err(Failure::Edits);
        }
        Ok(changes)
    }

    /// One of each edge and the one back, without loops. `NotMirrored` where an edge came or is gone without the one back.
    fn upward(self) -> Result<Changes, Failure> {
        for edges in [&self.came, &self.gone] {
            if edges.iter().any(|&(source, target)| edges.binary_search(&(target, source)).is_err()) {
                return Err(Failure::NotMirrored);
            }
        }
        let up = |edges: Vec<(u32, u32)>| edges.into_iter().filter(|(source, target)| source < target).collect();
        Ok(Changes { came: up(self.came), gone: up(self.gone) })
    }
}

/// The components of a mirrored graph, kept while batches come.
pub struct LiveComponents {
    version: Version,
    /// The number of each vertex's part, and for each number that of the part that it is joined to.
    parts: Vec<u32>,
    up: Vec<u32>,
    numbers: usize,
    owner: Vec<u32>,
    next: Vec<u32>,
    labels: Vec<u32>,
    is_labelled: bool,
    is_cut_off: bool,
}

impl fmt::Debug for LiveComponents {
    fn fmt(&self, to: &mut fmt::Formatter<'_>) -> fmt::Result {
        write!(to, "LiveComponents of {:?}", self.version)
    }
}

impl LiveComponents {
    /// Those of a version. `NotMirrored`.
    pub fn new(version: Version, mut go_on: impl FnMut(u64, u64) -> bool) -> Result<Self, Failure> {
        let graph = Graph::of(&version)?;
        if !graph.is_mirrored(&mut go_on)? {
            return Err(Failure::NotMirrored);
        }
        let labels = graph.components(go_on)?;
        let count = labels.len();
        let (owner, next) = (filled(count, NO_VERTEX)?, zeros(count)?);
        let mut all = LiveComponents {
            version,
            parts: zeros(count)?,
            up: numbered(2 * count)?,
            numbers: count,
            owner,
            next,
            labels,
            is_labelled: true,
            is_cut_off: false,
        };
        all.renumber();
        Ok(all)
    }

    /// Gives each part the number of its least vertex. Parts that are cut off later have greater numbers.
    fn renumber(&mut self) {
        self.parts.copy_from_slice(&self.labels);
        for (number, up) in self.up.iter_mut().enumerate() {
            *up = number as u32;
        }
        self.numbers = self.labels.len();
    }

    fn label(&mut self) -> Result<(), Failure> {
        if !self.is_labelled {
            let (vertices, mut least) = (self.labels.len() as u32, zeros::<u32>(self.numbers)?);
            let (parts, up) = (self.parts.as_ptr(), self.up.as_mut_ptr());
            let labels = self.labels.as_mut_ptr();
            // SAFETY: all numbers are below `numbers`, and the arrays are as long as said.
            unsafe { edgebpf_label_parts(vertices, self.numbers as u32, parts, up, least.as_mut_ptr(), labels) };
            self.is_labelled = true;
        }
        Ok(())
    }

    /// For each vertex the least one of its component. `CutOff`.
    pub fn labels(&mut self) -> Result<&[u32], Failure> {
        if self.is_cut_off {
            return Err(Failure::CutOff);
        }
        self.label()?;
        Ok(&self.labels)
    }

    /// Whether two vertices are in one component, without a pass over all vertices. `VertexRange`, `CutOff`.
    pub fn are_joined(&mut self, one: u32, other: u32) -> Result<bool, Failure> {
        if self.is_cut_off {
            return Err(Failure::CutOff);
        }
        if one.max(other) as usize >= self.parts.len() {
            return Err(Error::VertexRange.into());
        }
        let roots = self.roots(&[one, other]);
        Ok(roots[0] == roots[1])
    }

    /// The number of the part of each of some vertices.
    fn roots(&mut self, vertices: &[u32]) -> Vec<u32> {
        let numbers: Vec<u32> = vertices.iter().map(|&vertex| self.parts[vertex as usize]).collect();
        let mut roots = numbers.clone();
        // SAFETY: all numbers are in `up`.
        unsafe { edgebpf_find_parts(self.up.as_mut_ptr(), numbers.as_ptr(), numbers.len(), roots.as_mut_ptr()) };
        roots
    }

    /// Goes on to another version, by all edits between the two in any order. `VertexRange`, `Edits`, `NotMirrored` and `Stopped` leave it as it
    /// was, but for `Stopped` after something was changed: from then on it answers `CutOff`.
    pub fn update(
        &mut self,
        version: Version,
        edits: &[&[(u32, u32)]],
        go_on: impl FnMut(u64, u64) -> bool,
    ) -> Result<(), Failure> {
        if self.is_cut_off {
            return Err(Failure::CutOff);
        }
        let count: usize = edits.iter().map(|some| some.len()).sum();
        let mut watched = Watched::new(go_on, 2 * count as u64);
        let changes = Changes::between(&self.version, &version, edits, &mut watched)?.upward()?;
        self.is_cut_off = true;
        self.follow(&version, &changes, &mut watched)?;
        (self.version, self.is_cut_off) = (version, false);
        Ok(())
    }

    fn follow<F: FnMut(u64, u64) -> bool>(
        &mut self,
        version: &Version,
        changes: &Changes,
        watched: &mut Watched<F>,
    ) -> Result<(), Failure> {
        self.is_labelled &= changes.came.is_empty() && changes.gone.is_empty();
        let part = |vertex: &u32| self.parts[*vertex as usize];
        let (sources, targets) = columns(&changes.came);
        let joined: (Vec<u32>, Vec<u32>) = (sources.iter().map(part).collect(), targets.iter().map(part).collect());
        // SAFETY: all numbers are in `up`.
        unsafe {
            edgebpf_join_pairs(joined.0.as_ptr(), joined.1.as_ptr(), joined.0.len(), self.up.as_mut_ptr());
        }
        let mut seeds: Vec<u32> = changes.gone.iter().flat_map(|&(source, target)| [source, target]).collect();
        seeds.sort_unstable();
        seeds.dedup();
        let mut of_parts: Vec<(u32, u32)> = self.roots(&seeds).into_iter().zip(seeds).collect();
        of_parts.sort_unstable();
        let mut left = &of_parts[..];
        while let Some(&(part, _)) = left.first() {
            let (own, others) = left.split_at(left.partition_point(|&(other, _)| other == part));
            self.split(version, &columns(own).1, watched)?;
            left = others;
        }
        Ok(())
    }

    /// Finds the parts of a part from which the edges between some vertices are gone.
    fn split<F: FnMut(u64, u64) -> bool>(
        &mut self,
        version: &Version,
        seeds: &[u32],
        watched: &mut Watched<F>,
    ) -> Result<(), Failure> {
        if self.numbers + seeds.len() > self.up.len() {
            self.is_labelled = false;
            self.label()?;
            self.renumber();
            self.is_labelled = false;
        }
        let mut searches = filled(seeds.len(), RawSearch::default())?;
        let (mut ring, mut lender) = (zeros::<u32>(seeds.len())?, Lender::of(version));
        let mut split = RawSplit {
            searches: searches.as_mut_ptr(),
            ring: ring.as_mut_ptr(),
            owner: self.owner.as_mut_ptr(),
            next: self.next.as_mut_ptr(),
            count: 0,
            live: 0,
            turn: 0,
        };
        // SAFETY: each seed stands once, and the arrays are as long as said.
        unsafe { edgebpf_split_begin(&mut split, seeds.as_ptr(), seeds.len() as u32) };
        let mut went = Ok(());
        while split.live > 1 && went.is_ok() {
            // SAFETY: as before; the version has as many vertices.
            let read = unsafe { edgebpf_split_go_on(&mut split, &mut lender, READ_AT_ONCE) };
            went = lender.answered().and_then(|()| watched.more(read));
        }
        // SAFETY: as before; there are numbers left for all parts.
        let cut = unsafe { edgebpf_split_end(&mut split, self.numbers as u32, self.parts.as_mut_ptr()) };
        self.numbers += cut as usize;
        went
    }
}

/// The triangles of a mirrored graph, kept while batches come.
pub struct LiveTriangles {
    version: Version,
    each: Vec<i64>,
    all: u64,
    spare: Vec<u32>,
    is_cut_off: bool,
}

impl fmt::Debug for LiveTriangles {
    fn fmt(&self, to: &mut fmt::Formatter<'_>) -> fmt::Result {
        write!(to, "LiveTriangles of {:?}: {}", self.version, self.all)
    }
}

impl LiveTriangles {
    /// Those of a version. `NotMirrored`.
    pub fn new(version: Version, go_on: impl FnMut(u64, u64) -> bool) -> Result<Self, Failure> {
        let counts = Graph::of(&version)?.triangles(go_on)?;
        let (mut each, all) = (zeros(counts.len())?, counts.iter().sum::<u64>() / 3);
        for (own, count) in each.iter_mut().zip(&counts) {
            *own = *count as i64;
        }
        let spare = zeros(2 * counts.len())?;
        Ok(LiveTriangles { version, each, all, spare, is_cut_off: false })
    }

    /// How many there are. `CutOff`.
    pub fn all(&self) -> Result<u64, Failure> {
        if self.is_cut_off {
            return Err(Failure::CutOff);
        }
        Ok(self.all)
    }

    /// In how many triangles a vertex is. `VertexRange`, `CutOff`.
    pub fn of(&self, vertex: u32) -> Result<u64, Failure> {
        self.all()?;
        let count = self.each.get(vertex as usize).ok_or(Error::VertexRange)?;
        Ok(*count as u64)
    }

    /// As `LiveComponents::update`.
    pub fn update(
        &mut self,
        version: Version,
        edits: &[&[(u32, u32)]],
        go_on: impl FnMut(u64, u64) -> bool,
    ) -> Result<(), Failure> {
        self.all()?;
        let count: usize = edits.iter().map(|some| some.len()).sum();
        let mut watched = Watched::new(go_on, 2 * count as u64);
        let changes = Changes::between(&self.version, &version, edits, &mut watched)?.upward()?;
        self.is_cut_off = true;
        self.all -= self.counted(None, &changes.gone, -1, &mut watched)?;
        self.all += self.counted(Some(&version), &changes.came, 1, &mut watched)?;
        (self.version, self.is_cut_off) = (version, false);
        Ok(())
    }

    /// Adds the triangles with some edges of a version, or of the one before, to those of each vertex, and returns how many they are.
    fn counted<F: FnMut(u64, u64) -> bool>(
        &mut self,
        version: Option<&Version>,
        edges: &[(u32, u32)],
        sign: i64,
        watched: &mut Watched<F>,
    ) -> Result<u64, Failure> {
        let ((sources, targets), vertices, count) = (columns(edges), self.each.len() as u32, edges.len());
        let (mut lender, mut found) = (Lender::of(version.unwrap_or(&self.version)), 0);
        for begin in (0..count).step_by(READ_AT_ONCE) {
            let end = count.min(begin + READ_AT_ONCE);
            let (from, to) = (sources.as_ptr(), targets.as_ptr());
            let (spare, each) = (self.spare.as_mut_ptr(), self.each.as_mut_ptr());
            // SAFETY: the list ascends, its vertices are in the version, and the arrays are as long as said.
            found +=
                unsafe { edgebpf_triangles_of(&mut lender, from, to, count, begin, end, sign, vertices, spare, each) };
            lender.answered()?;
            watched.more(end - begin)?;
        }
        Ok(found)
    }
}

/// PageRank, kept while batches come: `apart` of `ranks` is at most `within` after each update, up to rounding.
pub struct LiveRank {
    version: Version,
    damping: f64,
    within: f64,
    degrees: Vec<u32>,
    ranks: Vec<f64>,
    residuals: Vec<f64>,
    queue: Vec<u32>,
    touched: Vec<u32>,
    queued: Vec<u8>,
    is_touched: Vec<u8>,
    is_cut_off: bool,
}

impl fmt::Debug for LiveRank {
    fn fmt(&self, to: &mut fmt::Formatter<'_>) -> fmt::Result {
        write!(to, "LiveRank of {:?}", self.version)
    }
}

impl LiveRank {
    /// Those of a version. `Argument` where the damping is not 0 to 0.999, or `within` not 10^-12 to 2.
    pub fn new(
        version: Version,
        damping: f64,
        within: f64,
        go_on: impl FnMut(u64, u64) -> bool,
    ) -> Result<Self, Failure> {
        if !(0.0..=0.999).contains(&damping) || !(1e-12..=2.0).contains(&within) {
            return Err(Failure::Argument);
        }
        let count = version.vertices() as usize;
        let mut all = LiveRank {
            degrees: version.degrees(&numbered(count)?)?,
            version,
            damping,
            within,
            ranks: zeros(count)?,
            residuals: filled(count, (1.0 - damping) / count as f64)?,
            queue: zeros(count)?,
            touched: zeros(count)?,
            queued: zeros(count)?,
            is_touched: zeros(count)?,
            is_cut_off: false,
        };
        let graph = Graph::of(&all.version)?;
        all.rounds(&graph, &mut Watched::new(go_on, 0))?;
        Ok(all)
    }

    /// The ranks, which sum to 1. `CutOff`.
    pub fn ranks(&self) -> Result<Vec<f64>, Failure> {
        if self.is_cut_off {
            return Err(Failure::CutOff);
        }
        let (sum, mut ranks) = (self.ranks.iter().sum::<f64>(), zeros::<f64>(self.ranks.len())?);
        for (rank, own) in ranks.iter_mut().zip(&self.ranks) {
            *rank = own / sum;
        }
        Ok(ranks)
    }

    /// A bound on the sum of all differences between `ranks` and the exact ones.
    pub fn apart(&self) -> f64 {
        // What a residual adds in the end is at most itself divided by 1 - damping, and the sum by which ranks are divided differs by as much.
        let left: f64 = self.residuals.iter().map(|residual| residual.abs()).sum();
        2.0 * left / (1.0 - self.damping) / self.ranks.iter().sum::<f64>()
    }

    /// Moves what all vertices lack to their targets, until they lack little enough.
    fn rounds<F: FnMut(u64, u64) -> bool>(&mut self, graph: &Graph, watched: &mut Watched<F>) -> Result<(), Failure> {
        let (mut gives, mut sums) = (zeros(self.ranks.len())?, zeros(self.ranks.len())?);
        // A first round makes ranks of nothing, which are infinitely far apart.
        while self.apart().is_nan() || self.apart() > self.within {
            for (rank, residual) in self.ranks.iter_mut().zip(&self.residuals) {
                *rank += residual;
            }
            graph.spread(watched, &self.residuals, &mut gives, &mut sums)?;
            for (residual, sum) in self.residuals.iter_mut().zip(&sums) {
                *residual = self.damping * sum;
            }
        }
        Ok(())
    }

    /// As `LiveComponents::update`, and without `NotMirrored`.
    pub fn update(
        &mut self,
        version: Version,
        edits: &[&[(u32, u32)]],
        go_on: impl FnMut(u64, u64) -> bool,
    ) -> Result<(), Failure> {
        if self.is_cut_off {
            return Err(Failure::CutOff);
        }
        let count: usize = edits.iter().map(|some| some.len()).sum();
        let mut watched = Watched::new(go_on, 2 * count as u64);
        let changes = Changes::between(&self.version, &version, edits, &mut watched)?;
        self.is_cut_off = true;
        self.push(&version, &changes, &mut watched)?;
        if self.apart() > self.within {
            self.rounds(&Graph::of(&version)?, &mut watched)?;
        }
        (self.version, self.is_cut_off) = (version, false);
        Ok(())
    }

    fn push<F: FnMut(u64, u64) -> bool>(
        &mut self,
        version: &Version,
        changes: &Changes,
        watched: &mut Watched<F>,
    ) -> Result<(), Failure> {
        let mut changed: Vec<u32> = changes.came.iter().chain(&changes.gone).map(|&(source, _)| source).collect();
        changed.dedup();
        changed.sort_unstable();
        changed.dedup();
        let degrees = version.degrees(&changed)?;
        let edges = version.edges();
        let unit = self.within * (1.0 - self.damping) / 2.0 * self.ranks.iter().sum::<f64>();
        let mut state = RawResiduals {
            damping: self.damping,
            unit: unit / (edges + self.ranks.len() as u64) as f64,
            degrees: self.degrees.as_ptr(),
            ranks: self.ranks.as_mut_ptr(),
            residuals: self.residuals.as_mut_ptr(),
            queue: self.queue.as_mut_ptr(),
            touched: self.touched.as_mut_ptr(),
            queued: self.queued.as_mut_ptr(),
            is_touched: self.is_touched.as_mut_ptr(),
            vertices: self.ranks.len() as u32,
            at: 0,
            count: 0,
            touched_count: 0,
            edges: 0,
        };
        let (mut old, mut new) = (Lender::of(&self.version), Lender::of(version));
        for part in changed.chunks(READ_AT_ONCE) {
            // SAFETY: the vertices are in both versions, which have as many, and all arrays have a place for each.
            unsafe {
                edgebpf_move_residuals(&mut state, &mut old, part.as_ptr(), part.len(), -1.0);
                edgebpf_move_residuals(&mut state, &mut new, part.as_ptr(), part.len(), 1.0);
            }
            watched.more(part.len())?;
        }
        for (&vertex, degree) in changed.iter().zip(degrees) {
            self.degrees[vertex as usize] = degree;
        }
        state.degrees = self.degrees.as_ptr();
        for times in TIMES {
            // SAFETY: as before, and the degrees are those of the new version.
            unsafe { edgebpf_queue_residuals(&mut state, times) };
            while state.count > 0 && state.edges < edges / SHARE_OF_EDGES {
                // SAFETY: as before.
                let pushed = unsafe { edgebpf_push_residuals(&mut state, &mut new, times, READ_AT_ONCE) };
                watched.more(pushed)?;
            }
        }
        let touched = state.touched_count as usize;
        old.answered()?;
        new.answered()?;
        self.queued.fill(0);
        for &vertex in &self.touched[..touched] {
            self.is_touched[vertex as usize] = 0;
        }
        Ok(())
    }
}
