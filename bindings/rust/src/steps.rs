//! Work that pauses: each step does some of it, and the next one goes on where that ended.
use crate::calls::{edgebpf_numbers_of, edgebpf_pairs_of, edgebpf_pull_some, RawProgress};
use crate::columns::{Raw, WithColumns};
use crate::error::{done, Error};
use crate::program::Program;
use crate::version::{Reduction, Totals, Version};
use crate::{COLUMN_BYTES, EDGE_BYTES, MOST_VERTICES};
use std::thread::{scope, Builder};

/// So many threads finish a run at most.
const MOST_THREADS: usize = 64;

/// How far some work has come. It is a plain value: it may be kept, sent, or written to a file, and work that begins with it goes on there.
#[derive(Clone, Copy, Debug, Default, PartialEq, Eq, Hash)]
pub struct Progress {
    /// How many edges, or pairs, have a number.
    pub edges: u64,
    /// What the numbers of these edges reduce to, for a run.
    pub total: u64,
    /// How many vertices of the frontier are done, or pairs.
    pub vertex: u32,
    /// How many edges of the next vertex are done.
    pub place: u32,
    /// What all steps took from their budgets: for an edge what its run takes, the bound at most, and 4; for a vertex 16.
    /// A step takes its budget at most, also where its last edges took more.
    pub used: u64,
}

impl Progress {
    /// A step by a call of the library.
    pub(crate) fn step(&mut self, budget: u64, call: impl FnOnce(*mut RawProgress) -> u32) {
        let Progress { edges, total, vertex, place, used } = *self;
        let mut raw = RawProgress { budget, edges, total, vertex, place };
        let status = call(&mut raw);
        // What a call asks for was tested before the first step, and the borrows keep it as it was.
        assert!(done(status).is_ok(), "edgebpf answered {status} to a step");
        let used = used.wrapping_add(budget - raw.budget);
        *self = Progress { edges: raw.edges, total: raw.total, vertex: raw.vertex, place: raw.place, used };
    }
}

/// What a step is over: as long as this is there, nothing of it changes.
#[derive(Clone, Copy, Debug)]
pub(crate) struct Asked<'a> {
    pub(crate) on: WithColumns<'a>,
    pub(crate) program: &'a Program,
    pub(crate) argument: &'a [u8],
    pub(crate) frontier: &'a [u32],
}

impl Asked<'_> {
    /// `Lengths`, `ArgumentLength` and `Progress`, tested in this order.
    pub(crate) fn test(&self, progress: &Progress) -> Result<(), Error> {
        if self.frontier.len() > MOST_VERTICES as usize {
            return Err(Error::Lengths);
        }
        test_argument(self.on, self.program, self.argument)?;
        let is_place = match self.frontier.get(progress.vertex as usize) {
            Some(vertex) => progress.place <= self.on.version.degree(*vertex),
            None => progress.vertex as usize == self.frontier.len() && progress.place == 0,
        };
        is_place.then_some(()).ok_or(Error::Progress)
    }
}

fn test_argument(on: WithColumns<'_>, program: &Program, argument: &[u8]) -> Result<(), Error> {
    let length = argument.len() + EDGE_BYTES + COLUMN_BYTES * on.columns.len();
    let is_long = length == usize::from(program.record_length);
    is_long.then_some(()).ok_or(Error::ArgumentLength)
}

/// A run over a frontier under way. It borrows the frontier and the values, so nobody changes them in between.
#[derive(Debug)]
#[must_use = "nothing is done before the first step"]
pub struct Run<'a> {
    asked: Asked<'a>,
    reduction: Reduction,
    progress: Progress,
    values: &'a mut [u64],
}

impl Run<'_> {
    /// Goes on as far as a budget goes, and by one edge or one vertex at least. It may do more than the budget by an edge, or by a block of
    /// 64. Once all is done it does nothing.
    pub fn step(&mut self, budget: u64) {
        let Asked { on, program, argument, frontier } = self.asked;
        let columns = Raw::of(on.columns);
        let values = &mut *self.values;
        // SAFETY: the handles hold a version and a program, and the slices are as long as said.
        self.progress.step(budget, |at| unsafe {
            edgebpf_pull_some(
                on.version.0.at(),
                program.handle.at(),
                argument.as_ptr(),
                argument.len(),
                columns.at(),
                on.columns.len(),
                frontier.as_ptr(),
                frontier.len(),
                self.reduction.number(),
                at,
                values.as_mut_ptr(),
                values.len(),
            )
        });
    }

    /// Whether all is done.
    pub fn is_done(&self) -> bool {
        self.progress.vertex as usize == self.asked.frontier.len()
    }

    /// How far it has come. `resume` goes on there, over the values as they are.
    pub fn progress(&self) -> Progress {
        self.progress
    }

    /// What the edges so far have together.
    pub fn totals(&self) -> Totals {
        Totals { edges: self.progress.edges, total: self.progress.total }
    }

    /// A value for each vertex: those that are done are final, and the next one is that of its edges so far.
    pub fn values(&self) -> &[u64] {
        self.values
    }

    /// All that is left, by so many threads at the same time, 64 at most, each with handles of its own and a part of the frontier. The values
    /// and the totals are the same for each number. `NoMemory` where there is none for a handle or a thread, and the values are then of no use.
    pub fn finish(mut self, threads: usize) -> Result<Totals, Error> {
        let left = self.asked.frontier.len() - self.progress.vertex as usize;
        if threads > 1 && left > 1 {
            return self.finish_in_parts(1 + left / threads.min(MOST_THREADS));
        }
        while !self.is_done() {
            self.step(u64::MAX);
        }
        Ok(self.totals())
    }

    /// The same by a thread for each part of so many vertices.
    fn finish_in_parts(self, size: usize) -> Result<Totals, Error> {
        let Asked { on, program, argument, frontier } = self.asked;
        let left = &frontier[self.progress.vertex as usize..];
        let values = &mut self.values[self.progress.vertex as usize..];
        let mut shares = Vec::new();
        for _ in left.chunks(size) {
            shares.push((on.version.share()?, program.share()?));
        }
        // The first part goes on within its first vertex.
        let mut place = self.progress.place;
        let (reduction, begun) = (self.reduction, self.progress);
        scope(|all| {
            let mut parts = Vec::new();
            for ((frontier, values), (version, program)) in left.chunks(size).zip(values.chunks_mut(size)).zip(shares) {
                let from = Progress { place, total: reduction.none(), ..Progress::default() };
                place = 0;
                let work = move || {
                    let on = WithColumns { version: &version, columns: on.columns };
                    on.resume(&program, argument, frontier, reduction, from, values)?.finish(1)
                };
                parts.push(Builder::new().spawn_scoped(all, work).map_err(|_| Error::NoMemory)?);
            }
            let mut totals = Totals { edges: begun.edges, total: begun.total };
            for part in parts {
                let part = part.join().unwrap_or_else(|panic| std::panic::resume_unwind(panic))?;
                let edges = totals.edges.wrapping_add(part.edges);
                totals = Totals { edges, total: reduction.combine(totals.total, part.total) };
            }
            Ok(totals)
        })
    }
}

/// The numbers of a frontier's edges under way.
#[derive(Debug)]
#[must_use = "nothing is done before the first step"]
pub struct Numbers<'a> {
    asked: Asked<'a>,
    progress: Progress,
}

impl Numbers<'_> {
    /// Writes the numbers of the next edges, as far as a budget and the room go, and returns how many these are: one vertex after another,
    /// targets ascending. It does one edge or one vertex at least if there is room for a number.
    pub fn step(&mut self, budget: u64, numbers: &mut [u64]) -> usize {
        let Asked { on, program, argument, frontier } = self.asked;
        let columns = Raw::of(on.columns);
        let mut written = 0;
        // SAFETY: the handles hold a version and a program, and the slices are as long as said.
        self.progress.step(budget, |at| unsafe {
            edgebpf_numbers_of(
                on.version.0.at(),
                program.handle.at(),
                argument.as_ptr(),
                argument.len(),
                columns.at(),
                on.columns.len(),
                frontier.as_ptr(),
                frontier.len(),
                at,
                numbers.as_mut_ptr(),
                numbers.len(),
                &mut written,
            )
        });
        written
    }

    /// Whether all is done.
    pub fn is_done(&self) -> bool {
        self.progress.vertex as usize == self.asked.frontier.len()
    }

    /// How far it has come. Its total stays.
    pub fn progress(&self) -> Progress {
        self.progress
    }
}

/// The numbers of pairs under way.
#[derive(Debug)]
#[must_use = "nothing is done before the first step"]
pub struct Pairs<'a> {
    asked: Asked<'a>,
    targets: &'a [u32],
    progress: Progress,
    numbers: &'a mut [u64],
}

impl Pairs<'_> {
    /// Goes on as far as a budget goes, and by one pair at least. Once all is done it does nothing.
    pub fn step(&mut self, budget: u64) {
        let Asked { on, program, argument, frontier: sources } = self.asked;
        let columns = Raw::of(on.columns);
        let (targets, numbers) = (self.targets, &mut *self.numbers);
        // SAFETY: the handles hold a version and a program, and the slices are as long as said.
        self.progress.step(budget, |at| unsafe {
            edgebpf_pairs_of(
                on.version.0.at(),
                program.handle.at(),
                argument.as_ptr(),
                argument.len(),
                columns.at(),
                on.columns.len(),
                sources.as_ptr(),
                sources.len(),
                targets.as_ptr(),
                targets.len(),
                at,
                numbers.as_mut_ptr(),
                numbers.len(),
            )
        });
    }

    /// Whether all is done.
    pub fn is_done(&self) -> bool {
        self.progress.vertex as usize == self.asked.frontier.len()
    }

    /// How far it has come: `vertex` pairs are done.
    pub fn progress(&self) -> Progress {
        self.progress
    }

    /// A number for each pair: those of the pairs that are done are final.
    pub fn numbers(&self) -> &[u64] {
        self.numbers
    }
}

impl<'c> WithColumns<'c> {
    /// A run as `run` makes it, of which nothing is done yet: each `step` of it goes on with it. `Lengths` where there are not as many values
    /// as vertices or more than 268,435,456 of these, and `ArgumentLength`.
    pub fn begin<'a>(
        self,
        program: &'a Program,
        argument: &'a [u8],
        frontier: &'a [u32],
        reduction: Reduction,
        values: &'a mut [u64],
    ) -> Result<Run<'a>, Error>
    where
        'c: 'a,
    {
        let begun = Progress { total: reduction.none(), ..Progress::default() };
        let run = self.resume(program, argument, frontier, reduction, begun, values)?;
        run.values.fill(reduction.none());
        Ok(run)
    }

    /// A run that goes on from a progress, with the values as they were there. Hand in the same program, argument, frontier and reduction, and
    /// this version or another handle of it. As `begin`, and `Progress` where it names no place of the frontier.
    pub fn resume<'a>(
        self,
        program: &'a Program,
        argument: &'a [u8],
        frontier: &'a [u32],
        reduction: Reduction,
        progress: Progress,
        values: &'a mut [u64],
    ) -> Result<Run<'a>, Error>
    where
        'c: 'a,
    {
        let asked = Asked { on: self, program, argument, frontier };
        if values.len() != frontier.len() {
            return Err(Error::Lengths);
        }
        asked.test(&progress)?;
        Ok(Run { asked, reduction, progress, values })
    }

    /// The numbers of a frontier's edges, which each `step` writes as far as there is room. A progress goes on where another stopped; the
    /// default one is the beginning. `Lengths`, `ArgumentLength` and `Progress`.
    pub fn begin_numbers<'a>(
        self,
        program: &'a Program,
        argument: &'a [u8],
        frontier: &'a [u32],
        progress: Progress,
    ) -> Result<Numbers<'a>, Error>
    where
        'c: 'a,
    {
        let asked = Asked { on: self, program, argument, frontier };
        asked.test(&progress)?;
        Ok(Numbers { asked, progress })
    }

    /// The numbers of a frontier's edges, one vertex after another, targets ascending. `Lengths`, `ArgumentLength` and `NoMemory`.
    pub fn numbers_of(self, program: &Program, argument: &[u8], frontier: &[u32]) -> Result<Vec<u64>, Error> {
        let mut run = self.begin_numbers(program, argument, frontier, Progress::default())?;
        let count: u64 = frontier.iter().map(|vertex| u64::from(self.version.degree(*vertex))).sum();
        let mut numbers = crate::error::zeros(usize::try_from(count).map_err(|_| Error::NoMemory)?)?;
        let mut written = 0;
        while !run.is_done() {
            written += run.step(u64::MAX, &mut numbers[written..]);
        }
        Ok(numbers)
    }

    /// The numbers of pairs of a source and a target, of which none is there yet: each `step` goes on with them. `Lengths` where there are not
    /// as many targets and numbers as sources, or 2^32 of them and more, and `ArgumentLength`.
    pub fn begin_pairs<'a>(
        self,
        program: &'a Program,
        argument: &'a [u8],
        sources: &'a [u32],
        targets: &'a [u32],
        numbers: &'a mut [u64],
    ) -> Result<Pairs<'a>, Error>
    where
        'c: 'a,
    {
        let count = sources.len();
        if targets.len() != count || numbers.len() != count || u32::try_from(count).is_err() {
            return Err(Error::Lengths);
        }
        test_argument(self, program, argument)?;
        let asked = Asked { on: self, program, argument, frontier: sources };
        Ok(Pairs { asked, targets, progress: Progress::default(), numbers })
    }

    /// A number for each pair of a source and a target. A pair need not be an edge, nor its ends in the graph: its record has the target's
    /// place among the source's neighbours, or the source's degree where it is none of them. `Lengths`, `ArgumentLength` and `NoMemory`.
    pub fn pairs(
        self,
        program: &Program,
        argument: &[u8],
        sources: &[u32],
        targets: &[u32],
    ) -> Result<Vec<u64>, Error> {
        let mut numbers = crate::error::zeros(sources.len())?;
        let mut run = self.begin_pairs(program, argument, sources, targets, &mut numbers)?;
        while !run.is_done() {
            run.step(u64::MAX);
        }
        Ok(numbers)
    }
}

impl Version {
    /// As `WithColumns::begin`, without columns.
    pub fn begin<'a>(
        &'a self,
        program: &'a Program,
        argument: &'a [u8],
        frontier: &'a [u32],
        reduction: Reduction,
        values: &'a mut [u64],
    ) -> Result<Run<'a>, Error> {
        self.without_columns().begin(program, argument, frontier, reduction, values)
    }

    /// As `WithColumns::resume`, without columns.
    pub fn resume<'a>(
        &'a self,
        program: &'a Program,
        argument: &'a [u8],
        frontier: &'a [u32],
        reduction: Reduction,
        progress: Progress,
        values: &'a mut [u64],
    ) -> Result<Run<'a>, Error> {
        self.without_columns().resume(program, argument, frontier, reduction, progress, values)
    }

    /// As `WithColumns::begin_numbers`, without columns.
    pub fn begin_numbers<'a>(
        &'a self,
        program: &'a Program,
        argument: &'a [u8],
        frontier: &'a [u32],
        progress: Progress,
    ) -> Result<Numbers<'a>, Error> {
        self.without_columns().begin_numbers(program, argument, frontier, progress)
    }

    /// As `WithColumns::numbers_of`, without columns.
    pub fn numbers_of(&self, program: &Program, argument: &[u8], frontier: &[u32]) -> Result<Vec<u64>, Error> {
        self.without_columns().numbers_of(program, argument, frontier)
    }

    /// As `WithColumns::begin_pairs`, without columns.
    pub fn begin_pairs<'a>(
        &'a self,
        program: &'a Program,
        argument: &'a [u8],
        sources: &'a [u32],
        targets: &'a [u32],
        numbers: &'a mut [u64],
    ) -> Result<Pairs<'a>, Error> {
        self.without_columns().begin_pairs(program, argument, sources, targets, numbers)
    }

    /// As `WithColumns::pairs`, without columns.
    pub fn pairs(
        &self,
        program: &Program,
        argument: &[u8],
        sources: &[u32],
        targets: &[u32],
    ) -> Result<Vec<u64>, Error> {
        self.without_columns().pairs(program, argument, sources, targets)
    }
}
