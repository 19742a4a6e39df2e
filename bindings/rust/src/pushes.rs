//! Pushes: runs whose numbers go to the values of the edges' targets.
use crate::calls::{edgebpf_push, edgebpf_push_some, RawTotals};
use crate::columns::{Raw, WithColumns};
use crate::error::{done, Error};
use crate::program::Program;
use crate::steps::{Asked, Progress};
use crate::version::{Reduction, Totals, Version};

/// A push over a frontier under way. It borrows the frontier and the values, so nobody changes them in between.
#[derive(Debug)]
#[must_use = "nothing is done before the first step"]
pub struct Push<'a> {
    asked: Asked<'a>,
    reduction: Reduction,
    progress: Progress,
    values: &'a mut [u64],
}

impl Push<'_> {
    /// Goes on as far as a budget goes, and by one edge or one vertex at least. It may do more than the budget by an edge, or by a block of
    /// 64. Once all is done it does nothing.
    pub fn step(&mut self, budget: u64) {
        let Asked { on, program, argument, frontier } = self.asked;
        let columns = Raw::of(on.columns);
        let values = &mut *self.values;
        // SAFETY: the handles hold a version and a program, and the slices are as long as said.
        self.progress.step(budget, |at| unsafe {
            edgebpf_push_some(
                on.version.0.at(),
                program.handle.at(),
                argument.as_ptr(),
                argument.len(),
                columns.at(),
                on.columns.len(),
                frontier.as_ptr(),
                frontier.len(),
                self.reduction.number(),
                at,
                values.as_mut_ptr(),
                values.len(),
            )
        });
    }

    /// Whether all is done.
    pub fn is_done(&self) -> bool {
        self.progress.vertex as usize == self.asked.frontier.len()
    }

    /// How far it has come. `resume_push` goes on there, over the values as they are.
    pub fn progress(&self) -> Progress {
        self.progress
    }

    /// What the edges so far have together.
    pub fn totals(&self) -> Totals {
        Totals { edges: self.progress.edges, total: self.progress.total }
    }

    /// A value for each vertex of the graph, as the edges so far have left it.
    pub fn values(&self) -> &[u64] {
        self.values
    }
}

impl<'c> WithColumns<'c> {
    /// Runs a program on each edge of the vertices of a frontier, in any order and at most 268,435,456 of them, and reduces the number of
    /// each edge into the value of its target. `values` has one for each vertex of the graph; those to which none of the edges leads stay.
    /// `Lengths` where there are not as many values as vertices, and `ArgumentLength`; then nothing is written.
    pub fn push(
        self,
        program: &Program,
        argument: &[u8],
        frontier: &[u32],
        reduction: Reduction,
        values: &mut [u64],
    ) -> Result<Totals, Error> {
        let columns = Raw::of(self.columns);
        let mut totals = RawTotals::default();
        // SAFETY: the handles hold a version and a program, and the slices are as long as said.
        done(unsafe {
            edgebpf_push(
                self.version.0.at(),
                program.handle.at(),
                argument.as_ptr(),
                argument.len(),
                columns.at(),
                self.columns.len(),
                frontier.as_ptr(),
                frontier.len(),
                reduction.number(),
                values.as_mut_ptr(),
                values.len(),
                &mut totals,
            )
        })?;
        Ok(Totals { edges: totals.edges, total: totals.total })
    }

    /// A push as `push` makes it, of which nothing is done yet: each `step` of it goes on with it. `Lengths` where there are not as many values
    /// as vertices in the graph, or more than 268,435,456 in the frontier, and `ArgumentLength`.
    pub fn begin_push<'a>(
        self,
        program: &'a Program,
        argument: &'a [u8],
        frontier: &'a [u32],
        reduction: Reduction,
        values: &'a mut [u64],
    ) -> Result<Push<'a>, Error>
    where
        'c: 'a,
    {
        let begun = Progress { total: reduction.none(), ..Progress::default() };
        self.resume_push(program, argument, frontier, reduction, begun, values)
    }

    /// A push that goes on from a progress, with the values as they were there. Hand in the same program, argument, frontier, reduction and
    /// columns, and this version or another handle of it. As `begin_push`, and `Progress` where it names no place of the frontier.
    pub fn resume_push<'a>(
        self,
        program: &'a Program,
        argument: &'a [u8],
        frontier: &'a [u32],
        reduction: Reduction,
        progress: Progress,
        values: &'a mut [u64],
    ) -> Result<Push<'a>, Error>
    where
        'c: 'a,
    {
        let asked = Asked { on: self, program, argument, frontier };
        if values.len() != self.version.vertices() as usize {
            return Err(Error::Lengths);
        }
        asked.test(&progress)?;
        Ok(Push { asked, reduction, progress, values })
    }
}

impl Version {
    /// As `WithColumns::push`, without columns.
    pub fn push(
        &self,
        program: &Program,
        argument: &[u8],
        frontier: &[u32],
        reduction: Reduction,
        values: &mut [u64],
    ) -> Result<Totals, Error> {
        self.without_columns().push(program, argument, frontier, reduction, values)
    }

    /// As `WithColumns::begin_push`, without columns.
    pub fn begin_push<'a>(
        &'a self,
        program: &'a Program,
        argument: &'a [u8],
        frontier: &'a [u32],
        reduction: Reduction,
        values: &'a mut [u64],
    ) -> Result<Push<'a>, Error> {
        self.without_columns().begin_push(program, argument, frontier, reduction, values)
    }
}
