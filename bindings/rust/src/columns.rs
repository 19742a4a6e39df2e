//! Columns: numbers of vertices that runs see for the ends of their edges.
use crate::calls::{edgebpf_pull, RawColumn, RawTotals};
use crate::error::{done, Error};
use crate::program::Program;
use crate::version::{Reduction, Totals, Version};
use crate::{MOST_COLUMNS, MOST_VERTICES};

/// So many vertices of a range are written down at a time.
const WINDOW: usize = 1_024;

/// A version whose runs are lent columns, each with a number for each vertex. A record has, after the argument, of each column in turn the
/// number of the edge's source and that of its target, eight bytes each. Made by `Version::with_columns`; the borrows keep the columns as
/// they are meanwhile.
#[derive(Clone, Copy, Debug)]
pub struct WithColumns<'a> {
    pub(crate) version: &'a Version,
    pub(crate) columns: &'a [&'a [u64]],
}

/// Columns as the library takes them.
pub(crate) struct Raw([RawColumn; MOST_COLUMNS]);

impl Raw {
    /// At most eight columns.
    pub(crate) fn of(columns: &[&[u64]]) -> Raw {
        let none: &[u64] = &[];
        let mut raw = [RawColumn { at: none.as_ptr(), count: 0 }; MOST_COLUMNS];
        for (raw, column) in raw.iter_mut().zip(columns) {
            *raw = RawColumn { at: column.as_ptr(), count: column.len() };
        }
        Raw(raw)
    }

    /// Where they are.
    pub(crate) fn at(&self) -> *const RawColumn {
        self.0.as_ptr()
    }
}

impl Version {
    /// This version with columns for its runs. `Columns` where there are more than eight, or one has not a number for each vertex.
    pub fn with_columns<'a>(&'a self, columns: &'a [&'a [u64]]) -> Result<WithColumns<'a>, Error> {
        let vertices = self.vertices() as usize;
        if columns.len() > MOST_COLUMNS || columns.iter().any(|column| column.len() != vertices) {
            return Err(Error::Columns);
        }
        Ok(WithColumns { version: self, columns })
    }

    pub(crate) fn without_columns(&self) -> WithColumns<'_> {
        WithColumns { version: self, columns: &[] }
    }
}

impl WithColumns<'_> {
    /// Runs a program on each edge of the vertices of a frontier, in any order and at most 268,435,456 of them, and writes for each
    /// vertex the reduction of its edges' numbers. `Lengths` where there are not as many values as vertices, and `ArgumentLength` where
    /// the argument has not the record's length less 16 bytes, and less 16 for each column; then nothing is written.
    pub fn run(
        self,
        program: &Program,
        argument: &[u8],
        frontier: &[u32],
        reduction: Reduction,
        values: &mut [u64],
    ) -> Result<Totals, Error> {
        let columns = Raw::of(self.columns);
        let mut totals = RawTotals::default();
        // SAFETY: the handles hold a version and a program, and the slices are as long as said.
        done(unsafe {
            edgebpf_pull(
                self.version.0.at(),
                program.handle.at(),
                argument.as_ptr(),
                argument.len(),
                columns.at(),
                self.columns.len(),
                frontier.as_ptr(),
                frontier.len(),
                reduction.number(),
                values.as_mut_ptr(),
                values.len(),
                &mut totals,
            )
        })?;
        Ok(Totals { edges: totals.edges, total: totals.total })
    }

    /// Runs a program on each edge of the vertices from `first` on, as many as there are values, as `run` does with a frontier of them:
    /// no array of them is made, but of 1,024 at a time. `Lengths` where they are more than 268,435,456, or go past 2^32.
    pub fn run_range(
        self,
        program: &Program,
        argument: &[u8],
        first: u32,
        reduction: Reduction,
        values: &mut [u64],
    ) -> Result<Totals, Error> {
        if values.len() > MOST_VERTICES as usize || u64::from(first) + values.len() as u64 > 1 << 32 {
            return Err(Error::Lengths);
        }
        let mut window = [0; WINDOW];
        // The first call finds all that may be wrong, and later ones find the same right.
        let mut totals = self.run(program, argument, &[], reduction, &mut [])?;
        for (place, part) in values.chunks_mut(WINDOW).enumerate() {
            let begin = first + (place * WINDOW) as u32;
            for (vertex, number) in window.iter_mut().zip(begin..=u32::MAX) {
                *vertex = number;
            }
            let more = self.run(program, argument, &window[..part.len()], reduction, part)?;
            totals.edges += more.edges;
            totals.total = reduction.join(totals.total, more.total);
        }
        Ok(totals)
    }
}
