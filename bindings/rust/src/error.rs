//! Why a call did nothing.
use crate::program::explain;
use std::fmt;

/// Why a call is not done. But for `NotShown`, what it was called on is as it was.
#[derive(Clone, Copy, Debug, PartialEq, Eq, Hash)]
#[non_exhaustive]
pub enum Error {
    /// There is no memory. The same call may be made again.
    NoMemory,
    /// A graph has 1 to 268,435,456 vertices.
    VertexCount,
    /// An edit names a vertex that the graph does not have.
    VertexRange,
    /// A batch has at most 65,536 edits.
    TooManyEdits,
    /// 4,096 batches were applied, and there is room for no more before a rebase.
    LogFull,
    /// As many rebases were made as 64 bits count.
    EpochsFull,
    /// The lengths of the arrays do not fit together.
    Lengths,
    /// A record has 16 to 256 bytes.
    RecordLength,
    /// Code has 1 to 4,096 units of 8 bytes.
    CodeLength,
    /// A table has at most 4,096 bytes.
    TableLength,
    /// The argument of a run is as long as the record less 16 bytes, and less 16 for each column.
    ArgumentLength,
    /// A record has numbers of at most 8 columns, each with a number for each vertex.
    Columns,
    /// A progress names no place of the frontier.
    Progress,
    /// The arrays of a graph's edges are not sorted.
    NotSorted,
    /// A batch of a `Live` was applied, and there was no memory to show its version before the next one.
    NotShown,
    /// The library answered a status of which this crate knows nothing.
    Unknown(u32),
}

pub(crate) const DONE: u32 = 0;
pub(crate) const LENGTHS: u32 = 9;
pub(crate) const REFUSED: u32 = 10;
pub(crate) const WRONG_TEXT: u32 = 15;
pub(crate) const NO_NEIGHBOUR: u32 = 16;

impl Error {
    pub(crate) fn of(status: u32) -> Error {
        match status {
            1 => Error::NoMemory,
            4 => Error::VertexCount,
            5 => Error::VertexRange,
            6 => Error::TooManyEdits,
            7 => Error::LogFull,
            17 => Error::EpochsFull,
            LENGTHS => Error::Lengths,
            11 => Error::RecordLength,
            12 => Error::CodeLength,
            18 => Error::TableLength,
            13 => Error::ArgumentLength,
            19 => Error::Columns,
            20 => Error::Progress,
            21 => Error::NotSorted,
            other => Error::Unknown(other),
        }
    }
}

/// Nothing where a call is done, and else why it is not.
pub(crate) fn done(status: u32) -> Result<(), Error> {
    if status == DONE {
        Ok(())
    } else {
        Err(Error::of(status))
    }
}

/// So many zeros, or `NoMemory`, where a plain `vec!` would end the process.
pub(crate) fn zeros<T: Clone + Default>(count: usize) -> Result<Vec<T>, Error> {
    let mut all = Vec::new();
    all.try_reserve_exact(count).map_err(|_| Error::NoMemory)?;
    all.resize(count, T::default());
    Ok(all)
}

impl fmt::Display for Error {
    fn fmt(&self, to: &mut fmt::Formatter<'_>) -> fmt::Result {
        match self {
            Error::NoMemory => to.write_str("out of memory"),
            Error::VertexCount => to.write_str("the number of vertices is not from 1 to 268435456"),
            Error::VertexRange => to.write_str("a vertex is not in the graph"),
            Error::TooManyEdits => to.write_str("there are more than 65536 edits"),
            Error::LogFull => to.write_str("4096 batches were applied, and there is room for no more before a rebase"),
            Error::EpochsFull => to.write_str("as many rebases were made as 64 bits count"),
            Error::Lengths => to.write_str("the lengths of the arrays do not fit together"),
            Error::RecordLength => to.write_str("the record length is not from 16 to 256"),
            Error::CodeLength => to.write_str("the code is not 1 to 4096 units of 8 bytes"),
            Error::TableLength => to.write_str("the table has more than 4096 bytes"),
            Error::ArgumentLength => {
                to.write_str("the argument is not as long as the record less 16 bytes, and less 16 for each column")
            }
            Error::Columns => to.write_str("there are more than 8 columns, or one has not a number for each vertex"),
            Error::Progress => to.write_str("the progress names no place of this frontier"),
            Error::NotSorted => to.write_str("the arrays are not sorted"),
            Error::NotShown => {
                to.write_str("the batch was applied, and there is no memory to show its version before the next one")
            }
            Error::Unknown(status) => write!(to, "the library answered {status}"),
        }
    }
}

impl std::error::Error for Error {}

/// Why a program was not made.
#[derive(Clone, Debug, PartialEq, Eq)]
pub enum Refusal {
    /// The verifier refuses it.
    Refused(Refused),
    /// `RecordLength`, `CodeLength`, `TableLength` or `NoMemory`.
    Error(Error),
}

impl fmt::Display for Refusal {
    fn fmt(&self, to: &mut fmt::Formatter<'_>) -> fmt::Result {
        match self {
            Refusal::Refused(refused) => refused.fmt(to),
            Refusal::Error(error) => error.fmt(to),
        }
    }
}

impl std::error::Error for Refusal {}

/// A program that the verifier refuses.
#[derive(Clone, Debug, PartialEq, Eq)]
pub struct Refused {
    /// The rule that is broken, from 1.
    pub cause: u32,
    /// The unit of the code that breaks it, from 0.
    pub pc: u32,
    pub(crate) record_length: u16,
    pub(crate) code: Vec<u8>,
    pub(crate) table: Vec<u8>,
}

impl Refused {
    /// What the verifier knows at each instruction, why it refuses the program, and what helps.
    pub fn explain(&self) -> Result<String, Error> {
        explain(self.record_length, &self.code, &self.table)
    }
}

impl fmt::Display for Refused {
    fn fmt(&self, to: &mut fmt::Formatter<'_>) -> fmt::Result {
        write!(to, "the verifier refuses the program: cause {} at {}", self.cause, self.pc)
    }
}

impl std::error::Error for Refused {}

/// Why a text has no code.
#[derive(Clone, Copy, Debug, PartialEq, Eq)]
pub enum NotAssembled {
    /// A line has a fault.
    WrongText {
        /// The line, from 1.
        line: usize,
        /// What is wrong there: the number of `assembler NAME error` in a script.
        cause: u32,
    },
    /// There is no memory.
    NoMemory,
}

impl fmt::Display for NotAssembled {
    fn fmt(&self, to: &mut fmt::Formatter<'_>) -> fmt::Result {
        match self {
            NotAssembled::WrongText { line, cause } => {
                write!(to, "the text means no code: error {cause} in line {line}")
            }
            NotAssembled::NoMemory => to.write_str("out of memory"),
        }
    }
}

impl std::error::Error for NotAssembled {}

#[cfg(test)]
mod tests {
    use super::Error;

    /// Each status of the header that a call here may answer is an error of its own, whose words are those of the header.
    #[test]
    fn errors_are_the_statuses_of_the_header() {
        let header = include_str!("../../c/edgebpf.h");
        let told = header.split("words[] = {").nth(1).unwrap().split("};").next().unwrap();
        // Each line has one status, and one that no call returns has no words.
        let words: Vec<&str> = told.trim().lines().map(|line| line.split('"').nth(1).unwrap_or("")).collect();
        for (status, error) in [
            (1, Error::NoMemory),
            (4, Error::VertexCount),
            (6, Error::TooManyEdits),
            (7, Error::LogFull),
            (9, Error::Lengths),
            (11, Error::RecordLength),
            (12, Error::CodeLength),
            (13, Error::ArgumentLength),
            (17, Error::EpochsFull),
            (18, Error::TableLength),
            (20, Error::Progress),
            (21, Error::NotSorted),
        ] {
            assert_eq!((Error::of(status), error.to_string().as_str()), (error, words[status as usize]));
        }
        assert_eq!((Error::of(5), Error::of(8)), (Error::VertexRange, Error::Unknown(8)));
    }
}
