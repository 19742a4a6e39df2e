#![doc = include_str!("../README.md")]
#![deny(missing_debug_implementations, missing_docs, unsafe_op_in_unsafe_fn)]

pub mod algorithms;
mod answers;
mod batch;
mod calls;
mod columns;
mod error;
mod handle;
mod live;
mod program;
mod pushes;
mod steps;
mod store;
mod version;

pub use answers::NOT_FOUND;
pub use batch::{Batch, Feed};
pub use columns::WithColumns;
pub use error::{Error, NotAssembled, Refusal, Refused};
pub use live::Live;
pub use program::{assemble, explain, Program, Verdict};
pub use pushes::Push;
pub use steps::{Numbers, Pairs, Progress, Run};
pub use store::{Change, Store};
pub use version::{Csr, Reduction, Totals, Version};

/// The greatest number of vertices of a graph.
pub const MOST_VERTICES: u32 = 268_435_456;
/// The greatest number of edits of a batch.
pub const MOST_EDITS: usize = 65_536;
/// The greatest number of batches between two rebases.
pub const MOST_BATCHES: u64 = 4_096;
/// The bytes of a record that every edge has. A record's other bytes are the argument of a run.
pub const EDGE_BYTES: usize = 16;
/// The bytes that a record has of each column: the number of the edge's source, and that of its target.
pub const COLUMN_BYTES: usize = 16;
/// The greatest number of columns of a record.
pub const MOST_COLUMNS: usize = 8;

#[cfg(doctest)]
#[doc = include_str!("../../../docs/EMBEDDING.md")]
struct EmbeddingPage;

#[cfg(doctest)]
#[doc = include_str!("../../../docs/ALGORITHMS.md")]
struct AlgorithmsPage;
