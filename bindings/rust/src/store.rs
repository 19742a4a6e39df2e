//! A graph that changes.
use crate::batch::{Batch, Feed};
use crate::calls::{
    edgebpf_store_apply, edgebpf_store_from, edgebpf_store_new, edgebpf_store_of, edgebpf_store_pin, edgebpf_store_rebase,
    RawChange,
};
use crate::error::{done, Error};
use crate::handle::Handle;
use crate::version::Version;

/// A graph that is edited by batches and read in versions.
#[derive(Debug)]
pub struct Store(Handle);

/// What a batch did.
#[derive(Clone, Copy, Debug, PartialEq, Eq)]
pub struct Change {
    /// The number of edges that are new.
    pub added: u64,
    /// The number of edges that are gone.
    pub removed: u64,
    /// The number of the version that the batch made: how many batches there were since the last rebase.
    pub number: u64,
}

impl Store {
    /// A graph without an edge. `VertexCount` unless it has 1 to 268,435,456 vertices, and `NoMemory`.
    pub fn new(vertices: u32) -> Result<Store, Error> {
        let handle = Handle::empty();
        // SAFETY: `at` is an empty handle.
        done(unsafe { edgebpf_store_new(vertices, handle.at()) })?;
        Ok(Store(handle))
    }

    /// A store of edges that are sorted, as `Version::csr` writes them, in one call and without a log: `starts` has for each vertex the
    /// place in `targets` at which its list begins, and after the last one their number, and each list ascends without a target twice.
    /// `VertexCount`; `NotSorted` if they are not so; `VertexRange` if a target is no vertex; tested in this order. `NoMemory`.
    pub fn from_sorted(starts: &[u64], targets: &[u32]) -> Result<Store, Error> {
        let vertices = starts.len().checked_sub(1).and_then(|count| u32::try_from(count).ok());
        let (vertices, handle) = (vertices.ok_or(Error::VertexCount)?, Handle::empty());
        // SAFETY: the slices are as long as said, and `handle` is empty.
        done(unsafe {
            edgebpf_store_from(vertices, starts.as_ptr(), starts.len(), targets.as_ptr(), targets.len(), handle.at())
        })?;
        Ok(Store(handle))
    }

    /// A branch: a store of its own whose graph is that of a version, without its history: it begins with version 0 of epoch 0. No list
    /// is copied, so it takes some microseconds. Nothing that is done to it changes the version, or the store that the version is of.
    /// `NoMemory`.
    pub fn of(version: &Version) -> Result<Store, Error> {
        let handle = Handle::empty();
        // SAFETY: the version's handle was written by the library, and `handle` is empty.
        done(unsafe { edgebpf_store_of(version.0.at(), handle.at()) })?;
        Ok(Store(handle))
    }

    /// Applies a batch, and says what it did. `TooManyEdits`, `VertexRange`, `LogFull` and `NoMemory`; then the store is as it was.
    pub fn apply(&mut self, feed: Feed, batch: &Batch) -> Result<Change, Error> {
        self.apply_arrays(feed, &batch.sources, &batch.targets, &batch.removes)
    }

    /// Applies a batch of edits: the edge from each source to the target at its place, which is taken out where `removes` is set.
    /// Besides the errors of `apply`, `Lengths` where the three have not the same length.
    pub fn apply_arrays(
        &mut self,
        feed: Feed,
        sources: &[u32],
        targets: &[u32],
        removes: &[bool],
    ) -> Result<Change, Error> {
        let mut change = RawChange::default();
        // SAFETY: the slices are as long as said, and a bool is a byte that is 0 or 1.
        done(unsafe {
            edgebpf_store_apply(
                self.0.at(),
                feed.number(),
                sources.as_ptr(),
                sources.len(),
                targets.as_ptr(),
                targets.len(),
                removes.as_ptr().cast(),
                removes.len(),
                &mut change,
            )
        })?;
        Ok(Change { added: change.added, removed: change.removed, number: change.number })
    }

    /// Forgets the batches that made the last version, and says how many rebases there were. The graph stays as it is, numbers begin
    /// again, and there is room for 4,096 batches more. The memory of the forgotten batches is free once no older version is held.
    /// There is no end to rebases; each takes 32 bytes. `NoMemory`; then the store is as it was.
    pub fn rebase(&mut self) -> Result<u64, Error> {
        let mut epoch = 0;
        // SAFETY: the store's handle was written by the library.
        done(unsafe { edgebpf_store_rebase(self.0.at(), &mut epoch) })?;
        Ok(epoch)
    }

    /// The last version, which stays as it is while batches are applied. `NoMemory`.
    pub fn pin(&self) -> Result<Version, Error> {
        let version = Handle::empty();
        // SAFETY: the store's handle was written by the library, and `version` is empty.
        done(unsafe { edgebpf_store_pin(self.0.at(), version.at()) })?;
        Ok(Version(version))
    }
}
