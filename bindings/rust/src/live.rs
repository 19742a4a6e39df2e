//! A graph that one thread edits and others read.
use crate::batch::{Batch, Feed};
use crate::error::Error;
use crate::store::{Change, Store};
use crate::version::Version;
use crate::MOST_BATCHES;
use std::sync::{Mutex, MutexGuard, PoisonError};

/// So many batches, or edits, come between two rebases, if a host names no others.
const REBASE_BATCHES: u64 = 1_000;
const REBASE_EDITS: u64 = 1 << 22;

/// A graph of which threads read the last version while one at a time edits it. It rebases by itself.
/// It has no end, as there is none to rebases.
#[derive(Debug)]
pub struct Live {
    writer: Mutex<Writer>,
    /// How many batches made the last version, and the version.
    latest: Mutex<(u64, Version)>,
}

#[derive(Debug)]
struct Writer {
    store: Store,
    batches: u64,
    edits: u64,
    /// How many batches there were before the last rebase, and since then, with how many edits.
    before: u64,
    since: u64,
    edited: u64,
}

/// A lock, also after a thread that held it panicked: nothing that it guards is ever half changed.
fn locked<T>(mutex: &Mutex<T>) -> MutexGuard<'_, T> {
    mutex.lock().unwrap_or_else(PoisonError::into_inner)
}

impl Live {
    /// A graph without an edge, which is rebased after 1,000 batches or 4,194,304 edits. The errors of `Store::new`.
    pub fn new(vertices: u32) -> Result<Live, Error> {
        Live::with_rebases(vertices, REBASE_BATCHES, REBASE_EDITS)
    }

    /// A graph that is rebased after so many batches, 1 to 4,096, or so many edits. Numbers outside are taken for the nearest.
    pub fn with_rebases(vertices: u32, batches: u64, edits: u64) -> Result<Live, Error> {
        Live::over(Store::new(vertices)?, batches, edits)
    }

    /// A graph of its own that begins with a version's, as a branch of it does. It is rebased as that of `new`. `NoMemory`.
    pub fn of(version: &Version) -> Result<Live, Error> {
        Live::over(Store::of(version)?, REBASE_BATCHES, REBASE_EDITS)
    }

    fn over(store: Store, batches: u64, edits: u64) -> Result<Live, Error> {
        let latest = Mutex::new((0, store.pin()?));
        let batches = batches.clamp(1, MOST_BATCHES);
        let writer = Writer { store, batches, edits: edits.max(1), before: 0, since: 0, edited: 0 };
        Ok(Live { writer: Mutex::new(writer), latest })
    }

    /// Applies a batch, as `Store::apply` does. `number` of its `Change` counts all batches of this graph. `Error::NotShown` where the
    /// batch was applied, and there was no memory to show its version before the next one.
    pub fn apply(&self, feed: Feed, batch: &Batch) -> Result<Change, Error> {
        let writer = &mut *locked(&self.writer);
        if writer.since >= writer.batches || writer.edited >= writer.edits {
            self.forget(writer)?;
        }
        let change = writer.store.apply(feed, batch)?;
        writer.since += 1;
        writer.edited += batch.len() as u64;
        self.show(writer)?;
        Ok(Change { number: writer.before + writer.since, ..change })
    }

    /// The last version, which stays as it is while batches come. It waits for no batch. `NoMemory`.
    pub fn latest(&self) -> Result<Version, Error> {
        Ok(self.numbered()?.1)
    }

    /// How many batches of this graph made the last version, and the version, whose own `number` counts those since a rebase.
    pub fn numbered(&self) -> Result<(u64, Version), Error> {
        let latest = locked(&self.latest);
        Ok((latest.0, latest.1.share()?))
    }

    /// Makes room for batches. Without memory for that the next batch tries it again, as long as there is room for batches.
    fn forget(&self, writer: &mut Writer) -> Result<(), Error> {
        match writer.store.rebase() {
            Ok(_) => {
                writer.before += writer.since;
                writer.since = 0;
                writer.edited = 0;
                // The graph is the same, so readers may have the version before until the batch is shown, which is not applied yet.
                let _ = self.show(writer);
                Ok(())
            }
            Err(Error::NoMemory) if writer.since < MOST_BATCHES => Ok(()),
            Err(error) => Err(error),
        }
    }

    fn show(&self, writer: &Writer) -> Result<(), Error> {
        let version = writer.store.pin().map_err(|_| Error::NotShown)?;
        let before = std::mem::replace(&mut *locked(&self.latest), (writer.before + writer.since, version));
        // What it holds is dropped outside of the lock.
        drop(before);
        Ok(())
    }
}
