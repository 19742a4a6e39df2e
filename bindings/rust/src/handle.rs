//! What the library hands out.
use crate::calls::{edgebpf_close, RawHandle};
use std::cell::UnsafeCell;
use std::ptr::null_mut;

/// A handle, closed once, where it is dropped.
///
/// During a call the library takes out what the handle holds, so a handle is used by one call at a time: it is no `Sync`. It may be
/// moved to another thread between calls.
#[derive(Debug)]
pub(crate) struct Handle(UnsafeCell<RawHandle>);

// SAFETY: what a handle holds belongs to no thread: the header asks only that one call at a time uses it.
unsafe impl Send for Handle {}

impl Handle {
    pub(crate) fn empty() -> Self {
        Handle(UnsafeCell::new(RawHandle(null_mut())))
    }

    /// The handle for a call. Nothing refers to it afterwards.
    pub(crate) fn at(&self) -> *mut RawHandle {
        self.0.get()
    }
}

impl Drop for Handle {
    fn drop(&mut self) {
        // SAFETY: the handle is empty or was written by the library, and nobody uses it any more.
        unsafe { edgebpf_close(self.0.get()) }
    }
}
