//! The functions of the header `bindings/c/edgebpf_algorithms.h`, which says what each does, and its structures.
use crate::algorithms::Failure;
use crate::calls::{edgebpf_version_degree, edgebpf_version_has_edge, edgebpf_version_lend_from, RawHandle, RawSlice};
use crate::error::done;
use crate::version::Version;
use std::ffi::c_int;
use std::marker::PhantomData;

#[repr(C)]
pub(super) struct RawGraph {
    pub(super) starts: *const u64,
    pub(super) targets: *const u32,
    pub(super) vertices: u32,
}

/// A version, and the calls by which its lists are read.
#[repr(C)]
pub(super) struct Lender<'a> {
    lend_from: unsafe extern "C" fn(*mut RawHandle, u32, u32, *mut RawSlice, usize, *mut usize) -> u32,
    degree: unsafe extern "C" fn(*mut RawHandle, u32, *mut u32) -> u32,
    has_edge: unsafe extern "C" fn(*mut RawHandle, u32, u32, *mut u32) -> u32,
    version: *mut RawHandle,
    status: u32,
    borrowed: PhantomData<&'a Version>,
}

impl<'a> Lender<'a> {
    pub(super) fn of(version: &'a Version) -> Self {
        Lender {
            lend_from: edgebpf_version_lend_from,
            degree: edgebpf_version_degree,
            has_edge: edgebpf_version_has_edge,
            version: version.0.at(),
            status: 0,
            borrowed: PhantomData,
        }
    }

    /// An error where a list could not be read.
    pub(super) fn answered(&self) -> Result<(), Failure> {
        Ok(done(self.status)?)
    }
}

#[repr(C)]
pub(super) struct RawQueue {
    pub(super) vertices: *mut u32,
    pub(super) at: usize,
    pub(super) end: usize,
}

#[repr(C)]
#[derive(Clone, Default)]
pub(super) struct RawSearch {
    todo: u32,
    todo_last: u32,
    done: u32,
    done_last: u32,
    up: u32,
    place: u32,
}

#[repr(C)]
pub(super) struct RawSplit {
    pub(super) searches: *mut RawSearch,
    pub(super) ring: *mut u32,
    pub(super) owner: *mut u32,
    pub(super) next: *mut u32,
    pub(super) count: u32,
    pub(super) live: u32,
    pub(super) turn: u32,
}

#[repr(C)]
pub(super) struct RawResiduals {
    pub(super) damping: f64,
    pub(super) unit: f64,
    pub(super) degrees: *const u32,
    pub(super) ranks: *mut f64,
    pub(super) residuals: *mut f64,
    pub(super) queue: *mut u32,
    pub(super) touched: *mut u32,
    pub(super) queued: *mut u8,
    pub(super) is_touched: *mut u8,
    pub(super) vertices: u32,
    pub(super) at: u32,
    pub(super) count: u32,
    pub(super) touched_count: u32,
    pub(super) edges: u64,
}

extern "C" {
    pub(super) fn edgebpf_join_pairs(sources: *const u32, targets: *const u32, count: usize, up: *mut u32);
    pub(super) fn edgebpf_find_parts(up: *mut u32, vertices: *const u32, count: usize, parts: *mut u32);
    pub(super) fn edgebpf_have_edges(
        version: *mut Lender<'_>,
        sources: *const u32,
        targets: *const u32,
        count: usize,
        answers: *mut u8,
    );
    pub(super) fn edgebpf_split_begin(split: *mut RawSplit, seeds: *const u32, count: u32);
    pub(super) fn edgebpf_split_go_on(split: *mut RawSplit, version: *mut Lender<'_>, most: usize) -> usize;
    pub(super) fn edgebpf_split_end(split: *mut RawSplit, fresh: u32, parts: *mut u32) -> u32;
    pub(super) fn edgebpf_label_parts(
        vertices: u32,
        numbers: u32,
        parts: *const u32,
        up: *mut u32,
        least: *mut u32,
        labels: *mut u32,
    );
    pub(super) fn edgebpf_triangles_of(
        version: *mut Lender<'_>,
        sources: *const u32,
        targets: *const u32,
        count: usize,
        from: usize,
        to: usize,
        sign: i64,
        vertices: u32,
        spare: *mut u32,
        each: *mut i64,
    ) -> u64;
    pub(super) fn edgebpf_move_residuals(
        state: *mut RawResiduals,
        version: *mut Lender<'_>,
        changed: *const u32,
        count: usize,
        sign: f64,
    );
    pub(super) fn edgebpf_queue_residuals(state: *mut RawResiduals, times: f64);
    pub(super) fn edgebpf_push_residuals(
        state: *mut RawResiduals,
        version: *mut Lender<'_>,
        times: f64,
        most: usize,
    ) -> usize;
    pub(super) fn edgebpf_search_from(
        graph: *const RawGraph,
        queue: *mut RawQueue,
        count: usize,
        most: u32,
        levels: *mut u32,
        parents: *mut u32,
    );
    pub(super) fn edgebpf_search_lent(
        version: *mut Lender<'_>,
        queue: *mut RawQueue,
        count: usize,
        most: u32,
        levels: *mut u32,
        parents: *mut u32,
    );
    pub(super) fn edgebpf_join_edges(graph: *const RawGraph, from: u32, to: u32, up: *mut u32);
    pub(super) fn edgebpf_name_parts(vertices: u32, up: *mut u32);
    pub(super) fn edgebpf_rank_gives(
        graph: *const RawGraph,
        from: u32,
        to: u32,
        ranks: *const f64,
        gives: *mut f64,
    ) -> f64;
    pub(super) fn edgebpf_rank_spread(graph: *const RawGraph, from: u32, to: u32, gives: *const f64, sums: *mut f64);
    pub(super) fn edgebpf_rank_finish(
        from: u32,
        to: u32,
        damping: f64,
        base: f64,
        start: *const f64,
        old: *const f64,
        sums: *mut f64,
    ) -> f64;
    pub(super) fn edgebpf_fixed_gives(
        graph: *const RawGraph,
        from: u32,
        to: u32,
        damping: u32,
        ranks: *const u64,
        gives: *mut u64,
    ) -> u64;
    pub(super) fn edgebpf_fixed_spread(graph: *const RawGraph, from: u32, to: u32, gives: *const u64, sums: *mut u64);
    pub(super) fn edgebpf_is_mirrored(graph: *const RawGraph, from: u32, to: u32, met: *mut u64) -> c_int;
    pub(super) fn edgebpf_degrees(graph: *const RawGraph, from: u32, to: u32, degrees: *mut u32) -> u32;
    pub(super) fn edgebpf_order_by_degree(
        vertices: u32,
        degrees: *const u32,
        most: u32,
        order: *mut u32,
        place: *mut u32,
        bins: *mut u32,
    );
    pub(super) fn edgebpf_cores(
        graph: *const RawGraph,
        from: u32,
        to: u32,
        cores: *mut u32,
        order: *mut u32,
        place: *mut u32,
        bins: *mut u32,
    );
    pub(super) fn edgebpf_count_up(graph: *const RawGraph, from: u32, to: u32, degrees: *const u32, starts: *mut u64);
    pub(super) fn edgebpf_write_up(
        graph: *const RawGraph,
        from: u32,
        to: u32,
        degrees: *const u32,
        starts: *const u64,
        targets: *mut u32,
    );
    pub(super) fn edgebpf_triangles(up: *const RawGraph, from: u32, to: u32, marks: *mut u32, each: *mut u64);
    pub(super) fn edgebpf_take_independent(graph: *const RawGraph, order: *const u32, count: usize, states: *mut u8);
    pub(super) fn edgebpf_label_round(
        graph: *const RawGraph,
        from: u32,
        to: u32,
        labels: *mut u32,
        votes: *mut u32,
    ) -> usize;
    pub(super) fn edgebpf_pair_scores(
        version: *mut Lender<'_>,
        kind: u32,
        sources: *const u32,
        targets: *const u32,
        count: usize,
        degrees: *const u32,
        vertices: u32,
        spare: *mut u32,
        scores: *mut f64,
    );
    pub(super) fn edgebpf_two_steps(
        version: *mut Lender<'_>,
        kind: u32,
        vertex: u32,
        vertices: u32,
        spare: *mut u32,
        score: *mut f64,
        found: *mut u32,
        numbers: *mut f64,
    ) -> usize;
}
