//! The functions of the header `bindings/c/edgebpf.h`, which says what each does, and its structures.
use std::ffi::c_void;

/// A handle of any kind. Null is the empty one.
#[repr(C)]
pub(crate) struct RawHandle(pub(crate) *mut c_void);

#[repr(C)]
#[derive(Default)]
pub(crate) struct RawChange {
    pub(crate) added: u64,
    pub(crate) removed: u64,
    pub(crate) number: u64,
}

#[repr(C)]
#[derive(Default)]
pub(crate) struct RawInfo {
    pub(crate) number: u64,
    pub(crate) edges: u64,
    pub(crate) epoch: u64,
    pub(crate) vertices: u32,
}

#[repr(C)]
#[derive(Clone, Copy)]
pub(crate) struct RawSlice {
    pub(crate) at: *const u32,
    pub(crate) count: usize,
}

#[repr(C)]
#[derive(Default)]
pub(crate) struct RawVerdict {
    pub(crate) bound: u32,
    pub(crate) frames: u32,
    pub(crate) cause: u32,
    pub(crate) pc: u32,
}

#[repr(C)]
#[derive(Default)]
pub(crate) struct RawAssembled {
    pub(crate) length: usize,
    pub(crate) line: usize,
    pub(crate) cause: u32,
}

#[repr(C)]
#[derive(Default)]
pub(crate) struct RawTotals {
    pub(crate) edges: u64,
    pub(crate) total: u64,
}

/// A number for each vertex.
#[repr(C)]
#[derive(Clone, Copy)]
pub(crate) struct RawColumn {
    pub(crate) at: *const u64,
    pub(crate) count: usize,
}

#[repr(C)]
pub(crate) struct RawProgress {
    pub(crate) budget: u64,
    pub(crate) edges: u64,
    pub(crate) total: u64,
    pub(crate) vertex: u32,
    pub(crate) place: u32,
}

extern "C" {
    pub(crate) fn edgebpf_store_new(vertices: u32, out: *mut RawHandle) -> u32;
    pub(crate) fn edgebpf_store_of(version: *mut RawHandle, out: *mut RawHandle) -> u32;
    pub(crate) fn edgebpf_store_from(
        vertices: u32,
        starts: *const u64,
        start_count: usize,
        targets: *const u32,
        target_count: usize,
        out: *mut RawHandle,
    ) -> u32;
    pub(crate) fn edgebpf_store_apply(
        store: *mut RawHandle,
        feed: u8,
        sources: *const u32,
        source_count: usize,
        targets: *const u32,
        target_count: usize,
        removes: *const u8,
        remove_count: usize,
        change: *mut RawChange,
    ) -> u32;
    pub(crate) fn edgebpf_store_rebase(store: *mut RawHandle, epoch: *mut u64) -> u32;
    pub(crate) fn edgebpf_store_pin(store: *mut RawHandle, out: *mut RawHandle) -> u32;
    pub(crate) fn edgebpf_version_share(version: *mut RawHandle, out: *mut RawHandle) -> u32;
    pub(crate) fn edgebpf_version_info(version: *mut RawHandle, info: *mut RawInfo) -> u32;
    pub(crate) fn edgebpf_version_degree(version: *mut RawHandle, vertex: u32, count: *mut u32) -> u32;
    pub(crate) fn edgebpf_version_has_edge(version: *mut RawHandle, source: u32, target: u32, answer: *mut u32) -> u32;
    pub(crate) fn edgebpf_version_neighbour(
        version: *mut RawHandle,
        vertex: u32,
        place: u32,
        neighbour: *mut u32,
    ) -> u32;
    pub(crate) fn edgebpf_version_lend_from(
        version: *mut RawHandle,
        vertex: u32,
        place: u32,
        slices: *mut RawSlice,
        room: usize,
        lent: *mut usize,
    ) -> u32;
    pub(crate) fn edgebpf_version_copy(
        version: *mut RawHandle,
        starts: *mut u64,
        start_count: usize,
        targets: *mut u32,
        target_count: usize,
    ) -> u32;
    pub(crate) fn edgebpf_version_degrees(
        version: *mut RawHandle,
        frontier: *const u32,
        frontier_count: usize,
        counts: *mut u32,
        count_count: usize,
    ) -> u32;
    pub(crate) fn edgebpf_version_lists(
        version: *mut RawHandle,
        frontier: *const u32,
        frontier_count: usize,
        starts: *mut u64,
        start_count: usize,
        targets: *mut u32,
        room: usize,
        count: *mut usize,
    ) -> u32;
    pub(crate) fn edgebpf_program_new(
        record_length: u16,
        code: *const u8,
        code_length: usize,
        table: *const u8,
        table_length: usize,
        verdict: *mut RawVerdict,
        out: *mut RawHandle,
    ) -> u32;
    pub(crate) fn edgebpf_is_search(
        version: *mut RawHandle,
        root: u32,
        levels: *const u32,
        level_count: usize,
        parents: *const u32,
        parent_count: usize,
        answer: *mut u32,
    ) -> u32;
    pub(crate) fn edgebpf_are_components(
        version: *mut RawHandle,
        labels: *const u32,
        label_count: usize,
        parents: *const u32,
        parent_count: usize,
        steps: *const u32,
        step_count: usize,
        answer: *mut u32,
    ) -> u32;
    pub(crate) fn edgebpf_are_cores(
        version: *mut RawHandle,
        numbers: *const u32,
        number_count: usize,
        places: *const u32,
        place_count: usize,
        answer: *mut u32,
    ) -> u32;
    pub(crate) fn edgebpf_is_independent_set(version: *mut RawHandle, marks: *const u8, mark_count: usize, answer: *mut u32) -> u32;
    pub(crate) fn edgebpf_program_share(program: *mut RawHandle, out: *mut RawHandle) -> u32;
    pub(crate) fn edgebpf_assemble(
        text: *const u8,
        text_length: usize,
        code: *mut u8,
        room: usize,
        assembled: *mut RawAssembled,
    ) -> u32;
    pub(crate) fn edgebpf_explain(
        record_length: u16,
        code: *const u8,
        code_length: usize,
        table: *const u8,
        table_length: usize,
        text: *mut u8,
        room: usize,
        count: *mut usize,
    ) -> u32;
    pub(crate) fn edgebpf_pull(
        version: *mut RawHandle,
        program: *mut RawHandle,
        argument: *const u8,
        argument_length: usize,
        columns: *const RawColumn,
        column_count: usize,
        frontier: *const u32,
        frontier_count: usize,
        reduction: u32,
        values: *mut u64,
        value_count: usize,
        totals: *mut RawTotals,
    ) -> u32;
    pub(crate) fn edgebpf_numbers(
        version: *mut RawHandle,
        program: *mut RawHandle,
        argument: *const u8,
        argument_length: usize,
        numbers: *mut u64,
        number_count: usize,
    ) -> u32;
    pub(crate) fn edgebpf_pull_some(
        version: *mut RawHandle,
        program: *mut RawHandle,
        argument: *const u8,
        argument_length: usize,
        columns: *const RawColumn,
        column_count: usize,
        frontier: *const u32,
        frontier_count: usize,
        reduction: u32,
        at: *mut RawProgress,
        values: *mut u64,
        value_count: usize,
    ) -> u32;
    pub(crate) fn edgebpf_push(
        version: *mut RawHandle,
        program: *mut RawHandle,
        argument: *const u8,
        argument_length: usize,
        columns: *const RawColumn,
        column_count: usize,
        frontier: *const u32,
        frontier_count: usize,
        reduction: u32,
        values: *mut u64,
        value_count: usize,
        totals: *mut RawTotals,
    ) -> u32;
    pub(crate) fn edgebpf_push_some(
        version: *mut RawHandle,
        program: *mut RawHandle,
        argument: *const u8,
        argument_length: usize,
        columns: *const RawColumn,
        column_count: usize,
        frontier: *const u32,
        frontier_count: usize,
        reduction: u32,
        at: *mut RawProgress,
        values: *mut u64,
        value_count: usize,
    ) -> u32;
    pub(crate) fn edgebpf_numbers_of(
        version: *mut RawHandle,
        program: *mut RawHandle,
        argument: *const u8,
        argument_length: usize,
        columns: *const RawColumn,
        column_count: usize,
        frontier: *const u32,
        frontier_count: usize,
        at: *mut RawProgress,
        numbers: *mut u64,
        number_count: usize,
        written: *mut usize,
    ) -> u32;
    pub(crate) fn edgebpf_pairs_of(
        version: *mut RawHandle,
        program: *mut RawHandle,
        argument: *const u8,
        argument_length: usize,
        columns: *const RawColumn,
        column_count: usize,
        sources: *const u32,
        source_count: usize,
        targets: *const u32,
        target_count: usize,
        at: *mut RawProgress,
        numbers: *mut u64,
        number_count: usize,
    ) -> u32;
    pub(crate) fn edgebpf_close(handle: *mut RawHandle);
}
