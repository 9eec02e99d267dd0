//! The functions of the static library, as `rizhavaan.h` gives them.
//!
//! Nothing checks these lines against the Rattle source but the tests. Callers want the safe functions of the crate's root.

/// What a run records of one operator. It is laid out as `struct rizhavaan_record` of `rizhavaan.h`.
#[repr(C)]
#[derive(Clone, Copy, Debug, Default, PartialEq, Eq)]
pub struct Record {
    /// The rows of its result.
    pub rows: u64,
    /// What it added to the run's cost: nothing but an extend does.
    pub cost: u64,
}

extern "C" {
    /// Load. See `rizhavaan.h`.
    ///
    /// # Safety
    /// Each pointer is aligned, not null, and points to as many bytes, words or records as the length after it says, a pointer
    /// with no length to one number. What is written overlaps nothing else that is passed.
    pub fn rizhavaan_load(
        file: *const u8,
        file_len: usize,
        store: *mut u32,
        store_len: usize,
        vertices: *mut u64,
        edges: *mut u64,
    ) -> u32;

    /// Apply changes. See `rizhavaan.h`.
    ///
    /// # Safety
    /// As for [`rizhavaan_load`].
    pub fn rizhavaan_apply_changes(
        old: *const u32,
        old_len: usize,
        changes: *const u8,
        changes_len: usize,
        store: *mut u32,
        store_len: usize,
        vertices: *mut u64,
        edges: *mut u64,
    ) -> u32;

    /// Check plan. See `rizhavaan.h`.
    ///
    /// # Safety
    /// As for [`rizhavaan_load`].
    pub fn rizhavaan_check_plan(
        query: *const u8,
        query_len: usize,
        plan: *const u8,
        plan_len: usize,
        operators: *mut u64,
    ) -> u32;

    /// Draw plan. See `rizhavaan.h`.
    ///
    /// # Safety
    /// As for [`rizhavaan_load`].
    pub fn rizhavaan_draw_plan(
        store: *const u32,
        store_len: usize,
        query: *const u8,
        query_len: usize,
        plan: *mut u8,
        plan_len: usize,
        bytes: *mut u64,
    ) -> u32;

    /// All orderings. See `rizhavaan.h`.
    ///
    /// # Safety
    /// As for [`rizhavaan_load`].
    pub fn rizhavaan_orderings(
        store: *const u32,
        store_len: usize,
        query: *const u8,
        query_len: usize,
        scratch: *mut u32,
        scratch_len: usize,
        words: *mut u32,
        words_len: usize,
        plans: *mut u64,
    ) -> u32;

    /// Bounds. See `rizhavaan.h`.
    ///
    /// # Safety
    /// As for [`rizhavaan_load`].
    pub fn rizhavaan_bounds(
        store: *const u32,
        store_len: usize,
        query: *const u8,
        query_len: usize,
        plan: *const u8,
        plan_len: usize,
        list_words: *mut u64,
        scratch_words: *mut u64,
        cost: *mut u64,
        largest: *mut u64,
    ) -> u32;

    /// Count. See `rizhavaan.h`.
    ///
    /// # Safety
    /// As for [`rizhavaan_load`].
    pub fn rizhavaan_count(
        store: *const u32,
        store_len: usize,
        query: *const u8,
        query_len: usize,
        plan: *const u8,
        plan_len: usize,
        cache: bool,
        scratch: *mut u32,
        scratch_len: usize,
        rows: *mut u64,
        cost: *mut u64,
        build: *mut u64,
        probe: *mut u64,
        need: *mut u64,
    ) -> u32;

    /// Run. See `rizhavaan.h`.
    ///
    /// # Safety
    /// As for [`rizhavaan_load`].
    pub fn rizhavaan_run(
        store: *const u32,
        store_len: usize,
        query: *const u8,
        query_len: usize,
        plan: *const u8,
        plan_len: usize,
        cache: bool,
        scratch: *mut u32,
        scratch_len: usize,
        list: *mut u32,
        list_len: usize,
        records: *mut Record,
        records_len: usize,
        rows: *mut u64,
        cost: *mut u64,
        build: *mut u64,
        probe: *mut u64,
    ) -> u32;

    /// Find. See `rizhavaan.h`.
    ///
    /// # Safety
    /// As for [`rizhavaan_load`].
    pub fn rizhavaan_find(
        store: *const u32,
        store_len: usize,
        query: *const u8,
        query_len: usize,
        plan: *mut u8,
        plan_len: usize,
        cache: bool,
        scratch: *mut u32,
        scratch_len: usize,
        list: *mut u32,
        list_len: usize,
        records: *mut Record,
        records_len: usize,
        bytes: *mut u64,
        rows: *mut u64,
        cost: *mut u64,
        build: *mut u64,
        probe: *mut u64,
    ) -> u32;

    /// Page. See `rizhavaan.h`.
    ///
    /// # Safety
    /// As for [`rizhavaan_load`].
    pub fn rizhavaan_page(
        list: *const u32,
        list_len: usize,
        n: u64,
        rows: u64,
        page: u64,
        bytes: *mut u8,
        bytes_len: usize,
        pages: *mut u64,
    ) -> u32;
}
