//! The proved engine: the functions of `rizhavaan.h`, linked into this module.
//!
//! A length has 64 bits there on every target, a pointer as many as the target's.

use rizhavaan_core::engine::{Answer, Bounds, Counted, Engine, Lent, Record, Refusal};

extern "C" {
    fn rizhavaan_load(
        file: *const u8,
        file_len: u64,
        store: *mut u32,
        store_len: u64,
        vertices: *mut u64,
        edges: *mut u64,
    ) -> u32;

    fn rizhavaan_apply_changes(
        old: *const u32,
        old_len: u64,
        changes: *const u8,
        changes_len: u64,
        store: *mut u32,
        store_len: u64,
        vertices: *mut u64,
        edges: *mut u64,
    ) -> u32;

    fn rizhavaan_draw_plan(
        store: *const u32,
        store_len: u64,
        query: *const u8,
        query_len: u64,
        plan: *mut u8,
        plan_len: u64,
        bytes: *mut u64,
    ) -> u32;

    fn rizhavaan_run(
        store: *const u32,
        store_len: u64,
        query: *const u8,
        query_len: u64,
        plan: *const u8,
        plan_len: u64,
        cache: bool,
        scratch: *mut u32,
        scratch_len: u64,
        list: *mut u32,
        list_len: u64,
        records: *mut Record,
        records_len: u64,
        rows: *mut u64,
        cost: *mut u64,
        build: *mut u64,
        probe: *mut u64,
    ) -> u32;

    fn rizhavaan_bounds(
        store: *const u32,
        store_len: u64,
        query: *const u8,
        query_len: u64,
        plan: *const u8,
        plan_len: u64,
        list_words: *mut u64,
        scratch_words: *mut u64,
        cost: *mut u64,
        largest: *mut u64,
    ) -> u32;

    fn rizhavaan_orderings(
        store: *const u32,
        store_len: u64,
        query: *const u8,
        query_len: u64,
        scratch: *mut u32,
        scratch_len: u64,
        words: *mut u32,
        words_len: u64,
        plans: *mut u64,
    ) -> u32;

    fn rizhavaan_count(
        store: *const u32,
        store_len: u64,
        query: *const u8,
        query_len: u64,
        plan: *const u8,
        plan_len: u64,
        cache: bool,
        scratch: *mut u32,
        scratch_len: u64,
        rows: *mut u64,
        cost: *mut u64,
        build: *mut u64,
        probe: *mut u64,
        need: *mut u64,
    ) -> u32;

    fn rizhavaan_page(
        list: *const u32,
        list_len: u64,
        n: u64,
        rows: u64,
        page: u64,
        bytes: *mut u8,
        bytes_len: u64,
        pages: *mut u64,
    ) -> u32;
}

/// The engine in this module.
pub struct Library;

/// What the engine answers where it accepts.
const ACCEPTED: u32 = 0;

fn accepted<T>(status: u32, answer: T) -> Result<T, Refusal> {
    match status {
        ACCEPTED => Ok(answer),
        number => Err(Refusal(number)),
    }
}

impl Engine for Library {
    fn load(&self, file: &[u8], store: &mut [u32]) -> Result<(u64, u64), Refusal> {
        let (mut vertices, mut edges) = (0, 0);
        let status = unsafe {
            rizhavaan_load(
                file.as_ptr(),
                file.len() as u64,
                store.as_mut_ptr(),
                store.len() as u64,
                &mut vertices,
                &mut edges,
            )
        };
        accepted(status, (vertices, edges))
    }

    fn apply_changes(&self, old: &[u32], changes: &[u8], store: &mut [u32]) -> Result<(u64, u64), Refusal> {
        let (mut vertices, mut edges) = (0, 0);
        let status = unsafe {
            rizhavaan_apply_changes(
                old.as_ptr(),
                old.len() as u64,
                changes.as_ptr(),
                changes.len() as u64,
                store.as_mut_ptr(),
                store.len() as u64,
                &mut vertices,
                &mut edges,
            )
        };
        accepted(status, (vertices, edges))
    }

    fn draw_plan(&self, store: &[u32], query: &[u8], plan: &mut [u8]) -> Result<u64, Refusal> {
        let mut bytes = 0;
        let status = unsafe {
            rizhavaan_draw_plan(
                store.as_ptr(),
                store.len() as u64,
                query.as_ptr(),
                query.len() as u64,
                plan.as_mut_ptr(),
                plan.len() as u64,
                &mut bytes,
            )
        };
        accepted(status, bytes)
    }

    fn run(&self, store: &[u32], query: &[u8], plan: &[u8], lent: Lent) -> Result<Answer, Refusal> {
        let Lent { scratch, list, records } = lent;
        let mut answer = Answer::default();
        let status = unsafe {
            rizhavaan_run(
                store.as_ptr(),
                store.len() as u64,
                query.as_ptr(),
                query.len() as u64,
                plan.as_ptr(),
                plan.len() as u64,
                true,
                scratch.as_mut_ptr(),
                scratch.len() as u64,
                list.as_mut_ptr(),
                list.len() as u64,
                records.as_mut_ptr(),
                records.len() as u64,
                &mut answer.rows,
                &mut answer.cost,
                &mut answer.build,
                &mut answer.probe,
            )
        };
        accepted(status, answer)
    }

    fn page(&self, list: &[u32], width: usize, rows: usize, page: u64, bytes: &mut [u8]) -> Result<u64, Refusal> {
        let mut pages = 0;
        let status = unsafe {
            rizhavaan_page(
                list.as_ptr(),
                list.len() as u64,
                width as u64,
                rows as u64,
                page,
                bytes.as_mut_ptr(),
                bytes.len() as u64,
                &mut pages,
            )
        };
        accepted(status, pages)
    }

    fn bounds(&self, store: &[u32], query: &[u8], plan: &[u8]) -> Result<Bounds, Refusal> {
        let mut bounds = Bounds { list_words: 0, scratch_words: 0, cost: 0, largest: 0 };
        let status = unsafe {
            rizhavaan_bounds(
                store.as_ptr(),
                store.len() as u64,
                query.as_ptr(),
                query.len() as u64,
                plan.as_ptr(),
                plan.len() as u64,
                &mut bounds.list_words,
                &mut bounds.scratch_words,
                &mut bounds.cost,
                &mut bounds.largest,
            )
        };
        accepted(status, bounds)
    }

    fn orderings(&self, store: &[u32], query: &[u8], scratch: &mut [u32], words: &mut [u32]) -> Result<u64, Refusal> {
        let mut plans = 0;
        let status = unsafe {
            rizhavaan_orderings(
                store.as_ptr(),
                store.len() as u64,
                query.as_ptr(),
                query.len() as u64,
                scratch.as_mut_ptr(),
                scratch.len() as u64,
                words.as_mut_ptr(),
                words.len() as u64,
                &mut plans,
            )
        };
        accepted(status, plans)
    }

    fn count(&self, store: &[u32], query: &[u8], plan: &[u8], scratch: &mut [u32]) -> Option<Result<Counted, Refusal>> {
        let Counted { mut answer, mut need } = Counted::default();
        let status = unsafe {
            rizhavaan_count(
                store.as_ptr(),
                store.len() as u64,
                query.as_ptr(),
                query.len() as u64,
                plan.as_ptr(),
                plan.len() as u64,
                true,
                scratch.as_mut_ptr(),
                scratch.len() as u64,
                &mut answer.rows,
                &mut answer.cost,
                &mut answer.build,
                &mut answer.probe,
                &mut need,
            )
        };
        Some(accepted(status, Counted { answer, need }))
    }
}
