//! The proved engine, by the wrapper of its static library.

use library::Cache;
use rizhavaan_core::engine::{Answer, Bounds, Counted, Engine, Lent, Record, Refusal};

/// The static library.
pub struct Library;

fn refused(refusal: library::Refusal) -> Refusal {
    Refusal(refusal.number())
}

fn answer(run: library::Run) -> Answer {
    Answer { rows: run.rows as u64, cost: run.cost, build: run.build, probe: run.probe }
}

impl Engine for Library {
    fn load(&self, file: &[u8], store: &mut [u32]) -> Result<(u64, u64), Refusal> {
        let loaded = library::load_into(file, store).map_err(refused)?;
        Ok((loaded.vertices as u64, loaded.edges as u64))
    }

    fn apply_changes(&self, old: &[u32], changes: &[u8], store: &mut [u32]) -> Result<(u64, u64), Refusal> {
        let edited = library::apply_changes_into(old, changes, store).map_err(refused)?;
        Ok((edited.vertices as u64, edited.edges as u64))
    }

    fn draw_plan(&self, store: &[u32], query: &[u8], plan: &mut [u8]) -> Result<u64, Refusal> {
        library::draw_plan_into(store, query, plan).map(|bytes| bytes as u64).map_err(refused)
    }

    fn bounds(&self, store: &[u32], query: &[u8], plan: &[u8]) -> Result<Bounds, Refusal> {
        let library::Bounds { list_words, scratch_words, cost, largest } =
            library::bounds(store, query, plan).map_err(refused)?;
        Ok(Bounds { list_words, scratch_words, cost, largest })
    }

    fn orderings(&self, store: &[u32], query: &[u8], scratch: &mut [u32], words: &mut [u32]) -> Result<u64, Refusal> {
        library::orderings_into(store, query, scratch, words).map(|plans| plans as u64).map_err(refused)
    }

    fn page(&self, list: &[u32], width: usize, rows: usize, page: u64, bytes: &mut [u8]) -> Result<u64, Refusal> {
        library::page_into(list, width, rows, page as usize, bytes).map(|pages| pages as u64).map_err(refused)
    }

    fn count(&self, store: &[u32], query: &[u8], plan: &[u8], scratch: &mut [u32]) -> Option<Result<Counted, Refusal>> {
        let counted = library::count(store, query, plan, Cache::On, scratch).map_err(refused);
        Some(counted.map(|counted| Counted { answer: answer(counted.run), need: counted.need as u64 }))
    }

    fn run(&self, store: &[u32], query: &[u8], plan: &[u8], lent: Lent) -> Result<Answer, Refusal> {
        let mut records = vec![library::Record::default(); lent.records.len()];
        let ran =
            library::run(store, query, plan, Cache::On, lent.scratch, lent.list, &mut records).map_err(refused)?;
        for (record, made) in lent.records.iter_mut().zip(records) {
            *record = Record { rows: made.rows, cost: made.cost };
        }
        Ok(answer(ran))
    }
}
