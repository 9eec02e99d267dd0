//! From a document to the places of its patterns.

use std::sync::Arc;

use crate::document::{Document, Hang, Pattern};
use crate::engine::{count_growing, run_growing, store_words, Counted, Engine, First, Ran, Record, PAGE_BYTES};
use crate::failure::Failure;
use crate::packed::edge::Edge;
use crate::packed::graph::Graph;
use crate::packed::pair::Pair;
use crate::packed::plan::Plan;
use crate::packed::query::Query;
use crate::picker::Picked;
use crate::plans::{instead, Choice, Known, Origin, Planned};
use crate::symmetry;
use crate::verify;

/// How to look for a pattern.
#[derive(Clone, Copy, Debug)]
pub struct Options {
    pub plan: Choice,
    /// Mirror images are listed once.
    pub once: bool,
    /// Bytes that scratch and list may take together.
    pub memory: usize,
    /// The rows need no test, only their number is wanted. Where the engine counts, they are not listed, and there are no records.
    pub count_only: bool,
}

impl Default for Options {
    fn default() -> Options {
        Options { plan: Choice::Best, once: false, memory: 1 << 30, count_only: false }
    }
}

/// A hang that was loaded.
pub struct Loaded<'d> {
    pub document: &'d Document,
    pub hang: &'d Hang,
    pub(crate) kept: Arc<Kept>,
}

/// What a loaded hang has beside its document: who keeps both has it loaded again at no cost.
pub struct Kept {
    store: Vec<u32>,
    /// The connections that the store has, where they are not the document's.
    edges: Option<Vec<Edge>>,
    pub(crate) known: Known,
}

/// The places of a pattern.
#[derive(Clone, Debug)]
pub struct Found {
    pub pattern: Pattern,
    /// The pattern as it was run, with the pairs that were added.
    pub query: Query,
    /// Pairs that were added so that mirror images are listed once.
    pub added: Vec<Pair>,
    /// How often each place stands in the list.
    pub images: usize,
    pub plan: Plan,
    pub plan_bytes: Vec<u8>,
    pub origin: Origin,
    /// What was thought of a picked plan before it ran.
    pub estimate: Option<Picked>,
    /// How many rows there are.
    places: usize,
    pub rows: Vec<u32>,
    pub cost: u64,
    pub build: u64,
    pub probe: u64,
    pub records: Vec<Record>,
}

impl Found {
    pub fn width(&self) -> usize {
        self.query.vertices.len()
    }

    /// How many rows there are.
    pub fn places(&self) -> usize {
        self.places
    }

    /// A page of the rows, as they are printed by numbers, and how many pages there are.
    pub fn page(&self, engine: &dyn Engine, page: u64) -> Result<(Vec<u8>, u64), Failure> {
        let mut bytes = vec![0; PAGE_BYTES];
        let filled = engine.page(&self.rows, self.width(), self.places(), page, &mut bytes);
        let pages = filled.map_err(|refusal| Failure::Refused { what: "a page", refusal })?;
        Ok((bytes, pages))
    }

    pub fn rows(&self) -> std::slice::ChunksExact<'_, u32> {
        self.rows.chunks_exact(self.width())
    }

    /// The same with some of its rows.
    pub fn part(&self, rows: Vec<u32>) -> Found {
        Found {
            places: rows.len() / self.width(),
            rows,
            pattern: self.pattern.clone(),
            query: self.query.clone(),
            added: self.added.clone(),
            plan: self.plan.clone(),
            plan_bytes: self.plan_bytes.clone(),
            estimate: self.estimate.clone(),
            records: self.records.clone(),
            ..*self
        }
    }
}

/// The hang of a document.
fn hang_of(document: &Document) -> Result<&Hang, Failure> {
    let hang = document.hang.as_ref();
    hang.ok_or_else(|| Failure::Usage("there is no hang: no [graph] and no table of items".into()))
}

impl<'d> Loaded<'d> {
    /// Loads the hang of a document.
    pub fn load(engine: &dyn Engine, document: &'d Document) -> Result<Loaded<'d>, Failure> {
        let hang = hang_of(document)?;
        let bytes = hang.graph.to_bytes();
        verify::graph(&bytes, &hang.graph).map_err(Failure::Check)?;
        let (n, m) = (hang.graph.vertices.len(), hang.graph.edges.len());
        let mut store = vec![0; store_words(n, m)];
        let loaded = engine.load(&bytes, &mut store);
        let counts = loaded.map_err(|refusal| Failure::Refused { what: "the hang", refusal })?;
        if counts != (n as u64, m as u64) {
            return Err(Failure::Check(format!("of {n} items and {m} connections the engine loaded {counts:?}")));
        }
        Ok(Loaded { document, hang, kept: Arc::new(Kept { store, edges: None, known: Known::default() }) })
    }

    /// A hang that was loaded before, by its document and what was kept of it then.
    pub fn again(document: &'d Document, kept: &Arc<Kept>) -> Result<Loaded<'d>, Failure> {
        Ok(Loaded { document, hang: hang_of(document)?, kept: kept.clone() })
    }

    pub fn kept(&self) -> Arc<Kept> {
        self.kept.clone()
    }

    /// The hang after the changes of the document.
    pub fn changed(&self, engine: &dyn Engine) -> Result<Loaded<'d>, Failure> {
        let document = self.document;
        let changes = match &document.changes {
            Some(changes) => changes,
            None => return Err(Failure::Usage("there are no [changes]".into())),
        };
        if let Some(fault) = &document.changes_fault {
            return Err(Failure::At(Box::new(fault.clone())));
        }
        let bytes = changes.to_bytes();
        let unpacked = crate::packed::change::Changes::from_bytes(&bytes, &self.hang.graph);
        if unpacked.ok().as_ref() != Some(changes) {
            return Err(Failure::Check("the packed changes unpack to others".into()));
        }
        let edges = changes.applied(self.edges());
        let mut store = vec![0; store_words(self.hang.graph.vertices.len(), edges.len())];
        let applied = engine.apply_changes(self.store(), &bytes, &mut store);
        let counts = applied.map_err(|refusal| Failure::Refused { what: "the changes", refusal })?;
        let expected = (self.hang.graph.vertices.len() as u64, edges.len() as u64);
        if counts != expected {
            return Err(Failure::Check(format!(
                "the changed hang has {counts:?} items and connections, not {expected:?}"
            )));
        }
        let kept = Kept { store, edges: Some(edges), known: Known::default() };
        Ok(Loaded { document, hang: self.hang, kept: Arc::new(kept) })
    }

    /// The hang after the changes of the document as one of its own: a document without changes, and what is
    /// kept of it.
    pub fn changed_document(&self, engine: &dyn Engine) -> Result<(Document, Arc<Kept>), Failure> {
        let after = self.changed(engine)?;
        let mut document = self.document.clone();
        if let Some(hang) = &mut document.hang {
            hang.graph = after.graph();
        }
        document.changes = None;
        document.changes_fault = None;
        Ok((document, after.kept()))
    }

    /// The graph that was loaded.
    pub fn graph(&self) -> Graph {
        Graph { vertices: self.hang.graph.vertices.clone(), edges: self.edges().to_vec() }
    }

    pub fn edges(&self) -> &[Edge] {
        self.kept.edges.as_ref().unwrap_or(&self.hang.graph.edges)
    }

    /// The words of the store.
    pub fn store(&self) -> &[u32] {
        &self.kept.store
    }

    /// Finds the places of a pattern, and tests them.
    pub fn find(&self, engine: &dyn Engine, pattern: &Pattern, options: &Options) -> Result<Found, Failure> {
        self.find_by(engine, pattern, options, options.count_only)
    }

    /// Finds the places of a pattern, always by a run, which records what each operator did.
    pub fn find_recorded(&self, engine: &dyn Engine, pattern: &Pattern, options: &Options) -> Result<Found, Failure> {
        self.find_by(engine, pattern, options, false)
    }

    fn find_by(
        &self,
        engine: &dyn Engine,
        pattern: &Pattern,
        options: &Options,
        counts: bool,
    ) -> Result<Found, Failure> {
        if let Some(fault) = &pattern.fault {
            return Err(Failure::At(Box::new(fault.clone())));
        }
        let (query, added) = if options.once { once(pattern)? } else { (pattern.query.clone(), Vec::new()) };
        let query_bytes = query.to_bytes();
        verify::query(&query_bytes, &query).map_err(Failure::Check)?;
        let mut planned = self.planned(engine, pattern, &query_bytes, options)?;
        let mut ran = self.run(engine, &query, &query_bytes, &planned, options.memory, counts);
        if let Some(origin) = instead(&planned, &ran) {
            planned = self.drawn(engine, &query_bytes, origin)?;
            ran = self.run(engine, &query, &query_bytes, &planned, options.memory, counts);
        }
        let (plan, ran) = ran?;
        if !options.count_only {
            let mut test = verify::Rows::new(self.document, self.hang, pattern, &query, self.edges());
            test.test(&ran.list).map_err(Failure::Check)?;
        }
        let images = symmetry::exchanges(&query).len();
        Ok(Found {
            pattern: pattern.clone(),
            added,
            images,
            records: ran.records.into_iter().take(plan.operators.len()).collect(),
            query,
            plan,
            plan_bytes: planned.bytes,
            origin: planned.origin,
            estimate: planned.estimate,
            places: ran.answer.rows as usize,
            rows: ran.list,
            cost: ran.answer.cost,
            build: ran.answer.build,
            probe: ran.answer.probe,
        })
    }

    /// Runs a plan that unpacks, or counts its rows where they are only counted.
    fn run(
        &self,
        engine: &dyn Engine,
        query: &Query,
        query_bytes: &[u8],
        planned: &Planned,
        memory: usize,
        counts: bool,
    ) -> Result<(Plan, Ran), Failure> {
        let plan = verify::plan(&planned.bytes, query).map_err(Failure::Check)?;
        let width = query.vertices.len();
        let (store, plan_bytes) = (self.store(), &planned.bytes);
        let first = match engine.bounds(store, query_bytes, plan_bytes) {
            Ok(bounds) => planned.first().bounded(&bounds),
            // Where they are refused, so is the run.
            Err(_) => planned.first(),
        };
        let counted = match counts {
            true => count_growing(engine, store, query_bytes, plan_bytes, memory, first),
            false => None,
        };
        let ran = match counted {
            Some(counted) => {
                counted.map(|Counted { answer, .. }| Ran { answer, list: Vec::new(), records: Vec::new() })
            }
            None => run_growing(engine, store, query_bytes, plan_bytes, width, memory, first),
        };
        Ok((plan, ran.map_err(|no_run| Failure::run(no_run, memory))?))
    }

    /// The words of scratch that a run of what was found needs, where the engine counts.
    pub fn need(&self, engine: &dyn Engine, found: &Found, memory: usize) -> Option<u64> {
        let query = found.query.to_bytes();
        let counted = count_growing(engine, self.store(), &query, &found.plan_bytes, memory, First::default());
        counted?.ok().map(|counted| counted.need)
    }
}

/// The query with pairs that leave each place once, and these pairs.
pub fn once(pattern: &Pattern) -> Result<(Query, Vec<Pair>), Failure> {
    let added = symmetry::pairs(&pattern.query);
    let mut query = pattern.query.clone();
    query.pairs.extend(&added);
    query.pairs.sort_unstable();
    let most = *Query::LIMITS.pairs.end();
    if query.pairs.len() > most {
        let reason = format!("'{}' would need {} pairs, of {most} at most", pattern.title(), query.pairs.len());
        return Err(Failure::Usage(reason));
    }
    Ok((query, added))
}

/// How many places, in words.
pub fn places(count: usize) -> String {
    match count {
        1 => "1 place".into(),
        n => format!("{n} places"),
    }
}

/// The patterns of these names, or all of them where there are no names.
pub fn chosen<'d>(document: &'d Document, names: &[String]) -> Result<Vec<&'d Pattern>, Failure> {
    if document.patterns.is_empty() {
        return Err(Failure::Usage("there is no pattern: no [query]".into()));
    }
    if names.is_empty() {
        return Ok(document.patterns.iter().collect());
    }
    let mut chosen = Vec::new();
    for name in names {
        let found = document.patterns.iter().find(|p| p.title() == name);
        chosen.push(found.ok_or_else(|| {
            let titles = document.patterns.iter().map(Pattern::title);
            let near = crate::near::nearest(name, titles.clone());
            let all: Vec<&str> = titles.collect();
            Failure::Usage(match near {
                Some(near) => format!("there is no pattern '{name}'; did you mean '{near}'?"),
                None => format!("there is no pattern '{name}'; there are {}", all.join(", ")),
            })
        })?);
    }
    Ok(chosen)
}
