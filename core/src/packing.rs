//! The packed files of a hang and a pattern, and the table of names beside them.

use crate::document::{Document, Hang, Notes, Pattern};
use crate::names::Names;
use crate::names_file;
use crate::packed::change::Changes;
use crate::packed::edge::FileFault;
use crate::packed::graph::Graph;
use crate::packed::plan::Plan;
use crate::packed::query::Query;
use crate::text::fault::Place;
use crate::write;

/// What packed files hold. Each may be missing, but a plan has its query, and changes have their graph.
#[derive(Clone, Debug, Default, PartialEq, Eq)]
pub struct Packed {
    pub graph: Option<Graph>,
    pub query: Option<Query>,
    pub plan: Option<Plan>,
    pub changes: Option<Changes>,
}

/// The bytes of the files, of those that there are.
pub type Files = [Option<Vec<u8>>; 4];

impl Packed {
    /// The files of graph, query, plan and changes.
    pub const FILES: [&'static str; 4] = ["g.bin", "q.bin", "p.bin", "c.bin"];

    /// The table of names beside them.
    pub const NAMES: &'static str = "names.txt";

    /// A document's hang and changes, and one of its patterns.
    pub fn of(document: &Document, pattern: Option<&Pattern>) -> Packed {
        Packed {
            graph: document.hang.as_ref().map(|hang| hang.graph.clone()),
            query: pattern.map(|p| p.query.clone()),
            plan: pattern.and_then(|p| p.plan.clone()),
            changes: document.changes.clone(),
        }
    }

    pub fn to_files(&self) -> Files {
        [
            self.graph.as_ref().map(Graph::to_bytes),
            self.query.as_ref().map(Query::to_bytes),
            self.plan.as_ref().map(Plan::to_bytes),
            self.changes.as_ref().map(Changes::to_bytes),
        ]
    }

    /// What the files hold, or a malformed one and its fault.
    pub fn from_files(files: Files) -> Result<Self, (&'static str, FileFault)> {
        let [g, q, p, c] = files;
        let of = |i: usize| move |fault| (Packed::FILES[i], fault);
        let graph = g.map(|bytes| Graph::from_bytes(&bytes));
        let graph = graph.transpose().map_err(of(0))?;
        let query = q.map(|bytes| Query::from_bytes(&bytes));
        let query = query.transpose().map_err(of(1))?;
        let plan = p.map(|bytes| match &query {
            Some(query) => Plan::from_bytes(&bytes, query),
            None => Err(FileFault::new(6, "there is no q.bin beside it")),
        });
        let plan = plan.transpose().map_err(of(2))?;
        let changes = c.map(|bytes| match &graph {
            Some(graph) => Changes::from_bytes(&bytes, graph),
            None => Err(FileFault::new(1, "there is no g.bin beside it")),
        });
        let changes = changes.transpose().map_err(of(3))?;
        Ok(Packed { graph, query, plan, changes })
    }

    /// A document of what the files hold, without names.
    pub fn into_document(self) -> Document {
        let hang = self.graph.map(|graph| {
            let mut names = Names::default();
            names.add_unnamed(graph.vertices.len());
            Hang { graph, names, numbered_days: Vec::new(), notes: Notes::default(), from_tables: false }
        });
        let plan = self.plan;
        let pattern = self.query.map(|query| {
            let mut names = Names::default();
            names.add_unnamed(query.vertices.len());
            Pattern {
                name: None,
                sentence: None,
                query,
                names,
                numbered_days: Vec::new(),
                plan,
                expect: None,
                place: Place { text: 0, start: 0, end: 0 },
                fault: None,
                plan_fault: None,
            }
        });
        Document { hang, patterns: pattern.into_iter().collect(), changes: self.changes, ..Document::default() }
    }

    /// The text form, with names where there is a table of them; or what is wrong with that.
    pub fn to_text(self, names: Option<&[u8]>) -> Result<String, String> {
        let mut document = self.into_document();
        if let Some(bytes) = names {
            let text = std::str::from_utf8(bytes).map_err(|_| "it is not UTF-8".to_string())?;
            names_file::apply(&mut document, text)?;
        }
        Ok(write::document(&document))
    }
}
