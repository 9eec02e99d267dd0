//! The operators of a plan file, and the work that each did in a run.
use crate::{check_plan, Record, Refusal};
use std::fmt;

/// An operator of a plan.
#[derive(Clone, Copy, Debug, PartialEq, Eq, Hash)]
pub enum Operator {
    /// The rows of the query edge of an index.
    Scan(usize),
    /// The top result, extended by a query vertex.
    Extend(usize),
    /// The two top results, joined.
    Join,
}

impl fmt::Display for Operator {
    fn fmt(&self, f: &mut fmt::Formatter<'_>) -> fmt::Result {
        match self {
            Operator::Scan(edge) => f.pad(&format!("scan edge {edge}")),
            Operator::Extend(vertex) => f.pad(&format!("extend vertex {vertex}")),
            Operator::Join => f.pad("join"),
        }
    }
}

/// What an operator did in a run.
#[derive(Clone, Copy, Debug, PartialEq, Eq)]
pub struct Work {
    /// The operator.
    pub operator: Operator,
    /// The rows of its result.
    pub rows: u64,
    /// What it added to the run's cost: nothing but an extend does.
    pub cost: u64,
}

impl Work {
    pub(crate) fn new(operator: Operator, record: Record) -> Work {
        Work { operator, rows: record.rows, cost: record.cost }
    }
}

/// The operators of a plan in its order, where [`check_plan`] accepts it.
pub fn operators<'p>(query: &[u8], plan: &'p [u8]) -> Result<impl Iterator<Item = Operator> + Clone + 'p, Refusal> {
    check_plan(query, plan)?;
    Ok(Operators::of(plan))
}

/// The operators of an accepted plan file, which begins with their number in 5 bits.
#[derive(Clone, Debug)]
pub(crate) struct Operators<'p> {
    file: &'p [u8],
    bit: usize,
    left: usize,
}

impl<'p> Operators<'p> {
    pub(crate) fn of(file: &'p [u8]) -> Operators<'p> {
        let mut operators = Operators { file, bit: 0, left: 0 };
        operators.left = operators.field(5);
        operators
    }

    fn field(&mut self, width: usize) -> usize {
        let bits = self.bit..self.bit + width;
        self.bit = bits.end;
        bits.fold(0, |number, bit| number << 1 | usize::from(self.file[bit / 8] >> (7 - bit % 8) & 1))
    }
}

impl Iterator for Operators<'_> {
    type Item = Operator;

    fn next(&mut self) -> Option<Operator> {
        self.left = self.left.checked_sub(1)?;
        Some(match self.field(2) {
            0 => Operator::Scan(self.field(5)),
            1 => Operator::Extend(self.field(3)),
            _ => Operator::Join,
        })
    }
}
