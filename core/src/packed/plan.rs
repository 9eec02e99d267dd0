//! The plan file: operator count (5 bits), then operators of a kind (2 bits): 0 scan with a query
//! edge's index (5), 1 extend with a query vertex (3), 2 join with nothing more.

use std::ops::RangeInclusive;

use crate::packed::bits::{BitReader, BitWriter};
use crate::packed::edge::FileFault;
use crate::packed::query::Query;

#[derive(Clone, Copy, Debug, PartialEq, Eq)]
pub enum Operator {
    /// A query edge's index.
    Scan(u32),
    /// A query vertex.
    Extend(u32),
    Join,
}

/// Operators in postfix order, whose edges and vertices the query has.
#[derive(Clone, Debug, PartialEq, Eq)]
pub struct Plan {
    pub operators: Vec<Operator>,
}

impl Plan {
    pub const OPERATORS: RangeInclusive<usize> = 1..=31;

    pub fn to_bytes(&self) -> Vec<u8> {
        let mut out = BitWriter::default();
        out.put(self.operators.len() as u32, 5);
        for &operator in &self.operators {
            match operator {
                Operator::Scan(edge) => {
                    out.put(0, 2);
                    out.put(edge, 5);
                }
                Operator::Extend(vertex) => {
                    out.put(1, 2);
                    out.put(vertex, 3);
                }
                Operator::Join => out.put(2, 2),
            }
        }
        out.finish()
    }

    /// The plan of a file for a query, or the first fault in the engine's order. Whether the plan
    /// keeps the operators' rules is not asked.
    pub fn from_bytes(bytes: &[u8], query: &Query) -> Result<Self, FileFault> {
        let mut file = BitReader::new(bytes);
        let count = take(&mut file, 5)?;
        if count == 0 {
            return Err(FileFault::new(14, "no operator"));
        }
        let operators = (0..count).map(|_| operator(&mut file, query)).collect::<Result<_, _>>()?;
        if file.is_long() {
            return Err(FileFault::new(13, "the file is too long"));
        }
        if file.has_fill_set() {
            return Err(FileFault::new(13, "a fill bit is set"));
        }
        Ok(Plan { operators })
    }
}

fn take(file: &mut BitReader, width: u32) -> Result<u32, FileFault> {
    file.take(width).ok_or_else(|| FileFault::new(12, "the file is too short"))
}

fn operator(file: &mut BitReader, query: &Query) -> Result<Operator, FileFault> {
    match take(file, 2)? {
        0 => match take(file, 5)? {
            i if (i as usize) < query.edges.len() => Ok(Operator::Scan(i)),
            i => Err(FileFault::new(14, format!("scan {i}: no such edge"))),
        },
        1 => match take(file, 3)? {
            v if (v as usize) < query.vertices.len() => Ok(Operator::Extend(v)),
            v => Err(FileFault::new(14, format!("extend {v}: no such vertex"))),
        },
        2 => Ok(Operator::Join),
        _ => Err(FileFault::new(14, "an operator of kind 3")),
    }
}
