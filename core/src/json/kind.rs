//! Kinds and days as JSON.

use serde::ser::{Serialize, Serializer};
use serde_json::{json, Value};

use crate::day::{Day, Days};
use crate::kinds::Kinds;

/// A kind by its name, or by its number where it has none; 0 is none.
pub struct Kind<'d> {
    pub kinds: &'d Kinds,
    pub label: u32,
}

impl Serialize for Kind<'_> {
    fn serialize<S: Serializer>(&self, serializer: S) -> Result<S::Ok, S::Error> {
        match (self.label, self.kinds.name(self.label)) {
            (0, _) => serializer.serialize_unit(),
            (_, Some(name)) => serializer.serialize_str(name),
            (number, None) => serializer.serialize_u32(number),
        }
    }
}

/// A day as a date, or as the number that the text has.
pub fn day(day: Day, numbered: bool) -> Value {
    if numbered || day == Day::NONE {
        return day.0.into();
    }
    day.to_string().into()
}

/// A range of days; null where every day is in it.
pub fn days(days: Days, numbered: bool) -> Value {
    let end = |at: Day, open: Day| if at == open { Value::Null } else { day(at, numbered) };
    match days {
        Days::ALL => Value::Null,
        Days { first, last } => json!({ "first": end(first, Days::ALL.first), "last": end(last, Days::ALL.last) }),
    }
}

/// The names of kinds in their order, then numbers that have no name; and the index of each number among them.
pub struct Listed<'d> {
    kinds: &'d Kinds,
    labels: Vec<u32>,
}

impl<'d> Listed<'d> {
    pub fn of(kinds: &'d Kinds, used: impl Iterator<Item = u32>) -> Listed<'d> {
        let mut labels: Vec<u32> = kinds.iter().map(|(_, number)| number).collect();
        let mut others = vec![false; 65_536];
        for label in used.filter(|&label| label != 0) {
            others[label as usize] = true;
        }
        labels.extend(
            (0..).zip(&others).filter(|&(label, is_used)| *is_used && kinds.name(label).is_none()).map(|(l, _)| l),
        );
        Listed { kinds, labels }
    }

    /// The index of each label that is listed.
    pub fn indices(&self) -> Vec<u32> {
        let mut indices = vec![0; 65_536];
        for (i, &label) in (0..).zip(&self.labels) {
            indices[label as usize] = i;
        }
        indices
    }
}

impl Serialize for Listed<'_> {
    fn serialize<S: Serializer>(&self, serializer: S) -> Result<S::Ok, S::Error> {
        serializer.collect_seq(self.labels.iter().map(|&label| Kind { kinds: self.kinds, label }))
    }
}
