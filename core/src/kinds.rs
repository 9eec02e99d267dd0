//! Kinds of items and of connections: their names, and the numbers that the packed files hold for them.

use std::collections::HashMap;
use std::ops::RangeInclusive;

use crate::names::Names;
use crate::text::fault::Place;

/// A kind as it is written: by number, or by a name that was met before.
#[derive(Clone, Copy, Debug, PartialEq, Eq)]
pub enum Written {
    Number(u32),
    /// Its index among the names.
    Name(u32),
}

/// The kinds of items, or those of connections.
#[derive(Clone, Debug, Default, PartialEq)]
pub struct Kinds {
    names: Names,
    /// The number of each name.
    numbers: Vec<u32>,
    /// Where each name stands first.
    places: Vec<Place>,
    /// The numbers that were given to names or written in the text.
    taken: Vec<u32>,
    /// The name of each number that has one.
    holders: HashMap<u32, u32>,
    /// How many names stand in `[kinds]`: where there are some, no others are kinds.
    declared: usize,
}

/// No number yet.
const UNDEALT: u32 = u32::MAX;

impl Kinds {
    /// Adds a name of `[kinds]`; the place of the first such one if there is one.
    pub fn declare(&mut self, name: &str, number: Option<u32>, place: Place) -> Result<(), Place> {
        if let Some(first) = self.names.find(name) {
            return Err(self.places[first as usize]);
        }
        self.push(name, number.unwrap_or(UNDEALT), place);
        self.declared += 1;
        self.taken.extend(number);
        Ok(())
    }

    fn push(&mut self, name: &str, number: u32, place: Place) {
        let added = self.names.add(name);
        debug_assert!(added.is_ok());
        if number != UNDEALT {
            self.holders.insert(number, self.numbers.len() as u32);
        }
        self.numbers.push(number);
        self.places.push(place);
    }

    /// The name that has a number, and its place.
    pub fn holder(&self, number: u32) -> Option<(&str, Place)> {
        let &i = self.holders.get(&number)?;
        Some((self.names.get(i)?, self.places[i as usize]))
    }

    /// Kinds are declared, so that others are faults.
    pub fn is_declared(&self) -> bool {
        self.declared > 0
    }

    /// A name that stands in the hang. Where kinds are declared, only those are kinds.
    pub fn met(&mut self, name: &str, place: Place) -> Option<Written> {
        match self.names.find(name) {
            Some(i) => Some(Written::Name(i)),
            None if self.is_declared() => None,
            None => {
                self.push(name, UNDEALT, place);
                Some(Written::Name(self.names.len() as u32 - 1))
            }
        }
    }

    /// A number that stands in the text.
    pub fn met_number(&mut self, number: u32) {
        if self.taken.last() != Some(&number) {
            self.taken.push(number);
        }
    }

    /// A name that a pattern or a change has.
    pub fn find(&self, name: &str) -> Option<Written> {
        self.names.find(name).map(Written::Name)
    }

    /// Deals the lowest numbers that are not taken to the names without one, in order; the place of one
    /// that none is left for.
    pub fn deal(&mut self, range: RangeInclusive<u32>) -> Result<(), Place> {
        self.taken.sort_unstable();
        self.taken.dedup();
        let mut next = *range.start();
        for i in 0..self.numbers.len() {
            if self.numbers[i] != UNDEALT {
                continue;
            }
            while self.taken.binary_search(&next).is_ok() {
                next += 1;
            }
            if next > *range.end() {
                return Err(self.places[i]);
            }
            self.numbers[i] = next;
            self.holders.insert(next, i as u32);
            next += 1;
        }
        Ok(())
    }

    /// The number of a kind, once all are dealt.
    pub fn number(&self, written: Written) -> u32 {
        match written {
            Written::Number(number) => number,
            Written::Name(i) => self.numbers[i as usize],
        }
    }

    /// The name of a number, if it has one.
    pub fn name(&self, number: u32) -> Option<&str> {
        self.holder(number).map(|(name, _)| name)
    }

    /// The names in their order, each with its number.
    pub fn iter(&self) -> impl Iterator<Item = (&str, u32)> + Clone + '_ {
        self.names.iter().map(move |(i, name)| (name, self.numbers[i as usize]))
    }

    pub fn places(&self) -> &[Place] {
        &self.places
    }

    pub fn is_empty(&self) -> bool {
        self.names.is_empty()
    }
}
