//! The places of a pattern in two hangs: gone, new and kept, by names.

use std::collections::HashSet;

use crate::document::Hang;
use crate::find::Found;

/// A place by the names of its items.
pub type Place = Vec<String>;

/// What became of the places of a pattern.
#[derive(Clone, Debug, Default, PartialEq, Eq)]
pub struct Difference {
    pub gone: Vec<Place>,
    pub new: Vec<Place>,
    pub kept: Vec<Place>,
}

fn places<'f>(hang: &'f Hang, found: &'f Found) -> impl Iterator<Item = Place> + 'f {
    found.rows().map(move |row| row.iter().map(|&item| hang.item(item).into_owned()).collect())
}

/// The places of an old hang and of a new one, each in its own order.
pub fn diff(old: (&Hang, &Found), new: (&Hang, &Found)) -> Difference {
    let before: HashSet<Place> = places(old.0, old.1).collect();
    let after: HashSet<Place> = places(new.0, new.1).collect();
    Difference {
        gone: places(old.0, old.1).filter(|place| !after.contains(place)).collect(),
        new: places(new.0, new.1).filter(|place| !before.contains(place)).collect(),
        kept: places(new.0, new.1).filter(|place| before.contains(place)).collect(),
    }
}
