//! Which plan a run takes, and what is thought of it beforehand.

use std::sync::{Arc, Mutex, PoisonError};

use crate::document::Pattern;
use crate::engine::{Engine, First, Refusal, MAX_DRAWN_BYTES, MAX_WORDS};
use crate::failure::Failure;
use crate::find::{Loaded, Options};
use crate::orderings::cheapest;
use crate::picker::{self, Picked, Statistics};

/// Which plan a run takes.
#[derive(Clone, Copy, Debug, PartialEq, Eq)]
pub enum Choice {
    /// The text's where it has one, else a picked one.
    Best,
    /// The text's.
    Given,
    /// The plan picker's.
    Picked,
    /// The engine's drawn plan.
    Drawn,
    /// Of all plans of one scan and extends that of the least cost, the first of them.
    Cheapest,
}

/// Where the plan of a run is from.
#[derive(Clone, Copy, Debug, PartialEq, Eq)]
pub enum Origin {
    Given,
    Picked,
    Drawn,
    Cheapest,
    /// Drawn, since the engine refused the picked one, or there was none.
    Instead(Option<Refusal>),
}

impl Origin {
    /// As it stands in an answer.
    pub fn word(self) -> &'static str {
        match self {
            Origin::Given => "given",
            Origin::Picked => "picked",
            Origin::Drawn => "drawn",
            Origin::Cheapest => "cheapest",
            Origin::Instead(_) => "drawn instead of picked",
        }
    }
}

/// A plan to be run.
pub struct Planned {
    pub bytes: Vec<u8>,
    pub origin: Origin,
    /// What was thought of a picked one.
    pub estimate: Option<Picked>,
}

impl Planned {
    /// The buffers that it begins with.
    pub fn first(&self) -> First {
        let words = |picked: &Picked| First { scratch: picked.scratch as usize, list: picked.list as usize };
        self.estimate.as_ref().map_or_else(First::default, words)
    }
}

/// Statistics of a store, made when they are first asked for.
#[derive(Default)]
pub struct Known(Mutex<Option<Arc<Statistics>>>);

impl Known {
    fn of(&self, store: &[u32]) -> Option<Arc<Statistics>> {
        let mut made = self.0.lock().unwrap_or_else(PoisonError::into_inner);
        if made.is_none() {
            *made = Statistics::of(store).map(Arc::new);
        }
        made.clone()
    }
}

impl Loaded<'_> {
    /// The plan picker's plan of a packed query, where a run may take so many bytes.
    pub fn pick(&self, query: &[u8], memory: usize) -> Option<Picked> {
        let lent = (memory / 4).min(MAX_WORDS) as u64;
        picker::pick(self.store(), &*self.kept.known.of(self.store())?, query, lent)
    }

    /// What the plan picker thinks of a plan that is accepted.
    pub fn estimate(&self, query: &[u8], plan: &[u8]) -> Option<Picked> {
        picker::estimate(self.store(), &*self.kept.known.of(self.store())?, query, plan)
    }

    /// The engine's drawn plan of a packed query.
    pub fn draw(&self, engine: &dyn Engine, query: &[u8]) -> Result<Vec<u8>, Failure> {
        let mut bytes = vec![0; MAX_DRAWN_BYTES];
        let drawn = engine.draw_plan(self.store(), query, &mut bytes);
        let length = drawn.map_err(|refusal| Failure::Refused { what: "to draw a plan", refusal })?;
        bytes.truncate(length as usize);
        Ok(bytes)
    }

    /// The drawn plan, to be run.
    pub fn drawn(&self, engine: &dyn Engine, query: &[u8], origin: Origin) -> Result<Planned, Failure> {
        Ok(Planned { bytes: self.draw(engine, query)?, origin, estimate: None })
    }

    /// The plan of a pattern that is chosen.
    pub fn planned(
        &self,
        engine: &dyn Engine,
        pattern: &Pattern,
        query: &[u8],
        options: &Options,
    ) -> Result<Planned, Failure> {
        let choice = match (options.plan, &pattern.plan) {
            (Choice::Best, Some(_)) => Choice::Given,
            (Choice::Best, None) => Choice::Picked,
            (choice, _) => choice,
        };
        match (choice, &pattern.plan) {
            (Choice::Drawn, _) => self.drawn(engine, query, Origin::Drawn),
            (Choice::Cheapest, _) => {
                let orderings = self.orderings(engine, query, options.memory)?;
                let bytes = cheapest(&orderings).map(|ordering| ordering.plan.to_bytes()).unwrap_or_default();
                Ok(Planned { bytes, origin: Origin::Cheapest, estimate: None })
            }
            (Choice::Given, Some(plan)) => match &pattern.plan_fault {
                Some(fault) => Err(Failure::At(Box::new(fault.clone()))),
                None => Ok(Planned { bytes: plan.to_bytes(), origin: Origin::Given, estimate: None }),
            },
            (Choice::Given, None) => {
                Err(Failure::Usage(format!("the pattern '{}' has no [plan]", pattern.title())))
            }
            (Choice::Best | Choice::Picked, _) => match self.pick(query, options.memory) {
                Some(picked) => {
                    Ok(Planned { bytes: picked.plan.clone(), origin: Origin::Picked, estimate: Some(picked) })
                }
                None => self.drawn(engine, query, Origin::Instead(None)),
            },
        }
    }
}

/// The refusals that are Check plan's.
const PLAN_REFUSALS: std::ops::RangeInclusive<u32> = 12..=18;

/// Where a plan was picked and refused for its own sake: the origin of the drawn one that is run instead.
pub fn instead<T>(planned: &Planned, ran: &Result<T, Failure>) -> Option<Origin> {
    match ran {
        _ if planned.origin != Origin::Picked => None,
        Err(Failure::Refused { refusal, .. }) if PLAN_REFUSALS.contains(&refusal.0) => {
            Some(Origin::Instead(Some(*refusal)))
        }
        // What does not even unpack is not shown to the engine.
        Err(Failure::Check(_)) => Some(Origin::Instead(None)),
        _ => None,
    }
}
