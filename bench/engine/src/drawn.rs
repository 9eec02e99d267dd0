//! A run by the plan that the engine draws, beside the best and the worst of all plans of one scan and extends.
use crate::cases::Case;
use crate::measure::{race, seconds, Rounds, Times};
use crate::rows::{engine, Bench, MOST};
use rizhavaan::Record;

pub struct Drawn {
    pub pattern: String,
    pub rows: usize,
    /// How many orderings there are.
    pub orderings: usize,
    /// Of the best, the worst and the drawn one: the order, and the cost.
    pub orders: [(String, u64); 3],
    pub times: Times<3>,
}

/// With the cache on. The best and the worst are those of one run each.
pub fn row(rounds: Rounds, bench: &Bench, case: &Case) -> Drawn {
    eprintln!("  orderings of {}", case.name);
    let (store, query) = (&bench.store[..], case.query());
    let mut plan = [0; rizhavaan::MAX_DRAWN_BYTES];
    let bytes = rizhavaan::draw_plan_into(store, &query, &mut plan).expect("a plan is drawn");
    let plan = &plan[..bytes];
    let (mut scratch, mut list) = (vec![0; MOST], vec![0; MOST]);
    let mut records = [Record::default(); rizhavaan::MAX_OPERATORS];
    // Words that no run has used yet take longer, so the first lot of runs is not looked at.
    let mut run = |plan: &[u8], words: usize| {
        let scratch = &mut scratch[..words];
        engine(store, &query, plan, true, scratch, &mut list, &mut records)
    };
    let cases = case.orderings();
    let mut tried = Vec::new();
    for case in &cases {
        let plan = case.plan();
        let words = crate::rows::checked_needs(store, &query, &plan, true).roomy;
        run(&plan, words);
        let mut answer = None;
        let time = seconds(|| answer = Some(run(&plan, words)));
        tried.push((time, plan, words, case.order(), answer.expect("it ran")));
    }
    tried.sort_by(|a, b| a.0.total_cmp(&b.0));
    let drawn = tried.iter().find(|tried| tried.1 == plan).expect("the drawn plan is one of the orderings");
    let three = [&tried[0], &tried[tried.len() - 1], drawn];
    let run = std::cell::RefCell::new(run);
    let timed = |i: usize| {
        let (_, plan, words, _, answer) = three[i];
        assert_eq!(run.borrow_mut()(plan, *words), *answer);
    };
    let times = race(rounds, [&mut || timed(0), &mut || timed(1), &mut || timed(2)]);
    Drawn {
        pattern: case.name.clone(),
        rows: drawn.4.rows,
        orderings: cases.len(),
        orders: three.map(|tried| (tried.3.clone(), tried.4.cost)),
        times,
    }
}
