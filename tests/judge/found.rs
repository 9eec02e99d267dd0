//! A call of Find with buffers that stand between guard words.
use super::calls::{bytes, first_byte, words, Buffers, Numbers, Ran};
use super::random::Random;
use rizhavaan::sys;

/// What is lent to Find: store and query, and the lengths of the bytes for a plan, of scratch and list, and of the records.
#[derive(Clone, Copy, Debug)]
pub struct Lengths {
    pub plan: usize,
    pub scratch: usize,
    pub list: usize,
    pub records: usize,
}

/// Find in buffers of these lengths, which hold arbitrary words. The bytes afterwards are the plan that is to be drawn, none where it is
/// refused, and what stood past it before, whatever becomes of its run; its length is given where the run is accepted. The scratch is zero.
pub fn find(r: &Random, store: &[u32], query: &[u8], drawn: &[u8], cache: bool, lengths: Lengths) -> Ran {
    let width = first_byte(query) >> 4;
    let (store, query) = (words(r, store), bytes(r, query));
    let old: Vec<u8> = (0..lengths.plan).map(|_| r.next() as u8).collect();
    let mut plan = bytes(r, &old);
    let mut lent = Buffers::new(r, lengths.scratch, lengths.list, lengths.records);
    let mut numbers = Numbers::<5>::new(r);
    let [length, rows, cost, build, probe] = numbers.pointers();
    // SAFETY: every pointer is of a buffer of the length given, and all buffers are distinct.
    let refusal = unsafe {
        sys::rizhavaan_find(
            store.pointer(),
            store.len(),
            query.pointer(),
            query.len(),
            plan.pointer_mut(),
            plan.len(),
            cache,
            lent.scratch.pointer_mut(),
            lent.scratch.len(),
            lent.list.pointer_mut(),
            lent.list.len(),
            lent.records.pointer_mut(),
            lent.records.len(),
            length,
            rows,
            cost,
            build,
            probe,
        )
    };
    store.assert_untouched("store");
    query.assert_untouched("query");
    assert_eq!(plan.contents("plan"), [drawn, &old[drawn.len()..]].concat(), "the bytes are not as drawn");
    let [length, rows, cost, build, probe] = numbers.after(refusal);
    assert_eq!(length as usize, if refusal == 0 { drawn.len() } else { 0 }, "the plan's length");
    lent.after(refusal, [rows, cost, build, probe], width, width.saturating_sub(1))
}
