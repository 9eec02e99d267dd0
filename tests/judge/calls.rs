//! Calls of the static library with buffers that stand between guard words. Whatever the answer, each call is held to what is
//! true of all: what is lent for reading and what is not lent stays as it was; refused, every number is 0.
use super::random::Random;
use rizhavaan::sys;
use rizhavaan::Record;

const GUARD: usize = 12;

/// Contents between guards of arbitrary values.
pub(super) struct Lent<T> {
    all: Vec<T>,
    before: Vec<T>,
}

impl<T: Copy + PartialEq + std::fmt::Debug> Lent<T> {
    pub(super) fn new(contents: &[T], mut guard: impl FnMut() -> T) -> Lent<T> {
        let mut all: Vec<T> = (0..GUARD).map(|_| guard()).collect();
        all.extend_from_slice(contents);
        all.extend((0..GUARD).map(|_| guard()));
        Lent { before: all.clone(), all }
    }

    pub(super) fn len(&self) -> usize {
        self.all.len() - 2 * GUARD
    }

    pub(super) fn pointer(&self) -> *const T {
        self.all[GUARD..].as_ptr()
    }

    pub(super) fn pointer_mut(&mut self) -> *mut T {
        self.all[GUARD..].as_mut_ptr()
    }

    pub(super) fn assert_untouched(&self, what: &str) {
        assert_eq!(self.all, self.before, "{what} is changed");
    }

    /// The contents after the call; nothing around them is changed.
    pub(super) fn contents(self, what: &str) -> Vec<T> {
        let end = GUARD + self.len();
        assert_eq!(self.all[..GUARD], self.before[..GUARD], "words before the {what} are changed");
        assert_eq!(self.all[end..], self.before[end..], "words after the {what} are changed");
        self.all[GUARD..end].to_vec()
    }

    /// The first of the contents after the call; nothing behind or around them is changed.
    pub(super) fn contents_up_to(self, count: usize, what: &str) -> Vec<T> {
        let past = GUARD + count..GUARD + self.len();
        assert_eq!(self.all[past.clone()], self.before[past], "the {what} is changed past its last one");
        let mut contents = self.contents(what);
        contents.truncate(count);
        contents
    }
}

pub(super) fn bytes(r: &Random, contents: &[u8]) -> Lent<u8> {
    Lent::new(contents, || r.next() as u8)
}

pub(super) fn words(r: &Random, contents: &[u32]) -> Lent<u32> {
    Lent::new(contents, || r.next() as u32)
}

/// The numbers that a call gives, each with arbitrary numbers before it and around it.
pub(super) struct Numbers<const N: usize>(Lent<u64>);

impl<const N: usize> Numbers<N> {
    pub(super) fn new(r: &Random) -> Self {
        let before: Vec<u64> = (0..N).map(|_| r.next()).collect();
        Numbers(Lent::new(&before, || r.next()))
    }

    pub(super) fn pointers(&mut self) -> [*mut u64; N] {
        let first = self.0.pointer_mut();
        // SAFETY: the contents are N numbers.
        std::array::from_fn(|i| unsafe { first.add(i) })
    }

    pub(super) fn after(self, refusal: u32) -> [u64; N] {
        let numbers: [u64; N] = self.0.contents("numbers").try_into().unwrap();
        assert!(refusal == 0 || numbers == [0; N], "refused with {refusal}, and the numbers are {numbers:?}");
        numbers
    }
}

#[derive(Debug, PartialEq, Eq)]
pub struct Loaded {
    pub refusal: u32,
    pub vertices: u64,
    pub edges: u64,
}

/// Load into a store of these words; the store afterwards is handed back.
pub fn load(r: &Random, file: &[u8], store: &mut Vec<u32>) -> Loaded {
    let lent_file = bytes(r, file);
    let mut lent = words(r, store);
    let mut numbers = Numbers::<2>::new(r);
    let [vertices, edges] = numbers.pointers();
    // SAFETY: every pointer is of a buffer of the length given, and all buffers are distinct.
    let refusal = unsafe {
        sys::rizhavaan_load(lent_file.pointer(), lent_file.len(), lent.pointer_mut(), lent.len(), vertices, edges)
    };
    lent_file.assert_untouched("file");
    if refusal != 0 {
        lent.assert_untouched("store");
    }
    *store = lent.contents("store");
    let [vertices, edges] = numbers.after(refusal);
    Loaded { refusal, vertices, edges }
}

/// Apply changes to an old store, into a new one of these words; the new store afterwards is handed back.
pub fn apply_changes(r: &Random, old: &[u32], changes: &[u8], store: &mut Vec<u32>) -> Loaded {
    let (old, changes) = (words(r, old), bytes(r, changes));
    let mut lent = words(r, store);
    let mut numbers = Numbers::<2>::new(r);
    let [vertices, edges] = numbers.pointers();
    // SAFETY: as above.
    let refusal = unsafe {
        sys::rizhavaan_apply_changes(
            old.pointer(),
            old.len(),
            changes.pointer(),
            changes.len(),
            lent.pointer_mut(),
            lent.len(),
            vertices,
            edges,
        )
    };
    old.assert_untouched("old store");
    changes.assert_untouched("change file");
    if refusal != 0 {
        lent.assert_untouched("new store");
    }
    *store = lent.contents("new store");
    let [vertices, edges] = numbers.after(refusal);
    Loaded { refusal, vertices, edges }
}

/// Check plan: the refusal and the operator count.
pub fn check_plan(r: &Random, query: &[u8], plan: &[u8]) -> (u32, u64) {
    let (query, plan) = (bytes(r, query), bytes(r, plan));
    let mut numbers = Numbers::<1>::new(r);
    let [operators] = numbers.pointers();
    // SAFETY: as above.
    let refusal =
        unsafe { sys::rizhavaan_check_plan(query.pointer(), query.len(), plan.pointer(), plan.len(), operators) };
    query.assert_untouched("query");
    plan.assert_untouched("plan");
    (refusal, numbers.after(refusal)[0])
}

/// Draw plan into so many bytes, which hold arbitrary ones: the refusal and the plan. The bytes past it stay.
pub fn draw_plan(r: &Random, store: &[u32], query: &[u8], room: usize) -> (u32, Vec<u8>) {
    let (store, query) = (words(r, store), bytes(r, query));
    let contents: Vec<u8> = (0..room).map(|_| r.next() as u8).collect();
    let mut plan = bytes(r, &contents);
    let mut numbers = Numbers::<1>::new(r);
    let [length] = numbers.pointers();
    // SAFETY: as above.
    let refusal = unsafe {
        sys::rizhavaan_draw_plan(
            store.pointer(),
            store.len(),
            query.pointer(),
            query.len(),
            plan.pointer_mut(),
            plan.len(),
            length,
        )
    };
    store.assert_untouched("store");
    query.assert_untouched("query");
    if refusal != 0 {
        plan.assert_untouched("plan");
    }
    let mut after = plan.contents("plan");
    let [length] = numbers.after(refusal);
    assert_eq!(after[length as usize..], contents[length as usize..], "bytes past the plan are changed");
    after.truncate(length as usize);
    (refusal, after)
}

/// All orderings into so many words, which hold arbitrary ones: the refusal, the number of plans and their words. The words past them stay, and
/// the scratch is zero.
pub fn orderings(r: &Random, store: &[u32], query: &[u8], scratch: usize, room: usize) -> (u32, u64, Vec<u32>) {
    let (store, query) = (words(r, store), bytes(r, query));
    let before = r.words(scratch);
    let mut work = words(r, &before);
    let contents = r.words(room);
    let mut list = words(r, &contents);
    let mut numbers = Numbers::<1>::new(r);
    let [plans] = numbers.pointers();
    // SAFETY: as above.
    let refusal = unsafe {
        sys::rizhavaan_orderings(
            store.pointer(),
            store.len(),
            query.pointer(),
            query.len(),
            work.pointer_mut(),
            work.len(),
            list.pointer_mut(),
            list.len(),
            plans,
        )
    };
    store.assert_untouched("store");
    query.assert_untouched("query");
    assert!(work.contents("scratch").iter().all(|&word| word == 0), "the scratch is not zero");
    let [plans] = numbers.after(refusal);
    if refusal != 0 {
        list.assert_untouched("words");
        return (refusal, plans, Vec::new());
    }
    let mut after = list.contents("words");
    let used = plans as usize * (1 + usize::from(query.contents("query")[0] >> 4));
    assert_eq!(after[used..], contents[used..], "words past the last entry are changed");
    after.truncate(used);
    (refusal, plans, after)
}

/// Bounds: the refusal, and list words, scratch words, cost and largest.
pub fn bounds(r: &Random, store: &[u32], query: &[u8], plan: &[u8]) -> (u32, [u64; 4]) {
    let (store, query, plan) = (words(r, store), bytes(r, query), bytes(r, plan));
    let mut numbers = Numbers::<4>::new(r);
    let [list, scratch, cost, largest] = numbers.pointers();
    // SAFETY: as above.
    let refusal = unsafe {
        sys::rizhavaan_bounds(
            store.pointer(),
            store.len(),
            query.pointer(),
            query.len(),
            plan.pointer(),
            plan.len(),
            list,
            scratch,
            cost,
            largest,
        )
    };
    store.assert_untouched("store");
    query.assert_untouched("query");
    plan.assert_untouched("plan");
    (refusal, numbers.after(refusal))
}

/// Page into so many bytes, which hold arbitrary ones: the refusal, the page count and the page. The bytes past it stay.
pub fn page(r: &Random, list: &[u32], [n, rows, page]: [u64; 3], room: usize) -> (u32, u64, Vec<u8>) {
    let list = words(r, list);
    let contents: Vec<u8> = (0..room).map(|_| r.next() as u8).collect();
    let mut lent = bytes(r, &contents);
    let mut numbers = Numbers::<1>::new(r);
    let [pages] = numbers.pointers();
    // SAFETY: as above.
    let refusal = unsafe {
        sys::rizhavaan_page(list.pointer(), list.len(), n, rows, page, lent.pointer_mut(), lent.len(), pages)
    };
    list.assert_untouched("list");
    if refusal != 0 {
        lent.assert_untouched("page");
    }
    let mut after = lent.contents("page");
    let end = if refusal == 0 { rizhavaan::PAGE_BYTES } else { 0 };
    assert_eq!(after[end..], contents[end..], "bytes past the page are changed");
    after.truncate(end);
    (refusal, numbers.after(refusal)[0], after)
}

pub struct Input<'a> {
    pub store: &'a [u32],
    pub query: &'a [u8],
    pub plan: &'a [u8],
    pub cache: bool,
}

#[derive(Debug, PartialEq, Eq)]
pub struct Ran {
    pub refusal: u32,
    pub rows: u64,
    pub cost: u64,
    pub build: u64,
    pub probe: u64,
    /// The list's rows: n words for each; the words after them are as they were.
    pub list: Vec<u32>,
    /// The records of the plan's operators; those after them are as they were.
    pub records: Vec<Record>,
}

/// What a run is lent to write to, each holding arbitrary words.
pub(super) struct Buffers {
    pub(super) scratch: Lent<u32>,
    pub(super) list: Lent<u32>,
    pub(super) records: Lent<Record>,
}

impl Buffers {
    pub(super) fn new(r: &Random, scratch: usize, list: usize, records: usize) -> Buffers {
        let record = || Record { rows: r.next(), cost: r.next() };
        let before: Vec<Record> = (0..records).map(|_| record()).collect();
        Buffers {
            scratch: words(r, &r.words(scratch)),
            list: words(r, &r.words(list)),
            records: Lent::new(&before, record),
        }
    }

    /// What is in them after a run of rows of so many words by a plan of so many operators. The scratch is zero, and past the rows and records
    /// of an accepted run nothing is changed.
    pub(super) fn after(self, refusal: u32, numbers: [u64; 4], width: usize, operators: usize) -> Ran {
        let [rows, cost, build, probe] = numbers;
        let (end, operators) = if refusal == 0 { (rows as usize * width, operators) } else { (0, 0) };
        assert!(self.scratch.contents("scratch").iter().all(|&word| word == 0), "the scratch is not zero");
        let list = self.list.contents_up_to(end, "list");
        let records = self.records.contents_up_to(operators, "list of records");
        Ran { refusal, rows, cost, build, probe, list, records }
    }
}

/// Count in a scratch of this length, which holds arbitrary words: the refusal, and rows, cost, build, probe and need. The scratch is zero
/// afterwards.
pub fn count(r: &Random, input: &Input, scratch: usize) -> (u32, [u64; 5]) {
    let store = words(r, input.store);
    let (query, plan) = (bytes(r, input.query), bytes(r, input.plan));
    let contents = r.words(scratch);
    let mut scratch = words(r, &contents);
    let mut numbers = Numbers::<5>::new(r);
    let [rows, cost, build, probe, need] = numbers.pointers();
    // SAFETY: as above.
    let refusal = unsafe {
        sys::rizhavaan_count(
            store.pointer(),
            store.len(),
            query.pointer(),
            query.len(),
            plan.pointer(),
            plan.len(),
            input.cache,
            scratch.pointer_mut(),
            scratch.len(),
            rows,
            cost,
            build,
            probe,
            need,
        )
    };
    store.assert_untouched("store");
    query.assert_untouched("query");
    plan.assert_untouched("plan");
    assert!(scratch.contents("scratch").iter().all(|&word| word == 0), "the scratch is not zero");
    (refusal, numbers.after(refusal))
}

/// Run in scratch and list of these lengths, which hold arbitrary words, with records for every plan. The scratch is zero afterwards.
pub fn run(r: &Random, input: &Input, scratch: usize, list: usize) -> Ran {
    run_recording(r, input, scratch, list, rizhavaan::MAX_OPERATORS)
}

/// The same with so many records, which hold arbitrary numbers.
pub fn run_recording(r: &Random, input: &Input, scratch: usize, list: usize, records: usize) -> Ran {
    let store = words(r, input.store);
    let (query, plan) = (bytes(r, input.query), bytes(r, input.plan));
    let mut lent = Buffers::new(r, scratch, list, records);
    let mut numbers = Numbers::<4>::new(r);
    let [rows, cost, build, probe] = numbers.pointers();
    // SAFETY: as above.
    let refusal = unsafe {
        sys::rizhavaan_run(
            store.pointer(),
            store.len(),
            query.pointer(),
            query.len(),
            plan.pointer(),
            plan.len(),
            input.cache,
            lent.scratch.pointer_mut(),
            lent.scratch.len(),
            lent.list.pointer_mut(),
            lent.list.len(),
            lent.records.pointer_mut(),
            lent.records.len(),
            rows,
            cost,
            build,
            probe,
        )
    };
    store.assert_untouched("store");
    query.assert_untouched("query");
    plan.assert_untouched("plan");
    let [width, operators] = [(input.query, 4), (input.plan, 3)].map(|(file, shift)| first_byte(file) >> shift);
    lent.after(refusal, numbers.after(refusal), width, operators)
}

/// The first byte of a file, or 0.
pub(super) fn first_byte(file: &[u8]) -> usize {
    file.first().map_or(0, |&byte| byte.into())
}
