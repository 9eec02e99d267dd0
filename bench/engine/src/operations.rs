//! The other operations of the engine, each beside what one would do without it.
use crate::cases::{self, Case};
use crate::measure::Times;
use crate::rows::{checked_needs, engine, Bench, MOST};
use rizhavaan::{Cache, Record};

pub struct Operation {
    pub work: String,
    /// What its time is a ratio of.
    pub beside: &'static str,
    /// None where instructions were counted.
    pub times: Option<Times<2>>,
}

/// Rows of a page, and the rows that are put on pages.
const PAGE_ROWS: usize = 59;
const LISTED: usize = 10 * PAGE_ROWS;

/// The largest number that a page has room for, and more.
const MOST_NUMBER: u32 = 65_536;

/// A page as one would write it: no word is too large, a blank page, and digits from the last.
fn page_by_hand(list: &[u32], n: usize, rows: usize, page: usize, bytes: &mut [u8]) -> Option<usize> {
    if list.get(..n * rows)?.iter().fold(0, |all, word| all | word) >= MOST_NUMBER {
        return None;
    }
    let pages = rows.div_ceil(PAGE_ROWS).max(1);
    let bytes = bytes.get_mut(..rizhavaan::PAGE_BYTES)?;
    bytes.fill(b' ');
    bytes.chunks_exact_mut(81).for_each(|line| line[80] = b'\n');
    let mut put = |line: usize, column: usize, mut number: usize| {
        let mut at = 81 * line + 8 * column + 7;
        loop {
            bytes[at] = b'0' + (number % 10) as u8;
            number /= 10;
            if number == 0 {
                break;
            }
            at -= 1;
        }
    };
    put(0, 0, page);
    put(0, 1, pages);
    for (i, row) in list[..n * rows].chunks_exact(n).skip(PAGE_ROWS * (page - 1)).take(PAGE_ROWS).enumerate() {
        row.iter().enumerate().for_each(|(column, &word)| put(i + 1, column, word as usize));
    }
    Some(pages)
}

impl Bench<'_> {
    fn operation(&self, work: String, beside: &'static str, versions: [&mut dyn FnMut(); 2]) -> Operation {
        eprintln!("  {work}");
        let times = self.meter.shorter().measure(&self.shape, &work, versions);
        Operation { work, beside, times }
    }

    /// All of them, over the pattern of a plan and one whose orderings are all run.
    pub fn operations(&self, case: &Case, pattern: &Case) -> Vec<Operation> {
        vec![self.bounds(case), self.count(case), self.pages(case), self.orderings(pattern)]
    }

    /// The bounds of a plan, beside a run that lists nothing: both check the store.
    fn bounds(&self, case: &Case) -> Operation {
        let (store, query, plan) = (&self.store[..], case.query(), case.plan());
        let (nothing, its_plan) = (cases::nothing().query(), cases::nothing().plan());
        let (mut scratch, mut records) = (vec![0; 100], [Record::default(); 1]);
        self.operation(
            format!("bounds of {}", case.name),
            "the store check alone",
            [
                &mut || {
                    let answer = engine(store, &nothing, &its_plan, false, &mut scratch, &mut [], &mut records);
                    assert_eq!(answer.refusal, 0);
                },
                &mut || assert!(rizhavaan::bounds(store, &query, &plan).is_ok()),
            ],
        )
    }

    /// Count, beside the run whose list it spares.
    fn count(&self, case: &Case) -> Operation {
        let (store, query, plan) = (&self.store[..], case.query(), case.plan());
        let needs = checked_needs(store, &query, &plan, true);
        let (mut one, mut two, mut list) = (vec![0; needs.roomy], vec![0; needs.roomy], vec![0; MOST]);
        let mut records = [Record::default(); rizhavaan::MAX_OPERATORS];
        let rows = engine(store, &query, &plan, true, &mut one, &mut list, &mut records).rows;
        list.truncate(rows * case.width());
        list.shrink_to_fit();
        self.operation(
            format!("count of {}", case.name),
            "its run",
            [
                &mut || assert_eq!(engine(store, &query, &plan, true, &mut one, &mut list, &mut records).rows, rows),
                &mut || {
                    let count = rizhavaan::count(store, &query, &plan, Cache::On, &mut two);
                    assert_eq!(count.map(|count| count.run.rows), Ok(rows));
                },
            ],
        )
    }

    /// Ten pages of a list, beside pages written by hand.
    fn pages(&self, case: &Case) -> Operation {
        let (store, query, plan) = (&self.store[..], case.query(), case.plan());
        let (mut scratch, mut list) = (vec![0; checked_needs(store, &query, &plan, true).roomy], vec![0; MOST]);
        let mut records = [Record::default(); rizhavaan::MAX_OPERATORS];
        let rows = engine(store, &query, &plan, true, &mut scratch, &mut list, &mut records).rows.min(LISTED);
        let n = case.width();
        list.truncate(rows * n);
        list.shrink_to_fit();
        let pages = rows.div_ceil(PAGE_ROWS).max(1);
        let [mut one, mut two] = [[0; rizhavaan::PAGE_BYTES]; 2];
        for page in 1..=pages {
            assert_eq!(page_by_hand(&list, n, rows, page, &mut one), Some(pages));
            assert_eq!(rizhavaan::page_into(&list, n, rows, page, &mut two), Ok(pages));
            assert!(one == two, "two pages are the same");
        }
        self.operation(
            format!("{pages} pages of {}", case.name),
            "pages written by hand",
            [
                &mut || (1..=pages).for_each(|page| assert!(page_by_hand(&list, n, rows, page, &mut one).is_some())),
                &mut || {
                    (1..=pages).for_each(|page| assert!(rizhavaan::page_into(&list, n, rows, page, &mut two).is_ok()))
                },
            ],
        )
    }

    /// All orderings of a pattern, beside their runs one by one.
    fn orderings(&self, pattern: &Case) -> Operation {
        let (store, query) = (&self.store[..], pattern.query());
        let plans: Vec<Vec<u8>> = pattern.orderings().iter().map(Case::plan).collect();
        let roomy = plans.iter().map(|plan| checked_needs(store, &query, plan, true).roomy).max().unwrap_or(0);
        let (mut one, mut two, mut list) = (vec![0; roomy], vec![0; roomy], vec![0; MOST]);
        let mut records = [Record::default(); rizhavaan::MAX_OPERATORS];
        let rows = engine(store, &query, &plans[0], true, &mut one, &mut list, &mut records).rows;
        list.truncate(rows * pattern.width());
        list.shrink_to_fit();
        let mut entries = [0; rizhavaan::MAX_ORDERING_WORDS];
        self.operation(
            format!("all {} orderings of {}", plans.len(), pattern.name),
            "the run of each",
            [
                &mut || {
                    for plan in &plans {
                        assert_eq!(engine(store, &query, plan, true, &mut one, &mut list, &mut records).rows, rows);
                    }
                },
                &mut || {
                    let found = rizhavaan::orderings_into(store, &query, &mut two, &mut entries);
                    assert_eq!(found, Ok(plans.len()));
                },
            ],
        )
    }
}
