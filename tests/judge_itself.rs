//! The judge itself; the library has no part in this.
use judge::graph::Graph;
use judge::matcher::Matcher;
use judge::query::{Query, EVER};
use judge::random::each;
use judge::{in_words, plan, rules};
use std::collections::BTreeMap;

/// Rows, order, cost, sums and need are those that the rules' own words give.
#[test]
fn the_rules_in_words() {
    let [mut rows, mut joins, mut any, mut inspected, mut paired] = [0; 5];
    each(0..40_000, |r| {
        let (graph, query) = (Graph::random(r, 6), Query::random(r, 4));
        let plan = plan::random(r, &query);
        let cache = r.chance(1, 2);
        let Some(answer) = rules::run(&Matcher::new(&graph), &query, &plan, cache, 300) else { return };
        assert_eq!(answer, in_words::run(&graph, &query, &plan, cache), "{graph:?} {query:?} {plan:?}");
        rows += answer.count;
        joins += usize::from(answer.build > 0 && answer.probe > 0);
        any += usize::from(answer.count > 0 && query.edges.iter().any(|edge| edge.2 == 0));
        let some_of = |query: Query| {
            let all = in_words::run(&graph, &query, &plan, cache).count;
            usize::from(0 < answer.count && answer.count < all)
        };
        inspected += some_of(Query { days: vec![EVER; query.vertices()], ..query.clone() });
        paired += some_of(query.paired(&[]));
    });
    assert!(rows > 15_000 && joins > 500 && any > 1_000, "{rows} rows, {joins} joins, {any} with rows and label 0");
    assert!(inspected > 200, "{inspected} in which days leave some rows and not all");
    assert!(paired > 200, "{paired} in which pairs do");
}

/// The random queries of the tests: without label 0, with it beside other labels, with nothing else, and with both between one pair;
/// with ranges of days, some of one day, some that begin at 0 or end at 65,535 and not both; with pairs, one or many, some of which
/// contradict each other.
#[test]
fn the_mix_of_queries() {
    let [mut none, mut some, mut all, mut beside] = [0; 4];
    let [mut asked, mut one_day, mut open] = [0; 3];
    let [mut paired, mut many, mut contradicting] = [0; 3];
    each(0..10_000, |r| {
        let query = Query::random(r, 8);
        assert_eq!(Query::read(&query.file()).as_ref(), Ok(&query));
        match query.edges.iter().filter(|edge| edge.2 == 0).count() {
            0 => none += 1,
            count if count == query.edges.len() => all += 1,
            _ => some += 1,
        }
        let both = |pair: &[(usize, usize, u8)]| pair[0].2 == 0 && (pair[0].0, pair[0].1) == (pair[1].0, pair[1].1);
        beside += usize::from(query.edges.windows(2).any(both));
        asked += usize::from(query.days.iter().any(|&days| days != EVER));
        one_day += usize::from(query.days.iter().any(|(first, last)| first == last));
        open += usize::from(query.days.iter().any(|&(first, last)| (first == 0) != (last == 65_535)));
        paired += usize::from(!query.pairs.is_empty());
        many += usize::from(query.pairs.len() > 5);
        contradicting += usize::from(query.pairs.iter().any(|&(low, high)| query.pairs.contains(&(high, low))));
    });
    assert!(none > 4_000 && some > 3_000 && all > 300 && beside > 1_500, "{none}, {some}, {all}, {beside}");
    assert!(asked > 2_000 && one_day > 500 && open > 1_000, "{asked}, {one_day}, {open}");
    assert!(paired > 2_000 && many > 50 && contradicting > 50, "{paired}, {many}, {contradicting}");
}

/// The random graphs of the tests: with several labels between a pair, with many, and with lists that do not ascend by vertex; without
/// days, and with items that have one beside others that have none.
#[test]
fn the_mix_of_graphs() {
    let [mut several, mut many, mut not_ascending, mut undated, mut mixed] = [0; 5];
    each(0..10_000, |r| {
        let graph = Graph::random(r, 9);
        assert_eq!(Graph::read(&graph.file()).as_ref(), Ok(&graph));
        let (mut pairs, mut lists) = (BTreeMap::new(), BTreeMap::<u16, Vec<u16>>::new());
        for &(source, _, target) in &graph.edges {
            *pairs.entry((source, target)).or_insert(0) += 1;
            lists.entry(source).or_default().push(target);
        }
        several += usize::from(pairs.values().any(|&labels| labels > 1));
        many += usize::from(pairs.values().any(|&labels| labels > 20));
        not_ascending += usize::from(lists.values().any(|list| list.windows(2).any(|pair| pair[0] > pair[1])));
        let (dated, no_day) = (graph.days.iter().any(|&day| day > 0), graph.days.contains(&0));
        undated += usize::from(!dated);
        mixed += usize::from(dated && no_day);
    });
    assert!(several > 4_000 && many > 400 && not_ascending > 4_000, "{several}, {many}, {not_ascending}");
    assert!(undated > 2_000 && mixed > 2_000, "{undated}, {mixed}");
}
