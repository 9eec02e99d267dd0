//! The calendar, the text form of days, and what is said about days that are none.

mod common;

use common::parse;
use rizhavaan_core::day::{Day, Days};

/// What a day is refused with.
fn refused(word: &str) -> String {
    Day::read(word).expect_err(word)
}

#[test]
fn dates_and_their_numbers() {
    for (number, date) in [
        (1, "2000-01-02"),
        (30, "2000-01-31"),
        (31, "2000-02-01"),
        (58, "2000-02-28"),
        (59, "2000-02-29"),
        (60, "2000-03-01"),
        (365, "2000-12-31"),
        (366, "2001-01-01"),
        (1_520, "2004-02-29"),
        (1_521, "2004-03-01"),
        (9_132, "2025-01-01"),
        (9_496, "2025-12-31"),
        (9_497, "2026-01-01"),
        (9_677, "2026-06-30"),
        (9_815, "2026-11-15"),
        (36_524, "2099-12-31"),
        (36_525, "2100-01-01"),
        (36_583, "2100-02-28"),
        (36_584, "2100-03-01"),
        (65_535, "2179-06-06"),
    ] {
        assert_eq!(Day::read(date), Ok(Day(number)));
        assert_eq!(Day::read(&number.to_string()), Ok(Day(number)));
        assert_eq!(Day(number).to_string(), date);
    }
    assert_eq!(Day::read("0"), Ok(Day::NONE));
    assert_eq!(Day::read("00009815"), Ok(Day(9_815)));
    assert_eq!(Day::NONE.to_string(), "0");
}

/// The date after a date. Of the years here that 4 divides, 2100 alone is no leap year.
fn next((year, month, day): (u32, u32, u32)) -> (u32, u32, u32) {
    let february = if year % 4 == 0 && year != 2100 { 29 } else { 28 };
    let lengths = [31, february, 31, 30, 31, 30, 31, 31, 30, 31, 30, 31];
    match (month, day) {
        (12, 31) => (year + 1, 1, 1),
        _ if day == lengths[month as usize - 1] => (year, month + 1, 1),
        _ => (year, month, day + 1),
    }
}

/// Every day that the files hold, one after the other.
#[test]
fn the_whole_calendar() {
    let mut date = (2000, 1, 1);
    for number in 1..=65_535 {
        date = next(date);
        let word = format!("{}-{:02}-{:02}", date.0, date.1, date.2);
        assert_eq!(Day(number).to_string(), word);
        assert_eq!(Day::read(&word), Ok(Day(number)));
    }
    assert_eq!(date, (2179, 6, 6));
}

#[test]
fn leap_years() {
    for year in [2000, 2004, 2024, 2096, 2104, 2176] {
        assert!(Day::read(&format!("{year}-02-29")).is_ok());
        let message = format!("{year}-02-30 is no date: that month has days 1 to 29");
        assert_eq!(refused(&format!("{year}-02-30")), message);
    }
    for year in [2001, 2023, 2025, 2026, 2100] {
        let message = format!("{year}-02-29 is no date: that month has days 1 to 28");
        assert_eq!(refused(&format!("{year}-02-29")), message);
    }
    // Outside the days of the files, but the rule of four hundred years has its say first.
    let outside = "2400-02-29 is not within 2000-01-02 to 2179-06-06";
    assert_eq!(refused("2400-02-29"), outside);
    let none = "2200-02-29 is no date: that month has days 1 to 28";
    assert_eq!(refused("2200-02-29"), none);
}

#[test]
fn the_ends_of_the_calendar() {
    let zero = "2000-01-01 would be day 0, which stands for no day; the first date is 2000-01-02";
    assert_eq!(refused("2000-01-01"), zero);
    for date in ["0000-01-01", "1999-12-31", "2179-06-07", "2180-01-01", "9999-12-31"] {
        let message = format!("{date} is not within 2000-01-02 to 2179-06-06");
        assert_eq!(refused(date), message);
    }
    for number in ["65536", "99999999999"] {
        let message = format!("day {number} is not within 0 to 65535");
        assert_eq!(refused(number), message);
    }
}

#[test]
fn words_that_are_no_day() {
    for (date, reason) in [
        ("2026-00-10", "there is no month 0"),
        ("2026-13-10", "there is no month 13"),
        ("2026-01-00", "that month has days 1 to 31"),
        ("2026-01-32", "that month has days 1 to 31"),
        ("2026-04-31", "that month has days 1 to 30"),
        ("2026-12-99", "that month has days 1 to 31"),
    ] {
        assert_eq!(refused(date), format!("{date} is no date: {reason}"));
    }
    for word in [
        "",
        "-",
        "-5",
        "+5",
        "5x",
        "today",
        "15.11.2026",
        "2026/11/15",
        "2026-11",
        "2026-11-15-1",
        "26-11-15",
        "2026-1-5",
        "2026-011-5",
        "+026-11-15",
        "２026-11-15",
        "2026-11-15T08",
    ] {
        let message = format!("'{word}' is no day: write a date like 2026-11-15, or the days since 2000-01-01");
        assert_eq!(refused(word), message);
    }
}

#[test]
fn ranges_of_days() {
    for (word, first, last, shown) in [
        ("2025-01-01..2026-06-30", 9_132, 9_677, "2025-01-01..2026-06-30"),
        ("..2026-06-30", 0, 9_677, "..2026-06-30"),
        ("2025-01-01..", 9_132, 65_535, "2025-01-01.."),
        ("..", 0, 65_535, ".."),
        ("0..65535", 0, 65_535, ".."),
        ("0..9677", 0, 9_677, "..2026-06-30"),
        ("2000-01-02..9677", 1, 9_677, "2000-01-02..2026-06-30"),
        ("0..0", 0, 0, "..0"),
        ("..0", 0, 0, "..0"),
        ("65535..", 65_535, 65_535, "2179-06-06.."),
        ("2026-11-15..2026-11-15", 9_815, 9_815, "2026-11-15..2026-11-15"),
    ] {
        let days = Days::read(word).unwrap();
        assert_eq!((days.first.0, days.last.0), (first, last));
        assert_eq!(days.to_string(), shown);
        assert_eq!(Days::read(shown), Ok(days));
    }
}

#[test]
fn days_of_a_graph() {
    let text = "[graph]\nvertex a label 3 day 2026-11-15\nvertex b day 7\n\
                vertices 2 label 4 day 2004-02-29\nvertices 1 day 0\nvertex day\nday -1-> a\n";
    let graph = parse(text.as_bytes()).unwrap().hang.graph.unwrap();
    let days: Vec<(u32, u32)> = graph.vertices.iter().map(|v| (v.label, v.day.0)).collect();
    let expected = [(3, 9_815), (0, 7), (4, 1_520), (4, 1_520), (0, 0), (0, 0)];
    assert_eq!(days, expected);
}

#[test]
fn faulty_days_of_a_graph() {
    let expected = "expected an item 'NAME: KIND' or 'vertex NAME', several 'vertices COUNT', each with 'label L' \
                    and 'day D' after it or without; or a connection 'A -KIND-> B' with blanks around the arrow";
    for (words, message) in [
        ("day 2026-02-29", "2026-02-29 is no date: that month has days 1 to 28"),
        ("label 3 day 2000-01-01", "2000-01-01 would be day 0, which stands for no day; the first date is 2000-01-02"),
        ("day 65536", "day 65536 is not within 0 to 65535"),
        ("label 65536 day 2026-02-29", "vertex label 65536 is not within 0 to 65535"),
        ("label 3 inspected ..2026-06-30", "'inspected' is for query vertices; a graph vertex has 'day D'"),
        ("day 5..6", "'5..6' is no day: write a date like 2026-11-15, or the days since 2000-01-01"),
        ("day", expected),
        ("label 3 day", expected),
        ("day 5 label 3", expected),
        ("day 5 day 6", expected),
        ("day 5 6", expected),
        ("Day 5", expected),
        ("2026-11-15", "a date by itself is no kind"),
    ] {
        for start in ["vertex b", "vertices 2"] {
            let text = format!("[graph]\nvertex a\n{start} {words}\na -1-> a\n");
            assert_eq!(common::refused(&text), format!("3: {message}"));
        }
    }
}

#[test]
fn days_of_a_query() {
    let text = "[query]\nvertex a label 3 inspected 2025-01-01..2026-06-30\n\
                vertices 2 inspected ..2026-06-30\nvertex inspected\n\
                a -1-> 1\n1 -1-> 2\n2 -1-> inspected\n";
    let query = parse(text.as_bytes()).unwrap().hang.query.unwrap();
    let days = |v: &rizhavaan_core::packed::query::Vertex| (v.label, v.days.first.0, v.days.last.0);
    let vertices: Vec<(u32, u32, u32)> = query.vertices.iter().map(days).collect();
    let expected = [(3, 9_132, 9_677), (0, 0, 9_677), (0, 0, 9_677), (0, 0, 65_535)];
    assert_eq!(vertices, expected);
}

#[test]
fn faulty_days_of_a_query() {
    let expected = "expected a vertex 'NAME: KIND' or 'vertex NAME', several 'vertices COUNT', each with 'label L' \
                    and 'inspected FIRST..LAST' after it or without; a connection 'A -KIND-> B' with blanks around \
                    the arrow; a pair 'A < B'; or 'expect 0'";
    for (words, message) in [
        ("inspected 2026-06-30..2025-01-01", "the first day 2026-06-30 is above the last 2025-01-01"),
        ("label 3 inspected 1..0", "the first day 1 is above the last 0"),
        ("inspected 2000-01-01..", "2000-01-01 would be day 0, which stands for no day; the first date is 2000-01-02"),
        ("inspected ..2100-02-29", "2100-02-29 is no date: that month has days 1 to 28"),
        ("inspected 2026-06-30", "'2026-06-30' is no range FIRST..LAST of days"),
        ("inspected 5.6", "'5.6' is no range FIRST..LAST of days"),
        ("inspected 5...6", "'.6' is no day: write a date like 2026-11-15, or the days since 2000-01-01"),
        ("inspected 0..65536", "day 65536 is not within 0 to 65535"),
        ("label 3 day 2026-11-15", "'day' is for graph vertices; a query vertex has 'inspected FIRST..LAST'"),
        ("inspected", expected),
        ("inspected 5 .. 6", expected),
        ("inspected ..6 label 3", expected),
    ] {
        for start in ["vertex b", "vertices 2"] {
            let text = format!("[query]\nvertex a\n{start} {words}\na -1-> 1\n");
            assert_eq!(common::refused(&text), format!("3: {message}"));
        }
    }
}
