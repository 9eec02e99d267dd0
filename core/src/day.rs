//! Inspection days: dates, the numbers that the files hold for them, and ranges of days.

use std::fmt;

use crate::text::words::{is_number, number};

/// A day as the files hold it: days since 1 January 2000, in 16 bits. 0 stands for no day, so that
/// the first date is 2 January 2000.
#[derive(Clone, Copy, Debug, Default, PartialEq, Eq, PartialOrd, Ord)]
pub struct Day(pub u32);

impl Day {
    pub const NONE: Day = Day(0);
    pub const FIRST: Day = Day(1);
    pub const LAST: Day = Day(65_535);

    /// The day of a word: a date such as 2026-11-15, or a number.
    pub fn read(word: &str) -> Result<Self, String> {
        if is_number(word) {
            return number("day", word, Day::NONE.0..=Day::LAST.0).map(Day);
        }
        let [year, month, day] = parts(word)
            .ok_or_else(|| format!("'{word}' is no day: write a date like 2026-11-15, or the days since 2000-01-01"))?;
        if !(1..=12).contains(&month) {
            return Err(format!("{word} is no date: there is no month {month}"));
        }
        let days = month_length(year, month);
        if !(1..=days).contains(&day) {
            return Err(format!("{word} is no date: that month has days 1 to {days}"));
        }
        match number_of(year, month, day) {
            Some(Day::NONE) => {
                Err(format!("{word} would be day 0, which stands for no day; the first date is {}", Day::FIRST))
            }
            Some(number) if number <= Day::LAST => Ok(number),
            _ => Err(format!("{word} is not within {} to {}", Day::FIRST, Day::LAST)),
        }
    }
}

/// The date, but 0 for no day.
impl fmt::Display for Day {
    fn fmt(&self, f: &mut fmt::Formatter) -> fmt::Result {
        if *self == Day::NONE {
            return write!(f, "0");
        }
        let (mut year, mut month, mut left) = (2000, 1, self.0);
        while left >= year_length(year) {
            left -= year_length(year);
            year += 1;
        }
        while left >= month_length(year, month) {
            left -= month_length(year, month);
            month += 1;
        }
        write!(f, "{year:04}-{month:02}-{:02}", left + 1)
    }
}

/// The days from the first to the last, both inclusive, that a query vertex asks for. Day 0 is read
/// as a number: a range from 0 takes in what has no day.
#[derive(Clone, Copy, Debug, PartialEq, Eq)]
pub struct Days {
    pub first: Day,
    pub last: Day,
}

impl Days {
    /// Every day, and none.
    pub const ALL: Days = Days { first: Day::NONE, last: Day::LAST };

    /// The range of a word FIRST..LAST. An end that is left out is open.
    pub fn read(word: &str) -> Result<Self, String> {
        let (first, last) = word.split_once("..").ok_or_else(|| format!("'{word}' is no range FIRST..LAST of days"))?;
        let end = |word: &str, open: Day| match word {
            "" => Ok(open),
            _ => Day::read(word),
        };
        let days = Days { first: end(first, Days::ALL.first)?, last: end(last, Days::ALL.last)? };
        if days.is_reversed() {
            return Err(format!("the first day {first} is above the last {last}"));
        }
        Ok(days)
    }

    /// Nothing lies between the two, and the engine refuses them.
    pub fn is_reversed(&self) -> bool {
        self.first > self.last
    }
}

impl fmt::Display for Days {
    fn fmt(&self, f: &mut fmt::Formatter) -> fmt::Result {
        if self.first != Days::ALL.first {
            write!(f, "{}", self.first)?;
        }
        write!(f, "..")?;
        if self.last != Days::ALL.last {
            write!(f, "{}", self.last)?;
        }
        Ok(())
    }
}

/// Year, month and day of a word of the form 2026-11-15.
fn parts(word: &str) -> Option<[u32; 3]> {
    let bytes = word.as_bytes();
    if bytes.len() != 10 || bytes[4] != b'-' || bytes[7] != b'-' {
        return None;
    }
    let part = |digits: &[u8]| {
        digits.iter().try_fold(0, |number, byte| byte.is_ascii_digit().then(|| 10 * number + u32::from(byte - b'0')))
    };
    Some([part(&bytes[..4])?, part(&bytes[5..7])?, part(&bytes[8..])?])
}

/// The word is a date, with digits where a date has them.
pub fn is_date(word: &str) -> bool {
    parts(word).is_some()
}

/// The days since 1 January 2000 of a date, or nothing if it lies before.
fn number_of(year: u32, month: u32, day: u32) -> Option<Day> {
    if year < 2000 {
        return None;
    }
    // The leap years before it, from 2000 on: every fourth, without centuries that 400 does not divide.
    let past = year - 2000;
    let leaps = (past + 3) / 4 - (past + 99) / 100 + (past + 399) / 400;
    let months: u32 = (1..month).map(|m| month_length(year, m)).sum();
    Some(Day(365 * past + leaps + months + day - 1))
}

fn is_leap(year: u32) -> bool {
    year % 4 == 0 && (year % 100 != 0 || year % 400 == 0)
}

fn year_length(year: u32) -> u32 {
    if is_leap(year) {
        366
    } else {
        365
    }
}

fn month_length(year: u32, month: u32) -> u32 {
    match month {
        4 | 6 | 9 | 11 => 30,
        2 if is_leap(year) => 29,
        2 => 28,
        _ => 31,
    }
}
