//! Matches on pages of text.
use crate::{page_into, Matches, PAGE_BYTES};

/// The pages of some matches, from the first on: each is [`PAGE_BYTES`] bytes, as [`page_into`] fills them. Made by [`Matches::pages`].
#[derive(Clone, Debug)]
pub struct Pages<'l> {
    matches: Matches<'l>,
    next: usize,
    pages: usize,
}

impl<'l> Matches<'l> {
    /// The matches on pages of text, 59 a page; no matches give one page.
    ///
    /// Each page looks at every match again, so the time for all of them grows with the square of their number: a hundred thousand
    /// matches take a fraction of a second, a million some twenty.
    pub fn pages(&self) -> Pages<'l> {
        let mut pages = Pages { matches: *self, next: 1, pages: 1 };
        pages.pages = pages.fill(1, &mut [0; PAGE_BYTES]);
        pages
    }
}

impl Pages<'_> {
    /// Fills a page that there is; answers the page count.
    fn fill(&self, page: usize, bytes: &mut [u8]) -> usize {
        let matches = &self.matches;
        page_into(matches.words(), matches.width(), matches.len(), page, bytes)
            .expect("an accepted run has 2 to 8 words a row, few enough rows, and words that are vertices")
    }
}

impl Iterator for Pages<'_> {
    type Item = [u8; PAGE_BYTES];

    fn next(&mut self) -> Option<[u8; PAGE_BYTES]> {
        if self.pages < self.next {
            return None;
        }
        let mut bytes = [0; PAGE_BYTES];
        self.fill(self.next, &mut bytes);
        self.next += 1;
        Some(bytes)
    }

    fn size_hint(&self) -> (usize, Option<usize>) {
        let left = self.pages + 1 - self.next;
        (left, Some(left))
    }
}

impl ExactSizeIterator for Pages<'_> {}
