//! Splitting a text at matches.

use super::spans::Spans;
use super::{Match, SearchError};
use crate::ffi::{self, MatchList};
use std::iter::FusedIterator;
use std::vec;

/// The parts of a text before, between and after matches. [`Regex::split`](crate::Regex::split) returns it.
pub struct Split<'t> {
    text: &'t str,
    /// The matches that remain.
    matches: vec::IntoIter<Match<'t>>,
    /// Where the next part begins, `None` after the last one.
    from: Option<usize>,
}

impl<'t> Split<'t> {
    /// Returns the parts of a text at matches, which are in order: at most `limit`, of which the last is the rest.
    pub(crate) fn new(text: &'t str, mut matches: Vec<Match<'t>>, limit: usize) -> Split<'t> {
        matches.truncate(limit.saturating_sub(1));
        Split {
            text,
            matches: matches.into_iter(),
            from: Some(0).filter(|_| limit > 0),
        }
    }
}

impl<'t> Iterator for Split<'t> {
    type Item = &'t str;

    fn next(&mut self) -> Option<&'t str> {
        let from = self.from?;
        let found = self.matches.next();
        self.from = found.as_ref().map(Match::end);
        let to = found.map_or(self.text.len(), |found| found.start());
        Some(part(self.text, from, to))
    }

    fn size_hint(&self) -> (usize, Option<usize>) {
        let count = self.matches.len() + usize::from(self.from.is_some());
        (count, Some(count))
    }
}

impl ExactSizeIterator for Split<'_> {}

impl FusedIterator for Split<'_> {}

/// Returns the parts of a text that the library lists.
pub(crate) fn listed(text: &str, mut list: MatchList) -> Result<Vec<Option<&str>>, SearchError> {
    let mut span = Spans::unset(0);
    let mut parts = Vec::with_capacity(list.left() / 2);
    while list.next(span.numbers_mut()) == ffi::OK {
        let range = span.get(0);
        let part = range.map(|range| text.get(range).ok_or(SearchError::Library));
        parts.push(part.transpose()?);
    }
    Ok(parts)
}

fn part(text: &str, start: usize, end: usize) -> &str {
    text.get(start..end).unwrap_or_default()
}
