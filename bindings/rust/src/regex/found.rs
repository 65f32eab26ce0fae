//! Matches.

use super::names::Names;
use super::spans::Spans;
use super::{Regex, SearchError};
use crate::ffi::{self, MatchList};
use std::fmt;
use std::iter;
use std::ops::{Index, Range};
use std::sync::Arc;

/// A match of a regular expression in a text, with the captures of its groups. All positions are byte offsets of the
/// text, on character boundaries.
///
/// A group is found by its number, from 1 in the order of the opening parentheses, or by its name. `found[2]` and
/// `found["year"]` are the texts of captures.
///
/// ```
/// use regress_front::Regex;
///
/// let date = Regex::new(r"(?<year>\d{4})-(\d\d)(-\d\d)?")?;
/// if let Some(found) = date.captures("in 2024-05")? {
///     assert_eq!((&found[0], &found["year"], &found[2]), ("2024-05", "2024", "05"));
///     assert_eq!(found.name("year").map(|year| year.range()), Some(3..7));
///     assert!(found.get(3).is_none());
/// }
/// # Ok::<(), Box<dyn std::error::Error>>(())
/// ```
#[derive(Clone)]
pub struct Match<'t> {
    text: &'t str,
    range: Range<usize>,
    spans: Spans,
    /// The names of the groups, if some group has one.
    names: Option<Arc<Names>>,
}

/// A match, which has the captures of its groups.
pub type Captures<'t> = Match<'t>;

impl<'t> Match<'t> {
    /// Returns the match with these spans.
    pub(crate) fn new(
        text: &'t str,
        spans: Spans,
        names: &Option<Arc<Names>>,
    ) -> Result<Match<'t>, SearchError> {
        match spans.get(0) {
            Some(range) if spans.are_in(text) => Ok(Match {
                text,
                range,
                spans,
                names: names.clone(),
            }),
            _ => Err(SearchError::Library),
        }
    }

    /// Returns the span of the whole match.
    pub fn range(&self) -> Range<usize> {
        self.range.clone()
    }

    /// Returns the byte offset at which the match starts.
    pub fn start(&self) -> usize {
        self.range.start
    }

    /// Returns the byte offset at which the match ends, which is not part of it.
    pub fn end(&self) -> usize {
        self.range.end
    }

    /// Returns the length of the match in bytes.
    pub fn len(&self) -> usize {
        self.range.len()
    }

    /// Returns whether the match is empty.
    pub fn is_empty(&self) -> bool {
        self.range.is_empty()
    }

    /// Returns the text of the match.
    pub fn as_str(&self) -> &'t str {
        &self.text[self.range()]
    }

    /// Returns the span that a group has captured last, by its number: 0 is the whole match, and the groups count from
    /// 1 in the order of their opening parentheses, as in references.
    ///
    /// The result is `None` if the group is unset, or if the pattern has no group with this number.
    pub fn group(&self, number: usize) -> Option<Range<usize>> {
        self.spans.get(number)
    }

    /// Returns the span that the group with a name has captured last.
    ///
    /// If several groups share the name it is the first one that is set. The result is `None` if none is set, or if the
    /// pattern has no group with this name.
    pub fn named_group(&self, name: &str) -> Option<Range<usize>> {
        self.named_groups()
            .filter(|group| group.0 == name)
            .find_map(|group| group.1)
    }

    /// Returns the capture of a group by its number, as [`Match::group`]: a match without groups of its own.
    pub fn get(&self, number: usize) -> Option<Match<'t>> {
        self.group(number).map(|range| self.part(range))
    }

    /// Returns the capture of the group with a name, as [`Match::named_group`]: a match without groups of its own.
    pub fn name(&self, name: &str) -> Option<Match<'t>> {
        self.named_group(name).map(|range| self.part(range))
    }

    /// Returns the span of the whole match, and then that of each group, `None` for an unset one.
    pub fn groups(&self) -> impl Iterator<Item = Option<Range<usize>>> + '_ {
        (0..=self.spans.groups()).map(|number| self.spans.get(number))
    }

    /// Returns the name and the span of each group that has a name, in the order of the opening parentheses; `None` for
    /// an unset group.
    pub fn named_groups(&self) -> impl Iterator<Item = (&str, Option<Range<usize>>)> {
        let names = self.names.iter().flat_map(|names| names.iter());
        names
            .zip(1..)
            .filter_map(|(name, number)| Some((name?, self.spans.get(number))))
    }

    /// Returns the match of a part of the text.
    fn part(&self, range: Range<usize>) -> Match<'t> {
        let mut spans = Spans::unset(0);
        spans
            .numbers_mut()
            .copy_from_slice(&[range.start, range.end]);
        Match {
            text: self.text,
            range,
            spans,
            names: None,
        }
    }

    /// Returns the text that was searched.
    pub(crate) fn searched(&self) -> &'t str {
        self.text
    }

    pub(crate) fn spans(&self) -> &Spans {
        &self.spans
    }

    /// Returns the part of the text with the spans of the match and of its groups, and the spans in it.
    pub(crate) fn extent(&self) -> (&'t str, Spans) {
        let extent = self.spans.extent();
        let spans = self.spans.counted_from(extent.start);
        (&self.text[extent], spans)
    }
}

/// Returns the text that the group with a number has captured.
///
/// # Panics
/// Panics if the group is unset, or if there is none with this number.
impl Index<usize> for Match<'_> {
    type Output = str;

    fn index(&self, number: usize) -> &str {
        match self.group(number) {
            Some(range) => &self.text[range],
            None => panic!("no capture of a group with the number {number}"),
        }
    }
}

/// Returns the text that the group with a name has captured.
///
/// # Panics
/// Panics if no group with this name is set.
impl Index<&str> for Match<'_> {
    type Output = str;

    fn index(&self, name: &str) -> &str {
        match self.named_group(name) {
            Some(range) => &self.text[range],
            None => panic!("no capture of a group with the name {name}"),
        }
    }
}

impl fmt::Debug for Match<'_> {
    fn fmt(&self, f: &mut fmt::Formatter<'_>) -> fmt::Result {
        f.debug_struct("Match")
            .field("text", &self.as_str())
            .field("range", &self.range)
            .field("groups", &self.groups().skip(1).collect::<Vec<_>>())
            .finish()
    }
}

/// The matches that a search has found, as the library lists them.
pub(crate) struct Found<'t> {
    text: &'t str,
    list: MatchList,
    /// How many are left.
    left: usize,
    /// The number of groups of the pattern.
    groups: usize,
    names: Option<Arc<Names>>,
}

impl<'t> Found<'t> {
    pub(crate) fn new(regex: &Regex, text: &'t str, mut list: MatchList) -> Found<'t> {
        let groups = regex.group_count();
        Found {
            text,
            left: list.left() / (2 * (groups + 1)),
            list,
            groups,
            names: regex.compiled.named.clone(),
        }
    }

    /// Returns the next match.
    pub(crate) fn next(&mut self) -> Option<Result<Match<'t>, SearchError>> {
        if self.left == 0 {
            return None;
        }
        self.left -= 1;
        let mut spans = Spans::unset(self.groups);
        match self.list.next(spans.numbers_mut()) {
            ffi::OK => Some(Match::new(self.text, spans, &self.names)),
            _ => Some(Err(SearchError::Library)),
        }
    }

    /// Returns how many matches are left.
    pub(crate) fn left(&self) -> usize {
        self.left
    }
}

/// The non-overlapping matches in a text, from left to right. [`Regex::find_iter`] returns it.
pub struct Matches<'r, 't> {
    regex: &'r Regex,
    /// `None` after an error.
    found: Option<Found<'t>>,
    error: Option<SearchError>,
}

impl<'r, 't> Matches<'r, 't> {
    pub(crate) fn new(regex: &'r Regex, found: Result<Found<'t>, SearchError>) -> Matches<'r, 't> {
        let error = found.as_ref().err().copied();
        Matches {
            regex,
            found: found.ok(),
            error,
        }
    }
}

impl<'t> Iterator for Matches<'_, 't> {
    type Item = Result<Match<'t>, SearchError>;

    fn next(&mut self) -> Option<Result<Match<'t>, SearchError>> {
        match &mut self.found {
            Some(found) => found.next(),
            None => self.error.take().map(Err),
        }
    }

    fn size_hint(&self) -> (usize, Option<usize>) {
        let count = match &self.found {
            Some(found) => found.left(),
            None => usize::from(self.error.is_some()),
        };
        (count, Some(count))
    }
}

impl ExactSizeIterator for Matches<'_, '_> {}

impl iter::FusedIterator for Matches<'_, '_> {}

impl fmt::Debug for Matches<'_, '_> {
    fn fmt(&self, f: &mut fmt::Formatter<'_>) -> fmt::Result {
        f.debug_struct("Matches")
            .field("regex", &self.regex)
            .finish_non_exhaustive()
    }
}
