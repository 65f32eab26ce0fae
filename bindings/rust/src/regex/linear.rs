//! Regular expressions whose searches take linear time.

use super::found::Found;
use super::{Captures, Error, Match, Options, Regex, Replacer, SearchError, Split};
use crate::flags::{Flags, PatternFlags};
use std::alloc::{handle_alloc_error, Layout};
use std::borrow::Cow;
use std::fmt;
use std::iter::FusedIterator;
use std::str::FromStr;

/// A regular expression whose searches take linear time ([`Regex::is_linear`]). They cannot be out of steps, and have no
/// limit of memory, so that no call returns a `Result`, as in the crate `regex`. An allocation that fails aborts, as
/// elsewhere in `std`.
///
/// ```
/// use regress_front::{Error, LinearRegex, Nonlinear};
///
/// let word = LinearRegex::new(r"(?<first>\w)\w*")?;
/// let words: Vec<&str> = word.find_iter("one two").map(|found| found.as_str()).collect();
/// assert_eq!(words, ["one", "two"]);
/// assert_eq!(word.replace_all("one two", "$<first>"), "o t");
/// assert_eq!(LinearRegex::new(r"(a)\1").unwrap_err(), Error::Nonlinear(Nonlinear::BackReference));
/// # Ok::<(), Error>(())
/// ```
#[derive(Clone)]
pub struct LinearRegex(Regex);

impl LinearRegex {
    /// Compiles a pattern without flags, within the default [`Options`].
    ///
    /// # Errors
    /// Returns [`Error::Nonlinear`] if searches do not take linear time, and else as for [`Regex::with_options`].
    pub fn new(pattern: &str) -> Result<LinearRegex, Error> {
        LinearRegex::with_options(pattern, Flags::default(), Options::default())
    }

    /// Compiles a pattern with flags, as [`Regex::with_flags`].
    ///
    /// # Errors
    /// As for [`LinearRegex::new`], and [`Error::Flags`].
    pub fn with_flags(pattern: &str, flags: impl PatternFlags) -> Result<LinearRegex, Error> {
        LinearRegex::with_options(pattern, flags.flags()?, Options::default())
    }

    /// Compiles a pattern with flags, within limits. [`Options::memory`] and [`Options::linear_steps`] do not apply.
    ///
    /// # Errors
    /// As for [`LinearRegex::new`].
    pub fn with_options(
        pattern: &str,
        flags: Flags,
        options: Options,
    ) -> Result<LinearRegex, Error> {
        let unlimited = Options {
            memory: usize::MAX,
            linear_steps: None,
            ..options
        };
        Regex::with_options(pattern, flags, unlimited)?.try_into()
    }

    /// Returns whether the pattern matches somewhere in `text`.
    pub fn is_match(&self, text: &str) -> bool {
        found(self.0.is_match(text))
    }

    /// Returns the leftmost match in `text`, as [`Regex::find`].
    pub fn find<'t>(&self, text: &'t str) -> Option<Match<'t>> {
        found(self.0.find(text))
    }

    /// Returns the leftmost match in `text` that starts at the byte offset `start` or later, as [`Regex::find_at`].
    pub fn find_at<'t>(&self, text: &'t str, start: usize) -> Option<Match<'t>> {
        found(self.0.find_at(text, start))
    }

    /// Returns the leftmost match in `text` with the captures of its groups: it is that of [`LinearRegex::find`].
    pub fn captures<'t>(&self, text: &'t str) -> Option<Captures<'t>> {
        self.find(text)
    }

    /// Returns an iterator over the non-overlapping matches in `text`, as [`Regex::find_iter`].
    pub fn find_iter<'t>(&self, text: &'t str) -> LinearMatches<'t> {
        LinearMatches(found(self.0.found_from(text, 0)))
    }

    /// Returns an iterator over the non-overlapping matches in `text` with the captures of their groups: it is that of
    /// [`LinearRegex::find_iter`].
    pub fn captures_iter<'t>(&self, text: &'t str) -> LinearMatches<'t> {
        self.find_iter(text)
    }

    /// Returns `text` with the first match replaced, as [`Regex::replace`].
    pub fn replace<'t>(&self, text: &'t str, replacement: impl Replacer) -> Cow<'t, str> {
        found(self.0.replace(text, replacement))
    }

    /// Returns `text` with all matches replaced, as [`Regex::replace_all`].
    pub fn replace_all<'t>(&self, text: &'t str, replacement: impl Replacer) -> Cow<'t, str> {
        found(self.0.replace_all(text, replacement))
    }

    /// Returns `text` with its first `limit` matches replaced, as [`Regex::replacen`].
    pub fn replacen<'t>(
        &self,
        text: &'t str,
        limit: usize,
        replacement: impl Replacer,
    ) -> Cow<'t, str> {
        found(self.0.replacen(text, limit, replacement))
    }

    /// Returns what a template expands to at a match of this regular expression, as [`Regex::expand`].
    pub fn expand(&self, template: &str, found: &Match<'_>) -> String {
        self::found(self.0.expand(template, found))
    }

    /// Returns an iterator over the parts of `text` before, between and after the matches, as [`Regex::split`].
    pub fn split<'t>(&self, text: &'t str) -> Split<'t> {
        found(self.0.split(text))
    }

    /// Returns an iterator over the first parts of [`LinearRegex::split`], as [`Regex::splitn`].
    pub fn splitn<'t>(&self, text: &'t str, limit: usize) -> Split<'t> {
        found(self.0.splitn(text, limit))
    }

    /// Returns the same regular expression, with calls that return a `Result`.
    pub fn as_regex(&self) -> &Regex {
        &self.0
    }
}

/// Returns what a search that is linear has found.
fn found<T>(result: Result<T, SearchError>) -> T {
    match result {
        Ok(found) => found,
        Err(SearchError::Memory) => handle_alloc_error(Layout::new::<Regex>()),
        Err(error) => panic!("a linear search: {error}"),
    }
}

/// Returns [`Error::Nonlinear`] if searches do not take linear time. The limits of the [`Regex`] stay: a search that exceeds
/// its [`Options::memory`] or [`Options::linear_steps`] panics. [`LinearRegex::with_options`] has no such limits.
impl TryFrom<Regex> for LinearRegex {
    type Error = Error;

    fn try_from(regex: Regex) -> Result<LinearRegex, Error> {
        match regex.nonlinear() {
            None => Ok(LinearRegex(regex)),
            Some(reason) => Err(Error::Nonlinear(reason)),
        }
    }
}

impl FromStr for LinearRegex {
    type Err = Error;

    fn from_str(pattern: &str) -> Result<LinearRegex, Error> {
        LinearRegex::new(pattern)
    }
}

impl fmt::Display for LinearRegex {
    fn fmt(&self, f: &mut fmt::Formatter<'_>) -> fmt::Result {
        self.0.fmt(f)
    }
}

impl fmt::Debug for LinearRegex {
    fn fmt(&self, f: &mut fmt::Formatter<'_>) -> fmt::Result {
        f.debug_tuple("LinearRegex").field(&self.0).finish()
    }
}

/// The non-overlapping matches in a text, from left to right. [`LinearRegex::find_iter`] returns it.
pub struct LinearMatches<'t>(Found<'t>);

impl<'t> Iterator for LinearMatches<'t> {
    type Item = Match<'t>;

    fn next(&mut self) -> Option<Match<'t>> {
        self.0.next().map(found)
    }

    fn size_hint(&self) -> (usize, Option<usize>) {
        (self.0.left(), Some(self.0.left()))
    }
}

impl ExactSizeIterator for LinearMatches<'_> {}

impl FusedIterator for LinearMatches<'_> {}

impl fmt::Debug for LinearMatches<'_> {
    fn fmt(&self, f: &mut fmt::Formatter<'_>) -> fmt::Result {
        f.debug_struct("LinearMatches").finish_non_exhaustive()
    }
}
