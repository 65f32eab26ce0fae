//! Regular expressions: a pattern is compiled once, and then searched for in texts.
//!
//! ```
//! use regress_front::Regex;
//!
//! let regex = Regex::new(r"(?<month>\d\d)-(\d\d)")?;
//! let text = "on 12-31";
//! if let Some(found) = regex.find(text)? {
//!     assert_eq!(found.as_str(), "12-31");
//!     assert_eq!(found.named_group("month"), Some(3..5));
//!     assert_eq!(found.group(2), Some(6..8));
//! }
//! assert_eq!(regex.replace_all(text, "$2.$<month>.")?, "on 31.12.");
//! # Ok::<(), Box<dyn std::error::Error>>(())
//! ```
//!
//! A search takes linear time if the pattern has neither a back reference nor a lookaround that captures, and is not
//! too long ([`Regex::is_linear`]). Any other backtracks within a step limit ([`Options`]), so that it also ends for
//! untrusted patterns and texts. It fails with a [`SearchError`] at the limit.

mod error;
mod escape;
mod found;
mod linear;
mod names;
mod nonlinear;
mod replace;
mod spans;
mod split;

pub use error::{Error, SearchError};
pub use escape::escape;
pub use found::{Captures, Match, Matches};
pub use linear::{LinearMatches, LinearRegex};
pub use nonlinear::Nonlinear;
pub use replace::Replacer;
pub use split::Split;

pub(crate) use error::syntax_error;

use crate::ffi::{self, Handle};
use crate::flags::{bits, Dialect, Flags, PatternFlags, Table};
use error::{compile_error, search_error};
use found::Found;
use names::Names;
use spans::Spans;
use std::borrow::Cow;
use std::fmt;
use std::iter;
use std::str::FromStr;
use std::sync::Arc;

/// A compiled regular expression.
///
/// A clone shares it, in next to no time. Any number of threads may search with it at the same time.
#[derive(Clone)]
pub struct Regex {
    compiled: Arc<Compiled>,
}

struct Compiled {
    handle: Handle,
    pattern: String,
    flags: Flags,
    /// Why searches are not linear, `None` if they are.
    nonlinear: Option<Nonlinear>,
    /// The bound for the steps of a search for each byte of a text, if they are linear.
    steps_per_byte: u64,
    /// The bound for the steps of a search for one match, 0 if there is none.
    find_steps_per_byte: u64,
    /// The names of the groups, if some group has one.
    named: Option<Arc<Names>>,
}

/// The dialect of a regular expression, its limits, 0 for the default of each, and its table of Unicode.
#[derive(Clone, Copy, Debug, PartialEq, Eq)]
pub struct Options {
    /// The dialect of the pattern. By default `Dialect::Ecma`, the language of JavaScript.
    pub dialect: Dialect,
    /// The number of steps that one search may take if it does not take linear time ([`Regex::is_linear`],
    /// [`Regex::is_find_linear`]). By default a billion. A call that is about all matches is one search.
    pub steps: u64,
    /// The number of nodes that the tree of the pattern may have, as [`node_bound`](crate::node_bound) bounds it. By
    /// default a million.
    pub nodes: usize,
    /// The number of instructions of the pattern's program that may be stored, where the body of a loop `{n,m}` counts m
    /// times, or if it is one character, about m / 64 times; but if that is too much, a few times. By default 250,000.
    pub instructions: usize,
    /// The number of instructions up to which a search may be linear, where one character always counts about m / 64 times.
    /// By default 4,000. It takes up to two bits of memory for each instruction and byte of the text.
    pub linear_instructions: usize,
    /// The memory in bytes that the tables of one search may take: at most a quarter of a byte for each instruction, and 8
    /// bytes, for each byte of the text, and once more. The same limit holds for each backtrack stack, one for the pattern
    /// and one for each level of nested lookarounds, and for all matches of one call: 56 bytes for each, and 24 for each
    /// group. By default 256 MiB. Of tables, up to 4 bytes more for each lookaround and byte of the text do not count.
    pub memory: usize,
    /// The number of steps that one search may take if it takes linear time. By default `None`: there is no limit. If
    /// [`Regex::steps_per_byte`] times (length + 1) exceeds it, for one match [`Regex::find_steps_per_byte`], the search
    /// only backtracks, within that number of steps. `Some(0)` is `None`.
    pub linear_steps: Option<u64>,
    pub table: Table,
}

impl Default for Options {
    fn default() -> Options {
        Options {
            dialect: Dialect::Ecma,
            steps: 1_000_000_000,
            nodes: 1_000_000,
            instructions: 250_000,
            linear_instructions: 4_000,
            memory: 256 << 20,
            linear_steps: None,
            table: Table::Whole,
        }
    }
}

impl Regex {
    /// Compiles a pattern without flags, within the default [`Options`].
    ///
    /// # Errors
    /// As for [`Regex::with_options`].
    pub fn new(pattern: &str) -> Result<Regex, Error> {
        Regex::with_options(pattern, Flags::default(), Options::default())
    }

    /// Compiles a pattern with flags: JavaScript's letters, as [`Flags`] reads them, or [`Flags`].
    ///
    /// # Errors
    /// Returns [`Error::Flags`] if the letters specify no flags, and else as for [`Regex::with_options`].
    pub fn with_flags(pattern: &str, flags: impl PatternFlags) -> Result<Regex, Error> {
        Regex::with_options(pattern, flags.flags()?, Options::default())
    }

    /// Compiles a pattern with flags, in a dialect and within limits.
    ///
    /// # Errors
    /// - [`Error::Syntax`] if the pattern is rejected.
    /// - [`Error::TooLarge`] if its tree may have more nodes than `options.nodes`, whether or not it is valid; or if
    ///   more instructions of its program are stored than `options.instructions`, or there are 2^64 with all iterations.
    /// - [`Error::Memory`] if the library is out of memory.
    pub fn with_options(pattern: &str, flags: Flags, options: Options) -> Result<Regex, Error> {
        if !ffi::has_abi() {
            return Err(Error::Library);
        }
        let limits = ffi::Limits {
            steps: options.steps,
            nodes: options.nodes,
            instructions: options.instructions,
            linear_instructions: options.linear_instructions,
            memory: options.memory,
            linear_steps: options.linear_steps.unwrap_or(0),
        };
        let (bits, dialect) = (bits(flags, options.table), options.dialect);
        let handle = ffi::compile(pattern, bits | dialect.compile_bits(), &limits)
            .map_err(|status| compile_error(status, pattern, bits | dialect.parse_bits()))?;
        let nonlinear = match handle.nonlinear() {
            0 => None,
            number => Some(Nonlinear::from_number(number).ok_or(Error::Library)?),
        };
        let names = Names::of(&handle).ok_or(Error::Library)?;
        Ok(Regex {
            compiled: Arc::new(Compiled {
                steps_per_byte: handle.steps_per_byte(),
                find_steps_per_byte: handle.find_steps_per_byte(),
                handle,
                pattern: pattern.to_owned(),
                flags: options.dialect.flags_in_force(flags),
                nonlinear,
                named: Some(names).filter(Names::any).map(Arc::new),
            }),
        })
    }

    /// Returns whether the pattern matches somewhere in `text`.
    ///
    /// # Errors
    /// As for [`Regex::find_at`].
    pub fn is_match(&self, text: &str) -> Result<bool, SearchError> {
        match self.handle().is_match(text) {
            ffi::OK => Ok(true),
            ffi::NO_MATCH => Ok(false),
            status => Err(search_error(status)),
        }
    }

    /// Returns the leftmost match in `text`, or `None` if there is none. If several matches begin there, it is the one that
    /// backtracking finds first.
    ///
    /// # Errors
    /// As for [`Regex::find_at`].
    pub fn find<'t>(&self, text: &'t str) -> Result<Option<Match<'t>>, SearchError> {
        self.find_at(text, 0)
    }

    /// Returns the leftmost match in `text` that starts at the byte offset `start` or later; `None` if there is none.
    ///
    /// What precedes `start` is text too: `^` does not match there, and a lookbehind may match it. `start` may be off a
    /// character boundary; past the end of `text` there is no match. For all matches prefer [`Regex::find_iter`]: each
    /// call decodes the whole text.
    ///
    /// # Errors
    /// - [`SearchError::OutOfSteps`] if the search takes more steps than [`Options`] allow.
    /// - [`SearchError::TooMuchMemory`] if it needs more memory than [`Options::memory`] allows.
    /// - [`SearchError::Memory`] if the library is out of memory.
    pub fn find_at<'t>(
        &self,
        text: &'t str,
        start: usize,
    ) -> Result<Option<Match<'t>>, SearchError> {
        let mut spans = Spans::unset(self.group_count());
        match self.handle().find(text, start, spans.numbers_mut()) {
            ffi::OK => Match::new(text, spans, &self.compiled.named).map(Some),
            ffi::NO_MATCH => Ok(None),
            status => Err(search_error(status)),
        }
    }

    /// Returns the leftmost match in `text` with the captures of its groups: it is that of [`Regex::find`].
    ///
    /// # Errors
    /// As for [`Regex::find_at`].
    pub fn captures<'t>(&self, text: &'t str) -> Result<Option<Captures<'t>>, SearchError> {
        self.find(text)
    }

    /// Returns an iterator over the non-overlapping matches in `text` with the captures of their groups: it is that of
    /// [`Regex::find_iter`].
    pub fn captures_iter<'r, 't>(&'r self, text: &'t str) -> Matches<'r, 't> {
        self.find_iter(text)
    }

    /// Returns an iterator over the non-overlapping matches in `text`, from left to right. After an empty match the
    /// search goes on one character further.
    ///
    /// All matches are found by this call, and given one by one. If the search fails, the iterator returns the error, and
    /// no match.
    pub fn find_iter<'r, 't>(&'r self, text: &'t str) -> Matches<'r, 't> {
        self.find_from(text, 0)
    }

    /// Returns an iterator over the non-overlapping matches in `text` that start at the byte offset `start` or later, as
    /// [`Regex::find_iter`], and with a `start` as for [`Regex::find_at`].
    pub fn find_from<'r, 't>(&'r self, text: &'t str, start: usize) -> Matches<'r, 't> {
        Matches::new(self, self.found_from(text, start))
    }

    /// Returns all non-overlapping matches in `text`, from left to right.
    ///
    /// # Errors
    /// As for [`Regex::find_at`]. The step limit is for all matches together.
    pub fn find_all<'t>(&self, text: &'t str) -> Result<Vec<Match<'t>>, SearchError> {
        self.find_iter(text).collect()
    }

    /// Returns `text` with the first match replaced by a template, as JavaScript's `replace`, or by what a function
    /// returns for it.
    ///
    /// In the template `$$` is a `$`, `$&` the match, `` $` `` the text before it, `$'` the text after it, and `$1` to
    /// `$99` and `$<name>` the capture of a group, empty if the group is unset. Everything else is taken as it is.
    ///
    /// # Errors
    /// As for [`Regex::find_at`].
    pub fn replace<'t>(
        &self,
        text: &'t str,
        replacement: impl Replacer,
    ) -> Result<Cow<'t, str>, SearchError> {
        if let Some(template) = replacement.template() {
            return replace::written(text, self.handle().replace(text, template));
        }
        let first = self.find(text)?;
        Ok(replace::replaced(text, first.as_slice(), replacement))
    }

    /// Returns `text` with all matches replaced, from left to right, as [`Regex::replace`] does with one.
    ///
    /// # Errors
    /// As for [`Regex::find_at`]. The step limit is for all matches together.
    pub fn replace_all<'t>(
        &self,
        text: &'t str,
        replacement: impl Replacer,
    ) -> Result<Cow<'t, str>, SearchError> {
        if let Some(template) = replacement.template() {
            return replace::written(text, self.handle().replace_n(text, usize::MAX, template));
        }
        let matches = self.find_all(text)?;
        Ok(replace::replaced(text, &matches, replacement))
    }

    /// Returns `text` with its first `limit` matches replaced, from left to right, as [`Regex::replace`] does with one. As
    /// in the crate `regex`, all are replaced if `limit` is 0.
    ///
    /// ```
    /// use regress_front::Regex;
    ///
    /// let letter = Regex::new("[a-z]")?;
    /// assert_eq!(letter.replacen("a-b-c", 2, "<$&>")?, "<a>-<b>-c");
    /// # Ok::<(), Box<dyn std::error::Error>>(())
    /// ```
    ///
    /// # Errors
    /// As for [`Regex::find_at`]. The step limit is for all matches together.
    pub fn replacen<'t>(
        &self,
        text: &'t str,
        limit: usize,
        replacement: impl Replacer,
    ) -> Result<Cow<'t, str>, SearchError> {
        match limit {
            0 => return self.replace_all(text, replacement),
            1 => return self.replace(text, replacement),
            _ => {}
        }
        if let Some(template) = replacement.template() {
            return replace::written(text, self.handle().replace_n(text, limit, template));
        }
        let first: Result<Vec<_>, _> = self.find_iter(text).take(limit).collect();
        Ok(replace::replaced(text, &first?, replacement))
    }

    /// Returns `text` with the first match replaced by what a function returns for it, as [`Regex::replace`].
    ///
    /// # Errors
    /// As for [`Regex::find_at`].
    pub fn replace_with<'t>(
        &self,
        text: &'t str,
        replacement: impl FnMut(&Match<'_>) -> String,
    ) -> Result<Cow<'t, str>, SearchError> {
        self.replace(text, replacement)
    }

    /// Returns `text` with each match replaced by what a function returns for it, as [`Regex::replace_all`].
    ///
    /// # Errors
    /// As for [`Regex::find_at`]. The step limit is for all matches together.
    pub fn replace_all_with<'t>(
        &self,
        text: &'t str,
        replacement: impl FnMut(&Match<'_>) -> String,
    ) -> Result<Cow<'t, str>, SearchError> {
        self.replace_all(text, replacement)
    }

    /// Returns what a template expands to at a match of this regular expression, as by [`Regex::replace`].
    ///
    /// ```
    /// use regress_front::Regex;
    ///
    /// let date = Regex::new(r"(?<year>\d{4})-(\d\d)")?;
    /// for found in date.find_iter("2024-05, 2025-01") {
    ///     println!("{}", date.expand("$2/$<year>", &found?)?);
    /// }
    /// # Ok::<(), Box<dyn std::error::Error>>(())
    /// ```
    ///
    /// # Errors
    /// Returns [`SearchError::Memory`] if the library is out of memory. No template is rejected.
    ///
    /// # Panics
    /// Panics if the match has another number of groups than the pattern.
    pub fn expand(&self, template: &str, found: &Match<'_>) -> Result<String, SearchError> {
        replace::expand(self, template, found)
    }

    /// Returns an iterator over the parts of `text` before, between and after the matches, one more than there are
    /// matches. All matches are found by this call.
    ///
    /// # Errors
    /// As for [`Regex::find_at`]. The step limit is for all matches together.
    pub fn split<'t>(&self, text: &'t str) -> Result<Split<'t>, SearchError> {
        self.splitn(text, usize::MAX)
    }

    /// Returns an iterator over the first parts of [`Regex::split`], at most `limit`: the last of as many is the rest of
    /// `text`.
    ///
    /// # Errors
    /// As for [`Regex::split`].
    pub fn splitn<'t>(&self, text: &'t str, limit: usize) -> Result<Split<'t>, SearchError> {
        Ok(Split::new(text, self.find_all(text)?, limit))
    }

    /// Returns the parts of `text` as JavaScript's `split`, at most `limit`.
    ///
    /// A match splits the text unless it is empty and at the start of the text, at its end, or at the end of the match
    /// before it. The part before a match is followed by the captures of its groups, `None` for a group that is unset.
    /// An empty text has no parts if it has a match, and else one.
    ///
    /// # Errors
    /// As for [`Regex::split`].
    pub fn split_with_captures<'t>(
        &self,
        text: &'t str,
        limit: Option<usize>,
    ) -> Result<Vec<Option<&'t str>>, SearchError> {
        match self.handle().split(text, limit.unwrap_or(usize::MAX)) {
            Ok(list) => split::listed(text, list),
            Err(status) => Err(search_error(status)),
        }
    }

    /// Returns the text of the pattern.
    pub fn source(&self) -> &str {
        &self.compiled.pattern
    }

    /// Returns the flags in force ([`Dialect::flags_in_force`]).
    pub fn flags(&self) -> Flags {
        self.compiled.flags
    }

    /// Returns whether a match in `text`, in the dialect `Ecma`, is JavaScript's: with the flag u or v, or if the pattern has
    /// no code point above U+FFFF, which JavaScript reads as two code units, and neither has `text`, or each literal and
    /// class matches only others that are no surrogates, and each match has one.
    ///
    /// ```
    /// use regress_front::Regex;
    ///
    /// let regex = Regex::new("^.$")?;
    /// assert!(regex.is_exact_for("é") && !regex.is_exact_for("😀"));
    /// assert!(Regex::new("\\d+")?.is_exact_for("😀"));
    /// # Ok::<(), regress_front::Error>(())
    /// ```
    pub fn is_exact_for(&self, text: &str) -> bool {
        self.handle().is_exact_for(text)
    }

    /// Returns whether searches, also those for all matches, take time linear in the length of the text, so that
    /// [`Options::steps`] does not apply to them.
    ///
    /// They do if the pattern has neither a back reference nor a capture group in a lookaround that is not negated, and
    /// if its program has at most [`Options::linear_instructions`] instructions.
    pub fn is_linear(&self) -> bool {
        self.nonlinear().is_none()
    }

    /// Returns why searches do not take linear time, and `None` if they do. If there are several reasons, it is the first
    /// in the order of [`Nonlinear`].
    ///
    /// ```
    /// use regress_front::{Nonlinear, Regex};
    ///
    /// assert_eq!(Regex::new(r"(a)\1")?.nonlinear(), Some(Nonlinear::BackReference));
    /// assert_eq!(Regex::new("(a|a)*b")?.nonlinear(), None);
    /// # Ok::<(), regress_front::Error>(())
    /// ```
    pub fn nonlinear(&self) -> Option<Nonlinear> {
        self.compiled.nonlinear
    }

    /// Returns a number, at most `u64::MAX`: a search takes at most that times (length + 1) steps, where the length of
    /// the text is in bytes. The result is `None` if searches are not linear.
    pub fn steps_per_byte(&self) -> Option<u64> {
        Some(self.compiled.steps_per_byte).filter(|_| self.is_linear())
    }

    /// Returns whether a search for one match ([`Regex::find`], [`Regex::is_match`] and the like) takes time linear in
    /// the length of the text, so that [`Options::steps`] does not apply to it.
    ///
    /// It does if the pattern has no back reference, and if its program has at most [`Options::linear_instructions`] instructions.
    ///
    /// ```
    /// use regress_front::Regex;
    ///
    /// let regex = Regex::new("(?=(a*))b")?;
    /// assert!(regex.is_find_linear() && !regex.is_linear());
    /// # Ok::<(), regress_front::Error>(())
    /// ```
    pub fn is_find_linear(&self) -> bool {
        self.find_steps_per_byte().is_some()
    }

    /// Returns a number, at most `u64::MAX`: a search for one match takes at most that times (length + 1) steps, where the
    /// length of the text is in bytes. The result is `None` if such a search does not take linear time.
    pub fn find_steps_per_byte(&self) -> Option<u64> {
        Some(self.compiled.find_steps_per_byte).filter(|&steps| steps > 0)
    }

    /// Returns the number of capture groups, without the whole match.
    pub fn group_count(&self) -> usize {
        self.handle().group_count()
    }

    /// Returns the name of each capture group in the order of the opening parentheses, `None` for a group without one.
    pub fn group_names(&self) -> impl Iterator<Item = Option<&str>> {
        let named = self.compiled.named.as_deref();
        let names = named.into_iter().flat_map(Names::iter);
        names.chain(iter::repeat(None)).take(self.group_count())
    }

    /// Searches for all matches from an offset on.
    fn found_from<'t>(&self, text: &'t str, start: usize) -> Result<Found<'t>, SearchError> {
        match self.handle().matches(text, start) {
            Ok(list) => Ok(Found::new(self, text, list)),
            Err(status) => Err(search_error(status)),
        }
    }

    fn handle(&self) -> &Handle {
        &self.compiled.handle
    }
}

/// Writes the text of the pattern.
impl fmt::Display for Regex {
    fn fmt(&self, f: &mut fmt::Formatter<'_>) -> fmt::Result {
        f.write_str(self.source())
    }
}

impl fmt::Debug for Regex {
    fn fmt(&self, f: &mut fmt::Formatter<'_>) -> fmt::Result {
        f.debug_struct("Regex")
            .field("source", &self.source())
            .field("flags", &format_args!("{}", self.flags()))
            .finish()
    }
}

impl FromStr for Regex {
    type Err = Error;

    fn from_str(pattern: &str) -> Result<Regex, Error> {
        Regex::new(pattern)
    }
}
