//! Replacing matches, by a function or by a template.

use super::error::search_error;
use super::{Match, Regex, SearchError};
use crate::ffi::{self, Output};
use std::borrow::Cow;

/// What matches are replaced by: a template of JavaScript, or a function of the match that returns a text.
///
/// ```
/// use regress_front::{Match, Regex};
///
/// let word = Regex::new(r"(\w)(\w*)")?;
/// assert_eq!(word.replace_all("one two", "$2$1")?, "neo wot");
/// assert_eq!(word.replace_all("one two", |found: &Match| found[1].to_uppercase())?, "O T");
/// # Ok::<(), Box<dyn std::error::Error>>(())
/// ```
pub trait Replacer {
    /// Returns the template, if it is one.
    fn template(&self) -> Option<&str> {
        None
    }

    /// Appends what a match is replaced by, if it is no template.
    fn append(&mut self, _found: &Match<'_>, _out: &mut String) {}
}

impl<F: FnMut(&Match<'_>) -> T, T: AsRef<str>> Replacer for F {
    fn append(&mut self, found: &Match<'_>, out: &mut String) {
        out.push_str(self(found).as_ref());
    }
}

impl Replacer for &str {
    fn template(&self) -> Option<&str> {
        Some(self)
    }
}

impl Replacer for &String {
    fn template(&self) -> Option<&str> {
        Some(self)
    }
}

impl Replacer for String {
    fn template(&self) -> Option<&str> {
        Some(self)
    }
}

/// Returns what the library has written for a text: the text itself if it is the same.
pub(crate) fn written(text: &str, output: Output<u8>) -> Result<Cow<'_, str>, SearchError> {
    match output.status {
        ffi::OK if output.items == text.as_bytes() => Ok(Cow::Borrowed(text)),
        ffi::OK => String::from_utf8(output.items)
            .map(Cow::Owned)
            .map_err(|_| SearchError::Library),
        status => Err(search_error(status)),
    }
}

/// Returns a text with each of these matches replaced, which are in order.
pub(crate) fn replaced<'t>(
    text: &'t str,
    matches: &[Match<'t>],
    mut replacement: impl Replacer,
) -> Cow<'t, str> {
    if matches.is_empty() {
        return Cow::Borrowed(text);
    }
    let mut out = String::new();
    let mut from = 0;
    for found in matches {
        out.push_str(text.get(from..found.start()).unwrap_or_default());
        replacement.append(found, &mut out);
        from = found.end();
    }
    out.push_str(text.get(from..).unwrap_or_default());
    Cow::Owned(out)
}

/// Returns what a template expands to at a match.
///
/// The library reads all of the text that it gets. So if the template does not need the text before and after the match, it
/// gets the part with the spans of the match.
pub(crate) fn expand(
    regex: &Regex,
    template: &str,
    found: &Match<'_>,
) -> Result<String, SearchError> {
    let needs_all = template.contains("$`") || template.contains("$'");
    let (text, spans) = match needs_all {
        true => (found.searched(), found.spans().clone()),
        false => found.extent(),
    };
    let output = regex.handle().expand(template, text, spans.numbers());
    match output.status {
        ffi::OK => String::from_utf8(output.items).map_err(|_| SearchError::Library),
        ffi::BAD_INPUT => panic!("the match has other groups than the pattern"),
        status => Err(search_error(status)),
    }
}
