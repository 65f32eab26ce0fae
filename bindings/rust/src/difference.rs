//! The parts of a pattern that match otherwise than in JavaScript.

use crate::ffi;
use crate::flags::{bits, Flags, Table};
use crate::regex::{syntax_error, Error};
use std::fmt;
use std::ops::Range;

/// A part of a pattern that matches otherwise than in JavaScript.
#[derive(Clone, Debug, PartialEq, Eq, Hash)]
pub struct Difference {
    /// Why it is reported.
    pub kind: DifferenceKind,
    /// Where it is in the pattern, in code points.
    pub span: Range<usize>,
}

/// Why a part is reported. `docs/differences.md` has the differences. The numbers are those of the library, and
/// never change.
#[derive(Clone, Copy, Debug, PartialEq, Eq, Hash)]
#[non_exhaustive]
#[repr(u32)]
pub enum DifferenceKind {
    /// A class, a class escape such as `\w`, or a property of code points, where the flag i may be in force.
    CaseClosure = 1,
    /// A property of strings, which JavaScript tries in another order.
    StringSet = 2,
    /// A reference by name to several groups.
    SameName = 3,
    /// JavaScript rejects the pattern here, or parses it otherwise.
    Grammar = 4,
}

/// The kinds in the order of their numbers, with their names and texts.
const KINDS: [(DifferenceKind, &str, &str); 4] = [
    (
        DifferenceKind::CaseClosure,
        "case-closure",
        "with the flag i other characters may match than in JavaScript: \
         [k] without u also matches U+212A, and [\\W] with u also matches k",
    ),
    (
        DifferenceKind::StringSet,
        "string-set",
        "the strings of a property such as \\p{RGI_Emoji} are tried in the order of the Unicode table, \
         in JavaScript the longest first",
    ),
    (
        DifferenceKind::SameName,
        "same-name",
        "a reference to several groups of one name tries each of them, and an unset group gives the empty \
         string: (?:(?<a>x)|(?<a>y))\\k<a> matches y of yy, in JavaScript yy",
    ),
    (
        DifferenceKind::Grammar,
        "grammar",
        "JavaScript parses the pattern otherwise or rejects it: without u \\u{61} is u, 61 times, and \\b* is a \
         syntax error",
    ),
];

impl DifferenceKind {
    /// Returns the name of the kind, which never changes: `case-closure`, `string-set`, `same-name` or
    /// `grammar`.
    pub fn name(self) -> &'static str {
        KINDS[self as usize - 1].1
    }

    /// Returns a sentence about the difference, with an example, without a full stop.
    pub fn text(self) -> &'static str {
        KINDS[self as usize - 1].2
    }

    /// Returns the number of the kind, which never changes: from 1 to 4.
    pub fn number(self) -> u32 {
        self as u32
    }

    /// Returns the kind with this number, if there is one.
    fn from_number(number: u32) -> Option<DifferenceKind> {
        KINDS
            .iter()
            .map(|(kind, _, _)| *kind)
            .find(|kind| kind.number() == number)
    }
}

/// Writes the name.
impl fmt::Display for DifferenceKind {
    fn fmt(&self, f: &mut fmt::Formatter<'_>) -> fmt::Result {
        f.write_str(self.name())
    }
}

/// Writes the text and the span.
impl fmt::Display for Difference {
    fn fmt(&self, f: &mut fmt::Formatter<'_>) -> fmt::Result {
        let Range { start, end } = self.span;
        write!(f, "{}, at {start} to {end}", self.kind.text())
    }
}

/// Returns the parts of a pattern that in the dialect [`Regress`](crate::Dialect::Regress) match otherwise than in
/// JavaScript, under the table of all of Unicode.
///
/// If there are none, its first match is that of JavaScript, on texts of code points. What JavaScript rejects is one
/// part, at the place of its syntax error. What follows a part that is parsed otherwise, such as `\u{61}` without u, is
/// not compared. `docs/differences.md` has the differences.
///
/// The size of the tree is not limited: for untrusted patterns test [`node_bound`](crate::node_bound) first.
///
/// # Errors
/// Returns [`Error::Syntax`] if the pattern is rejected, and [`Error::Memory`] if the library is out of memory.
///
/// # Examples
/// ```
/// use regress_front::{differences, DifferenceKind, Flags};
///
/// let flags: Flags = "i".parse()?;
/// let found = differences("a[k]", flags)?;
/// assert_eq!(found.len(), 1);
/// assert_eq!(found[0].kind, DifferenceKind::CaseClosure);
/// assert_eq!(found[0].span, 1..4);
/// # Ok::<(), regress_front::Error>(())
/// ```
pub fn differences(pattern: &str, flags: Flags) -> Result<Vec<Difference>, Error> {
    let bits = bits(flags, Table::Whole);
    let output = ffi::differences(pattern, bits);
    match output.status {
        ffi::OK => output.items.iter().map(difference).collect(),
        ffi::SYNTAX => Err(syntax_error(pattern, bits)),
        ffi::MEMORY => Err(Error::Memory),
        _ => Err(Error::Library),
    }
}

fn difference(found: &ffi::Difference) -> Result<Difference, Error> {
    let kind = DifferenceKind::from_number(found.kind).ok_or(Error::Library)?;
    Ok(Difference {
        kind,
        span: found.start..found.end,
    })
}
