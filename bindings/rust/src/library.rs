//! Parsing. Calls without a dialect parse in [`Dialect::Regress`].

use crate::ffi::{self, Output};
use crate::flags::{bits, Dialect, Flags, Table};
use crate::kind::FaultKind;
use crate::node::Node;
use crate::words::decode;
use std::error::Error;
use std::fmt;
use std::ops::Range;

/// Why parsing fails.
#[derive(Clone, Debug, PartialEq, Eq)]
#[non_exhaustive]
pub enum Fault {
    /// The pattern is rejected: the kind of the syntax error, its text, and its position, a code-point index from 0 to
    /// the length; and the same position as a byte offset of the pattern in UTF-8, in which a surrogate counts three.
    Syntax {
        kind: FaultKind,
        text: String,
        position: usize,
        offset: usize,
    },
    /// The library is out of memory.
    Memory,
    /// A number in the pattern is above U+10FFFF.
    NoCodePoint,
    /// The library returns what this crate does not know: it is of another version.
    Library,
}

impl fmt::Display for Fault {
    fn fmt(&self, f: &mut fmt::Formatter<'_>) -> fmt::Result {
        match self {
            Fault::Syntax { text, .. } => f.write_str(text),
            Fault::Memory => f.write_str("out of memory"),
            Fault::NoCodePoint => f.write_str("no code point"),
            Fault::Library => f.write_str("the library is of another version"),
        }
    }
}

impl Error for Fault {}

/// Parses a pattern of code points, surrogates included, in the dialect [`Dialect::Regress`], and returns its tree.
///
/// An allocation of this crate's own that fails aborts, as elsewhere in `std`. The size of the tree is not limited: for
/// untrusted patterns test [`node_bound`] first, or compile them by
/// [`Regex::with_options`](crate::Regex::with_options).
///
/// # Errors
/// Returns [`Fault::Syntax`] if the pattern is rejected, [`Fault::Memory`] if the library is out of memory, and
/// [`Fault::NoCodePoint`] if a number is not a code point.
pub fn parse(pattern: &[u32], flags: Flags, table: Table) -> Result<Node, Fault> {
    parse_in(pattern, flags, table, Dialect::Regress)
}

/// Parses a pattern in a dialect as [`parse`] parses one of [`Dialect::Regress`].
///
/// # Errors
/// As [`parse`].
pub fn parse_in(
    pattern: &[u32],
    flags: Flags,
    table: Table,
    dialect: Dialect,
) -> Result<Node, Fault> {
    tree(pattern, bits(flags, table) | dialect.parse_bits(), 0)
}

/// Parses a pattern as [`parse`] does, and returns its optimized tree, in normal form.
///
/// # Errors
/// As [`parse`].
pub fn parse_and_optimize(pattern: &[u32], flags: Flags, table: Table) -> Result<Node, Fault> {
    parse_and_optimize_in(pattern, flags, table, Dialect::Regress)
}

/// Parses a pattern in a dialect, and returns its optimized tree, as [`parse_and_optimize`].
///
/// # Errors
/// As [`parse`].
pub fn parse_and_optimize_in(
    pattern: &[u32],
    flags: Flags,
    table: Table,
    dialect: Dialect,
) -> Result<Node, Fault> {
    tree(pattern, bits(flags, table) | dialect.parse_bits(), 1)
}

/// Parses a pattern as [`parse`] does. Positions of syntax errors count code points here too.
///
/// # Errors
/// As [`parse`].
pub fn parse_str(pattern: &str, flags: Flags, table: Table) -> Result<Node, Fault> {
    parse(&code_points(pattern), flags, table)
}

/// Parses a pattern in a dialect, as [`parse_str`].
///
/// # Errors
/// As [`parse`].
///
/// ```
/// use regress_front::{parse_str_in, Dialect, Flags, Table};
///
/// let parse = |dialect| parse_str_in(r"\b+", Flags::default(), Table::Small, dialect);
/// assert!(parse(Dialect::Ecma).is_err());
/// assert!(parse(Dialect::Regress).is_ok());
/// ```
pub fn parse_str_in(
    pattern: &str,
    flags: Flags,
    table: Table,
    dialect: Dialect,
) -> Result<Node, Fault> {
    parse_in(&code_points(pattern), flags, table, dialect)
}

/// Parses a pattern of code points as [`parse`] does, and returns its tree with the span of each node, in the order of
/// [`Node::preorder`].
///
/// A span is the half-open range of code-point indices of the pattern that a node is parsed from. The nodes of a
/// reference by name, or of a class with the flag v, all have the span of the whole item.
///
/// # Errors
/// As [`parse`].
pub fn parse_with_spans(
    pattern: &[u32],
    flags: Flags,
    table: Table,
) -> Result<(Node, Vec<Range<usize>>), Fault> {
    parse_with_spans_in(pattern, flags, table, Dialect::Regress)
}

/// Parses a pattern in a dialect, and returns its tree with the span of each node, as [`parse_with_spans`].
///
/// # Errors
/// As [`parse`].
pub fn parse_with_spans_in(
    pattern: &[u32],
    flags: Flags,
    table: Table,
    dialect: Dialect,
) -> Result<(Node, Vec<Range<usize>>), Fault> {
    let bits = bits(flags, table) | dialect.parse_bits();
    let (output, spans) = ffi::tree_words_with_spans(pattern, bits);
    let node = decoded(pattern, bits, output)?;
    let spans = spans.into_iter().map(|span| span.start..span.end);
    Ok((node, spans.collect()))
}

/// Parses a pattern, and returns its tree with the span of each node, as [`parse_with_spans`]. Spans count code points
/// here too.
///
/// # Errors
/// As [`parse`].
///
/// ```
/// use regress_front::{parse_str_with_spans, Flags, Node, Table};
///
/// let (tree, spans) = parse_str_with_spans("é|[ab]*", Flags::default(), Table::Small)?;
/// let nodes = tree.preorder().map(|(_, node)| node);
/// let bracket = nodes.zip(spans).find(|(node, _)| matches!(node, Node::Bracket(_)));
/// assert_eq!(bracket.map(|(_, span)| span), Some(2..6));
/// # Ok::<(), regress_front::Fault>(())
/// ```
pub fn parse_str_with_spans(
    pattern: &str,
    flags: Flags,
    table: Table,
) -> Result<(Node, Vec<Range<usize>>), Fault> {
    parse_with_spans(&code_points(pattern), flags, table)
}

/// Parses a pattern in a dialect, and returns its tree with the span of each node, as [`parse_str_with_spans`].
///
/// # Errors
/// As [`parse`].
pub fn parse_str_with_spans_in(
    pattern: &str,
    flags: Flags,
    table: Table,
    dialect: Dialect,
) -> Result<(Node, Vec<Range<usize>>), Fault> {
    parse_with_spans_in(&code_points(pattern), flags, table, dialect)
}

/// Parses a pattern and returns its optimized tree, as [`parse_and_optimize`].
///
/// # Errors
/// As [`parse`].
pub fn parse_and_optimize_str(pattern: &str, flags: Flags, table: Table) -> Result<Node, Fault> {
    parse_and_optimize(&code_points(pattern), flags, table)
}

/// Parses a pattern in a dialect, and returns its optimized tree, as [`parse_and_optimize_str`].
///
/// # Errors
/// As [`parse`].
pub fn parse_and_optimize_str_in(
    pattern: &str,
    flags: Flags,
    table: Table,
    dialect: Dialect,
) -> Result<Node, Fault> {
    parse_and_optimize_in(&code_points(pattern), flags, table, dialect)
}

/// Returns an upper bound on the number of nodes of the tree of a pattern, whatever the dialect and the table; at most
/// `usize::MAX`, which is no bound. Test it before an untrusted pattern is parsed. It is defined for any pattern, also
/// for one that is rejected.
///
/// n references by name to n groups of this name make n² nodes. A pattern without references by name has at most 5
/// times its length and 3 more.
///
/// # Errors
/// Returns [`Fault::NoCodePoint`] if a number is not a code point.
pub fn node_bound(pattern: &[u32], flags: Flags) -> Result<usize, Fault> {
    match ffi::node_bound(pattern, bits(flags, Table::Small)) {
        (ffi::OK, bound) => Ok(bound),
        (ffi::BAD_INPUT, _) => Err(Fault::NoCodePoint),
        _ => Err(Fault::Library),
    }
}

pub(crate) fn code_points(text: &str) -> Vec<u32> {
    text.chars().map(u32::from).collect()
}

fn tree(pattern: &[u32], bits: u32, optimize: u32) -> Result<Node, Fault> {
    decoded(pattern, bits, ffi::tree_words(pattern, bits, optimize))
}

/// Returns the tree that a call for a pattern has written.
fn decoded(pattern: &[u32], bits: u32, output: Output<u32>) -> Result<Node, Fault> {
    match output.status {
        ffi::OK => decode(&output.items).ok_or(Fault::Library),
        ffi::SYNTAX => Err(fault(pattern, bits)),
        ffi::MEMORY => Err(Fault::Memory),
        ffi::BAD_INPUT => Err(Fault::NoCodePoint),
        _ => Err(Fault::Library),
    }
}

/// Returns the syntax error of a pattern that is rejected: its kind, text and position from one call.
pub(crate) fn fault(pattern: &[u32], bits: u32) -> Fault {
    let (output, kind, position) = ffi::tree_fault(pattern, bits);
    match output.status {
        ffi::SYNTAX => {}
        ffi::MEMORY => return Fault::Memory,
        _ => return Fault::Library,
    }
    match (
        FaultKind::from_number(kind),
        String::from_utf8(output.items),
    ) {
        (Some(kind), Ok(text)) => Fault::Syntax {
            kind,
            text,
            position,
            offset: byte_offset(pattern, position),
        },
        _ => Fault::Library,
    }
}

/// Returns the byte offset of an index of a pattern in UTF-8, in which a surrogate counts three bytes.
fn byte_offset(pattern: &[u32], index: usize) -> usize {
    let before = pattern.iter().take(index);
    before
        .map(|&point| char::from_u32(point).map_or(3, char::len_utf8))
        .sum()
}
