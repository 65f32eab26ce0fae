//! Regular expressions in ECMAScript syntax: compiled once, and searched for in texts ([`regex`]); or parsed to trees.
//!
//! The library that this crate calls is proved to return the matches of the pattern, and its tree. `include/regress.h`
//! and `include/regress_front.h` document its calls. This crate passes strings and numbers on, and decodes trees, which
//! is tested and not proved.
//!
//! What an emitter or matcher has to know of a tree:
//! - In a lookbehind the parts of a [`Node::Cat`] are in reverse order, which is the order in which they are matched. A
//!   lookahead inside a lookbehind has its parts in the pattern's order again. The bytes of a [`Node::ByteSequence`]
//!   and the strings of a [`Node::StringSet`] are in the order of the text everywhere.
//! - An iteration of a loop past the minimum that does not advance fails, which ends the loop.
//! - The groups inside a [`Node::Loop`] are unset at the start of each iteration.
//! - A [`Node::BackRef`] to a group that is unset matches the empty text.
//! - The right sides of [`Node::Alt`] are nested as deeply as there are alternatives. Iterate over them, as
//!   [`Node::alternatives`] does, or over all nodes by [`Node::preorder`]: recursion overflows a stack of 8 MiB at some
//!   200,000 alternatives. What this crate implements for trees, such as `Debug`, `Clone`, `PartialEq` and `Drop`,
//!   iterates.

#![deny(unsafe_code)]

mod difference;
#[allow(unsafe_code)]
mod ffi;
mod flags;
mod kind;
mod library;
mod node;
mod printed;
pub mod regex;
mod words;

pub use difference::{differences, Difference, DifferenceKind};
pub use flags::{Dialect, Flags, FlagsError, PatternFlags, Table};
pub use kind::FaultKind;
pub use library::{
    node_bound, parse, parse_and_optimize, parse_and_optimize_in, parse_and_optimize_str,
    parse_and_optimize_str_in, parse_in, parse_str, parse_str_in, parse_str_with_spans,
    parse_str_with_spans_in, parse_with_spans, parse_with_spans_in, Fault,
};
pub use node::{AnchorType, BracketContents, Interval, Node, Quantifier, RightSide};
pub use regex::{
    escape, Captures, Error, LinearMatches, LinearRegex, Match, Matches, Nonlinear, Options, Regex,
    Replacer, SearchError, Split,
};
