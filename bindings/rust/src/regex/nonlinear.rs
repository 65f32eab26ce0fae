//! Why searches are not linear.

use std::fmt;

/// Why searches do not take linear time. [`Regex::nonlinear`](crate::Regex::nonlinear) returns it.
#[derive(Clone, Copy, Debug, PartialEq, Eq, Hash)]
#[non_exhaustive]
pub enum Nonlinear {
    /// The pattern has a back reference.
    BackReference,
    /// A lookaround that is not negated contains a capture group, or a loop around one.
    CapturingLookaround,
    /// The program has more than [`Options::linear_instructions`](crate::Options::linear_instructions) instructions.
    TooManyInstructions,
}

impl Nonlinear {
    /// Returns the reason with a number of the library.
    pub(crate) fn from_number(number: u32) -> Option<Nonlinear> {
        match number {
            1 => Some(Nonlinear::BackReference),
            2 => Some(Nonlinear::CapturingLookaround),
            3 => Some(Nonlinear::TooManyInstructions),
            _ => None,
        }
    }
}

impl fmt::Display for Nonlinear {
    fn fmt(&self, f: &mut fmt::Formatter<'_>) -> fmt::Result {
        f.write_str(match self {
            Nonlinear::BackReference => "the pattern has a back reference",
            Nonlinear::CapturingLookaround => "a lookaround contains a capture group",
            Nonlinear::TooManyInstructions => "the pattern needs too many instructions",
        })
    }
}

impl std::error::Error for Nonlinear {}
