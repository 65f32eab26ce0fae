//! The kinds of syntax errors.

/// A kind of syntax error. `docs/errors.md` lists the text and the cause of each. The numbers are those of the library,
/// and never change.
#[derive(Clone, Copy, Debug, PartialEq, Eq, Hash)]
#[non_exhaustive]
#[repr(u32)]
pub enum FaultKind {
    /// A `)` too many, or a missing one.
    UnbalancedParenthesis = 1,
    /// Nesting above the limit of 256.
    TooDeep = 2,
    /// More than 65,535 capture groups.
    TooManyGroups = 3,
    /// More than 65,535 loops.
    TooManyLoops = 4,
    /// A backslash at the end of the pattern, outside of a class.
    IncompleteEscape = 5,
    /// A backslash at the end of the pattern, inside a class.
    UnterminatedEscape = 6,
    /// A backslash that begins no valid escape.
    InvalidEscape = 7,
    /// With the flag u, a `\u` that denotes no code point.
    InvalidUnicodeEscape = 8,
    /// Without the flag u, a quantifier in braces where an item is expected.
    InvalidBracedQuantifier = 9,
    /// A `*`, `+` or `?` where an item is expected, or, with the flag u, a `{`, `}` or `]`.
    InvalidAtom = 10,
    /// A quantifier after an item that takes none.
    QuantifierNotAllowed = 11,
    /// A quantifier whose minimum exceeds its maximum, or, with the flag u, a `{` that begins no quantifier.
    InvalidQuantifier = 12,
    /// A class without its `]`.
    UnbalancedBracket = 13,
    /// A range that ends before it begins.
    ReversedRange = 14,
    /// With the flag u, a range one of whose ends is a class.
    InvalidRange = 15,
    /// With the flag v, a class without its `]`, or half an operator.
    UnbalancedSet = 16,
    /// With the flag v, a range that ends before it begins, or one of whose ends is no character.
    InvalidSetRange = 17,
    /// With the flag v, an operand of `&&` that is followed by neither `&&` nor `]`.
    UnexpectedInIntersection = 18,
    /// With the flag v, an operand of `--` that is followed by neither `--` nor `]`.
    UnexpectedInSubtraction = 19,
    /// With the flag v, the end of the pattern where an operand is expected.
    EmptyOperand = 20,
    /// With the flag v, a backslash at the end of the pattern, inside a class.
    IncompleteSetEscape = 21,
    /// A `\q` that no `{` follows.
    StringsWithoutBrace = 22,
    /// A `\q{` without its `}`.
    UnbalancedStrings = 23,
    /// With the flag v, a code point that is no literal inside a class.
    InvalidSetCharacter = 24,
    /// With the flag v, an inverted class that contains strings.
    InvalidNegatedClass = 25,
    /// A `\p` or `\P` that no `{` follows.
    PropertyWithoutBrace = 26,
    /// A property without its `}`, or one that is not in the table.
    InvalidProperty = 27,
    /// A `(?` at the end of the pattern, or a `(?<` that begins neither a lookbehind nor a valid name.
    InvalidGroupName = 28,
    /// A `(?` that is followed neither by `:`, `=`, `!` or `<` nor by valid modifiers.
    InvalidModifier = 29,
    /// A `\k` that no valid name follows.
    InvalidReference = 30,
    /// A `\k` with a name that no group has.
    UnknownName = 31,
    /// Two groups of the same name that conflict.
    DuplicateName = 32,
}

/// The kinds in the order of their numbers, with their names.
const KINDS: [(FaultKind, &str); 32] = [
    (FaultKind::UnbalancedParenthesis, "UnbalancedParenthesis"),
    (FaultKind::TooDeep, "TooDeep"),
    (FaultKind::TooManyGroups, "TooManyGroups"),
    (FaultKind::TooManyLoops, "TooManyLoops"),
    (FaultKind::IncompleteEscape, "IncompleteEscape"),
    (FaultKind::UnterminatedEscape, "UnterminatedEscape"),
    (FaultKind::InvalidEscape, "InvalidEscape"),
    (FaultKind::InvalidUnicodeEscape, "InvalidUnicodeEscape"),
    (
        FaultKind::InvalidBracedQuantifier,
        "InvalidBracedQuantifier",
    ),
    (FaultKind::InvalidAtom, "InvalidAtom"),
    (FaultKind::QuantifierNotAllowed, "QuantifierNotAllowed"),
    (FaultKind::InvalidQuantifier, "InvalidQuantifier"),
    (FaultKind::UnbalancedBracket, "UnbalancedBracket"),
    (FaultKind::ReversedRange, "ReversedRange"),
    (FaultKind::InvalidRange, "InvalidRange"),
    (FaultKind::UnbalancedSet, "UnbalancedSet"),
    (FaultKind::InvalidSetRange, "InvalidSetRange"),
    (
        FaultKind::UnexpectedInIntersection,
        "UnexpectedInIntersection",
    ),
    (
        FaultKind::UnexpectedInSubtraction,
        "UnexpectedInSubtraction",
    ),
    (FaultKind::EmptyOperand, "EmptyOperand"),
    (FaultKind::IncompleteSetEscape, "IncompleteSetEscape"),
    (FaultKind::StringsWithoutBrace, "StringsWithoutBrace"),
    (FaultKind::UnbalancedStrings, "UnbalancedStrings"),
    (FaultKind::InvalidSetCharacter, "InvalidSetCharacter"),
    (FaultKind::InvalidNegatedClass, "InvalidNegatedClass"),
    (FaultKind::PropertyWithoutBrace, "PropertyWithoutBrace"),
    (FaultKind::InvalidProperty, "InvalidProperty"),
    (FaultKind::InvalidGroupName, "InvalidGroupName"),
    (FaultKind::InvalidModifier, "InvalidModifier"),
    (FaultKind::InvalidReference, "InvalidReference"),
    (FaultKind::UnknownName, "UnknownName"),
    (FaultKind::DuplicateName, "DuplicateName"),
];

impl FaultKind {
    /// Returns the name of the kind, which never changes: that of the variant.
    pub fn name(self) -> &'static str {
        KINDS[self as usize - 1].1
    }

    /// Returns the number of the kind, which never changes: from 1 to 32.
    pub fn number(self) -> u32 {
        self as u32
    }

    /// Returns the kind with this number, if there is one.
    pub(crate) fn from_number(number: u32) -> Option<FaultKind> {
        KINDS
            .iter()
            .map(|(kind, _)| *kind)
            .find(|kind| kind.number() == number)
    }
}
