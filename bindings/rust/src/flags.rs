//! Flags and dialect of a pattern.

use std::error::Error;
use std::fmt::{self, Write};
use std::str::FromStr;

/// The flags of a pattern. The flag v of JavaScript is `unicode` and `unicode_sets` together
/// ([`Dialect::flags_in_force`]).
#[derive(Clone, Copy, Debug, Default, PartialEq, Eq, Hash)]
pub struct Flags {
    pub icase: bool,
    pub multiline: bool,
    pub dot_all: bool,
    pub unicode: bool,
    pub unicode_sets: bool,
}

/// The dialect of a pattern. `docs/syntax.md` has the rules in which the dialects differ.
#[derive(Clone, Copy, Debug, Default, PartialEq, Eq, Hash)]
pub enum Dialect {
    /// The language of ECMA-262 with Annex B, and the default.
    #[default]
    Ecma,
    /// The language of the crate `regress`, and of the calls for trees without a dialect. Each flag has its effect
    /// independently.
    Regress,
}

impl Dialect {
    /// Returns the flags in force for a pattern with the flags `given`: in `Ecma` the flag v implies u.
    pub fn flags_in_force(self, given: Flags) -> Flags {
        Flags {
            unicode: given.unicode || self == Dialect::Ecma && given.unicode_sets,
            ..given
        }
    }

    /// Returns the dialect as the library has it, for a pattern that is compiled.
    pub(crate) fn compile_bits(self) -> u32 {
        match self {
            Dialect::Ecma => 0,
            Dialect::Regress => 0x2_0000,
        }
    }

    /// Returns the dialect as the library has it, for a pattern that is parsed.
    pub(crate) fn parse_bits(self) -> u32 {
        match self {
            Dialect::Ecma => 0x4_0000,
            Dialect::Regress => 0,
        }
    }
}

/// The table of Unicode data under which a pattern is parsed.
#[derive(Clone, Copy, Debug, Default, PartialEq, Eq, Hash)]
pub enum Table {
    /// All of Unicode. Each call that takes a pattern makes it.
    #[default]
    Whole,
    /// A small table, for patterns in ASCII and for tests.
    Small,
}

/// Why letters specify no flags.
#[derive(Clone, Copy, Debug, PartialEq, Eq)]
pub enum FlagsError {
    /// This is no letter of a flag.
    Unknown(char),
    /// This letter occurs twice.
    Repeated(char),
    /// The flags u and v exclude each other.
    UnicodeAndSets,
}

impl fmt::Display for FlagsError {
    fn fmt(&self, f: &mut fmt::Formatter<'_>) -> fmt::Result {
        match self {
            FlagsError::Unknown(letter) => write!(f, "unknown flag {letter}"),
            FlagsError::Repeated(letter) => write!(f, "flag {letter} occurs twice"),
            FlagsError::UnicodeAndSets => f.write_str("flags u and v exclude each other"),
        }
    }
}

impl Error for FlagsError {}

/// Reads the letters of JavaScript, in any order: `i`, `m`, `s`, `u` and `v`. The letters `d`, `g` and `y` are accepted
/// and set nothing: a match always has the spans of its groups, and the caller chooses between the calls that find one
/// match and all matches.
impl FromStr for Flags {
    type Err = FlagsError;

    fn from_str(letters: &str) -> Result<Flags, FlagsError> {
        for (index, letter) in letters.char_indices() {
            if !"dgimsuvy".contains(letter) {
                return Err(FlagsError::Unknown(letter));
            }
            if letters[..index].contains(letter) {
                return Err(FlagsError::Repeated(letter));
            }
        }
        if letters.contains('v') && letters.contains('u') {
            return Err(FlagsError::UnicodeAndSets);
        }
        Ok(Flags::from(letters))
    }
}

/// Reads the letters as the crate `regress` does: those that are no letters of flags are ignored, and nothing is rejected.
/// `v` sets `unicode` too. Prefer [`str::parse`], which reports a mistake.
impl From<&str> for Flags {
    fn from(letters: &str) -> Flags {
        let unicode_sets = letters.contains('v');
        Flags {
            icase: letters.contains('i'),
            multiline: letters.contains('m'),
            dot_all: letters.contains('s'),
            unicode: unicode_sets || letters.contains('u'),
            unicode_sets,
        }
    }
}

/// The flags of a pattern, as [`Regex::with_flags`](crate::Regex::with_flags) takes them: [`Flags`], or JavaScript's
/// letters.
pub trait PatternFlags {
    /// Returns the flags.
    ///
    /// # Errors
    /// Returns an error if letters specify no flags.
    fn flags(&self) -> Result<Flags, FlagsError>;
}

impl PatternFlags for Flags {
    fn flags(&self) -> Result<Flags, FlagsError> {
        Ok(*self)
    }
}

impl PatternFlags for &str {
    fn flags(&self) -> Result<Flags, FlagsError> {
        self.parse()
    }
}

impl PatternFlags for &String {
    fn flags(&self) -> Result<Flags, FlagsError> {
        self.parse()
    }
}

/// Writes the letters of JavaScript in alphabetical order.
impl fmt::Display for Flags {
    fn fmt(&self, f: &mut fmt::Formatter<'_>) -> fmt::Result {
        let letters = [
            (self.icase, 'i'),
            (self.multiline, 'm'),
            (self.dot_all, 's'),
            (self.unicode && !self.unicode_sets, 'u'),
            (self.unicode_sets, 'v'),
        ];
        for (is_set, letter) in letters {
            if is_set {
                f.write_char(letter)?;
            }
        }
        Ok(())
    }
}

/// Returns the flags and the table as the library has them.
pub(crate) fn bits(flags: Flags, table: Table) -> u32 {
    u32::from(flags.icase)
        | u32::from(flags.multiline) << 1
        | u32::from(flags.dot_all) << 2
        | u32::from(flags.unicode) << 3
        | u32::from(flags.unicode_sets) << 4
        | u32::from(table == Table::Small) << 5
}
