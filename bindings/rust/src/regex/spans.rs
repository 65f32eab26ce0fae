//! The spans of a match and of its groups.

use crate::ffi::UNSET;
use std::ops::Range;

/// The numbers that fit without an allocation: those of a match and of three groups.
const FEW: usize = 8;

/// The spans of a match and of its groups, as the library writes them: two numbers for each. All are spans of the text.
#[derive(Clone)]
pub(crate) enum Spans {
    Few { numbers: [usize; FEW], count: usize },
    Many(Box<[usize]>),
}

impl Spans {
    /// Returns spans for this number of groups, which are all unset.
    pub(crate) fn unset(groups: usize) -> Spans {
        let count = 2 * (groups + 1);
        match count <= FEW {
            true => Spans::Few {
                numbers: [UNSET; FEW],
                count,
            },
            false => Spans::Many(vec![UNSET; count].into()),
        }
    }

    /// Returns the numbers.
    pub(crate) fn numbers(&self) -> &[usize] {
        match self {
            Spans::Few { numbers, count } => &numbers[..*count],
            Spans::Many(numbers) => numbers,
        }
    }

    /// Returns the numbers, to be written.
    pub(crate) fn numbers_mut(&mut self) -> &mut [usize] {
        match self {
            Spans::Few { numbers, count } => &mut numbers[..*count],
            Spans::Many(numbers) => numbers,
        }
    }

    /// Returns the number of groups.
    pub(crate) fn groups(&self) -> usize {
        self.numbers().len() / 2 - 1
    }

    /// Returns whether the match is set, and each span is one of the text.
    pub(crate) fn are_in(&self, text: &str) -> bool {
        self.get(0).is_some()
            && self.numbers().chunks_exact(2).all(|span| {
                (span[0], span[1]) == (UNSET, UNSET) || text.get(span[0]..span[1]).is_some()
            })
    }

    /// Returns the range from the least start to the greatest end.
    pub(crate) fn extent(&self) -> Range<usize> {
        let set = self.numbers().iter().filter(|&&number| number != UNSET);
        let (least, greatest) = (set.clone().min(), set.max());
        least.copied().unwrap_or(0)..greatest.copied().unwrap_or(0)
    }

    /// Returns the same spans, counted from a position that is no later than their starts.
    pub(crate) fn counted_from(&self, position: usize) -> Spans {
        let mut spans = self.clone();
        for number in spans.numbers_mut() {
            if *number != UNSET {
                *number -= position;
            }
        }
        spans
    }

    /// Returns the span with a number, 0 for the match; `None` for a group that is unset, or if there is none.
    pub(crate) fn get(&self, number: usize) -> Option<Range<usize>> {
        let at = number.checked_mul(2)?;
        match *self.numbers().get(at..at.checked_add(2)?)? {
            [UNSET, UNSET] => None,
            [start, end] => Some(start..end),
            _ => None,
        }
    }
}
