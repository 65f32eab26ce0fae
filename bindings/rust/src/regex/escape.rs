//! Escaping of texts, so that they can be used as patterns.

use crate::ffi;
use std::alloc::{handle_alloc_error, Layout};

/// Returns the pattern that matches exactly `text` (ECMA-262, RegExp.escape).
///
/// The pattern is accepted under all flags, also inside a larger pattern, and with the flag i it matches up to case
/// folding. A quantifier that follows it applies to its last character only, so put it into a group first.
///
/// An allocation that fails aborts, also one of the library.
///
/// ```
/// assert_eq!(regress_front::escape("1+1 = 2?"), r"\x31\+1\x20\x3d\x202\?");
/// ```
pub fn escape(text: &str) -> String {
    let output = ffi::escape(text);
    match String::from_utf8(output.items) {
        Ok(pattern) if output.status == ffi::OK => pattern,
        // The text and the pattern are UTF-8, so nothing else can fail.
        _ => handle_alloc_error(Layout::for_value(text)),
    }
}
