//! The calls of the library, which `include/regress.h` and `include/regress_front.h` document. No other module has
//! unsafe code.

use std::ffi::c_void;
use std::ptr;

pub(crate) const OK: u32 = 0;
pub(crate) const NO_MATCH: u32 = 1;
pub(crate) const MEMORY: u32 = 2;
pub(crate) const ROOM: u32 = 3;
pub(crate) const BAD_INPUT: u32 = 4;
pub(crate) const SYNTAX: u32 = 5;
pub(crate) const TOO_LARGE: u32 = 6;
pub(crate) const OUT_OF_STEPS: u32 = 7;
pub(crate) const TOO_MUCH_MEMORY: u32 = 8;

/// What an unset group has as its start and its end.
pub(crate) const UNSET: usize = usize::MAX;

/// The version of the calls that this crate makes.
const ABI_VERSION: u32 = 6;

/// A `regress_regex` of the library.
#[repr(C)]
struct RegressRegex {
    inside: *mut c_void,
}

/// A `regress_matches` of the library.
#[repr(C)]
struct RegressMatches {
    inside: *mut c_void,
}

/// A `regress_replaced` of the library.
#[repr(C)]
struct RegressReplaced {
    inside: *mut c_void,
}

/// The `regress_limits` of the library. 0 is the default of each.
#[repr(C)]
pub(crate) struct Limits {
    pub(crate) steps: u64,
    pub(crate) nodes: usize,
    pub(crate) instructions: usize,
    pub(crate) linear_instructions: usize,
    pub(crate) memory: usize,
    pub(crate) linear_steps: u64,
}

/// A `regress_difference` of the library.
#[repr(C)]
#[derive(Clone, Default)]
pub(crate) struct Difference {
    pub(crate) kind: u32,
    pub(crate) start: usize,
    pub(crate) end: usize,
}

/// A `regress_front_span` of the library.
#[repr(C)]
#[derive(Clone, Default)]
pub(crate) struct Span {
    pub(crate) start: usize,
    pub(crate) end: usize,
}

extern "C" {
    fn regress_abi_version() -> u32;

    fn regress_compile_raw(
        pattern: *const u8,
        length: usize,
        flags: u32,
        limits: *const Limits,
        handle: *mut RegressRegex,
        kind: *mut u32,
        position: *mut usize,
    ) -> u32;

    fn regress_find_raw(
        handle: *mut RegressRegex,
        text: *const u8,
        length: usize,
        from: usize,
        spans: *mut usize,
        room: usize,
        needed: *mut usize,
    ) -> u32;

    fn regress_matches_new_raw(
        handle: *mut RegressRegex,
        text: *const u8,
        length: usize,
        from: usize,
        matches: *mut RegressMatches,
    ) -> u32;

    fn regress_matches_next_raw(
        matches: *mut RegressMatches,
        spans: *mut usize,
        room: usize,
        needed: *mut usize,
    ) -> u32;

    fn regress_matches_left_raw(matches: *mut RegressMatches) -> usize;

    fn regress_matches_free_raw(matches: *mut RegressMatches);

    fn regress_is_match_raw(handle: *mut RegressRegex, text: *const u8, length: usize) -> u32;

    fn regress_replace_raw(
        handle: *mut RegressRegex,
        text: *const u8,
        length: usize,
        replacement: *const u8,
        replacement_length: usize,
        out: *mut u8,
        room: usize,
        needed: *mut usize,
    ) -> u32;

    fn regress_replaced_new_raw(
        handle: *mut RegressRegex,
        text: *const u8,
        length: usize,
        replacement: *const u8,
        replacement_length: usize,
        limit: usize,
        replaced: *mut RegressReplaced,
    ) -> u32;

    fn regress_replaced_write_raw(
        replaced: *mut RegressReplaced,
        out: *mut u8,
        room: usize,
        needed: *mut usize,
    ) -> u32;

    fn regress_replaced_free_raw(replaced: *mut RegressReplaced);

    fn regress_expand_raw(
        handle: *mut RegressRegex,
        text: *const u8,
        length: usize,
        spans: *const usize,
        span_count: usize,
        replacement: *const u8,
        replacement_length: usize,
        out: *mut u8,
        room: usize,
        needed: *mut usize,
    ) -> u32;

    fn regress_split_raw(
        handle: *mut RegressRegex,
        text: *const u8,
        length: usize,
        limit: usize,
        parts: *mut RegressMatches,
    ) -> u32;

    fn regress_group_count_raw(handle: *mut RegressRegex) -> usize;

    fn regress_group_name_raw(
        handle: *mut RegressRegex,
        group: usize,
        out: *mut u8,
        room: usize,
        needed: *mut usize,
    ) -> u32;

    fn regress_nonlinear_raw(handle: *mut RegressRegex) -> u32;

    fn regress_is_exact_for_raw(handle: *mut RegressRegex, text: *const u8, length: usize) -> u32;

    fn regress_steps_per_byte_raw(handle: *mut RegressRegex) -> u64;
    fn regress_find_steps_per_byte_raw(handle: *mut RegressRegex) -> u64;

    fn regress_escape_raw(
        text: *const u8,
        length: usize,
        out: *mut u8,
        room: usize,
        needed: *mut usize,
    ) -> u32;

    fn regress_error_sentence_raw(
        pattern: *const u8,
        length: usize,
        kind: u32,
        position: usize,
        out: *mut u8,
        room: usize,
        needed: *mut usize,
    ) -> u32;

    fn regress_free_raw(handle: *mut RegressRegex);

    fn regress_differences_raw(
        pattern: *const u8,
        length: usize,
        flags: u32,
        differences: *mut Difference,
        room: usize,
        needed: *mut usize,
        kind: *mut u32,
        position: *mut usize,
    ) -> u32;

    fn regress_front_parse_code_points(
        pattern: *const u32,
        pattern_length: usize,
        flags: u32,
        optimize: u32,
        words: *mut u32,
        room: usize,
        needed: *mut usize,
        kind: *mut u32,
        position: *mut usize,
    ) -> u32;

    fn regress_front_parse_code_points_with_spans(
        pattern: *const u32,
        pattern_length: usize,
        flags: u32,
        words: *mut u32,
        room: usize,
        needed: *mut usize,
        spans: *mut Span,
        span_room: usize,
        spans_needed: *mut usize,
        kind: *mut u32,
        position: *mut usize,
    ) -> u32;

    fn regress_front_tell_fault(
        pattern: *const u32,
        pattern_length: usize,
        flags: u32,
        text: *mut u8,
        room: usize,
        needed: *mut usize,
        kind: *mut u32,
        position: *mut usize,
    ) -> u32;

    fn regress_front_bound_nodes(
        pattern: *const u32,
        pattern_length: usize,
        flags: u32,
        bound: *mut usize,
    ) -> u32;
}

/// A status with a result, which is empty unless the status says that there is one.
pub(crate) struct Output<T> {
    pub(crate) status: u32,
    pub(crate) items: Vec<T>,
}

/// A compiled regular expression of the library.
pub(crate) struct Handle {
    regex: RegressRegex,
    /// The number of groups, without the whole match.
    groups: usize,
}

// SAFETY: the library is proved to keep nothing in a handle that depends on a thread.
unsafe impl Send for Handle {}

// SAFETY: a call gets a copy of the variable, and only reads what it points to, as those of `include/regress.h` that take
// a `const` handle, which any number of threads may call at the same time.
unsafe impl Sync for Handle {}

impl Drop for Handle {
    fn drop(&mut self) {
        // SAFETY: regress_compile_raw has written the handle, which is not used afterwards.
        unsafe { regress_free_raw(&mut self.regex) }
    }
}

/// The matches that a search has found, or the parts of a text.
pub(crate) struct MatchList {
    matches: RegressMatches,
}

// SAFETY: the library is proved to keep nothing in it that depends on a thread.
unsafe impl Send for MatchList {}

// SAFETY: each call takes it by `&mut`.
unsafe impl Sync for MatchList {}

impl Drop for MatchList {
    fn drop(&mut self) {
        // SAFETY: regress_matches_new_raw or regress_split_raw has written it, and it is not used afterwards.
        unsafe { regress_matches_free_raw(&mut self.matches) }
    }
}

impl MatchList {
    /// Returns the list that a call writes, or the status of the call if it fails.
    fn written_by(call: impl FnOnce(*mut RegressMatches) -> u32) -> Result<MatchList, u32> {
        let mut matches = RegressMatches {
            inside: ptr::null_mut(),
        };
        match call(&mut matches) {
            OK => Ok(MatchList { matches }),
            status => Err(status),
        }
    }

    /// Writes the spans of the next match, as `Handle::find`. Returns the status.
    pub(crate) fn next(&mut self, spans: &mut [usize]) -> u32 {
        let mut needed = 0;
        // SAFETY: it is alive, and the pointer and the length are those of a slice.
        unsafe {
            regress_matches_next_raw(
                &mut self.matches,
                spans.as_mut_ptr(),
                spans.len(),
                &mut needed,
            )
        }
    }

    /// Returns how many numbers the matches that are left have.
    pub(crate) fn left(&mut self) -> usize {
        // SAFETY: it is alive.
        unsafe { regress_matches_left_raw(&mut self.matches) }
    }
}

/// A text in which matches were replaced.
struct ReplacedText {
    replaced: RegressReplaced,
}

impl Drop for ReplacedText {
    fn drop(&mut self) {
        // SAFETY: regress_replaced_new_raw has written it, and it is not used afterwards.
        unsafe { regress_replaced_free_raw(&mut self.replaced) }
    }
}

impl ReplacedText {
    /// Returns the text that a call keeps, or the status of the call if it fails.
    fn written_by(call: impl FnOnce(*mut RegressReplaced) -> u32) -> Result<ReplacedText, u32> {
        let mut replaced = RegressReplaced {
            inside: ptr::null_mut(),
        };
        match call(&mut replaced) {
            OK => Ok(ReplacedText { replaced }),
            status => Err(status),
        }
    }

    /// Writes the text.
    fn write(&mut self) -> Output<u8> {
        // The first call asks for its length.
        with_room(0, |out: &mut [u8], needed| {
            // SAFETY: it is alive, and the pointer and the length are those of a slice.
            unsafe {
                regress_replaced_write_raw(&mut self.replaced, out.as_mut_ptr(), out.len(), needed)
            }
        })
    }
}

/// Returns whether the library has the calls that this crate makes.
pub(crate) fn has_abi() -> bool {
    // SAFETY: the call has no arguments.
    unsafe { regress_abi_version() == ABI_VERSION }
}

/// Compiles a pattern. Returns the status if that fails.
pub(crate) fn compile(pattern: &str, flags: u32, limits: &Limits) -> Result<Handle, u32> {
    let mut regex = RegressRegex {
        inside: ptr::null_mut(),
    };
    let (mut kind, mut position) = (0, 0);
    // SAFETY: the pattern is a slice, and the other pointers are those of variables.
    let status = unsafe {
        regress_compile_raw(
            start_of(pattern),
            pattern.len(),
            flags,
            limits,
            &mut regex,
            &mut kind,
            &mut position,
        )
    };
    if status != OK {
        return Err(status);
    }
    let mut handle = Handle { regex, groups: 0 };
    // SAFETY: the handle is alive.
    handle.groups = unsafe { regress_group_count_raw(&mut handle.copy()) };
    Ok(handle)
}

impl Handle {
    /// Returns the variable for a call, which changes it.
    fn copy(&self) -> RegressRegex {
        RegressRegex {
            inside: self.regex.inside,
        }
    }

    /// Writes the spans of the leftmost match from an offset on: two numbers for the match, and two for each group.
    pub(crate) fn find(&self, text: &str, from: usize, spans: &mut [usize]) -> u32 {
        let mut needed = 0;
        // SAFETY: the handle is alive, and pointers and lengths are those of slices.
        unsafe {
            regress_find_raw(
                &mut self.copy(),
                start_of(text),
                text.len(),
                from,
                spans.as_mut_ptr(),
                spans.len(),
                &mut needed,
            )
        }
    }

    /// Searches for all matches from an offset on. Returns the status if that fails.
    pub(crate) fn matches(&self, text: &str, from: usize) -> Result<MatchList, u32> {
        // SAFETY: as for `find`.
        MatchList::written_by(|matches| unsafe {
            regress_matches_new_raw(&mut self.copy(), start_of(text), text.len(), from, matches)
        })
    }

    /// Splits a text into at most `limit` parts. Returns the status if that fails.
    pub(crate) fn split(&self, text: &str, limit: usize) -> Result<MatchList, u32> {
        // SAFETY: as for `find`.
        MatchList::written_by(|matches| unsafe {
            regress_split_raw(&mut self.copy(), start_of(text), text.len(), limit, matches)
        })
    }

    /// Returns the status of a search: OK if there is a match.
    pub(crate) fn is_match(&self, text: &str) -> u32 {
        // SAFETY: as for `find`.
        unsafe { regress_is_match_raw(&mut self.copy(), start_of(text), text.len()) }
    }

    /// Writes a text with its first match replaced by a template. One match is searched for in linear time with more
    /// patterns than several are.
    pub(crate) fn replace(&self, text: &str, template: &str) -> Output<u8> {
        // If more is needed, the search is made a second time.
        let room = 2 * text.len() + template.len() + 64;
        with_room(room, |out: &mut [u8], needed| {
            // SAFETY: as for `find`.
            unsafe {
                regress_replace_raw(
                    &mut self.copy(),
                    start_of(text),
                    text.len(),
                    start_of(template),
                    template.len(),
                    out.as_mut_ptr(),
                    out.len(),
                    needed,
                )
            }
        })
    }

    /// Writes a text with its first matches replaced by a template, at most `limit`.
    pub(crate) fn replace_n(&self, text: &str, limit: usize, template: &str) -> Output<u8> {
        // SAFETY: as for `find`.
        let replaced = ReplacedText::written_by(|replaced| unsafe {
            regress_replaced_new_raw(
                &mut self.copy(),
                start_of(text),
                text.len(),
                start_of(template),
                template.len(),
                limit,
                replaced,
            )
        });
        match replaced {
            Ok(mut replaced) => replaced.write(),
            Err(status) => Output {
                status,
                items: Vec::new(),
            },
        }
    }

    /// Writes what a template expands to at a match in a text, with these spans.
    pub(crate) fn expand(&self, template: &str, text: &str, spans: &[usize]) -> Output<u8> {
        // If more is needed, the call is made a second time.
        with_room(2 * template.len() + 64, |out: &mut [u8], needed| {
            // SAFETY: as for `find`.
            unsafe {
                regress_expand_raw(
                    &mut self.copy(),
                    start_of(text),
                    text.len(),
                    spans.as_ptr(),
                    spans.len(),
                    start_of(template),
                    template.len(),
                    out.as_mut_ptr(),
                    out.len(),
                    needed,
                )
            }
        })
    }

    /// Returns the number of groups, without the whole match.
    pub(crate) fn group_count(&self) -> usize {
        self.groups
    }

    /// Writes the name of a group, from 1: nothing for a group without a name.
    pub(crate) fn group_name(&self, group: usize) -> Output<u8> {
        with_room(32, |out: &mut [u8], needed| {
            // SAFETY: as for `find`.
            unsafe {
                regress_group_name_raw(&mut self.copy(), group, out.as_mut_ptr(), out.len(), needed)
            }
        })
    }

    /// Returns the number of the reason why searches are not linear, 0 if they are.
    pub(crate) fn nonlinear(&self) -> u32 {
        // SAFETY: the handle is alive.
        unsafe { regress_nonlinear_raw(&mut self.copy()) }
    }

    /// Returns whether JavaScript reads the pattern and a text as their code points.
    pub(crate) fn is_exact_for(&self, text: &str) -> bool {
        // SAFETY: the handle is alive, and the pointer and the length are those of a slice.
        unsafe { regress_is_exact_for_raw(&mut self.copy(), start_of(text), text.len()) == 1 }
    }

    /// Returns the bound for the steps of a search for each byte of a text, 0 if searches are not linear.
    pub(crate) fn steps_per_byte(&self) -> u64 {
        // SAFETY: the handle is alive.
        unsafe { regress_steps_per_byte_raw(&mut self.copy()) }
    }

    /// Returns the bound for the steps of a search for one match for each byte of a text, 0 if there is none.
    pub(crate) fn find_steps_per_byte(&self) -> u64 {
        // SAFETY: the handle is alive.
        unsafe { regress_find_steps_per_byte_raw(&mut self.copy()) }
    }
}

/// Writes the pattern that matches a text, in UTF-8.
pub(crate) fn escape(text: &str) -> Output<u8> {
    // Mostly less than twice as much is needed.
    with_room(2 * text.len(), |out: &mut [u8], needed| {
        // SAFETY: pointers and lengths are those of slices.
        unsafe {
            regress_escape_raw(
                start_of(text),
                text.len(),
                out.as_mut_ptr(),
                out.len(),
                needed,
            )
        }
    })
}

/// Writes the sentence for a syntax error of a kind at a position of a pattern, in UTF-8.
pub(crate) fn sentence(pattern: &str, kind: u32, position: usize) -> Output<u8> {
    with_room(128, |out: &mut [u8], needed| {
        // SAFETY: pointers and lengths are those of slices.
        unsafe {
            regress_error_sentence_raw(
                start_of(pattern),
                pattern.len(),
                kind,
                position,
                out.as_mut_ptr(),
                out.len(),
                needed,
            )
        }
    })
}

/// Writes the constructs of a pattern that may match otherwise than in JavaScript.
pub(crate) fn differences(pattern: &str, flags: u32) -> Output<Difference> {
    let (mut kind, mut position) = (0, 0);
    // If there are more, which is rare, the call is made a second time.
    with_room(16, |items: &mut [Difference], needed| {
        // SAFETY: pointers and lengths are those of slices and variables.
        unsafe {
            regress_differences_raw(
                start_of(pattern),
                pattern.len(),
                flags,
                items.as_mut_ptr(),
                items.len(),
                needed,
                &mut kind,
                &mut position,
            )
        }
    })
}

/// Returns a number of words that most trees do not exceed, so that the first call writes them.
fn usual_room(pattern: &[u32]) -> usize {
    16 * pattern.len() + 64
}

/// Writes the encoding of a pattern's tree, for a pattern of code points.
pub(crate) fn tree_words(pattern: &[u32], flags: u32, optimize: u32) -> Output<u32> {
    let (mut kind, mut position) = (0, 0);
    with_room(usual_room(pattern), |words: &mut [u32], needed| {
        // SAFETY: pointers and lengths are those of slices and variables. A pointer may dangle if its length is 0.
        unsafe {
            regress_front_parse_code_points(
                pattern.as_ptr(),
                pattern.len(),
                flags,
                optimize,
                words.as_mut_ptr(),
                words.len(),
                needed,
                &mut kind,
                &mut position,
            )
        }
    })
}

/// Writes the encoding of a pattern's tree, for a pattern of code points. Also returns the spans of its nodes.
pub(crate) fn tree_words_with_spans(pattern: &[u32], flags: u32) -> (Output<u32>, Vec<Span>) {
    let mut spans = vec![Span::default(); 4 * pattern.len() + 16];
    let (mut spans_needed, mut kind, mut position) = (0, 0, 0);
    let output = with_room(usual_room(pattern), |words: &mut [u32], needed| {
        if spans_needed > spans.len() {
            spans = vec![Span::default(); spans_needed];
        }
        // SAFETY: as for `tree_words`.
        unsafe {
            regress_front_parse_code_points_with_spans(
                pattern.as_ptr(),
                pattern.len(),
                flags,
                words.as_mut_ptr(),
                words.len(),
                needed,
                spans.as_mut_ptr(),
                spans.len(),
                &mut spans_needed,
                &mut kind,
                &mut position,
            )
        }
    });
    spans.truncate(spans_needed);
    (output, spans)
}

/// Writes the text of the syntax error of a pattern that is rejected. Also returns its kind and its position.
pub(crate) fn tree_fault(pattern: &[u32], flags: u32) -> (Output<u8>, u32, usize) {
    let (mut kind, mut position) = (0, 0);
    let output = with_room(128, |text: &mut [u8], needed| {
        // SAFETY: as for `tree_words`.
        unsafe {
            regress_front_tell_fault(
                pattern.as_ptr(),
                pattern.len(),
                flags,
                text.as_mut_ptr(),
                text.len(),
                needed,
                &mut kind,
                &mut position,
            )
        }
    });
    (output, kind, position)
}

/// Returns the bound of the number of nodes of a pattern's tree, and the status.
pub(crate) fn node_bound(pattern: &[u32], flags: u32) -> (u32, usize) {
    let mut bound = 0;
    // SAFETY: as for `tree_words`.
    let status =
        unsafe { regress_front_bound_nodes(pattern.as_ptr(), pattern.len(), flags, &mut bound) };
    (status, bound)
}

/// Makes a call with a buffer, and once more if it is too small: with one of the size that the call reports.
fn with_room<T: Clone + Default>(
    room: usize,
    mut call: impl FnMut(&mut [T], &mut usize) -> u32,
) -> Output<T> {
    let mut needed = 0;
    // A buffer that is not empty has a valid pointer.
    let mut items = vec![T::default(); room.max(1)];
    let mut status = call(&mut items, &mut needed);
    if status == ROOM {
        items = vec![T::default(); needed.max(1)];
        status = call(&mut items, &mut needed);
    }
    // The size of the result is 0 if there is none.
    items.truncate(if status == ROOM { 0 } else { needed });
    Output { status, items }
}

/// Returns a valid pointer to the bytes of a text, also for an empty one, whose own may dangle.
fn start_of(text: &str) -> *const u8 {
    static NOTHING: u8 = 0;
    match text.len() {
        0 => &NOTHING,
        _ => text.as_ptr(),
    }
}
