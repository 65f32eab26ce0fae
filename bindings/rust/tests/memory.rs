//! Each request for memory that the library makes in a call fails once: the call then reports that it is out of memory,
//! or has its result. Either way the next call has its result.
//!
//! This program defines `malloc` and `realloc`, which the library calls. Rust's own requests do not count and do not
//! fail: its allocator calls the functions of the GNU C library that have no such definition.

#![cfg(all(target_os = "linux", target_env = "gnu"))]

use regress_front::{
    differences, parse_str, parse_str_with_spans, Error, Fault, Flags, Options, Regex, SearchError,
    Table,
};
use std::alloc::{GlobalAlloc, Layout};
use std::cell::Cell;
use std::ffi::c_void;
use std::fmt::Debug;

extern "C" {
    fn __libc_malloc(size: usize) -> *mut c_void;
    fn __libc_realloc(block: *mut c_void, size: usize) -> *mut c_void;
    fn __libc_memalign(align: usize, size: usize) -> *mut c_void;
    fn __libc_free(block: *mut c_void);
}

thread_local! {
    /// The number of requests of the library on this thread.
    static REQUESTS: Cell<usize> = const { Cell::new(0) };
    /// The number of the request that fails.
    static REFUSED: Cell<usize> = const { Cell::new(usize::MAX) };
}

/// Counts a request, and returns whether it fails.
fn is_refused() -> bool {
    let number = REQUESTS.get();
    REQUESTS.set(number + 1);
    number == REFUSED.get()
}

/// # Safety
/// As for `malloc` of C.
#[no_mangle]
pub unsafe extern "C" fn malloc(size: usize) -> *mut c_void {
    match is_refused() {
        true => std::ptr::null_mut(),
        false => __libc_malloc(size),
    }
}

/// # Safety
/// As for `realloc` of C.
#[no_mangle]
pub unsafe extern "C" fn realloc(block: *mut c_void, size: usize) -> *mut c_void {
    match is_refused() {
        true => std::ptr::null_mut(),
        false => __libc_realloc(block, size),
    }
}

struct Uncounted;

// SAFETY: these are the aligned allocations of the C library.
unsafe impl GlobalAlloc for Uncounted {
    unsafe fn alloc(&self, layout: Layout) -> *mut u8 {
        __libc_memalign(layout.align(), layout.size()).cast()
    }

    unsafe fn dealloc(&self, block: *mut u8, _: Layout) {
        __libc_free(block.cast());
    }
}

#[global_allocator]
static ALLOCATOR: Uncounted = Uncounted;

/// Makes a call with the request of this number failing. Returns its result and the number of requests.
fn with_refused<T>(number: usize, call: impl FnOnce() -> T) -> (T, usize) {
    REQUESTS.set(0);
    REFUSED.set(number);
    let result = call();
    REFUSED.set(usize::MAX);
    (result, REQUESTS.get())
}

/// Makes a call with each of its requests failing in order.
fn each_refused<T: Debug + PartialEq>(what: &str, memory: T, call: impl Fn() -> T) {
    let (expected, requests) = with_refused(usize::MAX, &call);
    assert_ne!(expected, memory, "{what}");
    let mut reported = 0;
    for number in 0..requests {
        let (result, _) = with_refused(number, &call);
        if result == memory {
            reported += 1;
        } else {
            assert_eq!(result, expected, "{what}: request {number}");
        }
        // After all of the many requests that make the table of Unicode this would take long.
        if number % 16 == 0 || requests < 1000 {
            assert_eq!(call(), expected, "{what}: after request {number}");
        }
    }
    assert_eq!(call(), expected, "{what}");
    assert!(reported > 0, "{what}");
    println!("{what}: out of memory in {reported} of {requests} runs");
}

fn compiled(pattern: &str) -> Result<Regex, Error> {
    let options = Options {
        table: Table::Small,
        ..Options::default()
    };
    Regex::with_options(pattern, Flags::default(), options)
}

/// Patterns and texts: with groups that have names, with a back reference, and with a search so long that tables are
/// made.
const SEARCHES: [(&str, &str); 4] = [
    ("(?<a>x)|(?<b>y+)", "xyyzyyyy"),
    ("x(y+)\\1", "zxyyxyyyy"),
    ("(a*)*b", "aaaaaaaaaaaaaaaaaaaaaaaacb"),
    ("(?<=ab)c{2}[a-c]+|[^a]", "abccab"),
];

#[test]
fn compiling_reports_that_it_is_out_of_memory() {
    for pattern in SEARCHES.map(|search| search.0).iter().chain(&["a)"]) {
        each_refused(pattern, Err(Error::Memory), || {
            compiled(pattern).map(|regex| regex.to_string())
        });
    }
}

#[test]
fn parsing_reports_that_it_is_out_of_memory() {
    for pattern in ["(?<a>x)|[ab]+", "a)"] {
        each_refused(pattern, Err(Fault::Memory), || {
            parse_str(pattern, Flags::default(), Table::Small)
        });
        each_refused("with spans", Err(Fault::Memory), || {
            parse_str_with_spans(pattern, Flags::default(), Table::Small)
        });
    }
}

#[test]
fn differences_report_that_they_are_out_of_memory() {
    let flags = "i".parse().unwrap();
    each_refused("differences", Err(Error::Memory), || {
        differences("[k]|\\w", flags)
    });
}

#[test]
fn searches_report_that_they_are_out_of_memory() {
    for (pattern, text) in SEARCHES {
        let regex = compiled(pattern).unwrap();
        let memory = SearchError::Memory;
        each_refused("is_match", Err(memory), || regex.is_match(text));
        each_refused("find", Err(memory), || {
            let found = regex.find(text)?;
            Ok(found.map(|found| found.groups().collect::<Vec<_>>()))
        });
        each_refused("find_all", Err(memory), || {
            let matches = regex.find_all(text)?;
            Ok(matches
                .iter()
                .map(|found| found.range())
                .collect::<Vec<_>>())
        });
        each_refused("find_from", Err(memory), || {
            let matches = regex.find_from(text, 1).collect::<Result<Vec<_>, _>>()?;
            Ok(matches
                .iter()
                .map(|found| found.range())
                .collect::<Vec<_>>())
        });
        each_refused("replace", Err(memory), || regex.replace(text, "<$&$1>"));
        each_refused("replace_all", Err(memory), || {
            regex.replace_all(text, "<$&$1>")
        });
        each_refused("replace_all_with", Err(memory), || {
            regex.replace_all_with(text, |found| found.start().to_string())
        });
        each_refused("split", Err(memory), || {
            Ok(regex.split(text)?.collect::<Vec<_>>())
        });
        each_refused("split_with_captures", Err(memory), || {
            regex.split_with_captures(text, None)
        });
        let found = regex.find(text).unwrap().unwrap();
        each_refused("expand", Err(memory), || regex.expand("<$&$1>", &found));
    }
}
