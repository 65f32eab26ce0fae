//! Tests of the differences of a pattern from JavaScript. The expected ones are those of the table of
//! `docs/differences.md`.

use regress_front::{differences, Difference, DifferenceKind, Error, FaultKind, Flags};

extern "C" {
    fn regress_difference_name_raw(kind: u32, out: *mut u8, room: usize, needed: *mut usize)
        -> u32;
    fn regress_difference_text_raw(kind: u32, out: *mut u8, room: usize, needed: *mut usize)
        -> u32;
}

const KINDS: [DifferenceKind; 4] = [
    DifferenceKind::CaseClosure,
    DifferenceKind::StringSet,
    DifferenceKind::SameName,
    DifferenceKind::Grammar,
];

fn listed(pattern: &str, letters: &str) -> Vec<(&'static str, usize, usize)> {
    let found = differences(pattern, letters.parse().unwrap()).unwrap();
    found
        .iter()
        .map(|difference| {
            let span = &difference.span;
            (difference.kind.name(), span.start, span.end)
        })
        .collect()
}

#[test]
fn differing_constructs_are_listed_with_their_spans() {
    let closures = [("case-closure", 1, 4), ("case-closure", 4, 6)];
    assert_eq!(listed("é[k]\\w", "i"), closures);
    assert_eq!(listed("[\\W]", "iu"), [("case-closure", 0, 4)]);
    assert_eq!(listed("\\P{Lu}", "iv"), [("case-closure", 0, 6)]);
    assert_eq!(listed("a\\u{61}", ""), [("grammar", 1, 7)]);
    let groups = "(?:(?<a>x)|(?<a>y))\\k<a>";
    assert_eq!(listed(groups, ""), [("same-name", 19, 24)]);
}

#[test]
fn most_patterns_have_no_difference() {
    for (pattern, letters) in [
        ("", ""),
        ("[k]\\w", ""),
        ("[a]|\\d+x", "i"),
        ("\\w[k][\\s\\S]", "iu"),
        ("[a-z]|a\\p{RGI_Emoji}", "iv"),
        ("(?<a>x)\\k<a>", "ims"),
    ] {
        assert!(listed(pattern, letters).is_empty(), "{pattern}");
    }
}

#[test]
fn more_differences_than_the_first_buffer_holds_are_listed() {
    let found = listed(&"[k]".repeat(100), "i");
    assert_eq!(found.len(), 100);
    assert_eq!(found[99], ("case-closure", 297, 300));
}

#[test]
fn a_rejected_pattern_has_its_syntax_error() {
    let error = differences("é)", Flags::default()).unwrap_err();
    let Error::Syntax {
        kind,
        text,
        position,
        ..
    } = error
    else {
        panic!("{error:?}")
    };
    assert_eq!(kind, FaultKind::UnbalancedParenthesis);
    assert_eq!(text, "Unbalanced parenthesis");
    assert_eq!(position, 1);
}

#[test]
fn differences_are_displayed() {
    let kind = DifferenceKind::SameName;
    let difference = Difference { kind, span: 2..7 };
    let text = difference.to_string();
    assert!(text.starts_with("a reference to several groups"), "{text}");
    assert!(text.ends_with("in JavaScript yy, at 2 to 7"), "{text}");
    assert_eq!(kind.to_string(), "same-name");
}

#[test]
fn names_and_texts_are_those_of_the_library() {
    for (number, kind) in (1..).zip(KINDS) {
        assert_eq!(kind.number(), number);
        for (own, call) in [
            (kind.name(), regress_difference_name_raw as Write),
            (kind.text(), regress_difference_text_raw as Write),
        ] {
            assert_eq!(written(call, number), (0, own.to_owned()));
        }
    }
    assert_eq!(written(regress_difference_name_raw, 5), (4, String::new()));
}

type Write = unsafe extern "C" fn(u32, *mut u8, usize, *mut usize) -> u32;

fn written(call: Write, number: u32) -> (u32, String) {
    let mut bytes = vec![0; 256];
    let mut needed = 0;
    // SAFETY: the pointer and the length are those of a vector.
    let status = unsafe { call(number, bytes.as_mut_ptr(), bytes.len(), &mut needed) };
    bytes.truncate(needed);
    (status, String::from_utf8(bytes).unwrap())
}
