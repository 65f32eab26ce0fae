//! The case foldings that the tests of the crate `regress` name, as matches: that crate tests its tables, which no call of
//! this one returns.

use regress_front::LinearRegex;

/// Returns the regular expression of a character where case is ignored.
fn ignoring_case(character: u32) -> LinearRegex {
    LinearRegex::with_flags(&format!("\\u{{{character:x}}}"), "iu").unwrap()
}

/// Returns the text of a character.
fn text(character: u32) -> String {
    char::from_u32(character).unwrap().to_string()
}

#[test]
fn characters_match_what_they_fold_to() {
    let pairs = [
        (0xB5, 0x3BC),
        (0xC0, 0xE0),
        (0x1B8, 0x1B9),
        (0x1BC, 0x1BD),
        (0x37F, 0x3F3),
        (0x16E40, 0x16E60),
        (0x16E41, 0x16E61),
        (0x16E42, 0x16E62),
        (0x1E900, 0x1E922),
        (0x1E901, 0x1E923),
    ];
    let letters = (0x41..=0x5A).map(|letter| (letter, letter + 0x20));
    let neighbours = (0x1F8..0x21F).step_by(2).map(|letter| (letter, letter + 1));
    for (one, other) in letters.chain(neighbours).chain(pairs) {
        assert!(
            ignoring_case(one).is_match(&text(other)),
            "{one:x}, {other:x}"
        );
        assert!(
            ignoring_case(other).is_match(&text(one)),
            "{other:x}, {one:x}"
        );
    }
}

#[test]
fn characters_without_case_match_themselves_alone() {
    for character in (0..0x41).chain([0x1BA, 0x1BB, 0x380, 0xF0000, 0x10FFFF]) {
        let regex = ignoring_case(character);
        assert!(regex.is_match(&text(character)), "{character:x}");
        let others = (0..0x250).filter(|&other| other != character);
        let others: String = others.map(text).collect();
        assert!(!regex.is_match(&others), "{character:x}");
    }
}
