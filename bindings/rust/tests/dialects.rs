//! Tests of the dialects: what holds in `Ecma` is what V8 does.

use regress_front::{
    parse_and_optimize_str, parse_and_optimize_str_in, parse_str, parse_str_in,
    parse_str_with_spans, parse_str_with_spans_in, Dialect, Error, Fault, FaultKind, Flags, Node,
    Options, Regex, SearchError, Table,
};
use Found::{Nothing, Rejected, Text};

fn compile(pattern: &str, flags: Flags, dialect: Dialect) -> Result<Regex, Error> {
    let options = Options {
        dialect,
        table: Table::Small,
        ..Options::default()
    };
    Regex::with_options(pattern, flags, options)
}

fn matches(pattern: &str, letters: &str, dialect: Dialect, text: &str) -> bool {
    let regex = compile(pattern, letters.parse().unwrap(), dialect).unwrap();
    regex.is_match(text).unwrap()
}

#[test]
fn patterns_match_as_their_dialect_says() {
    let (ecma, regress) = (Dialect::Ecma, Dialect::Regress);
    assert!(!matches(r"[\W_]", "i", ecma, "k"));
    assert!(matches(r"[\W_]", "i", regress, "k"));
    assert!(matches(r"^\u{3}$", "", ecma, "uuu"));
    assert!(!matches(r"^\u{3}$", "", regress, "uuu"));
    assert!(matches("^[!#]$", "v", ecma, "#"));
    assert!(compile("^[!#]$", "v".parse().unwrap(), regress).is_err());
}

#[test]
fn the_default_dialect_is_ecma() {
    assert_eq!(Options::default().dialect, Dialect::Ecma);
    assert_eq!(Dialect::default(), Dialect::Ecma);
    assert!(Regex::new(r"\b+").is_err());
    let regex = Regex::with_flags(r"[\W_]+", "i").unwrap();
    assert_eq!(regex.replace_all("skunk works", "").unwrap(), "skunkworks");
}

#[test]
fn a_syntax_error_of_ecma_has_a_kind_a_text_and_a_position() {
    let error = |pattern| match compile(pattern, Flags::default(), Dialect::Ecma) {
        Err(Error::Syntax {
            kind,
            text,
            position,
            offset,
            ..
        }) => (kind, text, position, offset),
        _ => panic!("{pattern} is accepted"),
    };
    let not_allowed = "Quantifier not allowed here".to_owned();
    assert_eq!(
        error(r"é\b+"),
        (FaultKind::QuantifierNotAllowed, not_allowed, 3, 4)
    );
    let unknown = "Backreference to invalid named capture group: é".to_owned();
    assert_eq!(
        error(r"(?<b>x)\k<é>"),
        (FaultKind::UnknownName, unknown.clone(), 10, 10)
    );
    // The escapes in a name are decoded.
    assert_eq!(
        error(r"(?<b>x)\k<\u00E9>"),
        (FaultKind::UnknownName, unknown, 10, 10)
    );
}

/// The kind and the position of a syntax error, or nothing.
type Verdict = Result<(), (FaultKind, usize)>;

fn verdict_of_tree<T>(result: Result<T, Fault>) -> Verdict {
    match result {
        Ok(_) => Ok(()),
        Err(Fault::Syntax { kind, position, .. }) => Err((kind, position)),
        Err(fault) => panic!("{fault}"),
    }
}

#[test]
fn trees_are_those_of_their_dialect() {
    let flags = Flags::default();
    let (ecma, regress) = (Dialect::Ecma, Dialect::Regress);
    for (pattern, letters) in [
        (r"\b+", ""),
        (r"[\k](?<a>x)", ""),
        ("[😀-😎]", ""),
        ("[a&&&]", "v"),
        ("[!#]", "v"),
        (r"\u{61}", ""),
        ("a)", ""),
    ] {
        let flags: Flags = letters.parse().unwrap();
        for dialect in [ecma, regress] {
            let compiled = match compile(pattern, flags, dialect) {
                Ok(_) => Ok(()),
                Err(Error::Syntax { kind, position, .. }) => Err((kind, position)),
                Err(error) => panic!("{error}"),
            };
            let table = Table::Small;
            let tree = parse_str_in(pattern, flags, table, dialect);
            assert_eq!(verdict_of_tree(tree), compiled);
            let tree = parse_and_optimize_str_in(pattern, flags, table, dialect);
            assert_eq!(verdict_of_tree(tree), compiled);
            let tree = parse_str_with_spans_in(pattern, flags, table, dialect);
            assert_eq!(verdict_of_tree(tree), compiled);
        }
    }
    // Without the flag u the braces are a quantifier.
    let (tree, spans) = parse_str_with_spans_in(r"\u{3}", flags, Table::Small, ecma).unwrap();
    let nodes: Vec<&Node> = tree.preorder().map(|(_, node)| node).collect();
    assert!(matches!(nodes[1], Node::Loop { quant, .. } if quant.min == 3));
    assert_eq!(nodes[2], &Node::Char { c: 0x75 });
    assert_eq!(spans, [0..5, 0..5, 0..2, 5..5]);
    assert_eq!(parse_str_in(r"\u{3}", flags, Table::Small, ecma), Ok(tree));
}

#[test]
fn trees_without_a_dialect_are_those_of_regress() {
    let (flags, small, regress) = (Flags::default(), Table::Small, Dialect::Regress);
    for pattern in [r"\b+", r"\u{61}", "a)", "[!#]"] {
        assert_eq!(
            parse_str(pattern, flags, small),
            parse_str_in(pattern, flags, small, regress)
        );
        assert_eq!(
            parse_and_optimize_str(pattern, flags, small),
            parse_and_optimize_str_in(pattern, flags, small, regress)
        );
        assert_eq!(
            parse_str_with_spans(pattern, flags, small),
            parse_str_with_spans_in(pattern, flags, small, regress)
        );
    }
}

#[test]
fn the_flag_v_implies_u_in_ecma() {
    let sets = Flags {
        unicode_sets: true,
        ..Flags::default()
    };
    assert!(compile("a", sets, Dialect::Ecma).unwrap().flags().unicode);
    assert!(
        !compile("a", sets, Dialect::Regress)
            .unwrap()
            .flags()
            .unicode
    );
    assert!(compile(r"\y", sets, Dialect::Ecma).is_err());
    assert!(compile(r"\y", sets, Dialect::Regress).is_ok());
}

/// What is found first in a text: a match, nothing, or that the pattern is rejected.
#[derive(Clone, Copy, Debug, PartialEq)]
enum Found {
    Text(&'static str),
    Nothing,
    Rejected,
}

/// The examples of `docs/differences.md`: pattern, flags, text, and what is found in `Ecma` and in `Regress`. V8 11.3
/// finds what is found in `Ecma`, but in the last six, where a code point above U+FFFF is two of its characters. It has no
/// two groups of one name: what their reference matches is from ECMA-262.
const EXAMPLES: &[(&str, &str, &str, Found, Found)] = &[
    ("[😀-😎]", "", "😀", Rejected, Text("😀")),
    (
        r"[\uD800\uDC00-\uDBFF\uDFFF]",
        "",
        "😀",
        Rejected,
        Text("😀"),
    ),
    (r"^\u{3}$", "", "uuu", Text("uuu"), Nothing),
    (r"^\u{61}$", "", "a", Nothing, Text("a")),
    ("[k]", "i", "\u{212A}", Nothing, Text("\u{212A}")),
    ("[s]", "i", "\u{17F}", Nothing, Text("\u{17F}")),
    ("[a-z]", "i", "\u{212A}", Nothing, Text("\u{212A}")),
    ("[a-z]", "i", "\u{17F}", Nothing, Text("\u{17F}")),
    (r"\w", "i", "\u{212A}", Nothing, Text("\u{212A}")),
    (r"\w", "i", "\u{17F}", Nothing, Text("\u{17F}")),
    (r"[\u212A]", "i", "k", Nothing, Text("k")),
    (r"[\u212A]", "i", "K", Nothing, Text("K")),
    (r"[\u017F]", "i", "s", Nothing, Text("s")),
    (r"[\u017F]", "i", "S", Nothing, Text("S")),
    (r"\W", "i", "\u{212A}", Text("\u{212A}"), Nothing),
    (r"\W", "i", "\u{17F}", Text("\u{17F}"), Nothing),
    ("[ß]", "i", "ẞ", Nothing, Text("ẞ")),
    ("[å]", "i", "\u{212B}", Nothing, Text("\u{212B}")),
    ("[ω]", "i", "\u{2126}", Nothing, Text("\u{2126}")),
    ("[θ]", "i", "ϴ", Nothing, Text("ϴ")),
    ("[ᾳ]", "i", "ᾼ", Nothing, Text("ᾼ")),
    (r"\b*", "", "", Rejected, Text("")),
    (r"(?<a>x)[\k]", "", "xk", Rejected, Text("xk")),
    (r"(?:(?<a>x)|(?<a>y))\k<a>", "", "yy", Text("yy"), Text("y")),
    (r"\P{Lu}", "iv", "A", Nothing, Text("A")),
    (r"\P{Lu}", "iv", "a", Nothing, Text("a")),
    (r"[\W]", "i", "k", Nothing, Text("k")),
    (r"[\W]", "iu", "S", Nothing, Text("S")),
    (r"[\W_]", "i", "K", Nothing, Text("K")),
    (r"[\W_]", "iu", "s", Nothing, Text("s")),
    (r"[^\W_]", "i", "k", Text("k"), Nothing),
    (r"[^\W_]", "iu", "k", Text("k"), Nothing),
    ("[[^A]]", "iv", "A", Nothing, Text("A")),
    ("[[^A]]", "iv", "a", Nothing, Text("a")),
    ("[[A-Z]&&[a-z]]", "iv", "q", Text("q"), Nothing),
    ("[[A-Z]&&[a-z]]", "iv", "Q", Text("Q"), Nothing),
    ("[!#]", "v", "!", Text("!"), Rejected),
    ("[!#]", "v", "#", Text("#"), Rejected),
    ("[a&-c]", "v", "a", Text("a"), Rejected),
    ("[a&-c]", "v", "+", Text("+"), Rejected),
    ("[a&-c]", "v", "d", Nothing, Rejected),
    ("[a&&&]", "v", "a", Rejected, Nothing),
    (r"[^\q{ab}--\q{ab}]", "v", "x", Rejected, Text("x")),
    (
        r"[^\p{Emoji_Keycap_Sequence}&&a]",
        "v",
        "a",
        Text("a"),
        Rejected,
    ),
    ("[😀]", "", "😀", Nothing, Text("😀")),
    ("[^😀]", "", "😀", Text("😀"), Nothing),
    ("^.$", "", "😀", Text("😀"), Text("😀")),
    ("^😀{2}$", "", "😀😀", Text("😀😀"), Text("😀😀")),
    ("𐐀", "i", "𐐨", Text("𐐨"), Text("𐐨")),
    (r"\uD83D", "", "😀", Nothing, Nothing),
];

#[test]
fn differences_from_ecma_are_as_their_page_says() {
    let found = |pattern: &str, letters: &str, text: &'static str, dialect| {
        let options = Options {
            dialect,
            ..Options::default()
        };
        match Regex::with_options(pattern, letters.parse().unwrap(), options) {
            Ok(regex) => match regex.find(text).unwrap() {
                Some(found) => Text(&text[found.range()]),
                None => Nothing,
            },
            Err(Error::Syntax { .. }) => Rejected,
            Err(error) => panic!("{pattern}: {error}"),
        }
    };
    for &(pattern, letters, text, ecma, regress) in EXAMPLES {
        let in_ecma = found(pattern, letters, text, Dialect::Ecma);
        let in_regress = found(pattern, letters, text, Dialect::Regress);
        assert_eq!(
            (in_ecma, in_regress),
            (ecma, regress),
            "{pattern}, {letters}"
        );
    }
}

/// What both dialects have otherwise than ECMA-262, as `docs/differences.md` lists it.
#[test]
fn limits_are_those_of_both_dialects() {
    let (flags, small) = (Flags::default(), Table::Small);
    for dialect in [Dialect::Ecma, Dialect::Regress] {
        let options = Options {
            dialect,
            steps: 100,
            ..Options::default()
        };
        let compile = |pattern: &str| Regex::with_options(pattern, flags, options);
        let ends = |regex: Regex, text: &str| {
            let matches = regex.find_iter(text);
            matches.map(|m| m.unwrap().end()).collect::<Vec<_>>()
        };
        // Two matches, and none between the code units of the character.
        assert_eq!(ends(compile("(?:)").unwrap(), "😀"), [0, 4]);
        let too_many = [
            ("()".repeat(65_536), FaultKind::TooManyGroups),
            ("a*".repeat(65_536), FaultKind::TooManyLoops),
            ("(".repeat(256) + &")".repeat(256), FaultKind::TooDeep),
        ];
        for (pattern, expected) in too_many {
            match compile(&pattern) {
                Err(Error::Syntax { kind, .. }) => assert_eq!(kind, expected),
                other => panic!("{expected:?}: {:?}", other.err()),
            }
        }
        let large = "a{18446744073709551617,18446744073709551616}";
        assert!(parse_str_in(large, flags, small, dialect).is_ok());
        let costly = compile(r"(a*)*\1b").unwrap();
        assert_eq!(
            costly.is_match(&"a".repeat(1000)),
            Err(SearchError::OutOfSteps)
        );
        let ignored = Regex::with_options("a", "dgy".parse().unwrap(), options).unwrap();
        assert_eq!(ends(ignored, "bab"), [2]);
    }
}
