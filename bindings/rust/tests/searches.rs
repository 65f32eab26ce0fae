//! Tests of regular expressions.

use regress_front::{
    escape, Captures, Error, FaultKind, Flags, FlagsError, LinearRegex, Match, Nonlinear, Options,
    Regex, SearchError, Table,
};
use std::borrow::Cow;
use std::thread;

fn texts<'t>(regex: &Regex, text: &'t str) -> Vec<&'t str> {
    let matches = regex.find_iter(text);
    matches.map(|found| found.unwrap().as_str()).collect()
}

#[test]
fn a_match_has_the_spans_of_its_groups() {
    let regex = Regex::new(r"(?<month>\d\d)-(\d\d)(x)?").unwrap();
    let text = "é: 12-31.";
    let found = regex.find(text).unwrap().unwrap();
    assert_eq!(found.range(), 4..9);
    assert_eq!((found.start(), found.end()), (4, 9));
    assert_eq!(found.as_str(), "12-31");
    assert_eq!(found.group(0), Some(4..9));
    assert_eq!(found.group(2), Some(7..9));
    assert_eq!(found.group(3), None);
    assert_eq!(found.group(4), None);
    assert_eq!(found.named_group("month"), Some(4..6));
    assert_eq!(found.named_group("day"), None);
    let spans: Vec<_> = found.groups().collect();
    assert_eq!(spans, [Some(4..9), Some(4..6), Some(7..9), None]);
    let named: Vec<_> = found.named_groups().collect();
    assert_eq!(named, [("month", Some(4..6))]);
    assert_eq!(
        format!("{found:?}"),
        r#"Match { text: "12-31", range: 4..9, groups: [Some(4..6), Some(7..9), None] }"#
    );
}

#[test]
fn a_regex_has_its_source_flags_and_names() {
    let regex = Regex::with_flags("(?<a>x)(y)", "mi").unwrap();
    assert_eq!(regex.to_string(), "(?<a>x)(y)");
    assert_eq!(regex.source(), "(?<a>x)(y)");
    assert_eq!(regex.flags().to_string(), "im");
    assert_eq!(regex.group_count(), 2);
    assert_eq!(regex.group_names().collect::<Vec<_>>(), [Some("a"), None]);
    assert_eq!(
        format!("{regex:?}"),
        r#"Regex { source: "(?<a>x)(y)", flags: im }"#
    );
    assert!("(".parse::<Regex>().is_err());
}

#[test]
fn matches_come_from_left_to_right() {
    let regex = Regex::new("a*").unwrap();
    assert_eq!(texts(&regex, "aabé"), ["aa", "", "", ""]);
    assert_eq!(texts(&regex, ""), [""]);
    let starts: Vec<usize> = regex.find_iter("bé").map(|m| m.unwrap().start()).collect();
    assert_eq!(starts, [0, 1, 3]);
    assert!(texts(&Regex::new("x").unwrap(), "abc").is_empty());
}

#[test]
fn a_search_may_begin_inside_the_text() {
    let regex = Regex::new("^a|a$|b").unwrap();
    let starts = |text, from| {
        let found: Option<Match> = regex.find_at(text, from).unwrap();
        found.map(|found| found.start())
    };
    assert_eq!(starts("aab", 0), Some(0));
    assert_eq!(starts("aab", 1), Some(2));
    assert_eq!(starts("aab", 3), None);
    assert_eq!(starts("aab", 4), None);
    assert_eq!(starts("éb", 1), Some(2));
    assert!(regex.is_match("ba").unwrap());
    assert!(!regex.is_match("cac").unwrap());
}

#[test]
fn all_matches_from_an_offset_on_are_found() {
    let regex = Regex::new("^a|(?<=a)a|bb").unwrap();
    let ranges = |text, start| {
        let matches = regex.find_from(text, start);
        matches
            .map(|found| found.unwrap().range())
            .collect::<Vec<_>>()
    };
    assert_eq!(ranges("aabbb", 0), [0..1, 1..2, 2..4]);
    assert_eq!(ranges("aabbb", 1), [1..2, 2..4]);
    assert_eq!(ranges("aabbb", 3), [3..5]);
    assert_eq!(ranges("aabbb", 5), []);
    assert_eq!(ranges("aabbb", usize::MAX), []);
    // An offset inside a character: the search begins after it.
    let starts: Vec<usize> = Regex::new("")
        .unwrap()
        .find_from("éa", 1)
        .map(|m| m.unwrap().start())
        .collect();
    assert_eq!(starts, [2, 3]);
}

#[test]
fn the_reason_why_searches_are_not_linear_is_known() {
    let within = |pattern, linear_instructions| {
        let options = Options {
            linear_instructions,
            ..Options::default()
        };
        let regex = Regex::with_options(pattern, Flags::default(), options).unwrap();
        assert_eq!(regex.is_linear(), regex.steps_per_byte().is_some());
        assert_eq!(regex.is_linear(), regex.nonlinear().is_none());
        regex.nonlinear()
    };
    assert_eq!(within("(a*)*b", 0), None);
    assert_eq!(within("(?!(a))b", 0), None);
    assert_eq!(within(r"(a)\1", 0), Some(Nonlinear::BackReference));
    assert_eq!(within("(?=(a))b", 0), Some(Nonlinear::CapturingLookaround));
    assert_eq!(within("(a*)*b", 1), Some(Nonlinear::TooManyInstructions));
    assert_eq!(within(r"(?=(a))\1", 1), Some(Nonlinear::BackReference));
    assert_eq!(
        Nonlinear::CapturingLookaround.to_string(),
        "a lookaround contains a capture group"
    );
}

#[test]
fn many_matches_are_found_by_one_call() {
    let text = "ab".repeat(50_000);
    let regex = Regex::new("(a)|(b)").unwrap();
    assert_eq!(regex.find_all(&text).unwrap().len(), 100_000);
    assert_eq!(regex.replace_all(&text, "$1$1").unwrap().len(), 2 * 50_000);
}

#[test]
fn texts_are_replaced_by_templates_and_functions() {
    let regex = Regex::new(r"(?<a>\d)(x)?").unwrap();
    let text = "1-2x";
    assert_eq!(regex.replace(text, "[$&]").unwrap(), "[1]-2x");
    assert_eq!(regex.replace_all(text, "[$<a>$2]").unwrap(), "[1]-[2x]");
    assert_eq!(regex.replace_all(text, "$$$3$02$").unwrap(), "$$3$-$$3x$");
    assert_eq!(
        regex.replace_with(text, |m| m.as_str().repeat(2)).unwrap(),
        "11-2x"
    );
    assert_eq!(
        regex
            .replace_all_with(text, |m| format!("<{}>", m.start()))
            .unwrap(),
        "<0>-<2>"
    );
    // A result that is much longer than the text.
    let long = "ab".repeat(1000);
    assert_eq!(
        regex.replace_all(text, &long).unwrap(),
        format!("{long}-{long}")
    );
    assert_eq!(
        regex.replace_all(&"1".repeat(500), "$&$&$&$&").unwrap(),
        "1".repeat(2000)
    );
    assert_eq!(regex.replace(text, "").unwrap(), "-2x");
    assert_eq!(regex.replace_all("1", "").unwrap(), "");
    for same in [
        regex.replace("ab", "y"),
        regex.replace_all("ab", "y"),
        regex.replace_all_with("ab", |_| "y".into()),
    ] {
        assert!(matches!(same.unwrap(), Cow::Borrowed("ab")));
    }
}

#[test]
fn the_first_matches_are_replaced() {
    let regex = Regex::new(r"(?<a>\d)(x)?").unwrap();
    let text = "1-2x-3";
    let by_template = |limit| regex.replacen(text, limit, "[$<a>$2]").unwrap();
    assert_eq!(by_template(1), "[1]-2x-3");
    assert_eq!(by_template(2), "[1]-[2x]-3");
    assert_eq!(by_template(3), "[1]-[2x]-[3]");
    assert_eq!(by_template(usize::MAX), "[1]-[2x]-[3]");
    // As in the crate `regex`, all of them.
    assert_eq!(by_template(0), "[1]-[2x]-[3]");
    for limit in 0..5 {
        let by_function = regex.replacen(text, limit, |found: &Match| {
            regex.expand("[$<a>$2]", found).unwrap()
        });
        assert_eq!(by_function.unwrap(), by_template(limit));
    }
    let same = regex.replacen("ab", 2, "y");
    assert!(matches!(same.unwrap(), Cow::Borrowed("ab")));
    // A result that is much longer than the text.
    let long = "ab".repeat(1000);
    assert_eq!(
        regex.replacen("1-2-3", 2, &long).unwrap(),
        format!("{long}-{long}-3")
    );
    let linear = LinearRegex::new(r"\d").unwrap();
    assert_eq!(linear.replacen("1-2-3", 2, "<$&>"), "<1>-<2>-3");
    let options = Options {
        steps: 100,
        ..Options::default()
    };
    let costly = Regex::with_options(r"(a*)*\1b", Flags::default(), options).unwrap();
    for limit in 0..3 {
        let text = "a".repeat(1000);
        assert_eq!(
            costly.replacen(&text, limit, ""),
            Err(SearchError::OutOfSteps)
        );
        assert_eq!(
            costly.replacen(&text, limit, |_: &Match| ""),
            Err(SearchError::OutOfSteps)
        );
    }
}

#[test]
fn texts_are_split_at_matches() {
    let regex = Regex::new(r",\s*").unwrap();
    let split = |text| regex.split(text).unwrap().collect::<Vec<_>>();
    let splitn = |text, limit| regex.splitn(text, limit).unwrap().collect::<Vec<_>>();
    assert_eq!(split("a, b,c"), ["a", "b", "c"]);
    assert_eq!(split(""), [""]);
    assert_eq!(split(",a,"), ["", "a", ""]);
    assert_eq!(regex.split(",a,").unwrap().len(), 3);
    assert_eq!(splitn("a, b,c", 2), ["a", "b,c"]);
    assert_eq!(splitn("a, b,c", 1), ["a, b,c"]);
    assert!(splitn("a, b,c", 0).is_empty());
    let empty = Regex::new("").unwrap();
    assert_eq!(
        empty.split("ab").unwrap().collect::<Vec<_>>(),
        ["", "a", "b", ""]
    );
    assert_eq!(
        empty.split_with_captures("ab", None).unwrap(),
        [Some("a"), Some("b")]
    );
    let captures = Regex::new("(-)|(=)").unwrap();
    assert_eq!(
        captures.split_with_captures("a=b", None).unwrap(),
        [Some("a"), None, Some("="), Some("b")]
    );
    assert_eq!(
        captures.split_with_captures("a=b", Some(2)).unwrap(),
        [Some("a"), None]
    );
}

#[test]
fn a_syntax_error_has_a_kind_a_text_a_sentence_and_a_position() {
    let error = Regex::new("a[b").unwrap_err();
    let sentence = r"unterminated class (write `\[` for the character)";
    assert_eq!(error.to_string(), format!("{sentence}, at position 1"));
    let Error::Syntax {
        kind,
        text,
        message,
        position,
        offset,
    } = error
    else {
        panic!("{error:?}")
    };
    assert_eq!(kind, FaultKind::UnbalancedBracket);
    assert_eq!(text, "Unbalanced bracket");
    assert_eq!(message, sentence);
    assert_eq!((position, offset), (1, 1));
    let error = Regex::new("é[z-a]").unwrap_err();
    assert!(matches!(
        error,
        Error::Syntax {
            position: 2,
            offset: 3,
            ..
        }
    ));
    assert_eq!(
        error.to_string(),
        r"a range ends before it begins (write `\-` for the character `-`), at position 2"
    );
    // What another engine has.
    let error = Regex::new("é(?P<a>b)").unwrap_err();
    assert_eq!(
        error.to_string(),
        "unknown kind of group (a named group is written `(?<name>..)`), at position 3"
    );
    let error = Regex::new("é(").unwrap_err();
    assert!(matches!(
        error,
        Error::Syntax {
            position: 1,
            offset: 2,
            ..
        }
    ));
}

#[test]
fn captures_are_texts_by_number_and_by_name() {
    let regex = Regex::new(r"(?<y>\d{4})-(\d\d)(x)?|(?<y>z)").unwrap();
    let c: Captures = regex.captures("é 2024-05").unwrap().unwrap();
    assert_eq!(
        (&c[0], &c[1], &c["y"], &c[2]),
        ("2024-05", "2024", "2024", "05")
    );
    assert_eq!(c.get(2).map(|group| group.range()), Some(8..10));
    assert_eq!(c.name("y").map(|group| group.as_str()), Some("2024"));
    assert!(c.get(3).is_none() && c.get(5).is_none() && c.name("x").is_none());
    assert!(c.get(usize::MAX).is_none());
    assert_eq!((c.len(), c.is_empty()), (7, false));
    let second = regex.captures_iter("2024-05 z").nth(1).unwrap().unwrap();
    assert_eq!(&second["y"], "z");
    // More groups than fit without an allocation.
    let many = Regex::new("(a)(b)(c)(d)(e)?(?<last>f)").unwrap();
    let found = many.find("xabcdf").unwrap().unwrap();
    assert_eq!((&found[4], &found["last"]), ("d", "f"));
    assert_eq!(found.groups().count(), 7);
    assert_eq!(
        many.find_all("abcdf abcdef").unwrap()[1].group(5),
        Some(10..11)
    );
}

#[test]
#[should_panic(expected = "no capture of a group with the number 1")]
fn a_group_that_is_unset_has_no_text() {
    let found = Regex::new("(a)?b").unwrap().find("b").unwrap().unwrap();
    let _ = &found[1];
}

#[test]
fn texts_are_replaced_by_closures_and_strings() {
    let regex = Regex::new(r"(\d)(x)?").unwrap();
    let twice = |found: &Captures| found[1].repeat(2);
    assert_eq!(regex.replace_all("1-2x", twice).unwrap(), "11-22");
    assert_eq!(regex.replace("1-2x", twice).unwrap(), "11-2x");
    assert_eq!(regex.replace_all("1-2x", |_: &Match| "é").unwrap(), "é-é");
    assert_eq!(
        regex.replace_all("1-2x", String::from("<$1>")).unwrap(),
        "<1>-<2>"
    );
    assert_eq!(
        regex.replace_all("1-2x", &String::from("$2")).unwrap(),
        "-x"
    );
    let mut count = 0;
    let counted = regex.replace_all("1-2x", |_: &Match| {
        count += 1;
        count.to_string()
    });
    assert_eq!(counted.unwrap(), "1-2");
}

#[test]
fn templates_are_expanded_at_matches() {
    let regex = Regex::new(r"(\d)(x)?").unwrap();
    let found = regex.find("é1-2x").unwrap().unwrap();
    assert_eq!(regex.expand("[$1$2|$&]", &found).unwrap(), "[1|1]");
    assert_eq!(regex.expand("$`$1$'", &found).unwrap(), "é1-2x");
    assert_eq!(regex.expand("", &found).unwrap(), "");
    let long = "$&".repeat(1000);
    assert_eq!(regex.expand(&long, &found).unwrap(), "1".repeat(1000));
    // Captures that are not in the match.
    let around = Regex::new(r"(?<=(?<a>é)|(z))b(?=.*(?<c>d))").unwrap();
    let found = around.find("aéb-cd").unwrap().unwrap();
    assert_eq!(around.expand("$<a>$2$<c>$&", &found).unwrap(), "édb");
    let many = "1-".repeat(20_000);
    for found in regex.find_iter(&many) {
        assert_eq!(regex.expand("<$1>", &found.unwrap()).unwrap(), "<1>");
    }
}

#[test]
#[should_panic(expected = "the match has other groups than the pattern")]
fn a_match_of_another_pattern_is_not_expanded() {
    let found = Regex::new("(a)").unwrap().find("a").unwrap().unwrap();
    let _ = Regex::new("a").unwrap().expand("", &found);
}

#[test]
fn linear_searches_return_no_result() {
    let regex = LinearRegex::new(r"(?<a>\w)(\d)?").unwrap();
    assert!(regex.is_match("-a") && !regex.is_match("-"));
    assert_eq!(regex.find("-a1").map(|found| found.range()), Some(1..3));
    assert!(regex.find_at("a", 1).is_none());
    assert_eq!(&regex.captures("a1").unwrap()["a"], "a");
    let found: Vec<&str> = regex
        .find_iter("a1-b")
        .map(|found| found.as_str())
        .collect();
    assert_eq!(found, ["a1", "b"]);
    assert_eq!(regex.captures_iter("a1-b").len(), 2);
    assert_eq!(regex.replace("a1-b", "<$<a>>"), "<a>-b");
    assert_eq!(
        regex.replace_all("a1-b", |found: &Match| found[0].to_uppercase()),
        "A1-B"
    );
    let found = regex.find("-a1").unwrap();
    assert_eq!(regex.expand("<$<a>>", &found), "<a>");
    assert_eq!(regex.split("a1-b").collect::<Vec<_>>(), ["", "-", ""]);
    assert_eq!(regex.splitn("a1-b", 2).collect::<Vec<_>>(), ["", "-b"]);
    assert_eq!(regex.as_regex().group_count(), 2);
    let rejected = |pattern| LinearRegex::new(pattern).unwrap_err();
    assert_eq!(
        rejected(r"(a)\1"),
        Error::Nonlinear(Nonlinear::BackReference)
    );
    assert!(matches!(rejected("("), Error::Syntax { .. }));
    assert_eq!(
        rejected(r"(a)\1").to_string(),
        "searches are not linear: the pattern has a back reference"
    );
}

#[test]
fn flags_are_letters() {
    let flags: Flags = "gimsvdy".parse().unwrap();
    assert!(flags.icase && flags.multiline && flags.dot_all);
    assert!(flags.unicode && flags.unicode_sets);
    assert_eq!(flags.to_string(), "imsv");
    assert_eq!("".parse(), Ok(Flags::default()));
    assert_eq!(Flags::from("gimsvdyx"), flags);
    assert!(Regex::with_flags("A", Flags::from("i"))
        .unwrap()
        .is_match("a")
        .unwrap());
    assert!(Regex::with_flags("A", &String::from("i"))
        .unwrap()
        .is_match("a")
        .unwrap());
    assert_eq!("x".parse::<Flags>(), Err(FlagsError::Unknown('x')));
    assert_eq!("imi".parse::<Flags>(), Err(FlagsError::Repeated('i')));
    assert_eq!("uv".parse::<Flags>(), Err(FlagsError::UnicodeAndSets));
    assert_eq!(
        Regex::with_flags("a", "uv").unwrap_err(),
        Error::Flags(FlagsError::UnicodeAndSets)
    );
}

#[test]
fn limits_are_kept() {
    let options = Options {
        steps: 100,
        nodes: 100,
        table: Table::Small,
        ..Options::default()
    };
    let flags = Flags::default();
    assert_eq!(
        Regex::with_options(&"a".repeat(1000), flags, options).unwrap_err(),
        Error::TooLarge
    );
    // Too many instructions, in a small tree.
    assert_eq!(
        Regex::new("(?:(?:ab){9999999999}){9999999999}").unwrap_err(),
        Error::TooLarge
    );
    let regex = Regex::with_options(r"(a*)*\1b", flags, options).unwrap();
    let text = "a".repeat(1000);
    assert_eq!(regex.is_match(&text), Err(SearchError::OutOfSteps));
    assert_eq!(regex.find(&text).unwrap_err(), SearchError::OutOfSteps);
    assert_eq!(regex.find_all(&text).unwrap_err(), SearchError::OutOfSteps);
    assert_eq!(regex.replace_all(&text, ""), Err(SearchError::OutOfSteps));
    let mut matches = regex.find_iter(&text);
    assert!(matches.next().unwrap().is_err());
    assert!(matches.next().is_none());
}

#[test]
fn linear_searches_have_no_limit_of_steps_by_default() {
    let within = |pattern, options| Regex::with_options(pattern, Flags::default(), options);
    let steps = Options {
        steps: 1,
        ..Options::default()
    };
    let text = "a".repeat(1000);
    let regex = within("(a*)*b", steps).unwrap();
    assert!(regex.is_linear());
    assert!(regex.steps_per_byte().is_some_and(|steps| steps > 0));
    assert_eq!(regex.is_match(&text), Ok(false));
    let regex = within(
        "(a*)*b",
        Options {
            linear_instructions: 1,
            ..steps
        },
    )
    .unwrap();
    assert!(!regex.is_linear());
    assert_eq!(regex.steps_per_byte(), None);
    assert_eq!(regex.is_match(&text), Err(SearchError::OutOfSteps));
    let memory = Options {
        memory: 1000,
        ..Options::default()
    };
    let regex = within("(a*)*b", memory).unwrap();
    assert_eq!(regex.is_match("aab"), Ok(true));
    assert_eq!(regex.is_match(&text), Err(SearchError::TooMuchMemory));
    assert_eq!(
        regex.find_all(&text).unwrap_err(),
        SearchError::TooMuchMemory
    );
    let linear = LinearRegex::with_options("(a*)*b", Flags::default(), memory).unwrap();
    assert!(!linear.is_match(&text));
    let stack = Options {
        memory: 4000,
        ..Options::default()
    };
    let regex = within(r"(?:a|b|(c))*\1d", stack).unwrap();
    assert_eq!(regex.is_match("aaad"), Ok(true));
    assert_eq!(regex.is_match(&text), Err(SearchError::TooMuchMemory));
    let listed = within("a", memory).unwrap();
    assert_eq!(listed.find_all(&text[..17]).unwrap().len(), 17);
    assert_eq!(
        listed.find_all(&text[..18]).unwrap_err(),
        SearchError::TooMuchMemory
    );
    let limited = |linear_steps| {
        let options = Options {
            linear_steps: Some(linear_steps),
            ..Options::default()
        };
        within("(a*)*b", options).unwrap()
    };
    let regex = limited(10);
    assert!(regex.is_linear());
    assert_eq!(regex.is_match(&text), Err(SearchError::OutOfSteps));
    assert_eq!(regex.find_all(&text).unwrap_err(), SearchError::OutOfSteps);
    assert_eq!(regex.is_match("b"), Ok(true));
    let enough = 1001 * regex.steps_per_byte().unwrap();
    assert_eq!(limited(enough).is_match(&text), Ok(false));
    let one = Options {
        linear_steps: Some(1),
        ..Options::default()
    };
    let linear = LinearRegex::with_options("(a*)*b", Flags::default(), one).unwrap();
    assert!(!linear.is_match(&text));
    let regex = Regex::new(r"(a)\1").unwrap();
    assert!(!regex.is_linear() && !regex.is_find_linear());
    assert_eq!(regex.find_steps_per_byte(), None);
}

#[test]
fn a_text_is_exact_with_u_or_where_no_character_above_ffff_counts() {
    let regex = Regex::new("^.$").unwrap();
    assert!(regex.is_exact_for("é"));
    assert!(!regex.is_exact_for("😀"));
    assert!(!Regex::new("😀").unwrap().is_exact_for("a"));
    assert!(Regex::with_flags("😀", "u").unwrap().is_exact_for("😀"));
    assert!(Regex::new("\\d+").unwrap().is_exact_for("😀"));
}

#[test]
fn a_match_is_found_in_linear_time_also_where_lookarounds_capture() {
    let steps = Options {
        steps: 1,
        ..Options::default()
    };
    let regex = Regex::with_options("(?:(?=(a*))a)*b", Flags::default(), steps).unwrap();
    assert!(regex.is_find_linear() && !regex.is_linear());
    assert!(regex.find_steps_per_byte().is_some_and(|steps| steps > 0));
    // At the last `a` that is consumed, `a*` consumes that one.
    let text = format!("{}b", "a".repeat(1000));
    let found = regex.find(&text).unwrap().unwrap();
    assert_eq!(found.range(), 0..1001);
    assert_eq!(found.group(1), Some(999..1000));
    assert_eq!(regex.is_match(&text[..1000]), Ok(false));
}

#[test]
fn the_number_of_instructions_is_limited() {
    let within = |instructions| {
        let options = Options {
            instructions,
            ..Options::default()
        };
        Regex::with_options("(?:(?:ab){400}){700}", Flags::default(), options)
    };
    assert_eq!(within(1).unwrap_err(), Error::TooLarge);
    assert_eq!(within(10).unwrap_err(), Error::TooLarge);
    // Two iterations are stored, of five instructions with those inside.
    assert!(within(11).is_ok());
    assert!(within(10_000_000).is_ok());
}

#[test]
fn threads_share_a_regex() {
    fn is_shared<T: Send + Sync>() {}
    is_shared::<Regex>();
    is_shared::<Match>();
    is_shared::<LinearRegex>();
    let regex = Regex::new("a+").unwrap();
    thread::scope(|scope| {
        for length in 1..9 {
            let regex = &regex;
            scope.spawn(move || {
                let text = "a".repeat(length);
                for _ in 0..100 {
                    assert_eq!(regex.find(&text).unwrap().unwrap().end(), length);
                    assert_eq!(regex.find_all(&text).unwrap().len(), 1);
                    assert_eq!(regex.replace_all(&text, "b").unwrap(), "b");
                }
            });
        }
    });
    let clone = regex.clone();
    drop(regex);
    assert!(thread::spawn(move || clone.is_match("a").unwrap())
        .join()
        .unwrap());
}

#[test]
fn an_escaped_text_matches_itself() {
    let text = "1+1 = 2?\t\n\u{B}\u{C}\r-\u{2028}é";
    let pattern = escape(text);
    assert_eq!(
        pattern,
        "\\x31\\+1\\x20\\x3d\\x202\\?\\t\\n\\v\\f\\r\\x2d\\u2028é"
    );
    assert_eq!(escape(""), "");
    assert_eq!(escape("é1"), "é1");
    assert_eq!(escape(&"-".repeat(100)), "\\x2d".repeat(100));
    for letters in ["", "i", "u", "v"] {
        let found = Regex::with_flags(&pattern, letters).unwrap().find(text);
        assert_eq!(found.unwrap().unwrap().as_str(), text);
    }
}
