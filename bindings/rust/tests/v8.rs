//! Compares searches, replaced texts and split texts with those of V8, in the files of
//! `crates/test_cases/data/generated`. `crates/test_cases/README.md` specifies their format.

use regress_front::{Flags, Match, Options, Regex, SearchError};
use std::fs;

const FOLDER: &str = "../../crates/test_cases/data/generated";

/// A test case: the name of the call, its arguments, and the result.
struct Case {
    name: String,
    fields: Vec<String>,
    result: String,
}

/// Returns the test cases of a file. Their results are those of V8, and so of this dialect.
fn cases(file: &str) -> Vec<Case> {
    let path = format!("{}/{FOLDER}/{file}", env!("CARGO_MANIFEST_DIR"));
    let text = fs::read_to_string(&path).expect(&path);
    let lines = text.lines().enumerate();
    lines
        .filter(|(_, line)| !line.is_empty() && !line.starts_with('#'))
        .map(|(number, line)| {
            // Each pattern is compiled under the table of all of Unicode.
            let line = line.strip_prefix("unicode\t").unwrap_or(line);
            let mut fields: Vec<String> = line.split('\t').map(literal).collect();
            let result = fields.pop().unwrap_or_default();
            let name = format!("{file}:{}: {line}", number + 1);
            Case {
                name,
                fields,
                result,
            }
        })
        .collect()
}

/// Returns a field with its code points in brackets replaced by the characters.
fn literal(field: &str) -> String {
    let mut out = String::new();
    let mut rest = field;
    while let Some((plain, after)) = rest.split_once('⟨') {
        let (inside, after) = after.split_once('⟩').expect("a closing bracket");
        out.push_str(plain);
        match inside.split_once('×') {
            Some((times, text)) => out.push_str(&text.repeat(times.parse().expect("a number"))),
            None => {
                let code = u32::from_str_radix(inside, 16).expect("a code point");
                out.push(char::from_u32(code).expect("a character"));
            }
        }
        rest = after;
    }
    out + rest
}

/// Compiles a pattern. The flags of a test case are independent of each other.
fn compile(letters: &str, pattern: &str) -> Regex {
    let flags = Flags {
        icase: letters.contains('i'),
        multiline: letters.contains('m'),
        dot_all: letters.contains('s'),
        unicode: letters.contains('u'),
        unicode_sets: letters.contains('v'),
    };
    Regex::with_options(pattern, flags, Options::default()).expect(pattern)
}

/// Returns the spans of a match, in characters.
fn spans(text: &str, found: &Match) -> String {
    let index = |offset| text[..offset].chars().count();
    let spans: Vec<String> = found
        .groups()
        .map(|span| match span {
            Some(span) => format!("{}-{}", index(span.start), index(span.end)),
            None => "-".into(),
        })
        .collect();
    spans.join(" ")
}

/// Fails if some test cases failed, and prints the first ones.
fn conclude(failures: &[String], count: usize) {
    assert!(count > 0);
    assert!(
        failures.is_empty(),
        "{} of {count} fail:\n{}",
        failures.len(),
        failures[..failures.len().min(20)].join("\n")
    );
    println!("{count} results are those of V8");
}

/// Compares what a search shows of each test case of a file with its result.
fn compare_searches(file: &str, shown: impl Fn(&Regex, &str) -> Result<String, SearchError>) {
    let cases = cases(file);
    let mut failures = Vec::new();
    for case in &cases {
        let [_, _, flags, pattern, text] = &case.fields[..] else {
            panic!("{}", case.name)
        };
        let found = shown(&compile(flags, pattern), text).expect(&case.name);
        if found != case.result {
            failures.push(format!("{}\n    found: {found}", case.name));
        }
    }
    conclude(&failures, cases.len());
}

fn first_match(regex: &Regex, text: &str) -> Result<String, SearchError> {
    let found = regex.find(text)?;
    Ok(found.map_or("none".into(), |found| spans(text, &found)))
}

#[test]
fn first_matches_are_those_of_v8() {
    compare_searches("v8.tsv", first_match);
}

#[test]
fn first_matches_of_letters_with_unusual_case_are_those_of_v8() {
    compare_searches("v8_cases.tsv", first_match);
}

#[test]
fn all_matches_are_those_of_v8() {
    compare_searches("v8_all.tsv", |regex, text| {
        let all = regex.find_all(text)?;
        let all: Vec<String> = all.iter().map(|found| spans(text, found)).collect();
        Ok(match all.is_empty() {
            true => "none".into(),
            false => all.join(" | "),
        })
    });
}

#[test]
fn replaced_and_split_texts_are_those_of_v8() {
    let cases = cases("v8_replaces.tsv");
    let mut failures = Vec::new();
    for case in &cases {
        let [call, flags, pattern, text, last] = &case.fields[..] else {
            panic!("{}", case.name)
        };
        let regex = compile(flags, pattern);
        let results = match call.as_str() {
            "replace" => {
                let expanded = regex.replace_with(text, |found| regex.expand(last, found).unwrap());
                vec![
                    regex.replace(text, last).expect(&case.name).into_owned(),
                    expanded.expect(&case.name).into_owned(),
                ]
            }
            "replace_all" => {
                let expanded =
                    regex.replace_all_with(text, |found| regex.expand(last, found).unwrap());
                vec![
                    regex
                        .replace_all(text, last)
                        .expect(&case.name)
                        .into_owned(),
                    expanded.expect(&case.name).into_owned(),
                ]
            }
            "split" => vec![split(&regex, text, last)],
            _ => panic!("{}", case.name),
        };
        for found in results {
            if found != case.result {
                failures.push(format!("{}\n    found: {found}", case.name));
            }
        }
    }
    conclude(&failures, cases.len());
}

fn split(regex: &Regex, text: &str, limit: &str) -> String {
    let limit = match limit {
        "-" => None,
        limit => Some(limit.parse().expect("a number")),
    };
    let parts = regex.split_with_captures(text, limit).expect(text);
    let parts: Vec<&str> = parts.iter().map(|part| part.unwrap_or("-")).collect();
    match parts.is_empty() {
        true => "none".into(),
        false => parts.join(" | "),
    }
}
