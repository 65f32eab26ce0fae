//! Compares trees and syntax errors over the small table with the expected ones in a file that REGRESS_FRONT_ANSWERS
//! names. Its lines:
//!
//!     FLAGS <TAB> hex code points <TAB> E <TAB> text of the syntax error
//!     FLAGS <TAB> hex code points <TAB> T <TAB> parsed tree <TAB> ignored <TAB> optimized tree
//!
//! In a tree each newline is the two characters `\n`. A file whose name ends in `.gz` is unpacked with gzip. An
//! optimized tree may differ from the file's; it is then compared with the output of the program that
//! REGRESS_FRONT_PROGRAM names.

use regress_front::{parse, parse_and_optimize, Fault, Flags, Node, Table};
use std::process::Command;
use std::{env, fs};

#[test]
fn results_are_those_of_the_file() {
    let Ok(path) = env::var("REGRESS_FRONT_ANSWERS") else {
        println!("SKIPPED: REGRESS_FRONT_ANSWERS is not set");
        return;
    };
    let text = read(&path);
    let (mut trees, mut faults, mut others) = (0, 0, 0);
    for (number, line) in text.lines().enumerate() {
        let place = format!("line {}", number + 1);
        let fields: Vec<&str> = line.split('\t').collect();
        let (flags, pattern) = (read_flags(fields[0]), read_points(fields[1]));
        let parsed = told(parse(&pattern, flags, Table::Small));
        assert_eq!(parsed, fields[3], "{place}");
        if fields[2] != "T" {
            faults += 1;
            continue;
        }
        let optimized = told(parse_and_optimize(&pattern, flags, Table::Small));
        if optimized == fields[5] {
            trees += 1;
        } else {
            others += 1;
            if let Ok(program) = env::var("REGRESS_FRONT_PROGRAM") {
                assert_eq!(
                    optimized,
                    by_program(&program, fields[0], &pattern),
                    "{place}"
                );
            }
        }
    }
    println!("{trees} patterns have both trees of the file, {faults} its syntax error");
    println!("{others} have its parsed tree and a different optimized one");
    assert!(trees > 0 && faults > 0 && others < trees / 100);
}

/// Returns the optimized tree that the program prints.
fn by_program(program: &str, flags: &str, pattern: &[u32]) -> String {
    let text: String = pattern
        .iter()
        .map(|point| char::from_u32(*point).expect("a character"))
        .collect();
    let mut words = vec![text];
    if !flags.is_empty() {
        words.push(flags.into());
    }
    let printed = Command::new(program)
        .args(words)
        .output()
        .expect("the program");
    let printed = String::from_utf8(printed.stdout).expect("UTF-8");
    let (_, optimized) = printed.split_once("--\n").expect("the line --");
    optimized.replace('\n', "\\n")
}

fn read(path: &str) -> String {
    let bytes = if path.ends_with(".gz") {
        let unpacked = Command::new("gzip")
            .args(["-dc", path])
            .output()
            .expect("gzip");
        assert!(unpacked.status.success(), "{path} cannot be unpacked");
        unpacked.stdout
    } else {
        fs::read(path).expect("the file of expected results")
    };
    String::from_utf8(bytes).expect("UTF-8")
}

fn read_flags(letters: &str) -> Flags {
    Flags {
        icase: letters.contains('i'),
        multiline: letters.contains('m'),
        dot_all: letters.contains('s'),
        unicode: letters.contains('u'),
        unicode_sets: letters.contains('v'),
    }
}

fn read_points(digits: &str) -> Vec<u32> {
    digits
        .split_whitespace()
        .map(|point| u32::from_str_radix(point, 16).expect("a code point"))
        .collect()
}

fn told(answer: Result<Node, Fault>) -> String {
    match answer {
        Ok(node) => node.to_string().replace('\n', "\\n"),
        Err(fault) => fault.to_string(),
    }
}
