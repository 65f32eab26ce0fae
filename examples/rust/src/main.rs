//! Lists the named groups of a pattern: group_names PATTERN.

use regress_front::{parse, Fault, Flags, Node, Table};
use std::process::ExitCode;

fn main() -> ExitCode {
    let pattern = std::env::args().nth(1).unwrap_or_default();
    let code_points: Vec<u32> = pattern.chars().map(u32::from).collect();
    match parse(&code_points, Flags::default(), Table::Whole) {
        Ok(tree) => {
            let mut names = Vec::new();
            list_names(&tree, &mut names);
            println!("{}", names.join(" "));
            ExitCode::SUCCESS
        }
        Err(Fault::Syntax { text, position, .. }) => {
            eprintln!("{text}, at code point {position}");
            ExitCode::FAILURE
        }
        Err(fault) => {
            eprintln!("{fault}");
            ExitCode::FAILURE
        }
    }
}

fn list_names<'a>(node: &'a Node, names: &mut Vec<&'a str>) {
    // A loop over the right sides of alternatives, because there may be many thousands of them.
    let mut node = node;
    while let Node::Alt(left, right) = node {
        list_names(left, names);
        node = right;
    }
    match node {
        Node::Cat(parts) => {
            for part in parts {
                list_names(part, names);
            }
        }
        Node::CaptureGroup { contents, name, .. } => {
            names.extend(name.as_deref());
            list_names(contents, names);
        }
        Node::Loop { loopee, .. } | Node::Loop1CharBody { loopee, .. } => list_names(loopee, names),
        Node::LookaroundAssertion { contents, .. } => list_names(contents, names),
        _ => {}
    }
}
