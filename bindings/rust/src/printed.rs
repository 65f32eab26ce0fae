//! Trees in the printed form of the program `regex-front`, which docs/ir.md specifies.

use crate::node::{AnchorType, Interval, Node, Quantifier};
use std::fmt::{self, Write};

/// Writes the printed form of docs/ir.md, a line for each node.
impl fmt::Display for Node {
    fn fmt(&self, f: &mut fmt::Formatter<'_>) -> fmt::Result {
        for (depth, node) in self.preorder() {
            for _ in 0..depth.min(120) {
                f.write_str("..")?;
            }
            if depth > 120 {
                write!(f, "(+{}).. ", depth - 120)?;
            }
            f.write_str(&line(node))?;
            f.write_char('\n')?;
        }
        Ok(())
    }
}

fn line(node: &Node) -> String {
    match node {
        Node::Empty => "Empty".into(),
        Node::Goal => "Goal".into(),
        Node::Char { c } => format!("'{c}'"),
        Node::ByteSequence(bytes) => {
            let digits: String = bytes.iter().map(|b| format!("{b:x}")).collect();
            format!("ByteSeq{} 0x{digits}", bytes.len())
        }
        Node::ByteSet(bytes) => {
            let members: String = bytes.iter().map(|b| format!(" 0x{b:x}")).collect();
            format!("ByteSet{}{members}", bytes.len())
        }
        Node::CharSet(characters) => {
            let members: Vec<String> = characters.iter().map(|c| format!("0x{c:x}")).collect();
            format!("CharSet {}", members.join(", "))
        }
        Node::Cat(_) => "Cat".into(),
        Node::Alt(..) => "Alt".into(),
        Node::MatchAny => "MatchAny".into(),
        Node::MatchAnyExceptLineTerminator => "MatchAnyExceptLineTerminator".into(),
        Node::Anchor {
            anchor_type,
            multiline,
        } => {
            let end = match anchor_type {
                AnchorType::StartOfLine => "StartOfLine",
                AnchorType::EndOfLine => "EndOfLine",
            };
            format!("Anchor {end} multiline={multiline}")
        }
        Node::WordBoundary { invert: false, .. } => "WordBoundary \"\\\\b\" ".into(),
        Node::WordBoundary { invert: true, .. } => "WordBoundary \"\\\\B\" ".into(),
        Node::CaptureGroup { id, name: None, .. } => format!("CaptureGroup {id}"),
        Node::CaptureGroup {
            id,
            name: Some(name),
            ..
        } => format!("CaptureGroup {id} \"{name}\""),
        Node::Bracket(contents) => {
            let intervals: Vec<String> = contents.cps.iter().map(interval).collect();
            let invert = contents.invert;
            format!(
                "Bracket BracketContents {{ invert: {invert}, cps: CodePointSet {{ ivs: [{}] }} }}",
                intervals.join(", ")
            )
        }
        Node::Loop {
            enclosed_groups,
            quant,
            ..
        } => {
            let (start, end) = (enclosed_groups.start, enclosed_groups.end);
            format!("Loop (groups {start}..{end}) {}", quantifier(quant))
        }
        Node::Loop1CharBody { quant, .. } => format!("Loop1Char {}", quantifier(quant)),
        Node::LookaroundAssertion {
            negate,
            backwards,
            start_group,
            end_group,
            ..
        } => {
            let sign = if *negate { "negative" } else { "positive" };
            let direction = if *backwards { "backwards" } else { "forwards" };
            format!("LookaroundAssertion {sign} {direction} {start_group} {end_group}")
        }
        Node::BackRef { group, .. } => format!("BackRef {group} "),
        Node::StringSet {
            alternatives,
            icase,
        } => {
            format!("StringSet count={}, icase={icase}", alternatives.len())
        }
    }
}

fn interval(interval: &Interval) -> String {
    format!("U+{:04X}-U+{:04X}", interval.first, interval.last)
}

fn quantifier(quantifier: &Quantifier) -> String {
    let Quantifier { min, max, greedy } = quantifier;
    format!("Quantifier {{ min: {min}, max: {max:?}, greedy: {greedy} }}")
}
