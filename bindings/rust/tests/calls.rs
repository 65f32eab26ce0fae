//! Tests of the public functions.

use regress_front::{
    node_bound, parse, parse_and_optimize, parse_and_optimize_str, parse_str, parse_str_with_spans,
    parse_with_spans, Fault, FaultKind, Flags, Interval, Node, Table,
};

fn points(text: &str) -> Vec<u32> {
    text.chars().map(u32::from).collect()
}

#[test]
fn a_pattern_has_a_tree() {
    let tree = parse(&points("(?<a>x)"), Flags::default(), Table::Whole).unwrap();
    let Node::Cat(parts) = &tree else {
        panic!("{tree:?}")
    };
    let [Node::CaptureGroup {
        id: 0,
        contents,
        name,
    }, Node::Goal] = &parts[..]
    else {
        panic!("{tree:?}")
    };
    assert_eq!(**contents, Node::Char { c: 0x78 });
    assert_eq!(name.as_deref(), Some("a"));
}

#[test]
fn the_table_of_all_of_unicode_is_used() {
    let flags = Flags {
        unicode: true,
        ..Flags::default()
    };
    let hebrew = points("\\p{Script=Hebrew}");
    let tree = parse(&hebrew, flags, Table::Whole).unwrap();
    let Node::Cat(parts) = &tree else {
        panic!("{tree:?}")
    };
    let Node::Bracket(contents) = &parts[0] else {
        panic!("{tree:?}")
    };
    // Scripts.txt: U+0591 to U+05C7 come first.
    assert_eq!(
        contents.cps[0],
        Interval {
            first: 0x591,
            last: 0x5C7
        }
    );
    assert!(parse(&hebrew, flags, Table::Small).is_err());
}

#[test]
fn the_optimized_tree_differs() {
    let tree =
        parse_and_optimize(&points("(?:ab){2}|[c-d]"), Flags::default(), Table::Small).unwrap();
    assert_eq!(
        tree.to_string(),
        "Cat\n..Alt\n....ByteSeq4 0x61626162\n....ByteSet2 0x63 0x64\n..Goal\n"
    );
}

#[test]
fn a_syntax_error_has_a_kind_a_text_and_a_position() {
    let fault = parse(&points("ab)"), Flags::default(), Table::Whole).unwrap_err();
    let Fault::Syntax {
        kind,
        text,
        position,
        offset,
    } = fault
    else {
        panic!("{fault:?}")
    };
    assert_eq!(kind, FaultKind::UnbalancedParenthesis);
    assert_eq!(kind.name(), "UnbalancedParenthesis");
    assert_eq!(kind.number(), 1);
    assert_eq!(text, "Unbalanced parenthesis");
    assert_eq!((position, offset), (2, 2));
}

#[test]
fn the_position_of_a_syntax_error_is_also_a_byte_offset() {
    // In UTF-8 the characters before it have two, three and four bytes, and a surrogate counts three.
    for (pattern, position, offset) in [
        (points("é[z-a]"), 2, 3),
        (points("é€😀)"), 3, 9),
        (vec![0xD83D, 0x29], 1, 3),
        (points("é("), 1, 2),
    ] {
        let fault = parse(&pattern, Flags::default(), Table::Small).unwrap_err();
        let Fault::Syntax {
            position: p,
            offset: o,
            ..
        } = fault
        else {
            panic!("{fault:?}")
        };
        assert_eq!((p, o), (position, offset));
    }
}

#[test]
fn a_number_that_is_no_code_point_is_rejected() {
    assert_eq!(
        parse(&[0x110000], Flags::default(), Table::Whole),
        Err(Fault::NoCodePoint)
    );
}

#[test]
fn the_number_of_nodes_is_bounded() {
    let flags = Flags::default();
    let sets = Flags {
        unicode_sets: true,
        ..flags
    };
    // 3, one for each code point, and one more for the bar.
    assert_eq!(node_bound(&points("a|b"), flags), Ok(7));
    assert_eq!(node_bound(&points("[a]"), flags), Ok(6));
    assert_eq!(node_bound(&points("[a]"), sets), Ok(10));
    assert_eq!(node_bound(&[], flags), Ok(3));
    assert_eq!(node_bound(&[0x110000], flags), Err(Fault::NoCodePoint));
    let many = "(?<a>x)|".repeat(1000) + &"\\k<a>".repeat(1000);
    assert!(node_bound(&points(&many), flags).unwrap() > 2_000_000);
}

#[test]
fn the_empty_pattern_has_a_tree() {
    let tree = parse(&[], Flags::default(), Table::Whole).unwrap();
    assert_eq!(tree, Node::Cat(vec![Node::Empty, Node::Goal]));
}

#[test]
fn many_alternatives_take_no_stack() {
    let pattern = points(&"a|".repeat(100_000));
    let mut tree = &parse(&pattern, Flags::default(), Table::Small).unwrap();
    let Node::Cat(parts) = tree else {
        panic!("no Cat")
    };
    tree = &parts[0];
    let mut sides = 1;
    while let Node::Alt(_, right) = tree {
        tree = right;
        sides += 1;
    }
    assert_eq!(sides, 100_001);
}

#[test]
fn a_tree_of_many_alternatives_is_printed_compared_and_cloned() {
    let pattern = "a|".repeat(200_000);
    let tree = parse_str(&pattern, Flags::default(), Table::Small).unwrap();
    let Node::Cat(parts) = &tree else {
        panic!("no Cat")
    };
    assert_eq!(parts[0].alternatives().count(), 200_001);
    let copy = tree.clone();
    assert!(tree == copy);
    let other = parse_str(&pattern[1..], Flags::default(), Table::Small).unwrap();
    assert!(tree != other);
    assert!(format!("{tree:?}").starts_with("Cat([Alt(Char { c: 97 }, [Char { c: 97 }, "));
    assert_eq!(tree.to_string().lines().count(), 400_003);
}

#[test]
fn nodes_come_in_preorder_with_their_depth() {
    let tree = parse_str("a|(b)c|(?<!d{2})", Flags::default(), Table::Small).unwrap();
    let kinds: Vec<(usize, &str)> = tree
        .preorder()
        .map(|(depth, node)| {
            let kind = match node {
                Node::Cat(_) => "Cat",
                Node::Alt(..) => "Alt",
                Node::Char { c: 0x61 } => "a",
                Node::Char { c: 0x62 } => "b",
                Node::Char { c: 0x63 } => "c",
                Node::Char { c: 0x64 } => "d",
                Node::CaptureGroup { .. } => "group",
                Node::Loop { .. } => "loop",
                Node::LookaroundAssertion { .. } => "lookaround",
                Node::Goal => "Goal",
                _ => panic!("{node:?}"),
            };
            (depth, kind)
        })
        .collect();
    let alternatives = [
        (1, "Alt"),
        (2, "a"),
        (2, "Alt"),
        (3, "Cat"),
        (4, "group"),
        (5, "b"),
    ];
    let others = [
        (4, "c"),
        (3, "lookaround"),
        (4, "loop"),
        (5, "d"),
        (1, "Goal"),
    ];
    assert_eq!(kinds[0], (0, "Cat"));
    assert_eq!(kinds[1..7], alternatives);
    assert_eq!(kinds[7..], others);
    let children: Vec<&Node> = tree.children().collect();
    assert_eq!(children.len(), 2);
    assert_eq!(children[1], &Node::Goal);
}

/// The spans are by the rules that the documentation of `try_parse_with_spans` lists.
#[test]
fn each_node_has_a_span() {
    let spans = |pattern, flags| {
        let (tree, spans) = parse_str_with_spans(pattern, flags, Table::Small).unwrap();
        assert_eq!(tree.preorder().count(), spans.len());
        assert_eq!(Ok(tree), parse_str(pattern, flags, Table::Small));
        spans
    };
    let flags = Flags::default();
    // The whole pattern, the loop, the letter, and the end.
    assert_eq!(spans("a*", flags), [0..2, 0..2, 0..1, 2..2]);
    // The whole pattern, the alternatives, the group, its contents, the letter, the bracket; the other side, the end.
    assert_eq!(
        spans("(?<n>é[bc])|d", flags),
        [0..13, 0..13, 0..11, 5..10, 5..6, 6..10, 12..13, 13..13]
    );
    // In a lookbehind the order is reversed.
    assert_eq!(
        spans("(?<=ab)", flags),
        [0..7, 0..7, 4..6, 5..6, 4..5, 7..7]
    );
    let (_, points) = parse_with_spans(&points("a*"), flags, Table::Small).unwrap();
    assert_eq!(points, [0..2, 0..2, 0..1, 2..2]);
    let fault = parse_str_with_spans("é)", flags, Table::Small).unwrap_err();
    assert!(matches!(fault, Fault::Syntax { position: 1, .. }));
    assert_eq!(
        parse_with_spans(&[0x110000], flags, Table::Small),
        Err(Fault::NoCodePoint)
    );
    // More nodes than the first buffers have room for, and as many alternatives as no recursion would allow.
    let many = "a|".repeat(200_000);
    assert_eq!(spans(&many, flags).last(), Some(&(400_000..400_000)));
    let names = "(?<a>x)|".repeat(100) + &"\\k<a>".repeat(100);
    assert!(spans(&names, flags).len() > 10_000);
}

#[test]
fn many_alternatives_are_walked_without_recursion() {
    let pattern = "a|".repeat(200_000);
    let tree = parse_str(&pattern, Flags::default(), Table::Small).unwrap();
    assert_eq!(tree.preorder().count(), 400_003);
    let deepest = tree.preorder().map(|(depth, _)| depth).max();
    assert_eq!(deepest, Some(200_001));
}

#[test]
fn a_tree_can_be_taken_apart() {
    let tree = parse_str("a|b|c", Flags::default(), Table::Small).unwrap();
    let Node::Cat(mut parts) = tree else {
        panic!("no Cat")
    };
    let Node::Alt(left, right) = parts.swap_remove(0) else {
        panic!("no Alt")
    };
    assert_eq!(*left, Node::Char { c: 0x61 });
    let Node::Alt(left, right) = right.into_inner() else {
        panic!("no Alt")
    };
    assert_eq!(*left, Node::Char { c: 0x62 });
    assert_eq!(right.into_inner(), Node::Char { c: 0x63 });
}

#[test]
fn a_text_is_parsed_as_its_code_points() {
    let flags = Flags::default();
    let tree = parse_and_optimize_str("é|x", flags, Table::Small).unwrap();
    assert_eq!(
        Ok(tree),
        parse_and_optimize(&points("é|x"), flags, Table::Small)
    );
    let Err(Fault::Syntax {
        position, offset, ..
    }) = parse_str("é)", flags, Table::Small)
    else {
        panic!("no syntax error")
    };
    assert_eq!((position, offset), (1, 2));
}
