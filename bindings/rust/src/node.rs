//! Trees.

use std::fmt;
use std::iter;
use std::mem;
use std::ops::{Deref, DerefMut, Range};

/// A node of a pattern's tree. The crate's documentation has what an emitter has to know.
///
/// `Debug` writes the fields, `Display` the printed form of `docs/ir.md`, a line for each node.
#[derive(Clone, Debug, PartialEq, Eq)]
pub enum Node {
    /// Matches the empty text.
    Empty,
    /// Matches the empty text, at the end of the pattern: the match has succeeded.
    Goal,
    /// One character. A surrogate never matches.
    Char { c: u32 },
    /// These bytes in the order of the text, the whole UTF-8 of characters.
    ByteSequence(Vec<u8>),
    /// One character of a set of at most four ASCII bytes.
    ByteSet(Vec<u8>),
    /// One character of a set of at most four code points.
    CharSet(Vec<u32>),
    /// The parts in the order in which they are matched, which is reversed in a lookbehind.
    Cat(Vec<Node>),
    /// The outcomes of the left side, and then those of the right side.
    Alt(Box<Node>, RightSide),
    /// Any character.
    MatchAny,
    /// Any character but a line terminator.
    MatchAnyExceptLineTerminator,
    /// The start or the end of the text, or with `multiline` of a line.
    Anchor {
        anchor_type: AnchorType,
        multiline: bool,
    },
    /// A position with a word character on exactly one side or, with `invert`, one without.
    WordBoundary { invert: bool, unicode_icase: bool },
    /// A capture group. Ids begin at 0.
    CaptureGroup {
        id: u16,
        contents: Box<Node>,
        name: Option<String>,
    },
    /// One character that the bracket accepts.
    Bracket(BracketContents),
    /// A loop over the body. Each iteration begins with the groups inside, `enclosed_groups`, unset; one past the
    /// minimum that does not advance fails.
    Loop {
        enclosed_groups: Range<u16>,
        loopee: Box<Node>,
        quant: Quantifier,
    },
    /// A loop whose body matches exactly one character or fails, and has no group inside.
    Loop1CharBody {
        loopee: Box<Node>,
        quant: Quantifier,
    },
    /// A position from which the contents match or, with `negate`, do not: after it or, with `backwards`, before it.
    /// The groups inside have the ids from `start_group` up to but not including `end_group`.
    LookaroundAssertion {
        negate: bool,
        backwards: bool,
        start_group: u16,
        end_group: u16,
        contents: Box<Node>,
    },
    /// The text that a group has captured; the empty text if the group is unset. Groups are numbered from 1.
    BackRef { group: u32, icase: bool },
    /// One of these strings of characters, tried in this order.
    StringSet {
        alternatives: Vec<Box<[u32]>>,
        icase: bool,
    },
}

impl Node {
    /// Returns this node and the nodes inside it in preorder: a node comes before those inside it, and these come in
    /// the order of [`Node::children`]. Each has its depth below this node, which has the depth 0.
    ///
    /// The iterator does not recurse, so that there may be any number of alternatives.
    ///
    /// ```
    /// use regress_front::{parse_str, Flags, Node, Table};
    ///
    /// let tree = parse_str("a|(b)", Flags::default(), Table::Small)?;
    /// let groups = tree.preorder().filter(|(_, node)| matches!(node, Node::CaptureGroup { .. }));
    /// assert_eq!(groups.map(|(depth, _)| depth).collect::<Vec<_>>(), [2]);
    /// # Ok::<(), regress_front::Fault>(())
    /// ```
    pub fn preorder(&self) -> impl Iterator<Item = (usize, &Node)> {
        let mut remaining = vec![(0, self)];
        iter::from_fn(move || {
            let (depth, node) = remaining.pop()?;
            remaining.extend(node.children().rev().map(|child| (depth + 1, child)));
            Some((depth, node))
        })
    }

    /// Returns the nodes directly inside this one, in order: the parts of a [`Node::Cat`], both sides of an
    /// [`Node::Alt`], or the body of a group, a loop or a lookaround.
    pub fn children(&self) -> impl DoubleEndedIterator<Item = &Node> {
        let (parts, first, second): (&[Node], Option<&Node>, Option<&Node>) = match self {
            Node::Cat(parts) => (parts, None, None),
            Node::Alt(left, right) => (&[], Some(left), Some(right)),
            Node::CaptureGroup { contents: body, .. }
            | Node::Loop { loopee: body, .. }
            | Node::Loop1CharBody { loopee: body, .. }
            | Node::LookaroundAssertion { contents: body, .. } => (&[], Some(body), None),
            _ => (&[], None, None),
        };
        parts.iter().chain(first).chain(second)
    }

    /// Returns the alternatives of this node from left to right: those of an [`Node::Alt`] and of its right sides, or
    /// else the node itself.
    pub fn alternatives(&self) -> impl Iterator<Item = &Node> {
        let mut next = Some(self);
        iter::from_fn(move || match next? {
            Node::Alt(left, right) => {
                next = Some(right);
                Some(&**left)
            }
            last => {
                next = None;
                Some(last)
            }
        })
    }
}

/// The right side of a [`Node::Alt`], which it dereferences to.
///
/// There may be as many nested right sides as alternatives, so that what this type implements iterates over them.
pub struct RightSide(Box<Node>);

impl RightSide {
    /// Returns the right side that is this node.
    pub fn new(node: Node) -> RightSide {
        RightSide(Box::new(node))
    }

    /// Returns the node.
    pub fn into_inner(mut self) -> Node {
        mem::replace(&mut *self.0, Node::Empty)
    }
}

impl From<Node> for RightSide {
    fn from(node: Node) -> RightSide {
        RightSide::new(node)
    }
}

impl Deref for RightSide {
    type Target = Node;

    fn deref(&self) -> &Node {
        &self.0
    }
}

impl DerefMut for RightSide {
    fn deref_mut(&mut self) -> &mut Node {
        &mut self.0
    }
}

impl Drop for RightSide {
    fn drop(&mut self) {
        let mut next = mem::replace(&mut *self.0, Node::Empty);
        while let Node::Alt(_, right) = next {
            next = right.into_inner();
        }
    }
}

impl Clone for RightSide {
    fn clone(&self) -> RightSide {
        let mut lefts = Vec::new();
        let mut next: &Node = self;
        while let Node::Alt(left, right) = next {
            lefts.push(left.clone());
            next = right;
        }
        // The last one is no Alt, so that this call does not recurse.
        let mut node = next.clone();
        while let Some(left) = lefts.pop() {
            node = Node::Alt(left, RightSide::new(node));
        }
        RightSide::new(node)
    }
}

impl PartialEq for RightSide {
    fn eq(&self, other: &RightSide) -> bool {
        let (mut ours, mut theirs): (&Node, &Node) = (self, other);
        while let (Node::Alt(left, right), Node::Alt(other_left, other_right)) = (ours, theirs) {
            if left != other_left {
                return false;
            }
            (ours, theirs) = (right, other_right);
        }
        ours == theirs
    }
}

impl Eq for RightSide {}

/// Writes the list of the alternatives of the right side.
impl fmt::Debug for RightSide {
    fn fmt(&self, f: &mut fmt::Formatter<'_>) -> fmt::Result {
        f.debug_list().entries(self.alternatives()).finish()
    }
}

/// The start or the end of the text, or of a line.
#[derive(Clone, Copy, Debug, PartialEq, Eq)]
pub enum AnchorType {
    StartOfLine,
    EndOfLine,
}

/// The number of iterations of a loop, without a maximum if `max` is `None`.
#[derive(Clone, Copy, Debug, PartialEq, Eq)]
pub struct Quantifier {
    pub min: usize,
    pub max: Option<usize>,
    pub greedy: bool,
}

/// A set of code points or, with `invert`, its complement.
#[derive(Clone, Debug, PartialEq, Eq)]
pub struct BracketContents {
    pub invert: bool,
    /// Ascending intervals, at least one code point apart.
    pub cps: Vec<Interval>,
}

/// The code points from `first` to `last`, both inclusive.
#[derive(Clone, Copy, Debug, PartialEq, Eq)]
pub struct Interval {
    pub first: u32,
    pub last: u32,
}
