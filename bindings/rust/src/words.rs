//! Decodes trees.

use crate::node::{AnchorType, BracketContents, Interval, Node, Quantifier, RightSide};

/// Returns the tree with this encoding, or `None` if it is not the encoding of a tree.
pub(crate) fn decode(words: &[u32]) -> Option<Node> {
    let mut reader = Reader { words };
    let node = reader.node()?;
    reader.words.is_empty().then_some(node)
}

/// The remaining words.
struct Reader<'a> {
    words: &'a [u32],
}

impl Reader<'_> {
    // Right sides of alternatives are decoded in a loop: there may be as many nested ones as alternatives.
    fn node(&mut self) -> Option<Node> {
        let mut lefts = Vec::new();
        let mut kind = self.word()?;
        while kind == 7 {
            lefts.push(self.node()?);
            kind = self.word()?;
        }
        let mut node = self.other(kind)?;
        while let Some(left) = lefts.pop() {
            node = Node::Alt(Box::new(left), RightSide::new(node));
        }
        Some(node)
    }

    fn other(&mut self, kind: u32) -> Option<Node> {
        Some(match kind {
            0 => Node::Empty,
            1 => Node::Goal,
            2 => Node::Char { c: self.word()? },
            3 => Node::ByteSequence(self.list(Self::byte)?),
            4 => Node::ByteSet(self.list(Self::byte)?),
            5 => Node::CharSet(self.list(Self::word)?),
            6 => Node::Cat(self.list(Self::node)?),
            8 => Node::MatchAny,
            9 => Node::MatchAnyExceptLineTerminator,
            10 => Node::Anchor {
                anchor_type: match self.word()? {
                    0 => AnchorType::StartOfLine,
                    1 => AnchorType::EndOfLine,
                    _ => return None,
                },
                multiline: self.truth()?,
            },
            11 => Node::WordBoundary {
                invert: self.truth()?,
                unicode_icase: self.truth()?,
            },
            12 => {
                let id = self.group()?;
                let name = match self.truth()? {
                    true => Some(String::from_utf8(self.list(Self::byte)?).ok()?),
                    false => None,
                };
                let contents = Box::new(self.node()?);
                Node::CaptureGroup { id, contents, name }
            }
            13 => Node::Bracket(BracketContents {
                invert: self.truth()?,
                cps: self.list(Self::interval)?,
            }),
            14 => Node::Loop {
                enclosed_groups: self.group()?..self.group()?,
                quant: self.quantifier()?,
                loopee: Box::new(self.node()?),
            },
            15 => Node::Loop1CharBody {
                quant: self.quantifier()?,
                loopee: Box::new(self.node()?),
            },
            16 => Node::LookaroundAssertion {
                negate: self.truth()?,
                backwards: self.truth()?,
                start_group: self.group()?,
                end_group: self.group()?,
                contents: Box::new(self.node()?),
            },
            17 => Node::BackRef {
                group: self.word()?,
                icase: self.truth()?,
            },
            18 => Node::StringSet {
                icase: self.truth()?,
                alternatives: self.list(|reader| Some(reader.list(Self::word)?.into()))?,
            },
            _ => return None,
        })
    }

    fn word(&mut self) -> Option<u32> {
        let (&word, rest) = self.words.split_first()?;
        self.words = rest;
        Some(word)
    }

    fn truth(&mut self) -> Option<bool> {
        match self.word()? {
            0 => Some(false),
            1 => Some(true),
            _ => None,
        }
    }

    fn byte(&mut self) -> Option<u8> {
        self.word()?.try_into().ok()
    }

    fn group(&mut self) -> Option<u16> {
        self.word()?.try_into().ok()
    }

    fn wide(&mut self) -> Option<usize> {
        let low = u64::from(self.word()?);
        let high = u64::from(self.word()?);
        usize::try_from(high << 32 | low).ok()
    }

    fn list<T>(&mut self, item: impl Fn(&mut Self) -> Option<T>) -> Option<Vec<T>> {
        let count = self.wide()?;
        let mut items = Vec::new();
        for _ in 0..count {
            items.push(item(self)?);
        }
        Some(items)
    }

    fn interval(&mut self) -> Option<Interval> {
        Some(Interval {
            first: self.word()?,
            last: self.word()?,
        })
    }

    fn quantifier(&mut self) -> Option<Quantifier> {
        let greedy = self.truth()?;
        let min = self.wide()?;
        let max = match self.truth()? {
            true => Some(self.wide()?),
            false => None,
        };
        Some(Quantifier { min, max, greedy })
    }
}
