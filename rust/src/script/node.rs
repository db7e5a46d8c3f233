//! Nodes as the file has them: in preorder, each with its child count and body.

use super::kind::{self, Body};

/// A node's kind, child count and body.
#[derive(Clone, Copy, Debug, PartialEq, Eq)]
pub(crate) struct Node {
    pub(crate) kind: u8,
    pub(crate) count: usize,
    /// The body's bytes from the left; the rest is zero.
    pub(crate) body: [u8; 8],
}

impl Node {
    pub(crate) fn new(kind: u8, count: usize, body: &[u8]) -> Node {
        let mut bytes = [0; 8];
        for (to, from) in bytes.iter_mut().zip(body) {
            *to = *from;
        }
        Node { kind, count, body: bytes }
    }

    /// What its body holds; an unknown kind holds nothing.
    pub(crate) fn holds(&self) -> Body {
        kind::body(self.kind).unwrap_or(Body::Nothing)
    }

    /// The body's bytes.
    pub(crate) fn bytes(&self) -> &[u8] {
        self.body.get(..self.holds().size()).unwrap_or(&[])
    }

    /// The body's first byte: a text number, an operator, the Elif count.
    pub(crate) fn first(&self) -> u8 {
        self.body[0]
    }

    /// The body's second byte: a For's item name.
    pub(crate) fn second(&self) -> u8 {
        self.body[1]
    }

    /// A Num's pattern.
    pub(crate) fn binary64(&self) -> u64 {
        u64::from_be_bytes(self.body)
    }
}
