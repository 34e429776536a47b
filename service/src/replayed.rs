//! A replayed path, read back from the words that the library writes
//! (`docs/FORMAT.md`, "Path words").

use crate::{EdgeId, NodeId};

/// A step of a path.
#[derive(Clone, Copy, Debug, PartialEq, Eq)]
pub enum Step {
    /// Over an edge.
    Edge(EdgeId),
    /// From jump to this scope.
    Jump(NodeId),
}

/// A symbol of the symbol stack.
#[derive(Clone, Debug, PartialEq, Eq)]
pub struct Symbol {
    /// Its number: 32 bits in an image of version 1, 64 in one of version 2.
    pub symbol: u64,
    /// Its scopes, top first, if any are attached.
    pub scopes: Option<Vec<NodeId>>,
}

/// A path as [`Image::replay`](crate::Image::replay) tells it.
#[derive(Clone, Debug, PartialEq, Eq)]
pub struct Replayed {
    /// Where it ends.
    pub end: NodeId,
    /// Its steps in order.
    pub steps: Vec<Step>,
    /// The symbol stack, top first.
    pub symbols: Vec<Symbol>,
    /// The scope stack, top first.
    pub scopes: Vec<NodeId>,
}

/// In front of a jump, and of a symbol with scopes; 1 is in front of all else.
const OTHER: u32 = 2;

/// The words from a place on; behind the last they count as 0, which ends a
/// list.
struct Words<'a>(&'a [u32]);

impl Words<'_> {
    fn next(&mut self) -> u32 {
        let Some((&first, rest)) = self.0.split_first() else {
            return 0;
        };
        self.0 = rest;
        first
    }

    /// What the next item is, and its number; none at the end of a list.
    fn item(&mut self) -> Option<(u32, u32)> {
        match self.next() {
            0 => None,
            kind => Some((kind, self.next())),
        }
    }

    fn step(&mut self) -> Option<Step> {
        let (kind, number) = self.item()?;
        Some(match kind {
            OTHER => Step::Jump(NodeId(number)),
            _ => Step::Edge(EdgeId(number)),
        })
    }

    /// The number of a symbol has a second word, the low one.
    fn symbol(&mut self) -> Option<Symbol> {
        let (kind, high) = self.item()?;
        let symbol = u64::from(high) << u32::BITS | u64::from(self.next());
        let scopes = (kind == OTHER).then(|| self.scopes());
        Some(Symbol { symbol, scopes })
    }

    fn scopes(&mut self) -> Vec<NodeId> {
        std::iter::from_fn(|| self.item().map(|(_, scope)| NodeId(scope))).collect()
    }
}

pub(crate) fn read(words: &[u32]) -> Replayed {
    let mut words = Words(words);
    Replayed {
        end: NodeId(words.next()),
        steps: std::iter::from_fn(|| words.step()).collect(),
        symbols: std::iter::from_fn(|| words.symbol()).collect(),
        scopes: words.scopes(),
    }
}
