//! Why a call is turned back: `docs/FORMAT.md`, "Refusals".

use crate::{EdgeId, FileId, NodeId};
use std::fmt;

/// Why a call was turned back, with the values that came with it.
///
/// The names and numbers are those of `docs/FORMAT.md` and of `c/pozhdaghi.h`. A refused
/// call leaves its work, result, list and rewriting areas zero and alters no database, so
/// that it can be made again once the cause is mended. What to do about each one is what
/// [`Display`](fmt::Display) ends with.
///
/// ```
/// use pozhdaghi::{sample, FileId, Image, Refusal};
/// let refused = Image::check(&sample::BOND[..100]).unwrap_err();
/// assert_eq!(refused, Refusal::Length);
/// assert_eq!(refused.number(), 2);
/// let unknown = Refusal::UnknownFile(FileId(9)).to_string();
/// assert!(unknown.starts_with("21 UnknownFile, file 9: the image has no file of this number"));
/// ```
#[derive(Clone, Copy, Debug, PartialEq, Eq, Hash)]
// Orders have added refusals: with a new one a caller's `match` still compiles.
#[non_exhaustive]
pub enum Refusal {
    /// 1: the version byte is neither 1 nor 2; to a rewrite also: the image is in the
    /// wanted version already.
    Version,
    /// 2: the image is cut, miscounted or too long, or would be when widened.
    Length,
    /// 3: the image has more files, nodes or edges than there may be, or under two nodes.
    Counts,
    /// 4: a record of the image has a wrong kind, flag or file.
    Record {
        /// The offset of the record in the image.
        place: u32,
    },
    /// 5: an edge or a scoped push of the image names a node that it may not.
    Reference {
        /// The offset of the record in the image.
        place: u32,
    },
    /// 10: no live, visible node has the number.
    UnknownNode(NodeId),
    /// 11: the node is no reference.
    NotReference(NodeId),
    /// 12: no live, visible edge has the number. At a stitched search: a partial path of
    /// the database has such an edge.
    UnknownEdge(EdgeId),
    /// 13: the edge does not go on from where the path ends.
    IncorrectSource {
        /// Where the path ends.
        expected: NodeId,
        /// Where the edge begins.
        actual: NodeId,
    },
    /// 14: the node pops a symbol, and there is none.
    EmptySymbolStack(NodeId),
    /// 15: the node pops another symbol than the top one.
    IncorrectPoppedSymbol(NodeId),
    /// 16: the node pops a symbol without scopes, and the top one has scopes.
    UnexpectedAttachedScopes(NodeId),
    /// 17: the node pops a symbol with scopes, and the top one has none.
    MissingAttachedScopes(NodeId),
    /// 18: a jump, and there is no scope to go to.
    EmptyScopeStack(NodeId),
    /// 19: the scope of a scoped push is unknown. No accepted image has it.
    UnknownAttachedScope(NodeId),
    /// 20: a linear search meets a second edge of the node that can be appended.
    MultipleEdges(NodeId),
    /// 21: the image has no file of the number.
    UnknownFile(FileId),
    /// 30: a path needs one edge more than [`MOST_EDGES`](crate::MOST_EDGES).
    TooLong,
    /// 31: a path is to wait, and all waiting slots are taken.
    NoWaitingSlot,
    /// 32: a complete path is to be kept, and all result slots are taken; or a rewrite is
    /// lent too few bytes, a compaction too short a list.
    NoResultSlot,
    /// 33: the database has no room for the new records.
    Full,
    /// 34: the image has fewer nodes or files than the database.
    Outgrown,
    /// 35: the words are no database.
    Malformed,
    /// 36: a search or a replacement makes more than 16,777,216 expansions.
    TooManyExpansions,
    /// 37: the node is no definition.
    NotDefinition(NodeId),
    /// 38: a symbol does not fit 32 bits, so that the image cannot be narrowed.
    WideSymbol {
        /// The offset of the record in the image.
        place: u32,
    },
    /// 39: a live path of a database of before has more than
    /// [`MOST_EDGES`](crate::MOST_EDGES) edges.
    TooLongToConvert,
    /// 40: a count above 16,777,216 is entered into a [`Window`](crate::Window).
    TooGreat,
    /// 41: the ISIN of a [`FlowKey`](crate::FlowKey) is none.
    MalformedIsin,
    /// 42: the rows of a directory do not ascend, or bytes are left over behind them.
    Disordered,
    /// 43: no row of a directory has the key.
    UnknownKey,
    /// A number, or values, that this package does not know: an archive of another version
    /// is linked.
    Unknown {
        /// The number.
        number: u64,
        /// What came with it.
        values: [u64; 2],
    },
}

const NO_PATH: &str = "the list is no path; take whole returned paths, in their order";

/// Number, name, and what a caller does about it, as c/refusals.c has them.
const TEXTS: [(u64, &str, &str); 31] = [
    (1, "Version", "write version 1 or 2; at a rewrite the image is in the wanted version already"),
    (2, "Length", "the image is cut, miscounted or too long: mend its writer or the transport; it cannot be widened if it has no room"),
    (3, "Counts", "split the graph: 256 files, 2,048 nodes, 4,096 edges at most"),
    (4, "Record", "a record has a wrong kind, flag or file: mend the writer at that offset"),
    (5, "Reference", "an edge or a scoped push names a node that it may not: mend the writer at that offset"),
    (10, "UnknownNode", "no live, visible node has this number: take it from the image that is lent"),
    (11, "NotReference", "search from references"),
    (12, "UnknownEdge", "no live, visible edge has this number; at a stitched search replace every file"),
    (13, "IncorrectSource", "the edge does not begin where the path ends; take whole returned paths, in their order"),
    (14, "EmptySymbolStack", NO_PATH),
    (15, "IncorrectPoppedSymbol", NO_PATH),
    (16, "UnexpectedAttachedScopes", NO_PATH),
    (17, "MissingAttachedScopes", NO_PATH),
    (18, "EmptyScopeStack", NO_PATH),
    (19, "UnknownAttachedScope", "no accepted image has it"),
    (20, "MultipleEdges", "the node has a second edge to go on: search directly"),
    (21, "UnknownFile", "the image has no file of this number: take it from the image that is lent"),
    (30, "TooLong", "a path needs a 64th edge: set a limit on length, or shorten the graph"),
    (31, "NoWaitingSlot", "lend more work slots and call again; the waiting figure says how many"),
    (32, "NoResultSlot", "lend more result slots, more bytes for a rewrite or a longer list, and call again"),
    (33, "Full", "compact and replace again; directly after a compaction, and at a conversion, lend more words"),
    (34, "Outgrown", "the image has fewer nodes or files than the database: make it fresh and replace every file"),
    (35, "Malformed", "the words are no database: lend the whole area, convert an old one, or make it fresh"),
    (36, "TooManyExpansions", "set limits, or look for the fan-out in the graph"),
    (37, "NotDefinition", "ask for the name of a definition"),
    (38, "WideSymbol", "a symbol does not fit 32 bits: stay with version 2"),
    (39, "TooLongToConvert", "a live path has over 63 edges: make the database fresh and replace every file"),
    (40, "TooGreat", "no search expands over 16,777,216 paths: enter the expanded count that a search told"),
    (41, "MalformedIsin", "an ISIN is two capitals, nine capitals or digits and its check digit: mend the key"),
    (42, "Disordered", "write rows of 18 bytes, each key above the one before, and nothing behind them"),
    (43, "UnknownKey", "no row has this ISIN, tranche and leg: refile the directory or mend the key"),
];

const UNKNOWN: (u64, &str, &str) = (0, "unknown", "no refusal has this number");

impl Refusal {
    /// The refusal of a number and the values behind it in an answer, as logs and callers
    /// in C keep them. Every number and value is taken: [`number`](Self::number) and
    /// [`values`](Self::values) give back what was given here.
    ///
    /// ```
    /// use pozhdaghi::{NodeId, Refusal};
    /// assert_eq!(Refusal::from_numbers(10, [7, 0]), Refusal::UnknownNode(NodeId(7)));
    /// let unknown = Refusal::from_numbers(99, [7, 0]);
    /// assert_eq!((unknown.number(), unknown.values()), (99, [7, 0]));
    /// ```
    #[must_use]
    pub fn from_numbers(number: u64, values: [u64; 2]) -> Self {
        let [first, second] = values.map(u32::try_from);
        let case = match (first, second) {
            (Ok(first), Ok(second)) => Self::case(number, first, second),
            _ => None,
        };
        case.filter(|refusal| refusal.values() == values)
            .unwrap_or(Self::Unknown { number, values })
    }

    fn case(number: u64, first: u32, second: u32) -> Option<Self> {
        let (node, place) = (NodeId(first), first);
        Some(match number {
            1 => Self::Version,
            2 => Self::Length,
            3 => Self::Counts,
            4 => Self::Record { place },
            5 => Self::Reference { place },
            10 => Self::UnknownNode(node),
            11 => Self::NotReference(node),
            12 => Self::UnknownEdge(EdgeId(first)),
            13 => Self::IncorrectSource {
                expected: node,
                actual: NodeId(second),
            },
            14 => Self::EmptySymbolStack(node),
            15 => Self::IncorrectPoppedSymbol(node),
            16 => Self::UnexpectedAttachedScopes(node),
            17 => Self::MissingAttachedScopes(node),
            18 => Self::EmptyScopeStack(node),
            19 => Self::UnknownAttachedScope(node),
            20 => Self::MultipleEdges(node),
            21 => Self::UnknownFile(FileId(first)),
            30 => Self::TooLong,
            31 => Self::NoWaitingSlot,
            32 => Self::NoResultSlot,
            33 => Self::Full,
            34 => Self::Outgrown,
            35 => Self::Malformed,
            36 => Self::TooManyExpansions,
            37 => Self::NotDefinition(node),
            38 => Self::WideSymbol { place },
            39 => Self::TooLongToConvert,
            40 => Self::TooGreat,
            41 => Self::MalformedIsin,
            42 => Self::Disordered,
            43 => Self::UnknownKey,
            _ => return None,
        })
    }

    /// The number, as `docs/FORMAT.md` has it.
    #[must_use]
    pub fn number(&self) -> u64 {
        match *self {
            Self::Version => 1,
            Self::Length => 2,
            Self::Counts => 3,
            Self::Record { .. } => 4,
            Self::Reference { .. } => 5,
            Self::UnknownNode(_) => 10,
            Self::NotReference(_) => 11,
            Self::UnknownEdge(_) => 12,
            Self::IncorrectSource { .. } => 13,
            Self::EmptySymbolStack(_) => 14,
            Self::IncorrectPoppedSymbol(_) => 15,
            Self::UnexpectedAttachedScopes(_) => 16,
            Self::MissingAttachedScopes(_) => 17,
            Self::EmptyScopeStack(_) => 18,
            Self::UnknownAttachedScope(_) => 19,
            Self::MultipleEdges(_) => 20,
            Self::UnknownFile(_) => 21,
            Self::TooLong => 30,
            Self::NoWaitingSlot => 31,
            Self::NoResultSlot => 32,
            Self::Full => 33,
            Self::Outgrown => 34,
            Self::Malformed => 35,
            Self::TooManyExpansions => 36,
            Self::NotDefinition(_) => 37,
            Self::WideSymbol { .. } => 38,
            Self::TooLongToConvert => 39,
            Self::TooGreat => 40,
            Self::MalformedIsin => 41,
            Self::Disordered => 42,
            Self::UnknownKey => 43,
            Self::Unknown { number, .. } => number,
        }
    }

    /// The values that came with it, 0 where it has fewer than two.
    #[must_use]
    pub fn values(&self) -> [u64; 2] {
        let (first, second) = match *self {
            Self::Record { place } | Self::Reference { place } | Self::WideSymbol { place } => {
                (place, 0)
            }
            Self::UnknownEdge(edge) => (edge.0, 0),
            Self::UnknownFile(file) => (file.0, 0),
            Self::IncorrectSource { expected, actual } => (expected.0, actual.0),
            Self::Unknown { values, .. } => return values,
            _ => (self.node().map_or(0, u32::from), 0),
        };
        [first, second].map(u64::from)
    }

    /// The node of a refusal that has one alone.
    fn node(&self) -> Option<NodeId> {
        match *self {
            Self::UnknownNode(node)
            | Self::NotReference(node)
            | Self::EmptySymbolStack(node)
            | Self::IncorrectPoppedSymbol(node)
            | Self::UnexpectedAttachedScopes(node)
            | Self::MissingAttachedScopes(node)
            | Self::EmptyScopeStack(node)
            | Self::UnknownAttachedScope(node)
            | Self::MultipleEdges(node)
            | Self::NotDefinition(node) => Some(node),
            _ => None,
        }
    }

    /// Its name, as `docs/FORMAT.md` and `pozhdaghi_refusal_name` of the package for C
    /// have it; "unknown" for a number that is none.
    #[must_use]
    pub fn name(&self) -> &'static str {
        self.text().1
    }

    /// What a caller does about it.
    #[must_use]
    pub fn advice(&self) -> &'static str {
        self.text().2
    }

    fn text(&self) -> (u64, &'static str, &'static str) {
        match self {
            Self::Unknown { .. } => UNKNOWN,
            _ => text_of(self.number()),
        }
    }
}

fn text_of(number: u64) -> (u64, &'static str, &'static str) {
    let known = TEXTS.iter().find(|text| text.0 == number);
    known.copied().unwrap_or(UNKNOWN)
}

/// Number, name and values; then what a caller does about it.
impl fmt::Display for Refusal {
    fn fmt(&self, to: &mut fmt::Formatter<'_>) -> fmt::Result {
        write!(to, "{} {}", self.number(), self.name())?;
        match *self {
            Self::Record { place } | Self::Reference { place } | Self::WideSymbol { place } => {
                write!(to, ", offset {place}")?;
            }
            Self::UnknownEdge(edge) => write!(to, ", edge {edge}")?,
            Self::UnknownFile(file) => write!(to, ", file {file}")?,
            Self::IncorrectSource { expected, actual } => {
                write!(to, ", path at node {expected}, edge from node {actual}")?;
            }
            Self::Unknown {
                values: [first, second],
                ..
            } => write!(to, ", {first} {second}")?,
            _ => self
                .node()
                .map_or(Ok(()), |node| write!(to, ", node {node}"))?,
        }
        write!(to, ": {}", self.advice())
    }
}

impl std::error::Error for Refusal {}
