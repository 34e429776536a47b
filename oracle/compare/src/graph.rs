//! A graph as an image describes it (document 01, "Graph image"), and its bytes in
//! either version (document 02, order 3).

pub const ROOT: u32 = 0;
pub const JUMP: u32 = 1;
pub const MOST_FILES: usize = 256;
pub const MOST_NODES: usize = 2_048;
pub const MOST_GRAPH_EDGES: usize = 4_096;

/// "Image version 2 stores symbols in eight bytes."
#[derive(Clone, Copy, PartialEq, Eq, Debug)]
pub enum Version {
    Narrow,
    Wide,
}

impl Version {
    /// The first byte of an image.
    pub fn byte(self) -> u8 {
        match self {
            Self::Narrow => 1,
            Self::Wide => 2,
        }
    }

    pub fn of_byte(byte: u8) -> Option<Self> {
        [Self::Narrow, Self::Wide]
            .into_iter()
            .find(|version| version.byte() == byte)
    }

    pub fn other(self) -> Self {
        match self {
            Self::Narrow => Self::Wide,
            Self::Wide => Self::Narrow,
        }
    }

    pub fn symbol_bytes(self) -> usize {
        match self {
            Self::Narrow => 4,
            Self::Wide => 8,
        }
    }

    /// How many bytes an image may have.
    pub fn longest(self) -> usize {
        match self {
            Self::Narrow => 63_499,
            Self::Wide => 65_536,
        }
    }

    pub fn fits(self, symbol: u64) -> bool {
        self == Self::Wide || symbol <= u64::from(u32::MAX)
    }
}

/// A node. The flag means exported on a scope, reference on a push, definition on a pop.
#[derive(Clone, Copy, PartialEq, Eq, Debug)]
pub enum Node {
    Removed,
    Root,
    Jump,
    Scope {
        file: u32,
        flag: bool,
    },
    Push {
        file: u32,
        symbol: u64,
        flag: bool,
    },
    Pop {
        file: u32,
        symbol: u64,
        flag: bool,
    },
    PushScoped {
        file: u32,
        symbol: u64,
        scope: u32,
        flag: bool,
    },
    PopScoped {
        file: u32,
        symbol: u64,
        flag: bool,
    },
    DropScopes {
        file: u32,
    },
}

impl Node {
    /// The file; removed nodes, root and jump lack one.
    pub fn file(self) -> Option<u32> {
        match self {
            Self::Removed | Self::Root | Self::Jump => None,
            Self::Scope { file, .. }
            | Self::Push { file, .. }
            | Self::Pop { file, .. }
            | Self::PushScoped { file, .. }
            | Self::PopScoped { file, .. }
            | Self::DropScopes { file } => Some(file),
        }
    }

    pub fn symbol(self) -> Option<u64> {
        match self {
            Self::Push { symbol, .. }
            | Self::Pop { symbol, .. }
            | Self::PushScoped { symbol, .. }
            | Self::PopScoped { symbol, .. } => Some(symbol),
            _ => None,
        }
    }

    pub fn symbol_mut(&mut self) -> Option<&mut u64> {
        match self {
            Self::Push { symbol, .. }
            | Self::Pop { symbol, .. }
            | Self::PushScoped { symbol, .. }
            | Self::PopScoped { symbol, .. } => Some(symbol),
            _ => None,
        }
    }

    pub fn is_reference(self) -> bool {
        matches!(
            self,
            Self::Push { flag: true, .. } | Self::PushScoped { flag: true, .. }
        )
    }

    pub fn is_definition(self) -> bool {
        matches!(
            self,
            Self::Pop { flag: true, .. } | Self::PopScoped { flag: true, .. }
        )
    }

    pub fn is_exported_scope(self) -> bool {
        matches!(self, Self::Scope { flag: true, .. })
    }
}

#[derive(Clone, Copy, PartialEq, Eq, Debug)]
pub struct Edge {
    pub source: u32,
    pub target: u32,
    pub precedence: i32,
}

/// Records are numbered from 0; a removed edge is None. The version is that of the
/// image; every symbol fits it.
#[derive(Clone, PartialEq, Eq, Debug)]
pub struct Graph {
    pub version: Version,
    pub files: usize,
    pub nodes: Vec<Node>,
    pub edges: Vec<Option<Edge>>,
}

impl Graph {
    /// The node, if the number is that of a live one.
    pub fn live_node(&self, number: u32) -> Option<Node> {
        self.nodes
            .get(number as usize)
            .copied()
            .filter(|&node| node != Node::Removed)
    }

    /// The edge, if the number is that of a live one.
    pub fn live_edge(&self, number: u32) -> Option<Edge> {
        self.edges.get(number as usize).copied().flatten()
    }

    /// The live edges of a node by ascending number.
    pub fn outgoing(&self, node: u32) -> impl Iterator<Item = (u32, Edge)> + '_ {
        let numbered = self.edges.iter().zip(0..);
        numbered.filter_map(move |(&edge, number)| {
            edge.filter(|edge| edge.source == node)
                .map(|edge| (number, edge))
        })
    }

    /// The numbers of the nodes of which something holds, ascending.
    pub fn nodes_where(&self, holds: impl Fn(Node) -> bool) -> Vec<u32> {
        let numbered = self.nodes.iter().zip(0..);
        numbered
            .filter(|&(&node, _)| holds(node))
            .map(|(_, number)| number)
            .collect()
    }

    pub fn references(&self) -> Vec<u32> {
        self.nodes_where(Node::is_reference)
    }

    /// Whether an edge may join these: both live, not from jump, not in two files.
    pub fn may_join(&self, source: u32, target: u32) -> bool {
        let (Some(from), Some(to)) = (self.live_node(source), self.live_node(target)) else {
            return false;
        };
        let in_two_files = matches!((from.file(), to.file()), (Some(one), Some(two)) if one != two);
        source != JUMP && !in_two_files
    }

    /// Whether a push-scoped node of this file may attach that node.
    pub fn may_attach(&self, file: u32, scope: u32) -> bool {
        let node = self.live_node(scope);
        node.is_some_and(|node| node.is_exported_scope() && node.file() == Some(file))
    }

    /// The symbols, each once, in the order of their nodes.
    pub fn symbols(&self) -> Vec<u64> {
        let mut symbols = Vec::new();
        for symbol in self.nodes.iter().filter_map(|node| node.symbol()) {
            if !symbols.contains(&symbol) {
                symbols.push(symbol);
            }
        }
        symbols
    }

    pub fn image(&self) -> Vec<u8> {
        let mut body = Vec::new();
        for count in [self.files, self.nodes.len(), self.edges.len()] {
            body.extend((count as u16).to_be_bytes());
        }
        for &node in &self.nodes {
            put_record(&mut body, &node_bytes(node, self.version));
        }
        for &edge in &self.edges {
            put_record(&mut body, &edge_bytes(edge));
        }
        with_head(self.version.byte(), &body)
    }
}

/// The version and the length before what follows them.
pub fn with_head(version: u8, body: &[u8]) -> Vec<u8> {
    let mut image = vec![version];
    image.extend((body.len() as u32).to_be_bytes());
    image.extend(body);
    image
}

fn put_record(body: &mut Vec<u8>, record: &[u8]) {
    body.push(record.len() as u8);
    body.extend(record);
}

fn fields(
    kind: u8,
    file: u32,
    symbol: Option<&[u8]>,
    scope: Option<u32>,
    flag: Option<bool>,
) -> Vec<u8> {
    let mut bytes = vec![kind];
    bytes.extend((file as u16).to_be_bytes());
    bytes.extend(symbol.into_iter().flatten());
    bytes.extend(
        scope
            .into_iter()
            .flat_map(|scope| (scope as u16).to_be_bytes()),
    );
    bytes.extend(flag.map(u8::from));
    bytes
}

/// The record of a node without its count byte.
pub fn node_bytes(node: Node, version: Version) -> Vec<u8> {
    let wide = node.symbol().unwrap_or(0).to_be_bytes();
    // The last bytes of a big-endian number.
    let symbol = Some(&wide[wide.len() - version.symbol_bytes()..]);
    match node {
        Node::Removed => vec![0],
        Node::Root => vec![1],
        Node::Jump => vec![2],
        Node::Scope { file, flag } => fields(3, file, None, None, Some(flag)),
        Node::Push { file, flag, .. } => fields(4, file, symbol, None, Some(flag)),
        Node::Pop { file, flag, .. } => fields(5, file, symbol, None, Some(flag)),
        Node::PushScoped {
            file, scope, flag, ..
        } => fields(6, file, symbol, Some(scope), Some(flag)),
        Node::PopScoped { file, flag, .. } => fields(7, file, symbol, None, Some(flag)),
        Node::DropScopes { file } => fields(8, file, None, None, None),
    }
}

fn edge_bytes(edge: Option<Edge>) -> Vec<u8> {
    let Some(edge) = edge else {
        return vec![0];
    };
    let mut bytes = vec![1];
    bytes.extend((edge.source as u16).to_be_bytes());
    bytes.extend((edge.target as u16).to_be_bytes());
    bytes.extend(edge.precedence.to_be_bytes());
    bytes
}
