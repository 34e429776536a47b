//! Loading an accepted image (document 01, "Graph image"; version 2 by document
//! 02, order 3) into the given `StackGraph` by ascending number. Bytes are not
//! checked here; what the builders and this loader assert only catches a mistake
//! of the sender.

use cfglib::graph::stack::{StackEdgeId, StackFileId, StackGraph, StackNodeId};

/// Wide enough for both versions.
pub type Symbol = u64;
pub type Graph = StackGraph<(), Symbol, (), ()>;

const IMAGE_HEAD: usize = 11;

/// In a record without its count byte: the file behind the kind, then the symbol.
const SYMBOL_AT: usize = 3;

/// Counts and records of an image, each record without its count byte.
struct Image<'a> {
    /// Bytes of a symbol.
    symbol_bytes: usize,
    file_count: usize,
    nodes: Vec<&'a [u8]>,
    edges: Vec<&'a [u8]>,
}

/// The graph that an accepted image describes.
pub fn load(bytes: &[u8]) -> Graph {
    let image = split(bytes);
    let mut graph = Graph::new();
    for _ in 0..image.file_count {
        graph.add_file(());
    }
    for (index, record) in image.nodes.iter().enumerate() {
        let added = add_node(&mut graph, record, image.symbol_bytes);
        assert_eq!(added.index(), index);
    }
    for record in &image.nodes {
        assert_scope_attachable(&graph, record, image.symbol_bytes);
    }
    for (index, record) in image.edges.iter().enumerate() {
        assert_eq!(add_edge(&mut graph, record).index(), index);
    }
    assert_eq!(graph.file_count(), image.file_count);
    assert_eq!(graph.node_bound(), image.nodes.len());
    assert_eq!(graph.edge_bound(), image.edges.len());
    graph
}

fn big_endian(bytes: &[u8]) -> u64 {
    bytes
        .iter()
        .fold(0, |value, &byte| value << 8 | u64::from(byte))
}

/// A number of at most four bytes.
fn short(bytes: &[u8]) -> u32 {
    u32::try_from(big_endian(bytes)).expect("at most four bytes")
}

fn symbol_bytes(version: u8) -> usize {
    match version {
        1 => 4,
        2 => 8,
        other => panic!("no image has version {other}"),
    }
}

fn split(bytes: &[u8]) -> Image<'_> {
    let count_at = |at: usize| big_endian(&bytes[at..at + 2]) as usize;
    let mut rest = &bytes[IMAGE_HEAD..];
    let mut take = |count: usize| -> Vec<&[u8]> {
        (0..count)
            .map(|_| {
                let (record, behind) = rest[1..].split_at(usize::from(rest[0]));
                rest = behind;
                record
            })
            .collect()
    };
    let image = Image {
        symbol_bytes: symbol_bytes(bytes[0]),
        file_count: count_at(5),
        nodes: take(count_at(7)),
        edges: take(count_at(9)),
    };
    assert!(rest.is_empty(), "bytes left over");
    image
}

fn node_id(bytes: &[u8]) -> StackNodeId {
    StackNodeId::from_raw(short(bytes))
}

fn file_id(record: &[u8]) -> StackFileId {
    StackFileId::from_raw(short(&record[1..SYMBOL_AT]))
}

/// The attached scope stands behind the symbol.
fn scope_id(record: &[u8], symbol_bytes: usize) -> StackNodeId {
    node_id(&record[SYMBOL_AT + symbol_bytes..][..2])
}

/// The flag of a record that has one is its last byte.
fn add_node(graph: &mut Graph, record: &[u8], symbol_bytes: usize) -> StackNodeId {
    let file = || file_id(record);
    let symbol = || big_endian(&record[SYMBOL_AT..][..symbol_bytes]);
    let flag = record[record.len() - 1] == 1;
    let added = match record[0] {
        0 => Ok(graph.door_add_removed_node()),
        1 => Ok(graph.root_node()),
        2 => Ok(graph.jump_to_scope_node()),
        3 => graph.add_scope_node(file(), flag, ()),
        4 => graph.add_push_symbol_node(file(), symbol(), flag, ()),
        5 => graph.add_pop_symbol_node(file(), symbol(), flag, ()),
        6 => graph.door_add_push_scoped_symbol_node(
            file(),
            symbol(),
            scope_id(record, symbol_bytes),
            flag,
            (),
        ),
        7 => graph.add_pop_scoped_symbol_node(file(), symbol(), flag, ()),
        8 => graph.add_drop_scopes_node(file(), ()),
        kind => panic!("no node has kind {kind}"),
    };
    added.expect("the image is accepted")
}

/// The check that the door leaves out, because a scope may follow its push.
fn assert_scope_attachable(graph: &Graph, record: &[u8], symbol_bytes: usize) {
    if record[0] != 6 {
        return;
    }
    let file = file_id(record);
    let scope = scope_id(record, symbol_bytes);
    assert!(
        graph.contains_node(scope)
            && graph.node(scope).kind().is_exported_scope()
            && graph.node(scope).file() == Some(file),
        "attached scope {scope} is no live exported scope of its file"
    );
}

/// A removed edge is added from root to root, which is always allowed, and
/// removed at once, so that later edges keep their numbers.
fn add_edge(graph: &mut Graph, record: &[u8]) -> StackEdgeId {
    let root = graph.root_node();
    if record[0] == 0 {
        let edge = graph
            .add_edge(root, root, 0, ())
            .expect("root lacks a file");
        assert!(graph.remove_edge(edge));
        return edge;
    }
    let precedence = short(&record[5..9]).cast_signed();
    graph
        .add_edge(
            node_id(&record[1..3]),
            node_id(&record[3..5]),
            precedence,
            (),
        )
        .expect("the image is accepted")
}
