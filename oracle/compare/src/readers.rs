//! What stands in a graph, read by number, written a second time: a node, an edge, the
//! references, the edges that leave a node. The graph is the one that a set of visible
//! files leaves, so that what is hidden is as unknown as what is removed.

use crate::check::Refusal;
use crate::graph::{Graph, Node, Version, node_bytes};

/// A list that does not fit.
const NO_ROOM: u64 = 32;

fn known(graph: &Graph, node: u32) -> Result<Node, Refusal> {
    graph.live_node(node).ok_or(vec![10, node.into()])
}

/// The kind as its record has it, then file, symbol, attached scope and flag, each 0 where
/// the kind has none.
pub fn node(graph: &Graph, number: u32) -> Result<Vec<u64>, Refusal> {
    let node = known(graph, number)?;
    let kind = node_bytes(node, Version::Wide)[0];
    let scope = match node {
        Node::PushScoped { scope, .. } => scope,
        _ => 0,
    };
    let has_flag = node.is_reference() || node.is_definition() || node.is_exported_scope();
    let file = node.file().unwrap_or(0);
    let symbol = node.symbol().unwrap_or(0);
    Ok(vec![
        kind.into(),
        file.into(),
        symbol,
        scope.into(),
        has_flag.into(),
    ])
}

/// Source, target, and the precedence as 32 bits in two's complement.
pub fn edge(graph: &Graph, number: u32) -> Result<Vec<u64>, Refusal> {
    let edge = graph.edges.get(number as usize).copied().flatten();
    let edge = edge.ok_or(vec![12, number.into()])?;
    let precedence = u32::from_be_bytes(edge.precedence.to_be_bytes());
    Ok([edge.source, edge.target, precedence]
        .map(u64::from)
        .to_vec())
}

/// By ascending number.
pub fn outgoing(graph: &Graph, node: u32) -> Result<Vec<u32>, Refusal> {
    known(graph, node)?;
    let leaves = |number: &u32| {
        let edge = graph.edges[*number as usize];
        edge.is_some_and(|edge| edge.source == node)
    };
    Ok((0..graph.edges.len() as u32).filter(leaves).collect())
}

/// A list for so many words.
pub fn fitting(numbers: Vec<u32>, words: usize) -> Result<Vec<u32>, Refusal> {
    match numbers.len() <= words {
        true => Ok(numbers),
        false => Err(vec![NO_ROOM]),
    }
}
