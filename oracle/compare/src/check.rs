//! The check of an image, written a second time from documents 01 and 02: the Rust
//! has none.
//!
//! "The image is checked first: size and length as 2, then 1, 3, the records in
//! order (cut, kind and where it may stand, count, fields), bytes left over, and
//! last 5 in record order." "Size is checked against 65,536 before the version, and
//! a version 1 image over 63,499 bytes is then 2."

use crate::graph::{
    Edge, Graph, JUMP, MOST_FILES, MOST_GRAPH_EDGES, MOST_NODES, Node, ROOT, Version,
};

/// A refusal: its number, then the values that it carries.
pub type Refusal = Vec<u64>;

pub const FIRST_RECORD: usize = 11;

/// The graph of an accepted image of either version.
pub fn check(image: &[u8]) -> Result<Graph, Refusal> {
    check_version(image, &[Version::Narrow, Version::Wide])
}

/// The graph of an accepted image of one of these versions; another is 1.
pub fn check_version(image: &[u8], versions: &[Version]) -> Result<Graph, Refusal> {
    let version = version(image, versions)?;
    let (files, nodes, edges) = counts(image)?;
    let mut graph = Graph {
        version,
        files,
        nodes: Vec::new(),
        edges: Vec::new(),
    };
    let mut places = Vec::new();
    let mut at = FIRST_RECORD;
    for number in 0..nodes + edges {
        let record = uncut(image, at)?;
        if number < nodes {
            let read = node(record, version, number as u32, files);
            graph.nodes.push(read.map_err(|number| told(number, at))?);
        } else {
            graph.edges.push(edge(record, at)?);
        }
        places.push(at);
        at += 1 + record.len();
    }
    if at != image.len() {
        return Err(vec![2]);
    }
    check_named(&graph, &places)?;
    Ok(graph)
}

fn wide_number(bytes: &[u8]) -> u64 {
    bytes
        .iter()
        .fold(0, |value, &byte| value << 8 | u64::from(byte))
}

/// A number of at most four bytes.
fn number(bytes: &[u8]) -> u32 {
    wide_number(bytes) as u32
}

/// Size and length, the version, its own bound on the size.
fn version(image: &[u8], versions: &[Version]) -> Result<Version, Refusal> {
    if image.len() < FIRST_RECORD || image.len() > Version::Wide.longest() {
        return Err(vec![2]);
    }
    if number(&image[1..5]) as usize != image.len() - 5 {
        return Err(vec![2]);
    }
    let version = Version::of_byte(image[0])
        .filter(|version| versions.contains(version))
        .ok_or(vec![1])?;
    if image.len() > version.longest() {
        return Err(vec![2]);
    }
    Ok(version)
}

fn counts(image: &[u8]) -> Result<(usize, usize, usize), Refusal> {
    let count = |at: usize| number(&image[at..at + 2]) as usize;
    let (files, nodes, edges) = (count(5), count(7), count(9));
    if files > MOST_FILES || !(2..=MOST_NODES).contains(&nodes) || edges > MOST_GRAPH_EDGES {
        return Err(vec![3]);
    }
    Ok((files, nodes, edges))
}

/// The record at a place without its count byte, by its own count; 2 where it is cut.
fn uncut(image: &[u8], at: usize) -> Result<&[u8], Refusal> {
    let count = image.get(at).copied().map_or(0, usize::from);
    if count == 0 || at + count >= image.len() {
        return Err(vec![2]);
    }
    Ok(&image[at + 1..=at + count])
}

/// 4 is told with the record's place.
fn told(number: u64, at: usize) -> Refusal {
    match number {
        4 => vec![4, at as u64],
        _ => vec![number],
    }
}

/// Kind and where it may stand, count, fields; or the number of the refusal.
fn node(record: &[u8], version: Version, number: u32, files: usize) -> Result<Node, u64> {
    let stands = match record[0] {
        1 => number == ROOT,
        2 => number == JUMP,
        kind => kind <= 8 && number > JUMP,
    };
    if !stands {
        return Err(4);
    }
    // Document 01's counts; "counts in records rise by four for kinds 4 to 7".
    let counts = [1, 1, 1, 4, 8, 8, 10, 8, 3];
    let rises = version == Version::Wide && (4..=7).contains(&record[0]);
    if record.len() != counts[usize::from(record[0])] + 4 * usize::from(rises) {
        return Err(2);
    }
    fields(record, version, files).ok_or(4)
}

/// None for a bad file or flag. The record has the count of its kind.
fn fields(record: &[u8], version: Version, files: usize) -> Option<Node> {
    match record[0] {
        0 => return Some(Node::Removed),
        1 => return Some(Node::Root),
        2 => return Some(Node::Jump),
        _ => {}
    }
    let file = number(&record[1..3]);
    if file as usize >= files {
        return None;
    }
    if record[0] == 8 {
        return Some(Node::DropScopes { file });
    }
    let flag = match record[record.len() - 1] {
        0 => false,
        1 => true,
        _ => return None,
    };
    if record[0] == 3 {
        return Some(Node::Scope { file, flag });
    }
    let behind = 3 + version.symbol_bytes();
    let symbol = wide_number(&record[3..behind]);
    Some(match record[0] {
        4 => Node::Push { file, symbol, flag },
        5 => Node::Pop { file, symbol, flag },
        6 => Node::PushScoped {
            file,
            symbol,
            scope: number(&record[behind..behind + 2]),
            flag,
        },
        _ => Node::PopScoped { file, symbol, flag },
    })
}

fn edge(record: &[u8], at: usize) -> Result<Option<Edge>, Refusal> {
    if record[0] > 1 {
        return Err(vec![4, at as u64]);
    }
    if record.len() != [1, 9][usize::from(record[0])] {
        return Err(vec![2]);
    }
    if record[0] == 0 {
        return Ok(None);
    }
    Ok(Some(Edge {
        source: number(&record[1..3]),
        target: number(&record[3..5]),
        precedence: number(&record[5..9]) as i32,
    }))
}

/// 5: what nodes and edges name, node records first.
fn check_named(graph: &Graph, places: &[usize]) -> Result<(), Refusal> {
    for (node, &at) in graph.nodes.iter().zip(places) {
        if let Node::PushScoped { file, scope, .. } = *node
            && !graph.may_attach(file, scope)
        {
            return Err(vec![5, at as u64]);
        }
    }
    for (edge, &at) in graph.edges.iter().zip(&places[graph.nodes.len()..]) {
        if edge.is_some_and(|edge| !graph.may_join(edge.source, edge.target)) {
            return Err(vec![5, at as u64]);
        }
    }
    Ok(())
}
