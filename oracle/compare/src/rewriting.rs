//! The two rewritings of an image, written a second time from document 02, order 3:
//! the image is read as a graph, and the graph's bytes are written in the other
//! version.

use crate::check::{FIRST_RECORD, Refusal, check_version};
use crate::graph::{Graph, Version, node_bytes};

/// "An image already in the wanted version is 1 where the version is checked." Then
/// 38, "2 if its result would be too long for the version, then 32 if the lent area,
/// which counts as a result area, is too short".
pub fn rewritten(image: &[u8], wanted: Version, room: usize) -> Result<Vec<u8>, Refusal> {
    let given = check_version(image, &[wanted.other()])?;
    if let Some(place) = unfitting(&given, wanted) {
        return Err(vec![38, place as u64]);
    }
    let bytes = in_version(&given, wanted);
    if bytes.len() > wanted.longest() {
        return Err(vec![2]);
    }
    if bytes.len() > room {
        return Err(vec![32]);
    }
    Ok(bytes)
}

/// "The place of the first record whose symbol does not fit", in the given image.
fn unfitting(graph: &Graph, wanted: Version) -> Option<usize> {
    let mut at = FIRST_RECORD;
    for &node in &graph.nodes {
        if node.symbol().is_some_and(|symbol| !wanted.fits(symbol)) {
            return Some(at);
        }
        at += 1 + node_bytes(node, graph.version).len();
    }
    None
}

fn in_version(graph: &Graph, version: Version) -> Vec<u8> {
    let mut other = graph.clone();
    other.version = version;
    other.image()
}

/// The bytes in the other version, however long they are; none where a symbol does
/// not fit. Areas are drawn around them.
pub fn bytes_of_other(graph: &Graph) -> Option<Vec<u8>> {
    let wanted = graph.version.other();
    unfitting(graph, wanted)
        .is_none()
        .then(|| in_version(graph, wanted))
}
