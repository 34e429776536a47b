//! A name for a definition, written a second time from document 02, order 1.
//! The path is picked by what "the first in breadth-first order" means, the
//! fewest edges and then the least list, and not by where a search puts it.

use crate::budget::{Asked, Budget, Slots};
use crate::check::Refusal;
use crate::graph::Graph;
use crate::path::Path;
use crate::search::direct;

/// What the searches found: the reference and its path, if one has a path to the
/// node; and what each reference that was searched needed.
pub struct Named {
    pub name: Option<(u32, Path)>,
    pub searched: Vec<Budget>,
}

/// "The node is live and not a definition, after 10."
fn definition(graph: &Graph, node: u32) -> Result<(), Refusal> {
    match graph.live_node(node) {
        None => Err(vec![10, node.into()]),
        Some(live) if !live.is_definition() => Err(vec![37, node.into()]),
        Some(_) => Ok(()),
    }
}

/// "References are searched ascending without count limits, each to its end, until
/// one has such a path; a search refused before that is the reply."
pub fn find_name(
    graph: &Graph,
    node: u32,
    length: Option<u64>,
    slots: Slots,
) -> Result<Named, Refusal> {
    definition(graph, node)?;
    let asked = Asked {
        depth_first: false,
        length,
        count: None,
        complete: None,
    };
    let mut searched = Vec::new();
    for reference in graph.references() {
        let found = direct(graph, reference, asked, slots)?;
        searched.push(found.budget);
        let reaching = found.recorded.into_iter().filter(|path| path.end == node);
        let first = reaching.min_by_key(|path| (path.edges.len(), path.edges.clone()));
        if let Some(path) = first {
            let name = Some((reference, path));
            return Ok(Named { name, searched });
        }
    }
    let name = None;
    Ok(Named { name, searched })
}
