//! Document 02, order 8, written a second time: what a set of visible files leaves of a
//! graph and of a database. The sets are drawn here too.

use crate::budget::Slots;
use crate::case::{Call, Case};
use crate::check::{Refusal, check};
use crate::database::{ALIASES, PartialPath};
use crate::graph::{Edge, Graph, MOST_FILES, Node, ROOT};
use crate::random::Random;
use crate::search::direct;

/// Whether a set shows a file: its byte is there and is not 0.
pub fn shows(visible: &[u8], file: u32) -> bool {
    visible.get(file as usize).is_some_and(|&byte| byte != 0)
}

/// Root, jump and removed nodes are in no file.
fn shows_node(visible: &[u8], node: Node) -> bool {
    node.file().is_none_or(|file| shows(visible, file))
}

/// An edge belongs to the files of both its ends.
pub fn shows_edge(visible: &[u8], graph: &Graph, edge: Edge) -> bool {
    let shown = |end: u32| shows_node(visible, graph.nodes[end as usize]);
    shown(edge.source) && shown(edge.target)
}

/// The first word of a slot is its file + 1; the further set belongs to none.
pub fn shows_owner(visible: &[u8], owner: u32) -> bool {
    owner == ALIASES || shows(visible, owner - 1)
}

/// "Edges and partial paths belonging to hidden files are passed over", and a node in a
/// hidden file is 10: as if these were removed.
pub fn seen(graph: &Graph, visible: &[u8]) -> Graph {
    let shown_edge = |edge: &Edge| shows_edge(visible, graph, *edge);
    let shown_node = |&node: &Node| match shows_node(visible, node) {
        true => node,
        false => Node::Removed,
    };
    Graph {
        nodes: graph.nodes.iter().map(shown_node).collect(),
        edges: graph.edges.iter().map(|e| e.filter(shown_edge)).collect(),
        ..graph.clone()
    }
}

/// The graph that a search sees; the image is checked whole.
pub fn seen_by(case: &Case) -> Result<Graph, Refusal> {
    Ok(seen(&check(&case.image)?, &case.visible))
}

/// The partial paths without those of hidden files.
pub fn seen_paths(paths: Vec<Option<PartialPath>>, visible: &[u8]) -> Vec<Option<PartialPath>> {
    let shown = |path: &PartialPath| shows_owner(visible, path.owner);
    paths.into_iter().map(|path| path.filter(shown)).collect()
}

/// Whether the set hides a file of the graph.
pub fn hides_some(visible: &[u8], graph: &Graph) -> bool {
    (0..graph.files as u32).any(|file| !shows(visible, file))
}

/// Whether a direct search passes over an edge that the path rules would reject: it has
/// fewer rejections than where hidden edges are met and no edge leaves a hidden node.
/// False under a limit on the path count, which would be met elsewhere there.
pub fn spares_rejections(case: &Case) -> bool {
    let is_direct = matches!(case.call, Call::Direct | Call::DirectRecorded);
    let asked = case.meaning();
    let Some(graph) = check(&case.image).ok().filter(|_| is_direct) else {
        return false;
    };
    let rejected = |graph: &Graph| {
        let found = direct(graph, case.number, asked, Slots::ENDLESS);
        found.map_or(0, |found| found.budget.rejected)
    };
    let seen = seen(&graph, &case.visible);
    asked.count.is_none() && rejected(&seen) < rejected(&ending(&graph, &case.visible))
}

/// The graph whose hidden nodes have no outgoing edges.
fn ending(graph: &Graph, visible: &[u8]) -> Graph {
    let goes_on = |edge: &Edge| shows_node(visible, graph.nodes[edge.source as usize]);
    Graph {
        edges: graph.edges.iter().map(|e| e.filter(goes_on)).collect(),
        ..graph.clone()
    }
}

/// The node that is asked for, or an end of the edge.
fn asked_node(case: &Case, graph: &Graph) -> Option<u32> {
    if case.call != Call::Edge {
        return Some(case.number);
    }
    let edge = graph.edges.get(case.number as usize)?.as_ref()?;
    Some(edge.source.max(edge.target))
}

/// Bytes that show a file.
const YES: [u8; 4] = [1, 2, 128, 255];

/// All files, all but one that a search may meet at root, or some of them; then the set
/// may be shorter than the files, or longer, and the file of the node that is asked for
/// is mostly shown.
pub fn draw(random: &mut Random, case: &Case) -> Vec<u8> {
    if random.percent(25) {
        return vec![1; MOST_FILES];
    }
    let graph = check(&case.image).ok();
    let files = graph.as_ref().map_or(1, |graph| graph.files);
    let crossed = graph.as_ref().map_or(vec![], |graph| crossed(graph, case));
    if !crossed.is_empty() && random.percent(40) {
        return all_but(random, files, &crossed);
    }
    let length = match random.below(5) {
        0 => random.below(files + 1),
        1 => files + random.below(5),
        2 => MOST_FILES + random.below(3),
        _ => files,
    };
    let chance = *random.one_of(&[30, 60, 60, 85]);
    let mut byte = || match random.percent(chance) {
        true => *random.one_of(&YES),
        false => 0,
    };
    let mut visible: Vec<u8> = (0..length).map(|_| byte()).collect();
    let asked_for = graph.and_then(|graph| graph.live_node(asked_node(case, &graph)?)?.file());
    if let Some(place) = asked_for.and_then(|file| visible.get_mut(file as usize))
        && random.percent(85)
    {
        *place = *random.one_of(&YES);
    }
    visible
}

/// The files that root leads to, but for that of the node which is asked for. No edge
/// joins two files, so it is at root alone that a search meets edges of another one.
fn crossed(graph: &Graph, case: &Case) -> Vec<u32> {
    let own = graph.live_node(case.number).and_then(|node| node.file());
    let behind = |(_, edge): (u32, Edge)| graph.nodes[edge.target as usize].file();
    let files = graph.outgoing(ROOT).filter_map(behind);
    files.filter(|&file| Some(file) != own).collect()
}

/// Every file but one of these.
fn all_but(random: &mut Random, files: usize, these: &[u32]) -> Vec<u8> {
    let hidden = *random.one_of(these);
    let mut visible = vec![*random.one_of(&YES); files];
    visible[hidden as usize] = 0;
    visible
}
