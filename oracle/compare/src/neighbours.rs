//! Non-interference of document 02, order 8, in our own answers: "two accepted graphs,
//! with databases that 35 and 34 let pass, that have the same visible records under the
//! same numbers, and the same visible partial paths in the same relative order". The
//! second one is drawn anew wherever nothing is visible: N, M, F, removed and hidden
//! records, dead and hidden slots, slot numbers, ends, stored N and F, capacity.

use crate::case::{Case, Outcome};
use crate::check::check;
use crate::database::{
    ALIASES, COUNT, DATABASE_SLOT, EDGES, END, OWNER, PartialPath, START, check_database,
    partial_paths, slot,
};
use crate::desks::{seen, seen_paths, shows, shows_owner};
use crate::graph::{Edge, Graph, JUMP, MOST_FILES, MOST_GRAPH_EDGES, MOST_NODES, Node, ROOT};
use crate::ours;
use crate::path::MOST_EDGES;
use crate::random::Random;

/// Whether the call leaves the same on such a neighbour, with every word of both areas.
/// None for a call without a set, and where the image or the words are refused.
pub fn is_apart(case: &Case, ours: &Outcome) -> Option<bool> {
    let graph = case.call.takes_set().then(|| check(&case.image).ok())??;
    if case.call.is_stitched() {
        check_database(&graph, &case.words).ok()?;
    }
    let random = &mut Random::of_scene(u64::from(case.number), case.image.len() as u64);
    let least = Least::of(case, &graph);
    let other = other_graph(random, &graph, &case.visible, least);
    let mut beside = case.clone();
    beside.image = other.image();
    if beside.image.len() > other.version.longest() {
        return None;
    }
    if case.call.is_stitched() {
        beside.words = other_words(random, &other, case, least);
    }
    let left = ours::run(&beside);
    let alike = left.answer == ours.answer && left.work == ours.work && left.result == ours.result;
    Some(alike && left.words == beside.words)
}

/// The least N and F with which the visible records and slots are accepted.
#[derive(Clone, Copy)]
struct Least {
    nodes: usize,
    files: usize,
    /// Of the slots alone.
    stored: [usize; 2],
}

impl Least {
    fn of(case: &Case, graph: &Graph) -> Self {
        let slots = match case.call.is_stitched() {
            true => partial_paths(&case.words),
            false => vec![],
        };
        let mut stored = [0, 0];
        for path in seen_paths(slots, &case.visible).iter().flatten() {
            stored[0] = stored[0].max(path.start as usize + 1);
            if path.owner != ALIASES {
                stored[1] = stored[1].max(path.owner as usize);
            }
        }
        let seen = seen(graph, &case.visible);
        let last = seen.nodes.iter().rposition(|&node| node != Node::Removed);
        let file = seen.nodes.iter().filter_map(|node| node.file()).max();
        Self {
            nodes: stored[0].max(last.map_or(0, |last| last + 1)),
            files: stored[1].max(file.map_or(1, |file| file as usize + 1)),
            stored,
        }
    }
}

/// The same visible records among others.
fn other_graph(random: &mut Random, graph: &Graph, visible: &[u8], least: Least) -> Graph {
    let mut other = seen(graph, visible);
    other.files = random.within(least.files, MOST_FILES.min(graph.files + 3));
    let most = MOST_NODES.min(other.nodes.len() + 3);
    other
        .nodes
        .resize(random.within(least.nodes, most), Node::Removed);
    other.edges.extend(vec![None; random.below(4)]);
    other.edges.truncate(MOST_GRAPH_EDGES);
    while other.edges.last() == Some(&None) && random.percent(40) {
        other.edges.pop();
    }
    let is_hidden = |&file: &u32| !shows(visible, file);
    let hidden: Vec<u32> = (0..other.files as u32).filter(is_hidden).collect();
    for number in 0..other.nodes.len() {
        if other.nodes[number] == Node::Removed && !hidden.is_empty() && random.percent(75) {
            let file = *random.one_of(&hidden);
            other.nodes[number] = hidden_node(random, &other, file);
        }
    }
    for number in 0..other.edges.len() {
        if other.edges[number].is_none() {
            other.edges[number] = hidden_edge(random, &other, visible);
        }
    }
    other
}

fn hidden_node(random: &mut Random, graph: &Graph, file: u32) -> Node {
    let symbols = graph.symbols();
    let symbol = match symbols.is_empty() {
        true => random.below(9) as u64,
        false => *random.one_of(&symbols),
    };
    let flag = random.percent(70);
    let scopes = graph.nodes_where(|node| node.is_exported_scope() && node.file() == Some(file));
    match random.below(6) {
        0 => Node::Push { file, symbol, flag },
        1 => Node::Pop { file, symbol, flag },
        2 => Node::PopScoped { file, symbol, flag },
        3 => Node::DropScopes { file },
        4 if !scopes.is_empty() => Node::PushScoped {
            file,
            symbol,
            scope: *random.one_of(&scopes),
            flag,
        },
        _ => Node::Scope { file, flag },
    }
}

/// An edge of a hidden file, also from root and to root or jump; or none.
fn hidden_edge(random: &mut Random, graph: &Graph, visible: &[u8]) -> Option<Edge> {
    let is_hidden = |node: Node| node.file().is_some_and(|file| !shows(visible, file));
    let hidden = graph.nodes_where(is_hidden);
    if hidden.is_empty() || random.percent(20) {
        return None;
    }
    let one = *random.one_of(&hidden);
    let beside = *random.one_of(&hidden);
    let other = *random.one_of(&[ROOT, JUMP, beside, beside]);
    let (source, target) = match random.percent(50) && other != JUMP {
        true => (other, one),
        false => (one, other),
    };
    let precedence = random.below(3) as i32 - 1;
    graph.may_join(source, target).then_some(Edge {
        source,
        target,
        precedence,
    })
}

/// The same visible slots in their order, others between them.
fn other_words(random: &mut Random, other: &Graph, case: &Case, least: Least) -> Vec<u32> {
    let visible = &case.visible;
    let mut slots = Vec::new();
    let [nodes, files] = stored(random, other, least);
    for (path, number) in partial_paths(&case.words).iter().zip(0..) {
        while random.percent(30) {
            slots.push(unseen_slot(random, other, visible, [nodes, files]));
        }
        let is_shown = |path: &PartialPath| shows_owner(visible, path.owner);
        if path.as_ref().is_some_and(is_shown) {
            let mut kept = slot(&case.words, number).to_vec();
            kept[END] = random.word();
            let behind = EDGES + kept[COUNT] as usize;
            kept[behind..].fill(random.word());
            slots.push(kept);
        }
    }
    let mut words = vec![slots.len() as u32, nodes, files];
    words.extend(slots.concat());
    let behind = random.below(2 * DATABASE_SLOT);
    words.extend(random.rubbish(behind));
    words
}

/// Stored N and F: anything that the visible slots and the other graph admit.
fn stored(random: &mut Random, other: &Graph, least: Least) -> [u32; 2] {
    let most = [other.nodes.len(), other.files];
    [0, 1].map(|at| match random.percent(50) {
        true => most[at] as u32,
        false => random.within(least.stored[at], most[at]) as u32,
    })
}

/// A dead slot, or one of a hidden file, each with any words besides.
fn unseen_slot(random: &mut Random, other: &Graph, visible: &[u8], stored: [u32; 2]) -> Vec<u32> {
    let [nodes, files] = stored;
    let mut slot = random.rubbish(DATABASE_SLOT);
    let hidden: Vec<u32> = (1..=files).filter(|&f| !shows_owner(visible, f)).collect();
    slot[OWNER] = 0;
    if nodes == 0 || hidden.is_empty() || random.percent(25) {
        return slot;
    }
    slot[OWNER] = *random.one_of(&hidden);
    slot[START] = random.below(nodes as usize) as u32;
    slot[COUNT] = *random.one_of(&[1, 1, 2, 3, MOST_EDGES as u32]);
    for edge in &mut slot[EDGES..] {
        *edge = random.below(other.edges.len() + 1) as u32;
    }
    slot
}
