//! Edge lists for calls that replay: mostly taken by the path rules, with faults.

use crate::budget::{Asked, Slots};
use crate::graph::Graph;
use crate::path::{MOST_EDGES, Path, replay};
use crate::random::Random;
use crate::search::direct;

/// A walk from a reference as far as the rules allow, repeating edges at times,
/// as a replay may; then perhaps a fault in it.
pub fn edge_list(random: &mut Random, graph: &Graph, reference: u32) -> Vec<u32> {
    let mut edges = walk(random, graph, reference);
    match random.below(14) {
        0 => edges.push(number(random, graph)),
        1 if !edges.is_empty() => {
            let at = random.below(edges.len());
            edges[at] = number(random, graph);
        }
        2 => edges.truncate(random.below(edges.len() + 1)),
        3 => edges.insert(random.below(edges.len() + 1), number(random, graph)),
        4..8 => refuse(random, graph, reference, &mut edges),
        _ => {}
    }
    edges
}

/// A path that direct search finds, or the first edges of one; none where there is
/// no path within a few expansions.
pub fn found(random: &mut Random, graph: &Graph, reference: u32) -> Vec<u32> {
    let asked = Asked {
        depth_first: random.percent(50),
        length: None,
        count: Some(200),
        complete: Some(8),
    };
    let Ok(found) = direct(graph, reference, asked, Slots::ENDLESS) else {
        return vec![];
    };
    if found.recorded.is_empty() {
        return vec![];
    }
    let mut edges = random.one_of(&found.recorded).edges.clone();
    if random.percent(50) {
        edges.truncate(random.below(edges.len() + 1));
    }
    edges
}

/// Goes on by an edge of the right source that the path rules refuse, where
/// there is one on the way.
fn refuse(random: &mut Random, graph: &Graph, reference: u32, edges: &mut Vec<u32>) {
    let mut refused = Vec::new();
    for length in 0..=edges.len() {
        let Ok(path) = replay(graph, reference, &edges[..length]) else {
            break;
        };
        let tried = graph.outgoing(path.end).map(|(edge, _)| edge);
        refused.extend(
            tried
                .filter(|&edge| path.append(graph, edge).is_err())
                .map(|e| (length, e)),
        );
    }
    if !refused.is_empty() {
        let (length, edge) = *random.one_of(&refused);
        edges.truncate(length);
        edges.push(edge);
    }
}

/// Any edge number, also behind the last one.
fn number(random: &mut Random, graph: &Graph) -> u32 {
    crate::requests::number_about(random, graph.edges.len())
}

fn walk(random: &mut Random, graph: &Graph, reference: u32) -> Vec<u32> {
    let about = [-1, 0, 1, 2, 13, 40].map(|more| MOST_EDGES.saturating_add_signed(more));
    let most = *random.one_of(&[&[2, 4, 8, 8], &about[..]].concat());
    let Ok(mut path) = Path::from_reference(graph, reference) else {
        return vec![];
    };
    while path.edges.len() < most {
        let appended: Vec<Path> = graph
            .outgoing(path.end)
            .filter_map(|(edge, _)| path.append(graph, edge).ok())
            .collect();
        if appended.is_empty() || path.edges.len() < 20 && random.percent(3) {
            break;
        }
        path = random.one_of(&appended).clone();
    }
    path.edges
}

/// A second list that shares its first edges with the list, so that precedences
/// are met at a fork.
pub fn forked(random: &mut Random, graph: &Graph, reference: u32, edges: &[u32]) -> Vec<u32> {
    let mut other = walk(random, graph, reference);
    for _ in 0..6 {
        if shared(&other, edges) > 0 || random.percent(20) {
            break;
        }
        other = walk(random, graph, reference);
    }
    other
}

fn shared(left: &[u32], right: &[u32]) -> usize {
    left.iter()
        .zip(right)
        .take_while(|(one, two)| one == two)
        .count()
}
