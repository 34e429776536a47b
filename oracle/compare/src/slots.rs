//! Database words that no replacement makes: any slots, and malformed words.

use crate::conversion::FORMER_EDGES;
use crate::database::{
    ALIASES, COUNT, DATABASE_SLOT, EDGES, END, FILES, MOST_SLOTS, NODES, OWNER, PartialPath, START,
    USED, capacity, place,
};
use crate::graph::Graph;
use crate::path::MOST_EDGES;
use crate::random::Random;
use crate::requests::number_about;

const MOST: u32 = MOST_EDGES as u32;

/// Sound words with any slots for the graph: walks, wrong sources, unknown and
/// repeated edges, dead slots with rubbish, rubbish behind the slots in use.
pub fn any_words(random: &mut Random, graph: &Graph) -> Vec<u32> {
    let used = random.below(10);
    let length = place(used + random.below(4)) + random.below(DATABASE_SLOT);
    let mut words = random.rubbish(length);
    words[USED] = used as u32;
    words[NODES] = graph.nodes.len() as u32;
    words[FILES] = graph.files as u32;
    let aliases = chance_of_aliases(random);
    let mut from = graph.references();
    for number in 0..used {
        let slot = &mut words[place(number)..place(number + 1)];
        slot[OWNER] = 0;
        if random.percent(85) {
            let end = put(random, graph, &from, slot);
            from.extend(end);
            slot[OWNER] = owner(random, graph, aliases);
        }
    }
    words
}

/// One live slot but for its first word, mostly from one of these nodes, so that paths
/// get on; answers where it ends. The words behind its last edge stay as they are.
fn put(random: &mut Random, graph: &Graph, from: &[u32], slot: &mut [u32]) -> Option<u32> {
    let edges = edges(random, graph, from);
    let source = edges
        .first()
        .and_then(|&edge| graph.live_edge(edge))
        .map(|edge| edge.source);
    let start = match source {
        Some(source) if random.percent(85) => source,
        _ => random.below(graph.nodes.len()) as u32,
    };
    slot[START] = start;
    slot[END] = number_about(random, graph.nodes.len());
    slot[COUNT] = edges.len() as u32;
    slot[EDGES..EDGES + edges.len()].copy_from_slice(&edges);
    edges
        .last()
        .and_then(|&edge| graph.live_edge(edge))
        .map(|edge| edge.target)
}

/// Most databases lack the set of order 5, so that the given Rust has them too.
fn chance_of_aliases(random: &mut Random) -> usize {
    *random.one_of(&[0, 0, 40])
}

/// A file's first word, or with this chance that of the set that belongs to none; in a
/// graph without files always.
fn owner(random: &mut Random, graph: &Graph, aliases: usize) -> u32 {
    if graph.files == 0 || random.percent(aliases) {
        return ALIASES;
    }
    1 + random.below(graph.files) as u32
}

/// The first edge of a slot: mostly one that leaves one of these nodes.
fn first_edge(random: &mut Random, graph: &Graph, from: &[u32]) -> u32 {
    let leaving: Vec<u32> = from
        .iter()
        .flat_map(|&node| graph.outgoing(node))
        .map(|(edge, _)| edge)
        .collect();
    if leaving.is_empty() || random.percent(25) {
        return random.below(graph.edges.len().max(1)) as u32;
    }
    *random.one_of(&leaving)
}

/// 1 to 63 edges that follow one another, mostly.
fn edges(random: &mut Random, graph: &Graph, from: &[u32]) -> Vec<u32> {
    let bound = graph.edges.len();
    let short = [1, 1, 2, 3, 3, 5, 8];
    // Long rows in two or three pieces, about the bound together.
    let long = [21, 31, 32, 33, MOST_EDGES - 1, MOST_EDGES];
    let is_long = bound > 50 && random.percent(70);
    let most = *if is_long {
        random.one_of(&long)
    } else {
        random.one_of(&short)
    };
    let mut edges = vec![first_edge(random, graph, from)];
    while edges.len() < most {
        let end = edges
            .last()
            .and_then(|&edge| graph.live_edge(edge))
            .map(|edge| edge.target);
        let next: Vec<u32> = end
            .map(|end| graph.outgoing(end).map(|(edge, _)| edge).collect())
            .unwrap_or_default();
        if next.is_empty() {
            break;
        }
        edges.push(*random.one_of(&next));
    }
    if random.percent(15) {
        let at = random.below(edges.len());
        let any = random.below(bound + 2) as u32;
        edges[at] = *random.one_of(&[0, bound as u32, u32::MAX, any]);
    }
    edges
}

/// Changes words so that they meet 35, 34, or just not.
pub fn spoil(random: &mut Random, words: &mut Vec<u32>) {
    let kept = words.len();
    match random.below(9) {
        0 => words.truncate(random.below(6).min(kept)),
        1 => words[USED] = (capacity(words) + random.below(2)) as u32,
        2 => words[USED] = *random.one_of(&[u32::MAX, MOST_SLOTS as u32 + 1, 1 << 31]),
        3 => spoil_stored(random, words, NODES),
        4 => spoil_stored(random, words, FILES),
        5 => words.truncate(random.below(kept + 1)),
        place => spoil_slot(random, words, [OWNER, START, COUNT][place - 6]),
    }
}

/// N or F one more or less, nothing or nonsense.
fn spoil_stored(random: &mut Random, words: &mut [u32], at: usize) {
    let stored = words[at];
    let drawn = [0, stored.wrapping_sub(1), stored.wrapping_add(1), u32::MAX];
    words[at] = *random.one_of(&drawn);
}

fn spoil_slot(random: &mut Random, words: &mut [u32], field: usize) {
    let used = (words[USED] as usize).min(capacity(words));
    let bounds = [
        words[FILES],
        words[FILES].wrapping_add(1),
        words[NODES],
        words[NODES].wrapping_sub(1),
    ];
    let drawn = match field {
        OWNER => *random.one_of(&[
            bounds[0],
            bounds[1],
            u32::MAX,
            ALIASES,
            ALIASES + 1,
            ALIASES - 1,
        ]),
        START => *random.one_of(&[bounds[2], bounds[3], u32::MAX]),
        _ => *random.one_of(&[0, 1, MOST, MOST + 1, FORMER_EDGES as u32, u32::MAX]),
    };
    if used > 0 {
        words[place(random.below(used)) + field] = drawn;
    }
}

/// About 4,096 slots in use: the capacity is the lesser of that and the whole
/// slots lent. Most are dead, the last ones are walks.
pub fn many_slots(random: &mut Random, graph: &Graph) -> Vec<u32> {
    let lent = MOST_SLOTS + random.below(3);
    let mut words = vec![0; place(lent) + random.below(DATABASE_SLOT)];
    words[USED] = (MOST_SLOTS + 1 - random.low(6)) as u32;
    words[NODES] = graph.nodes.len() as u32;
    words[FILES] = graph.files as u32;
    let aliases = chance_of_aliases(random);
    for number in MOST_SLOTS - 8..MOST_SLOTS {
        let edges = edges(random, graph, &graph.references());
        let start = graph.live_edge(edges[0]).map_or(0, |edge| edge.source);
        let path = PartialPath {
            owner: owner(random, graph, aliases),
            start,
            end: 0,
            edges,
        };
        words[place(number)..place(number + 1)].copy_from_slice(&path.words());
    }
    words
}
