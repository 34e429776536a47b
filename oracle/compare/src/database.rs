//! The database in words, written a second time from document 01, "Partial paths",
//! and document 02, orders 5 and 6. The Rust keeps its own in vectors that grow, without the
//! set of that order.

use crate::budget::Asked;
use crate::check::Refusal;
use crate::graph::Graph;
use crate::partials::{Computed, Owner, compute};
use crate::path::MOST_EDGES;

/// "Slots used, N, F; then slots": "file + 1 (0 means dead), start, end, edge count",
/// edges "with zeros behind the last"; "database slots 67" (document 02, order 6).
pub const USED: usize = 0;
pub const NODES: usize = 1;
pub const FILES: usize = 2;
pub const FIRST_SLOT: usize = 3;
pub const DATABASE_SLOT: usize = 67;
pub const OWNER: usize = 0;
pub const START: usize = 1;
pub const END: usize = 2;
pub const COUNT: usize = 3;
pub const EDGES: usize = 4;
pub const MOST_SLOTS: usize = 4_096;

/// "One further set, whose slots have 65,535 as their first word."
pub const ALIASES: u32 = 65_535;

#[derive(Clone, PartialEq, Eq, PartialOrd, Ord, Debug)]
pub struct PartialPath {
    /// The first word: file + 1, or that of the further set.
    pub owner: u32,
    pub start: u32,
    pub end: u32,
    pub edges: Vec<u32>,
}

impl PartialPath {
    /// The words of a slot.
    pub fn words(&self) -> Vec<u32> {
        let mut words = vec![self.owner, self.start, self.end, self.edges.len() as u32];
        words.extend(&self.edges);
        words.resize(DATABASE_SLOT, 0);
        words
    }
}

/// "The lesser of 4,096 and the whole slots lent."
pub fn capacity(words: &[u32]) -> usize {
    MOST_SLOTS.min(words.len().saturating_sub(FIRST_SLOT) / DATABASE_SLOT)
}

/// Where a slot begins.
pub fn place(number: usize) -> usize {
    FIRST_SLOT + DATABASE_SLOT * number
}

pub fn slot(words: &[u32], number: usize) -> &[u32] {
    &words[place(number)..place(number + 1)]
}

/// 35.
fn check_words(words: &[u32]) -> Result<(), Refusal> {
    if words.len() < FIRST_SLOT || words[USED] as usize > capacity(words) {
        return Err(vec![35]);
    }
    for number in 0..words[USED] as usize {
        let slot = slot(words, number);
        let counted = (1..=MOST_EDGES as u32).contains(&slot[COUNT]);
        // The owner is file + 1, so the file is inside F when the owner is at most F;
        // the further set "is accepted by 35", which tests its counts and starts alike.
        let is_known = slot[OWNER] <= words[FILES] || slot[OWNER] == ALIASES;
        let inside = is_known && slot[START] < words[NODES];
        if slot[OWNER] != 0 && !(counted && inside) {
            return Err(vec![35]);
        }
    }
    Ok(())
}

/// Whether the words do not meet 35.
pub fn is_sound(words: &[u32]) -> bool {
    check_words(words).is_ok()
}

/// 35, then 34.
pub fn check_database(graph: &Graph, words: &[u32]) -> Result<(), Refusal> {
    check_words(words)?;
    if graph.nodes.len() < words[NODES] as usize || graph.files < words[FILES] as usize {
        return Err(vec![34]);
    }
    Ok(())
}

/// Every used slot of words that passed the check; None for a dead one.
pub fn partial_paths(words: &[u32]) -> Vec<Option<PartialPath>> {
    let read = |number: usize| {
        let slot = slot(words, number);
        (slot[OWNER] != 0).then(|| PartialPath {
            owner: slot[OWNER],
            start: slot[START],
            end: slot[END],
            edges: slot[EDGES..EDGES + slot[COUNT] as usize].to_vec(),
        })
    };
    (0..words[USED] as usize).map(read).collect()
}

/// "A fresh database holds 0, N, F and zeros", "gives 35 only for under 3 words".
pub fn fresh(graph: &Graph, words: &mut [u32]) -> Result<(), Refusal> {
    if words.len() < FIRST_SLOT {
        return Err(vec![35]);
    }
    words.fill(0);
    words[NODES] = graph.nodes.len() as u32;
    words[FILES] = graph.files as u32;
    Ok(())
}

/// Whether a slot in use is one of the further set.
pub fn has_aliases(words: &[u32]) -> bool {
    let owner = |number: usize| words.get(place(number) + OWNER).copied();
    let used = words.first().map_or(0, |&used| used as usize);
    (0..used.min(capacity(words))).any(|number| owner(number) == Some(ALIASES))
}

/// "Replacing a file zeroes its slots, appends the new ones in order found and
/// stores the graph's N and F"; "33 follows a finished computation". The further set
/// "has its own replace call", which does the same with its slots.
pub fn replace(
    graph: &Graph,
    owner: Owner,
    asked: Asked,
    waiting: usize,
    words: &mut [u32],
) -> Result<Computed, Refusal> {
    check_database(graph, words)?;
    let computed = compute(graph, owner, asked, waiting)?;
    let used = words[USED] as usize;
    if used + computed.paths.len() > capacity(words) {
        return Err(vec![33]);
    }
    for number in 0..used {
        if words[place(number) + OWNER] == owner.word() {
            words[place(number)..place(number + 1)].fill(0);
        }
    }
    for (path, number) in computed.paths.iter().zip(used..) {
        words[place(number)..place(number + 1)].copy_from_slice(&path.words());
    }
    words[USED] = (used + computed.paths.len()) as u32;
    words[NODES] = graph.nodes.len() as u32;
    words[FILES] = graph.files as u32;
    Ok(computed)
}

/// Where the edges of a number stand and how many they are; an empty part, told
/// as 0 and 0, "if dead, beyond use or in words that meet 35".
pub fn lookup(words: &[u32], number: u32) -> (usize, usize) {
    let number = number as usize;
    if check_words(words).is_err() || number >= words[USED] as usize {
        return (0, 0);
    }
    let slot = slot(words, number);
    if slot[OWNER] == 0 {
        return (0, 0);
    }
    (place(number) + EDGES, slot[COUNT] as usize)
}
