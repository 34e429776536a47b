//! The converter of an old database, written a second time from document 02, order 6:
//! the old area is read as partial paths, and these are put into slots of the present
//! size.

use crate::check::Refusal;
use crate::database::{
    ALIASES, COUNT, DATABASE_SLOT, EDGES, END, FILES, FIRST_SLOT, MOST_SLOTS, NODES, OWNER,
    PartialPath, START, USED,
};
use crate::path::MOST_EDGES;

/// What stood where 63 and 67 are now.
pub const FORMER_EDGES: usize = 127;
pub const FORMER_SLOT: usize = 131;

/// Where a slot of an old area begins.
pub fn former_place(number: usize) -> usize {
    FIRST_SLOT + FORMER_SLOT * number
}

/// "It gives 35 for an old area bad under the old bound and 33 if the new one has too few
/// slots or under 3 words. (39, with nothing, after 35 and 33: the converter met a live
/// path of more than 63 edges.)" Else the words of the new area up to the last slot
/// in use: "every live path and every number survives, with the three leading words;
/// dead slots and words behind a last edge are written as zeros".
pub fn convert(old: &[u32], room: usize) -> Result<Vec<u32>, Refusal> {
    let paths = former_paths(old).ok_or(vec![35])?;
    if room < FIRST_SLOT || paths.len() > whole_slots(room, DATABASE_SLOT) {
        return Err(vec![33]);
    }
    if paths
        .iter()
        .flatten()
        .any(|path| path.edges.len() > MOST_EDGES)
    {
        return Err(vec![39]);
    }
    let mut new = vec![old[USED], old[NODES], old[FILES]];
    for path in paths {
        new.extend(path.map_or(vec![0; DATABASE_SLOT], |path| path.words()));
    }
    Ok(new)
}

/// "The lesser of 4,096 and the whole slots lent."
fn whole_slots(length: usize, slot: usize) -> usize {
    MOST_SLOTS.min(length.saturating_sub(FIRST_SLOT) / slot)
}

/// Every used slot of an old area, None for a dead one; nothing where it is 35.
fn former_paths(old: &[u32]) -> Option<Vec<Option<PartialPath>>> {
    if old.len() < FIRST_SLOT || old[USED] as usize > whole_slots(old.len(), FORMER_SLOT) {
        return None;
    }
    let slot = |number: usize| &old[former_place(number)..former_place(number + 1)];
    (0..old[USED] as usize)
        .map(|number| former_path(slot(number), old[NODES], old[FILES]))
        .collect()
}

/// What one slot holds; nothing where it is no slot.
fn former_path(slot: &[u32], nodes: u32, files: u32) -> Option<Option<PartialPath>> {
    let (owner, start, count) = (slot[OWNER], slot[START], slot[COUNT] as usize);
    if owner == 0 {
        return Some(None);
    }
    let is_known = owner <= files || owner == ALIASES;
    if !is_known || start >= nodes || !(1..=FORMER_EDGES).contains(&count) {
        return None;
    }
    Some(Some(PartialPath {
        owner,
        start,
        end: slot[END],
        edges: slot[EDGES..EDGES + count].to_vec(),
    }))
}
