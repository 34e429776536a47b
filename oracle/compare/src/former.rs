//! Old areas for the converter of document 02, order 6: rubbish in dead slots, behind
//! last edges and behind the slots, dead slots between live ones, wrong words.

use crate::conversion::{FORMER_EDGES, FORMER_SLOT, former_place};
use crate::database::{
    ALIASES, COUNT, DATABASE_SLOT, EDGES, FILES, FIRST_SLOT, MOST_SLOTS, NODES, OWNER, START, USED,
    place,
};
use crate::path::MOST_EDGES;
use crate::random::Random;

/// Edge counts that one area is drawn with: mostly within the bound.
const COUNTS: [&[usize]; 6] = [
    &[1, 2, 3, MOST_EDGES],
    &[1, MOST_EDGES - 1, MOST_EDGES],
    &[1, 2, 5],
    &[1, MOST_EDGES],
    &[2, MOST_EDGES, MOST_EDGES + 1, FORMER_EDGES],
    &[
        1,
        MOST_EDGES,
        MOST_EDGES + 1,
        FORMER_EDGES,
        FORMER_EDGES + 1,
        0,
    ],
];

/// Any area, most of them sound.
pub fn any_area(random: &mut Random) -> Vec<u32> {
    if random.percent(4) {
        let length = random.below(6);
        return random.rubbish(length);
    }
    let lent = random.below(8);
    let length = former_place(lent) + random.below(FORMER_SLOT) * random.below(2);
    let mut old = random.rubbish(length);
    old[USED] = used(random, lent);
    old[NODES] = *random.one_of(&[1, 6, 6, 2_048, u32::MAX]);
    old[FILES] = *random.one_of(&[0, 1, 2, 256, ALIASES - 1, ALIASES, u32::MAX]);
    let counts = *random.one_of(&COUNTS);
    for number in 0..lent {
        put(random, &mut old, number, counts);
    }
    // one word alone, so that no other wrong one hides what it does
    if lent > 0 && random.percent(30) {
        let number = random.below(lent);
        spoil(random, &mut old, number);
    }
    old
}

/// Slots used: all, some, one more than there are, nonsense.
fn used(random: &mut Random, lent: usize) -> u32 {
    match random.below(20) {
        0 => lent as u32 + 1,
        1 => *random.one_of(&[u32::MAX, MOST_SLOTS as u32 + 1, 1 << 31]),
        2..8 => random.below(lent + 1) as u32,
        _ => lent as u32,
    }
}

/// One slot among rubbish, which stays behind its last edge, and in a dead one.
fn put(random: &mut Random, old: &mut [u32], number: usize, counts: &[usize]) {
    let (nodes, files) = (old[NODES], old[FILES]);
    let slot = &mut old[former_place(number)..former_place(number + 1)];
    if random.percent(30) {
        slot[OWNER] = 0;
        return;
    }
    slot[OWNER] = *random.one_of(&[ALIASES, files.min(1), files.min(256), files]);
    slot[START] = *random.one_of(&[0, nodes - 1]);
    slot[COUNT] = *random.one_of(counts) as u32;
}

/// One word about a demand of 35.
fn spoil(random: &mut Random, old: &mut [u32], number: usize) {
    let (nodes, files) = (old[NODES], old[FILES]);
    let next = files.saturating_add(1);
    let owners = [next, next, ALIASES - 1, ALIASES + 1, u32::MAX];
    let slot = &mut old[former_place(number)..];
    match random.below(3) {
        0 => slot[OWNER] = *random.one_of(&owners),
        1 => slot[START] = *random.one_of(&[nodes, u32::MAX]),
        _ => slot[COUNT] = *random.one_of(&[0, FORMER_EDGES as u32 + 1, u32::MAX]),
    }
}

/// About 4,096 slots in use, most of them dead.
pub fn many_slots(random: &mut Random) -> Vec<u32> {
    let lent = MOST_SLOTS + random.below(3);
    let mut old = vec![0; former_place(lent) + random.below(FORMER_SLOT)];
    old[USED] = (MOST_SLOTS + 1 - random.low(4)) as u32;
    old[NODES] = 6;
    old[FILES] = 2;
    let counts = *random.one_of(&COUNTS);
    for number in MOST_SLOTS - 6..MOST_SLOTS {
        put(random, &mut old, number, counts);
    }
    old
}

/// Sound words of the present size as they were before, with rubbish in every word that
/// holds nothing.
pub fn as_before(random: &mut Random, words: &[u32]) -> Vec<u32> {
    let used = words[USED] as usize;
    let length = former_place(used) + random.below(FORMER_SLOT);
    let mut old = random.rubbish(length);
    old[..FIRST_SLOT].copy_from_slice(&words[..FIRST_SLOT]);
    for number in 0..used {
        let slot = &words[place(number)..place(number + 1)];
        let held = match slot[OWNER] {
            0 => OWNER + 1,
            _ => EDGES + slot[COUNT] as usize,
        };
        old[former_place(number)..][..held].copy_from_slice(&slot[..held]);
    }
    old
}

/// Words of a new area: mostly as many as are needed or more, with some behind the last
/// slot; else one word or one slot fewer, or up to 3.
pub fn room(random: &mut Random, old: &[u32]) -> usize {
    let used = old.first().map_or(0, |&used| used as usize);
    let exact = place(used.min(old.len() / FORMER_SLOT + 2));
    match random.below(14) {
        0 => exact - 1,
        1 => exact.saturating_sub(DATABASE_SLOT),
        2 => random.below(FIRST_SLOT + 1),
        3..6 => exact + random.below(3 * DATABASE_SLOT),
        _ => exact,
    }
}
