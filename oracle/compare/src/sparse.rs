//! Databases for the compaction of document 02, order 7: every pattern of dead slots,
//! rubbish in them, behind last edges and behind the slots, wrong words; and lists.

use crate::compaction::PAIR;
use crate::database::{
    ALIASES, COUNT, DATABASE_SLOT, FILES, MOST_SLOTS, NODES, OWNER, START, USED, capacity, place,
};
use crate::path::MOST_EDGES;
use crate::random::Random;

/// Any area, most of them databases.
pub fn any_area(random: &mut Random) -> Vec<u32> {
    if random.percent(4) {
        let length = random.below(6);
        return random.rubbish(length);
    }
    let lent = random.below(9);
    let length = place(lent) + random.below(DATABASE_SLOT) * random.below(2);
    let mut words = random.rubbish(length);
    words[USED] = used(random, lent);
    words[NODES] = *random.one_of(&[1, 6, 6, 2_048, u32::MAX]);
    words[FILES] = *random.one_of(&[0, 1, 2, 256, ALIASES - 1, ALIASES, u32::MAX]);
    let chance = *random.one_of(&[0, 20, 50, 50, 80, 100]);
    for number in 0..lent {
        put(random, &mut words, number, chance);
    }
    // one word alone, so that no other wrong one hides what it does
    if lent > 0 && random.percent(25) {
        let number = random.below(lent);
        spoil(random, &mut words, number);
    }
    words
}

/// Slots used: all, some, one more than there are, nonsense.
fn used(random: &mut Random, lent: usize) -> u32 {
    match random.below(20) {
        0 => lent as u32 + 1,
        1 => *random.one_of(&[u32::MAX, MOST_SLOTS as u32 + 1, 1 << 31]),
        2..7 => random.below(lent + 1) as u32,
        _ => lent as u32,
    }
}

/// One slot among rubbish, which stays behind its last edge and in a dead one; dead with
/// this chance.
fn put(random: &mut Random, words: &mut [u32], number: usize, chance: usize) {
    let (nodes, files) = (words[NODES], words[FILES]);
    let slot = &mut words[place(number)..place(number + 1)];
    if random.percent(chance) {
        slot[OWNER] = 0;
        return;
    }
    slot[OWNER] = *random.one_of(&[ALIASES, files.min(1), files.min(256), files]);
    slot[START] = *random.one_of(&[0, nodes - 1]);
    slot[COUNT] = *random.one_of(&[1, 2, 5, MOST_EDGES - 1, MOST_EDGES]) as u32;
}

/// One word about a demand of 35.
fn spoil(random: &mut Random, words: &mut [u32], number: usize) {
    let (nodes, next) = (words[NODES], words[FILES].saturating_add(1));
    let owners = [next, next, ALIASES - 1, ALIASES + 1, u32::MAX];
    let slot = &mut words[place(number)..];
    match random.below(3) {
        0 => slot[OWNER] = *random.one_of(&owners),
        1 => slot[START] = *random.one_of(&[nodes, u32::MAX]),
        _ => slot[COUNT] = *random.one_of(&[0, MOST_EDGES as u32 + 1, u32::MAX]),
    }
}

/// About 4,096 slots in use, most of them dead or most of them live.
pub fn many_slots(random: &mut Random) -> Vec<u32> {
    let lent = MOST_SLOTS + random.below(3);
    let mut words = vec![3; place(lent) + random.below(DATABASE_SLOT)];
    words[USED] = (MOST_SLOTS + 1 - random.low(4)) as u32;
    words[NODES] = 6;
    words[FILES] = 2;
    let chance = *random.one_of(&[1, 50, 99]);
    for number in 0..lent {
        put(random, &mut words, number, chance);
    }
    words
}

/// Any pattern of the used slots dead, their other words as they were.
pub fn kill(random: &mut Random, words: &mut [u32]) {
    let used = (words[USED] as usize).min(capacity(words));
    let pattern = random.next();
    for number in (0..used).filter(|number| pattern >> (number % 64) & 1 == 1) {
        words[place(number) + OWNER] = 0;
    }
}

/// Words of a list: mostly as many as the live slots need or more; else one or two
/// fewer, or up to 3.
pub fn list(random: &mut Random, words: &[u32]) -> usize {
    let used = words.first().map_or(0, |&used| used as usize);
    let live = (0..used.min(capacity(words)))
        .filter(|&number| words[place(number) + OWNER] != 0)
        .count();
    let exact = PAIR * live;
    match random.below(12) {
        0 => exact.saturating_sub(1),
        1 => exact.saturating_sub(PAIR),
        2 => random.below(4),
        3..6 => exact + random.below(9),
        6 => PAIR * used.min(MOST_SLOTS),
        _ => exact,
    }
}
