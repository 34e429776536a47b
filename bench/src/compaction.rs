//! A database compacted, against two plain copies of its words: 4,096 records with dead
//! ones in several places, and fewer records, to show that time follows their number.

use crate::report::{best_of, timed};
use pozhdaghi::{DATABASE_HEAD, DatabaseMut, MOST_EDGES, Moves, RECORD_WORDS};
use std::hint::black_box;

const RECORDS: usize = 4_096;
const NODES: u32 = 2_048;
const FILES: u32 = 256;

/// Which records are dead.
type Dead = (&'static str, fn(usize, usize) -> bool);

const DEAD: [Dead; 5] = [
    ("every second", |number, _| number % 2 == 1),
    ("the first", |number, _| number == 0),
    ("the last", |number, records| number + 1 == records),
    ("none", |_, _| false),
    ("all", |_, _| true),
];

/// So many records, each with as many edges as there may be.
fn database(records: usize, is_dead: fn(usize, usize) -> bool) -> Vec<u32> {
    let mut words = vec![records as u32, NODES, FILES];
    for number in 0..records {
        if !is_dead(number, records) {
            words.extend([1 + number as u32 % FILES, 2, 3, MOST_EDGES as u32]);
            words.extend((0..MOST_EDGES as u32).map(|edge| edge + number as u32));
        }
        words.resize(DATABASE_HEAD + RECORD_WORDS * (number + 1), 0);
    }
    words
}

/// The words are put back before each run, outside of its time, as a compaction leaves
/// nothing to do for the next. Both copies go to the same place, which the caches then
/// hold: the less time for them.
fn compare_one(records: usize, &(name, is_dead): &Dead) {
    let before = database(records, is_dead);
    let (mut words, mut copy) = (before.clone(), before.clone());
    let mut list = vec![0; Moves::words(records)];
    let [compacted, twice] = best_of([
        &mut || {
            words.copy_from_slice(&before);
            timed(|| {
                let mut moves = Moves::lend(black_box(&mut list));
                let live = DatabaseMut::lend(black_box(&mut words)).compact(&mut moves);
                assert!(live.is_ok());
            })
        },
        &mut || {
            timed(|| {
                black_box(&mut copy).copy_from_slice(black_box(&before));
                black_box(&mut copy).copy_from_slice(black_box(&before));
            })
        },
    ]);
    println!(
        "{records:>5} records, dead {name:<12}: compacted {compacted:>7.1} us, the words copied twice {twice:>7.1} us"
    );
}

/// A line for each place of dead records, then for fewer records.
pub fn compare() {
    for dead in &DEAD {
        compare_one(RECORDS, dead);
    }
    for halvings in 1..=4 {
        compare_one(RECORDS >> halvings, &DEAD[0]);
    }
}
