//! An old database of 4,096 records converted, against a plain copy of as many words as
//! the new one has, and of as many as the old one has.

use crate::report::{best_of, timed};
use pozhdaghi::{
    DATABASE_HEAD, DatabaseMut, FORMER_RECORD_WORDS, Former, MOST_EDGES, RECORD_WORDS,
};
use std::hint::black_box;

const RECORDS: usize = 4_096;
const NODES: u32 = 2_048;
const FILES: u32 = 256;

/// Records of so many edges; every fourth is dead if some are.
fn former(edges: usize, some_dead: bool) -> Vec<u32> {
    let mut old = vec![RECORDS as u32, NODES, FILES];
    for number in 0..RECORDS {
        if !some_dead || number % 4 > 0 {
            let owner = 1 + number as u32 % FILES;
            old.extend([owner, 2, 3, edges as u32]);
            old.extend((0..edges as u32).map(|edge| edge + 1));
        }
        old.resize(DATABASE_HEAD + FORMER_RECORD_WORDS * (number + 1), 0);
    }
    old
}

fn convert(old: &[u32], new: &mut [u32]) {
    let converted = Former::lend(old).convert(&mut DatabaseMut::lend(new));
    converted.expect("not refused");
}

/// A line for each kind of database.
pub fn compare() {
    for (edges, some_dead) in [(1, false), (8, false), (8, true), (MOST_EDGES, false)] {
        let old = former(edges, some_dead);
        let mut new = vec![7; DATABASE_HEAD + RECORD_WORDS * RECORDS];
        let (mut small, mut large) = (new.clone(), old.clone());
        convert(&old, &mut new);
        assert_eq!(new[..DATABASE_HEAD], old[..DATABASE_HEAD]);
        let [converted, least, most] = best_of([
            &mut || timed(|| convert(&old, black_box(&mut new))),
            &mut || {
                timed(|| {
                    black_box(&mut small)
                        .copy_from_slice(&old[..DATABASE_HEAD + RECORD_WORDS * RECORDS])
                })
            },
            &mut || timed(|| black_box(&mut large).copy_from_slice(&old)),
        ]);
        println!(
            "{RECORDS} records of {edges:>2} edges{}: converted {converted:>8.1} us, copy of the new words {least:>7.1} us, of the old words {most:>7.1} us",
            if some_dead { ", every fourth dead" } else { "" }
        );
    }
}
