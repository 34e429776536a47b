//! Whatever stands in the records behind the used slots, the answer and the words are
//! those of document 01: a refused call alters no word, a replacement only its slots.

mod common;

use common::{blank, database, filed, graph_a, plain, refusal, slots, Slot};
use pozhdaghi::{Limits, Order, Request, DATABASE_HEAD, RECORD_WORDS};

/// The partial paths of A in the order of document 01.
const PARTS: [Slot; 5] = [
    Some((0, 2, 3, &[0])),
    Some((0, 3, 4, &[1])),
    Some((0, 3, 5, &[2])),
    Some((0, 2, 4, &[0, 1])),
    Some((0, 2, 5, &[0, 2])),
];

const USED: usize = PARTS.len();

/// A's database with its file replaced once, and one word of a record behind the used
/// slots set.
fn odd(record: usize, word: usize, value: u32) -> Vec<u32> {
    let mut words = filed(&graph_a());
    words[DATABASE_HEAD + record * RECORD_WORDS + word] = value;
    words
}

fn asked(paths: Option<u64>) -> Request {
    let limits = Limits {
        paths,
        ..Limits::default()
    };
    Request {
        order: Order::BreadthFirst,
        limits,
    }
}

/// Each record that is to be written, and the first behind them, with each word odd.
#[test]
fn odd_words_behind_the_used_slots() {
    let image = graph_a();
    let clean = {
        let mut words = filed(&image);
        let done = plain::replace_file(&image, 0, &asked(None), &mut slots(8), &mut words);
        (done, words)
    };
    assert!(clean.0.is_ok());
    for record in USED..=2 * USED {
        for word in 0..RECORD_WORDS {
            let mut words = odd(record, word, 9);
            let done = plain::replace_file(&image, 0, &asked(None), &mut slots(8), &mut words);
            assert_eq!(done, clean.0);
            let mut expected = clean.1.clone();
            if record == 2 * USED {
                expected[DATABASE_HEAD + record * RECORD_WORDS + word] = 9;
            }
            assert_eq!(words, expected);
        }
    }
}

/// 31 after some paths are found: with 4 waiting slots the starts fit, and what A's
/// routes push then does not.
#[test]
fn refused_when_some_are_filed() {
    let image = graph_a();
    for record in USED..=2 * USED {
        let before = odd(record, 3, 1);
        for waiting in 0..4 {
            let mut words = before.clone();
            let refused =
                plain::replace_file(&image, 0, &asked(None), &mut slots(waiting), &mut words);
            assert_eq!(refused, Err(refusal(31, &[])));
            assert_eq!(words, before);
        }
    }
}

/// 33 for every database that has too few slots, with zeros behind the used ones and
/// without.
#[test]
fn full() {
    let image = graph_a();
    for capacity in 0..USED {
        for value in [0, 9] {
            let mut before = database(6, 1, &[], capacity);
            if let Some(last) = before[DATABASE_HEAD..].last_mut() {
                *last = value;
            }
            let mut words = before.clone();
            let full = plain::replace_file(&image, 0, &asked(None), &mut slots(8), &mut words);
            assert_eq!(full, Err(refusal(33, &[])));
            assert_eq!(words, before);
        }
    }
}

/// Under a limit on the path count fewer are found, and these are filed.
#[test]
fn limited() {
    let image = graph_a();
    for paths in 0..9 {
        let mut clean = blank(8);
        assert_eq!(plain::fresh(&image, &mut clean), Ok(()));
        let mut odd = clean.clone();
        odd[DATABASE_HEAD] = 7;
        let request = asked(Some(paths));
        let done = plain::replace_file(&image, 0, &request, &mut slots(8), &mut clean);
        let again = plain::replace_file(&image, 0, &request, &mut slots(8), &mut odd);
        assert!(done.is_ok());
        assert_eq!(done, again);
        if done.unwrap().found == 0 {
            assert_eq!((odd[DATABASE_HEAD], clean[DATABASE_HEAD]), (7, 0));
            odd[DATABASE_HEAD] = 0;
        }
        assert_eq!(odd, clean);
    }
}
