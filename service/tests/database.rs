//! The words of a database, document 01, "Partial paths", and what the calls on it
//! leave in them.

mod common;

use common::{
    blank, database, filed, graph_a, image_of, place, plain, refusal, scope, slots, Slot,
};
use pozhdaghi::{
    Limits, Order, PartialStatistics, Request, DATABASE_HEAD, FORMER_RECORD_WORDS, MOST_EDGES,
    PATH_WORDS, RECORD_WORDS, SLOT_WORDS,
};

#[test]
fn sizes() {
    assert_eq!(MOST_EDGES, 63);
    assert_eq!((SLOT_WORDS, DATABASE_HEAD, RECORD_WORDS), (64, 3, 67));
    assert_eq!(FORMER_RECORD_WORDS, 131);
    // an end, 126 steps, 64 symbols with 32 scopes each, 32 scopes
    assert_eq!(PATH_WORDS, 1 + 253 + 4_353 + 65);
}

#[test]
fn fresh() {
    let image = image_of(3, &[scope(true)], &[(2, 2, 0)]);
    let mut words = blank(2);
    assert_eq!(plain::fresh(&image, &mut words), Ok(()));
    assert_eq!(words, database(3, 3, &[], 2));
    let mut head = [7; 3];
    assert_eq!(plain::fresh(&image, &mut head), Ok(()));
    assert_eq!(head, [0, 3, 3]);
    let mut few = [7; 2];
    assert_eq!(plain::fresh(&image, &mut few), Err(refusal(35, &[])));
    assert_eq!(few, [7; 2]);
}

/// The partial paths of A in the order of document 01.
const PARTS: [Slot; 5] = [
    Some((0, 2, 3, &[0])),
    Some((0, 3, 4, &[1])),
    Some((0, 3, 5, &[2])),
    Some((0, 2, 4, &[0, 1])),
    Some((0, 2, 5, &[0, 2])),
];

/// The old slots are dead and not used again.
#[test]
fn replaced_again() {
    let image = graph_a();
    let mut words = filed(&image);
    assert_eq!(words, database(6, 1, &PARTS, 16));
    let request = Request::default();
    assert!(plain::replace_file(&image, 0, &request, &mut slots(8), &mut words).is_ok());
    let after = [[None; 5], PARTS].concat();
    assert_eq!(words, database(6, 1, &after, 16));
}

/// Files 0 and 1 of one graph, each a scope with a loop.
#[test]
fn one_file_of_two() {
    let mut other = scope(true);
    other[2] = 1;
    let image = image_of(2, &[scope(true), other], &[(2, 2, 0), (3, 3, 0)]);
    let request = Request::default();
    let mut words = database(4, 2, &[], 4);
    let both: [Slot; 2] = [Some((1, 3, 3, &[1])), Some((0, 2, 2, &[0]))];
    for (file, used) in [(1, 1), (0, 2)] {
        let replaced = plain::replace_file(&image, file, &request, &mut slots(4), &mut words);
        // root, the scope, its loop; the loop is cut once; root and the scope wait
        let statistics = PartialStatistics {
            expanded: 3,
            found: 1,
            cycles: 1,
            waited: 2,
            ..PartialStatistics::default()
        };
        assert_eq!(replaced, Ok(statistics));
        assert_eq!(words, database(4, 2, &both[..used], 4));
    }
}

/// What is counted when A's file is replaced under limits, with a limit on complete
/// paths that is not read.
fn counted(length: Option<u64>, paths: Option<u64>) -> PartialStatistics {
    let limits = Limits {
        length,
        paths,
        complete: Some(0),
    };
    let order = Order::BreadthFirst;
    let mut words = database(6, 1, &[], 8);
    let request = Request { order, limits };
    let statistics = plain::replace_file(&graph_a(), 0, &request, &mut slots(8), &mut words)
        .expect("not refused");
    let found = &PARTS[..statistics.found as usize];
    assert_eq!(words, database(6, 1, found, 8));
    statistics
}

/// Root, node 2 and node 3 are expanded, then the five paths with edges.
#[test]
fn limits() {
    let done = PartialStatistics {
        expanded: 8,
        found: 5,
        waited: 4,
        ..PartialStatistics::default()
    };
    let short = PartialStatistics {
        expanded: 6,
        found: 3,
        length_limited: true,
        waited: 3,
        ..done
    };
    let few = PartialStatistics {
        expanded: 2,
        found: 1,
        count_limited: true,
        waited: 3,
        ..done
    };
    assert_eq!(counted(None, None), done);
    assert_eq!(counted(Some(2), Some(8)), done);
    assert_eq!(counted(Some(1), None), short);
    assert_eq!(counted(None, Some(2)), few);
}

/// A part of the words themselves: record n begins at 3 + 67 n, its edges 4 words
/// behind.
#[test]
fn lookups() {
    let words = database(6, 1, &[PARTS[0], None, PARTS[3]], 4);
    let part = plain::lookup(&words, 2);
    assert_eq!(
        part.as_ptr_range(),
        words[place(2) + 4..place(2) + 6].as_ptr_range()
    );
    assert_eq!(part, [0, 1]);
    assert_eq!(
        plain::lookup(&words, 0).as_ptr_range(),
        words[7..8].as_ptr_range()
    );
    // dead, beyond use, beyond the words
    for number in [1, 3, 4, u32::MAX] {
        assert!(plain::lookup(&words, number).is_empty());
    }
}

/// As many edges as a record holds.
#[test]
fn longest_part() {
    let edges: Vec<u32> = (0..MOST_EDGES as u32).collect();
    let words = database(200, 1, &[Some((0, 2, 3, &edges))], 1);
    assert_eq!(plain::lookup(&words, 0), edges);
}
