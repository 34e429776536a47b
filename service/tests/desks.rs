//! Document 02, order 8: each search, and finding a name, takes a set of visible files.
//! By hand: what is 10 and 12 and where these stand, what is passed over and not
//! counted, what sets mean. `desks_drawn.rs` draws graphs, databases and sets.

mod common;

use common::{
    database, definition, graph_a, image_of, is_zero, plain, reference, refusal, scope, slots,
};
use common::{Edge, Record, Slot, NOBODY};
use pozhdaghi::{Limits, Refusal, Request, Resolution, Visible, DATABASE_HEAD, RECORD_WORDS};

/// The desks' files.
const RATES: u8 = 0;
const CREDIT: u8 = 1;

/// The sets of the two desks, and of both.
const TO_RATES: Visible = Visible::Files(&[1, 0]);
const TO_CREDIT: Visible = Visible::Files(&[0, 1]);
const TO_BOTH: Visible = Visible::Files(&[1, 1]);

fn in_file(file: u8, mut record: Record) -> Record {
    record[2] = file;
    record
}

/// Each desk has a reference, a scope and a definition of its own, which are joined by
/// way of root too: rates 2, 3 and 4, credit 5, 6 and 7. Edge 6 belongs to no file.
fn two_desks() -> Vec<u8> {
    let nodes = [
        in_file(RATES, reference(7)),
        in_file(RATES, scope(true)),
        in_file(RATES, definition(7)),
        in_file(CREDIT, reference(7)),
        in_file(CREDIT, scope(true)),
        in_file(CREDIT, definition(7)),
    ];
    image_of(2, &nodes, &EDGES)
}

const EDGES: [Edge; 9] = [
    (2, 3, 0),
    (3, 4, 0),
    (2, 0, 0),
    (0, 7, 0),
    (5, 0, 0),
    (0, 4, 0),
    (0, 0, 0),
    (5, 6, 0),
    (6, 7, 0),
];
const RATES_NODES: [u32; 3] = [2, 3, 4];
const CREDIT_NODES: [u32; 3] = [5, 6, 7];
const ROOT: u32 = 0;
const JUMP: u32 = 1;

/// A search in areas of 64 slots: its answer and the paths; both areas of a refused one
/// are zero.
type Found = Result<(Resolution, Vec<Vec<u32>>), Refusal>;

/// The six searches, returned and recorded.
const CALLS: usize = 6;
const DIRECT: [usize; 2] = [0, 1];
const STITCHED: [usize; 2] = [2, 3];
const LINEAR: [usize; 2] = [4, 5];

fn search(call: usize, image: &[u8], visible: Visible, words: &[u32], node: u32) -> Found {
    asked(call, image, visible, words, node, &Request::default())
}

fn asked(
    call: usize,
    image: &[u8],
    visible: Visible,
    words: &[u32],
    node: u32,
    request: &Request,
) -> Found {
    let (mut work, mut result) = (slots(64), slots(64));
    let (lent, put) = (&mut work[..], &mut result[..]);
    let found = match call {
        0 => plain::direct(image, visible, node, request, lent, put),
        1 => plain::direct_recorded(image, visible, node, request, lent, put),
        2 => plain::stitched(image, visible, words, node, request, lent, put),
        3 => plain::stitched_recorded(image, visible, words, node, request, lent, put),
        _ => {
            lent.fill(0);
            match call {
                4 => plain::linear(image, visible, node, request, put),
                _ => plain::linear_recorded(image, visible, node, request, put),
            }
        }
    };
    assert!(is_zero(&work));
    assert!(found.is_ok() || is_zero(&result));
    let paths = || plain::paths(&result).map(<[u32]>::to_vec).collect();
    found.map(|told| (told, paths()))
}

fn name(image: &[u8], visible: Visible, node: u32) -> Result<Option<(u32, Vec<u32>)>, Refusal> {
    let (mut work, mut result) = (slots(64), slots(64));
    let found = plain::find_name(image, visible, node, None, &mut work, &mut result);
    assert!(is_zero(&work));
    assert!(found != Ok(None) && found.is_ok() || is_zero(&result));
    let path = || plain::paths(&result).next().unwrap_or(&[]).to_vec();
    found.map(|name| name.map(|reference| (reference, path())))
}

/// No slots, for two files.
fn empty() -> Vec<u32> {
    database(8, 2, &[], 4)
}

#[test]
fn a_hidden_reference_is_10_whatever_its_kind() {
    let (image, words) = (two_desks(), empty());
    for call in 0..CALLS {
        for (visible, hidden, shown) in [
            (TO_RATES, CREDIT_NODES, RATES_NODES),
            (TO_CREDIT, RATES_NODES, CREDIT_NODES),
        ] {
            for node in hidden {
                let refused = Err(refusal(10, &[u64::from(node)]));
                assert_eq!(search(call, &image, visible, &words, node), refused);
            }
            for node in [shown[1], shown[2], ROOT, JUMP] {
                let refused = Err(refusal(11, &[u64::from(node)]));
                assert_eq!(search(call, &image, visible, &words, node), refused);
            }
            let found = search(call, &image, visible, &words, shown[0]);
            // two edges of each reference can be appended
            let is_linear = LINEAR.contains(&call);
            let refused = refusal(20, &[u64::from(shown[0])]);
            assert_eq!(found.err(), is_linear.then_some(refused));
        }
    }
}

#[test]
fn a_hidden_definition_is_10_whatever_its_kind() {
    let image = two_desks();
    for node in CREDIT_NODES {
        let refused = Err(refusal(10, &[u64::from(node)]));
        assert_eq!(name(&image, TO_RATES, node), refused);
    }
    for node in [2, 3, ROOT, JUMP] {
        let refused = Err(refusal(37, &[u64::from(node)]));
        assert_eq!(name(&image, TO_RATES, node), refused);
    }
    assert_eq!(name(&image, TO_RATES, 4), Ok(Some((2, vec![0, 1]))));
    assert_eq!(name(&image, TO_CREDIT, 7), Ok(Some((5, vec![4, 3]))));
}

/// Reference 2 comes first, and is credit's to hide.
#[test]
fn hidden_references_are_passed_over() {
    let image = two_desks();
    assert_eq!(name(&image, TO_BOTH, 7), Ok(Some((2, vec![2, 3]))));
    assert_eq!(name(&image, TO_CREDIT, 7), Ok(Some((5, vec![4, 3]))));
    let nameless = image_of(
        2,
        &[in_file(RATES, reference(7)), in_file(CREDIT, definition(7))],
        &[(2, 0, 0), (0, 3, 0)],
    );
    assert_eq!(name(&nameless, TO_BOTH, 3), Ok(Some((2, vec![0, 1]))));
    assert_eq!(name(&nameless, TO_CREDIT, 3), Ok(None));
}

/// Not even for want of slots: nothing waits where no reference is visible.
#[test]
fn hidden_references_cannot_refuse() {
    let image = image_of(
        2,
        &[in_file(RATES, reference(7)), in_file(CREDIT, definition(7))],
        &[(2, 0, 0), (0, 3, 0)],
    );
    let find = |visible| plain::find_name(&image, visible, 3, None, &mut [], &mut []);
    assert_eq!(find(TO_BOTH), Err(refusal(31, &[])));
    assert_eq!(find(TO_CREDIT), Ok(None));
}

#[test]
fn hidden_paths_are_not_found() {
    let (image, words) = (two_desks(), empty());
    let paths =
        |visible, node| search(DIRECT[1], &image, visible, &words, node).map(|found| found.1);
    let rates = vec![vec![0, 1], vec![2, 5], vec![2, 6, 5]];
    let credit = vec![vec![4, 3], vec![7, 8], vec![4, 6, 3]];
    assert_eq!(paths(TO_RATES, 2), Ok(rates));
    assert_eq!(paths(TO_CREDIT, 5), Ok(credit));
    let both = [[0, 1].as_slice(), &[2, 3], &[2, 5], &[2, 6, 3], &[2, 6, 5]].map(<[u32]>::to_vec);
    assert_eq!(paths(TO_BOTH, 2), Ok(both.to_vec()));
}

/// From root there are a rejection, a longer path and a way back, all credit's.
#[test]
fn hidden_edges_are_not_counted() {
    let nodes = [
        in_file(RATES, reference(7)),
        in_file(CREDIT, definition(8)),
        in_file(CREDIT, scope(false)),
    ];
    let edges = [(2, 0, 0), (0, 3, 0), (0, 4, 0), (4, 0, 0)];
    let image = image_of(2, &nodes, &edges);
    let limits = Limits {
        length: Some(2),
        ..Limits::default()
    };
    let request = Request {
        limits,
        ..Request::default()
    };
    for call in DIRECT {
        let counted = |visible| {
            let (told, _) = asked(call, &image, visible, &[], 2, &request).expect("not refused");
            told.statistics
        };
        let all = counted(TO_BOTH);
        let some = [all.expanded, all.rejected, all.waited];
        assert_eq!((some, all.length_limited), ([3, 1, 1], true));
        let seen = counted(TO_RATES);
        let none = [seen.rejected, seen.cycles, seen.complete];
        assert_eq!((none, seen.length_limited), ([0; 3], false));
        assert_eq!([seen.expanded, seen.waited], [2, 1]);
    }
}

/// A search over slots for two files.
fn over(slots: &[Slot], visible: Visible, request: &Request) -> [Found; 2] {
    let words = database(8, 2, slots, 8);
    STITCHED.map(|call| asked(call, &two_desks(), visible, &words, 2, request))
}

fn lists(found: &Found) -> Vec<Vec<u32>> {
    let (_, paths) = found.as_ref().expect("not refused");
    paths.clone()
}

#[test]
fn hidden_slots_are_passed_over() {
    // credit's slot names edges of rates, its second one an edge that is none
    let all: [Slot; 4] = [
        Some((0, 2, 4, &[0, 1])),
        Some((1, 2, 0, &[2])),
        Some((1, 0, 0, &[99])),
        Some((0, 0, 4, &[5])),
    ];
    let request = Request::default();
    for found in over(&all, TO_BOTH, &request) {
        assert_eq!(found, Err(refusal(12, &[99])));
    }
    for found in over(&all, TO_RATES, &request) {
        assert_eq!(lists(&found), [[0, 1]]);
        let (told, _) = found.expect("not refused");
        let counted = told.statistics;
        assert_eq!(
            [counted.expanded, counted.rejected, counted.cycles],
            [2, 0, 0]
        );
    }
}

#[test]
fn the_alias_set_is_visible_to_all() {
    let all: [Slot; 3] = [
        Some((0, 2, 0, &[2])),
        Some((NOBODY, 0, 0, &[6])),
        Some((0, 0, 4, &[5])),
    ];
    for found in over(&all, TO_RATES, &Request::default()) {
        assert_eq!(lists(&found), [[2, 5].as_slice(), &[2, 6, 5]]);
    }
    let hidden: [Slot; 2] = [Some((0, 2, 0, &[2])), Some((NOBODY, 0, 7, &[3]))];
    for found in over(&hidden, TO_RATES, &Request::default()) {
        assert_eq!(found, Err(refusal(12, &[3])));
    }
    for found in over(&hidden, TO_BOTH, &Request::default()) {
        assert_eq!(lists(&found), [[2, 3]]);
    }
}

#[test]
fn a_visible_slot_with_a_hidden_edge_is_12() {
    let request = Request::default();
    let twelve = |slot: &[u32], edge| {
        for found in over(&[Some((0, 2, 0, slot))], TO_RATES, &request) {
            assert_eq!(found, Err(refusal(12, &[edge])));
        }
    };
    twelve(&[3], 3);
    twelve(&[2, 3], 3);
    twelve(&[2, 6, 99], 99);
    // 4 starts at credit's reference: 13, were it not hidden
    twelve(&[4], 4);
    twelve(&[0, 8], 8);
    for found in over(&[Some((0, 2, 0, &[4]))], TO_BOTH, &request) {
        let (told, _) = found.expect("not refused");
        assert_eq!(told.statistics.rejected, 1);
    }
    // an edge before it is rejected first
    for found in over(&[Some((0, 2, 0, &[1, 3]))], TO_RATES, &request) {
        let (told, _) = found.expect("not refused");
        assert_eq!(told.statistics.rejected, 1);
    }
}

/// Cycle, length and the bound stand before 12.
#[test]
fn twelve_stands_where_it_stood() {
    let request = Request::default();
    let again: [Slot; 2] = [Some((0, 2, 0, &[2, 6])), Some((0, 0, 0, &[6, 3]))];
    for found in over(&again, TO_RATES, &request) {
        let (told, _) = found.expect("not refused");
        assert_eq!(told.statistics.cycles, 1);
    }
    let limits = Limits {
        length: Some(1),
        ..Limits::default()
    };
    let short = Request { limits, ..request };
    for found in over(&[Some((0, 2, 0, &[2, 3]))], TO_RATES, &short) {
        let (told, _) = found.expect("not refused");
        assert!(told.statistics.length_limited);
    }
    let most: Vec<u32> = (100..163).collect();
    let two: [Slot; 2] = [Some((0, 2, 0, &[2])), Some((0, 0, 0, &most))];
    for found in over(&two, TO_RATES, &request) {
        assert_eq!(found, Err(refusal(30, &[])));
    }
}

#[test]
fn all_slots_are_checked_before_the_node() {
    let image = two_desks();
    let good = database(8, 2, &[Some((1, 5, 0, &[4]))], 4);
    let mut miscounted = good.clone();
    miscounted[DATABASE_HEAD + 3] = RECORD_WORDS as u32;
    let mut later = good.clone();
    later[1] = 9;
    for call in STITCHED {
        for node in 0..9 {
            let found = search(call, &image, TO_RATES, &miscounted, node);
            assert_eq!(found, Err(refusal(35, &[])));
            let found = search(call, &image, TO_RATES, &later, node);
            assert_eq!(found, Err(refusal(34, &[])));
        }
        let found = search(call, &image, TO_RATES, &good, 5);
        assert_eq!(found, Err(refusal(10, &[5])));
    }
}

#[test]
fn the_image_is_checked_whole() {
    let nodes = [in_file(RATES, reference(7)), in_file(CREDIT, scope(true))];
    let image = image_of(2, &nodes, &[(2, 3, 0)]);
    for call in 0..CALLS {
        let found = search(call, &image, TO_RATES, &empty(), 2);
        assert_eq!(found.map_err(|refused| refused.number()), Err(5));
    }
}

/// A missing byte hides, any byte but 0 shows, bytes from F on change nothing.
#[test]
fn sets_of_every_length() {
    let (image, words) = (two_desks(), empty());
    let answers = |visible| {
        let searched = (0..CALLS).flat_map(|call| {
            let from = |node| search(call, &image, visible, &words, node);
            (0..9).map(from).collect::<Vec<_>>()
        });
        let names = (0..9).map(|node| name(&image, visible, node));
        (searched.collect::<Vec<_>>(), names.collect::<Vec<_>>())
    };
    let long = [[1, 0].as_slice(), &[1; 300]].concat();
    for bytes in [&[1][..], &[255], &[128, 0, 0], &[2, 0, 7, 9], &long] {
        assert_eq!(answers(Visible::Files(bytes)), answers(TO_RATES));
    }
    for bytes in [&[1, 1][..], &[3, 200, 0], &[1; 256], &[9; 1_000]] {
        assert_eq!(answers(Visible::Files(bytes)), answers(Visible::All));
    }
    for bytes in [&[][..], &[0], &[0, 0, 1]] {
        assert_eq!(
            answers(Visible::Files(bytes)),
            answers(Visible::Files(&[0; 2]))
        );
    }
    assert_ne!(answers(TO_RATES), answers(Visible::All));
    assert_eq!(Visible::default(), Visible::All);
}

/// All of a graph of one file, or nothing.
#[test]
fn one_file() {
    let a = graph_a();
    let words = common::filed(&a);
    for call in 0..CALLS {
        let found = |visible| search(call, &a, visible, &words, 2);
        assert_eq!(found(Visible::Files(&[1])), found(Visible::All));
        assert_eq!(found(Visible::Files(&[0, 1])), Err(refusal(10, &[2])));
    }
}
