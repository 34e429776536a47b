//! The refusals of document 01's table, "Turned back", with their values, by every
//! call that can give them. A refused call leaves its work and result areas zero
//! and alters no database. The numbers follow from the table and the order below
//! it; those that the Rust has, 10 to 21, are tried on more paths in
//! `as_the_rust`, 14 to 18 only there, 36 in `expansions.rs`, and those of the two
//! rewritings in `versions.rs`.

mod common;

use common::{
    chain, database, filed, graph_a, graph_b, graph_c, image_of, is_zero, place, plain, refusal,
    slots,
};
use common::{reference, scope};
use pozhdaghi::{NodeId, Refusal, Request, Resolution, Visible, MOST_EDGES};

/// A search of an image, with a database, from a node, in two areas.
type Search = fn(&[u8], &[u32], u32, &mut [u32], &mut [u32]) -> Result<Resolution, Refusal>;

const DIRECT: [Search; 2] = [
    |image, _, node, work, result| {
        plain::direct(image, Visible::All, node, &Request::default(), work, result)
    },
    |image, _, node, work, result| {
        plain::direct_recorded(image, Visible::All, node, &Request::default(), work, result)
    },
];

const STITCHED: [Search; 2] = [
    |image, words, node, work, result| {
        plain::stitched(
            image,
            Visible::All,
            words,
            node,
            &Request::default(),
            work,
            result,
        )
    },
    |image, words, node, work, result| {
        plain::stitched_recorded(
            image,
            Visible::All,
            words,
            node,
            &Request::default(),
            work,
            result,
        )
    },
];

/// Linear search is lent no work area, so nothing is asked of one.
const LINEAR: [Search; 2] = [
    |image, _, node, work, result| {
        work.fill(0);
        plain::linear(image, Visible::All, node, &Request::default(), result)
    },
    |image, _, node, work, result| {
        work.fill(0);
        plain::linear_recorded(image, Visible::All, node, &Request::default(), result)
    },
];

fn searches() -> impl Iterator<Item = Search> {
    DIRECT.into_iter().chain(STITCHED).chain(LINEAR)
}

/// What the search from a node is refused with, in so many waiting and result
/// slots.
fn refused(
    search: Search,
    image: &[u8],
    words: &[u32],
    node: u32,
    [waiting, results]: [usize; 2],
) -> Refusal {
    let (mut work, mut result) = (slots(waiting), slots(results));
    let answer = search(image, words, node, &mut work, &mut result);
    assert!(is_zero(&work) && is_zero(&result));
    answer.expect_err("refused")
}

/// What a replacement is refused with; it alters no word.
fn not_replaced(image: &[u8], file: u32, waiting: usize, words: &[u32]) -> Refusal {
    let (mut work, mut after) = (slots(waiting), words.to_vec());
    let answer = plain::replace_file(image, file, &Request::default(), &mut work, &mut after);
    assert!(is_zero(&work));
    assert_eq!(after, words);
    answer.expect_err("refused")
}

/// What the replacement of the alias set is refused with, likewise.
fn aliases_not_replaced(image: &[u8], waiting: usize, words: &[u32]) -> Refusal {
    let (mut work, mut after) = (slots(waiting), words.to_vec());
    let answer = plain::replace_aliases(image, &Request::default(), &mut work, &mut after);
    assert!(is_zero(&work));
    assert_eq!(after, words);
    answer.expect_err("refused")
}

/// A with one byte changed. Its records begin at 11, 13, 15, 24, 29 and 38, its
/// edges at 47, 57 and 67.
fn changed(place: usize, byte: u8) -> Vec<u8> {
    let mut image = graph_a();
    image[place] = byte;
    image
}

/// Images that are refused, and how.
fn damaged() -> Vec<(Vec<u8>, Refusal)> {
    let whole = graph_a();
    let longer = [&whole[..], &[0]].concat();
    vec![
        // another version; version 2, whose records are longer
        (changed(0, 3), refusal(1, &[])),
        (changed(0, 2), refusal(2, &[])),
        // no byte; too few; one short of the length, and one behind it
        (Vec::new(), refusal(2, &[])),
        (whole[..10].to_vec(), refusal(2, &[])),
        (whole[..76].to_vec(), refusal(2, &[])),
        (longer, refusal(2, &[])),
        // a record that is cut, one that is miscounted, an edge left over
        (changed(67, 10), refusal(2, &[])),
        (changed(15, 9), refusal(2, &[])),
        (changed(10, 2), refusal(2, &[])),
        // too many files, too few nodes, too many edges
        (changed(5, 1), refusal(3, &[])),
        (changed(8, 1), refusal(3, &[])),
        (changed(9, 16), refusal(3, &[])),
        // the root elsewhere, a bad flag, a bad file, a bad kind of edge
        (changed(12, 3), refusal(4, &[11])),
        (changed(28, 2), refusal(4, &[24])),
        (changed(18, 1), refusal(4, &[15])),
        (changed(58, 2), refusal(4, &[57])),
        // an edge from jump, one to no node
        (changed(50, 1), refusal(5, &[47])),
        (changed(72, 6), refusal(5, &[67])),
    ]
}

#[test]
fn images() {
    let words = filed(&graph_a());
    for (image, refusal) in damaged() {
        assert_eq!(plain::check(&image), Err(refusal));
        assert_eq!(plain::replay(&image, 2, &[0]), Err(refusal));
        assert_eq!(plain::is_complete(&image, 2, &[0]), Err(refusal));
        assert_eq!(plain::shadows(&image, (2, &[0]), (2, &[0])), Err(refusal));
        for search in searches() {
            assert_eq!(refused(search, &image, &words, 2, [4, 4]), refusal);
        }
        assert_eq!(not_replaced(&image, 0, 8, &words), refusal);
        assert_eq!(aliases_not_replaced(&image, 8, &words), refusal);
        let mut after = words.clone();
        assert_eq!(plain::fresh(&image, &mut after), Err(refusal));
        assert_eq!(after, words);
    }
}

#[test]
fn nodes_and_edges() {
    let image = graph_a();
    let words = filed(&image);
    for (node, wanted) in [
        (6, refusal(10, &[6])),
        (u32::MAX, refusal(10, &[u32::MAX.into()])),
        (3, refusal(11, &[3])),
    ] {
        for search in searches() {
            assert_eq!(refused(search, &image, &words, node, [4, 4]), wanted);
        }
        assert_eq!(plain::replay(&image, node, &[0]), Err(wanted));
        assert_eq!(plain::is_complete(&image, node, &[0]), Err(wanted));
        // the left path is replayed before the right one, which has no such edge
        let other: (u32, &[u32]) = (2, &[3]);
        assert_eq!(plain::shadows(&image, (node, &[]), other), Err(wanted));
        assert_eq!(
            plain::shadows(&image, other, (node, &[])),
            Err(refusal(12, &[3]))
        );
    }
}

#[test]
fn too_long() {
    let most = MOST_EDGES as u16;
    let (longest, longer) = (chain(most), chain(most + 1));
    // the node behind the longest row, and the last one
    let (next, last) = (u32::from(most) + 2, u32::from(most) + 3);
    let rows: Vec<u32> = (0..=u32::from(most)).collect();
    let (row, rest) = rows.split_at(MOST_EDGES);
    let words = database(
        last + 1,
        1,
        &[Some((0, 2, next, row)), Some((0, next, last, rest))],
        2,
    );
    for search in searches() {
        assert_eq!(
            refused(search, &longer, &words, 2, [4, 4]),
            refusal(30, &[])
        );
    }
    for search in DIRECT.into_iter().chain(LINEAR) {
        let found = search(&longest, &[], 2, &mut slots(4), &mut slots(4)).expect("not refused");
        assert_eq!(found.statistics.expanded, MOST_EDGES as u64 + 1);
    }
    assert_eq!(
        not_replaced(&longer, 0, 8, &database(2, 1, &[], 8)),
        refusal(30, &[])
    );
}

/// A list may repeat an edge, as C's loop at the root.
#[test]
fn too_many_edges_to_replay() {
    let image = graph_c();
    let mut edges = vec![1; MOST_EDGES + 1];
    edges[0] = 0;
    let (longest, last) = (&edges[..MOST_EDGES], refusal(30, &[]));
    assert_eq!(
        plain::replay(&image, 2, longest).map(|path| (path.end, path.steps.len())),
        Ok((NodeId(0), MOST_EDGES))
    );
    assert_eq!(plain::replay(&image, 2, &edges), Err(last));
    assert_eq!(plain::is_complete(&image, 2, &edges), Err(last));
    assert_eq!(plain::shadows(&image, (2, longest), (2, &edges)), Err(last));
}

/// On B two paths wait at once, and four are complete, eight when stitched.
#[test]
fn areas() {
    let image = graph_b();
    let words = filed(&image);
    let (waiting, kept) = (refusal(31, &[]), refusal(32, &[]));
    for search in DIRECT {
        for (slots, refusal) in [
            ([0, 4], waiting),
            ([1, 4], waiting),
            ([4, 0], kept),
            ([4, 3], kept),
        ] {
            assert_eq!(refused(search, &image, &words, 2, slots), refusal);
        }
        assert!(search(&image, &words, 2, &mut slots(4), &mut slots(4)).is_ok());
    }
    for search in STITCHED {
        for (slots, refusal) in [([0, 8], waiting), ([1, 8], waiting), ([8, 7], kept)] {
            assert_eq!(refused(search, &image, &words, 2, slots), refusal);
        }
        assert!(search(&image, &words, 2, &mut slots(8), &mut slots(8)).is_ok());
    }
    for search in LINEAR {
        assert_eq!(refused(search, &graph_a(), &words, 2, [0, 0]), kept);
    }
}

#[test]
fn second_edge() {
    for search in LINEAR {
        assert_eq!(
            refused(search, &graph_b(), &[], 2, [0, 4]),
            refusal(20, &[2])
        );
    }
}

/// A has three starts, root among them, and five partial paths.
#[test]
fn replacements() {
    let image = graph_a();
    let fresh = database(6, 1, &[], 5);
    assert_eq!(not_replaced(&image, 1, 8, &fresh), refusal(21, &[1]));
    assert_eq!(
        not_replaced(&image, u32::MAX, 8, &fresh),
        refusal(21, &[u32::MAX.into()])
    );
    assert_eq!(not_replaced(&image, 0, 2, &fresh), refusal(31, &[]));
    // one slot too few; as many as are needed, and then none is left
    assert_eq!(
        not_replaced(&image, 0, 8, &database(6, 1, &[], 4)),
        refusal(33, &[])
    );
    let mut words = fresh;
    let request = Request::default();
    assert!(plain::replace_file(&image, 0, &request, &mut slots(8), &mut words).is_ok());
    assert_eq!(not_replaced(&image, 0, 8, &words), refusal(33, &[]));
}

/// Words that are no database: too few, more slots used than there are, no edge,
/// too many edges, a file and a start outside F and N.
fn malformed() -> Vec<Vec<u32>> {
    let sound = database(6, 1, &[None, Some((0, 2, 3, &[0]))], 2);
    let second = |at: usize, word: u32| {
        let mut words = sound.clone();
        words[place(1) + at] = word;
        words
    };
    let mut overfull = sound.clone();
    overfull[0] = 3;
    vec![
        Vec::new(),
        vec![0, 6],
        overfull,
        second(3, 0),
        second(3, MOST_EDGES as u32 + 1),
        second(0, 2),
        second(1, 6),
    ]
}

#[test]
fn databases() {
    let image = graph_a();
    for words in malformed() {
        for search in STITCHED {
            // before a node that is none
            for node in [2, 9] {
                assert_eq!(
                    refused(search, &image, &words, node, [4, 4]),
                    refusal(35, &[])
                );
            }
        }
        assert_eq!(not_replaced(&image, 9, 8, &words), refusal(35, &[]));
        assert_eq!(aliases_not_replaced(&image, 0, &words), refusal(35, &[]));
        assert!(plain::lookup(&words, 1).is_empty());
    }
}

/// The graph has fewer nodes than the database, or fewer files.
#[test]
fn outgrown() {
    let nodes = [reference(7), scope(true)];
    let image = image_of(2, &nodes, &[(2, 3, 0)]);
    for words in [database(5, 2, &[], 8), database(4, 3, &[], 8)] {
        for search in STITCHED {
            assert_eq!(refused(search, &image, &words, 9, [4, 4]), refusal(34, &[]));
        }
        assert_eq!(not_replaced(&image, 9, 8, &words), refusal(34, &[]));
        assert_eq!(aliases_not_replaced(&image, 0, &words), refusal(34, &[]));
    }
}

/// A partial path with an edge that is none.
#[test]
fn unknown_edge() {
    let words = database(6, 1, &[Some((0, 2, 3, &[0])), Some((0, 3, 4, &[9]))], 2);
    for search in STITCHED {
        assert_eq!(
            refused(search, &graph_a(), &words, 2, [4, 4]),
            refusal(12, &[9])
        );
    }
}
