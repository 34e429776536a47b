//! The alias set, document 02, order 5: the partial paths of the edges from root to
//! root and from root to jump, which belong to no file. The numbers and lists follow
//! from the documents by hand.

mod common;

use common::{
    area, blank, database, definition, filed, graph_c, image, image_of, is_zero, place, plain,
    reference, refusal, scope, scoped_pop, scoped_push, slots, Drawn, Edge, Record, Slot, NOBODY,
};
use pozhdaghi::{
    Limits, Order, PartialStatistics, Refusal, Request, Resolution, Statistics, Visible, ALIASES,
    MOST_EDGES, RECORD_WORDS,
};

/// The set replaced without limits.
fn replaced(image: &[u8], waiting: usize, words: &mut [u32]) -> Result<PartialStatistics, Refusal> {
    asked(image, &Request::default(), waiting, words)
}

/// The set replaced; the work area is zero afterwards, and a refused call alters no
/// word.
fn asked(
    image: &[u8],
    request: &Request,
    waiting: usize,
    words: &mut [u32],
) -> Result<PartialStatistics, Refusal> {
    let (mut work, before) = (slots(waiting), words.to_vec());
    let told = plain::replace_aliases(image, request, &mut work, words);
    assert!(is_zero(&work));
    assert!(told.is_ok() || words == before);
    told
}

/// The recorded paths of a stitched search from node 2 without limits.
fn recorded(image: &[u8], words: &[u32]) -> (Resolution, Vec<Vec<u32>>) {
    let (mut work, mut result) = (slots(200), slots(200));
    let request = Request::default();
    let found = plain::stitched_recorded(
        image,
        Visible::All,
        words,
        2,
        &request,
        &mut work,
        &mut result,
    )
    .expect("not refused");
    assert!(is_zero(&work));
    let paths: Vec<Vec<u32>> = plain::paths(&result).map(<[u32]>::to_vec).collect();
    assert_eq!(result, area(&paths, result.len()));
    (found, paths)
}

fn recorded_directly(image: &[u8]) -> Vec<Vec<u32>> {
    let (mut work, mut result) = (slots(200), slots(200));
    plain::direct_recorded(
        image,
        Visible::All,
        2,
        &Request::default(),
        &mut work,
        &mut result,
    )
    .expect("not refused");
    plain::paths(&result).map(<[u32]>::to_vec).collect()
}

/// C's file in its order, and the loop at root, edge 1.
const PARTS_OF_C: [Slot; 4] = [
    Some((0, 0, 3, &[2])),
    Some((0, 2, 0, &[0])),
    Some((0, 2, 3, &[0, 2])),
    Some((NOBODY, 0, 0, &[1])),
];

/// Root is expanded, then the loop, on which the loop is cut.
const COUNTED_ON_C: PartialStatistics = PartialStatistics {
    expanded: 2,
    found: 1,
    cycles: 1,
    length_limited: false,
    count_limited: false,
    waited: 1,
};

#[test]
fn first_word() {
    assert_eq!((ALIASES, NOBODY + 1), (65_535, 65_535));
}

/// Without the set stitching misses the path over the loop, with it nothing.
#[test]
fn graph_c_stitched() {
    let image = graph_c();
    let mut words = filed(&image);
    assert_eq!(words, database(4, 1, &PARTS_OF_C[..3], 16));
    let (found, without) = recorded(&image, &words);
    assert_eq!((found.statistics.expanded, without), (4, vec![vec![0, 2]]));
    assert_eq!(replaced(&image, 1, &mut words), Ok(COUNTED_ON_C));
    assert_eq!(words, database(4, 1, &PARTS_OF_C, 16));
    let (found, with) = recorded(&image, &words);
    assert_eq!(with, [&[0, 2][..], &[0, 1, 2]]);
    // the path [0 2] is complete twice; the loop is cut once, behind [0 1]
    let statistics = Statistics {
        expanded: 6,
        complete: 3,
        cycles: 1,
        waited: 3,
        ..Statistics::default()
    };
    let paths = 2;
    assert_eq!(found, Resolution { paths, statistics });
    assert_eq!(recorded_directly(&image), with);
}

/// The smallest graph on which an edge from root to jump, 3, is of use: a scope must
/// be on the stack there.
fn over_jump() -> Vec<u8> {
    let nodes = [
        reference(7),
        scoped_push(9, 5),
        scoped_pop(9),
        scope(true),
        definition(7),
    ];
    image(
        &nodes,
        &[(2, 3, 0), (3, 4, 0), (4, 0, 0), (0, 1, 0), (5, 6, 0)],
    )
}

#[test]
fn root_to_jump() {
    let image = over_jump();
    let mut words = filed(&image);
    let parts: [Slot; 3] = [
        Some((0, 5, 6, &[4])),
        Some((0, 2, 0, &[0, 1, 2])),
        Some((NOBODY, 0, 1, &[3])),
    ];
    assert_eq!(words, database(7, 1, &parts[..2], 16));
    assert!(recorded(&image, &words).1.is_empty());
    // no edge leaves jump, so nothing is cut
    let counted = PartialStatistics {
        cycles: 0,
        ..COUNTED_ON_C
    };
    assert_eq!(replaced(&image, 1, &mut words), Ok(counted));
    assert_eq!(words, database(7, 1, &parts, 16));
    let (found, paths) = recorded(&image, &words);
    assert_eq!(paths, [[0, 1, 2, 3, 4]]);
    assert_eq!(
        (found.statistics.expanded, found.statistics.complete),
        (4, 1)
    );
    assert_eq!(recorded_directly(&image), paths);
}

/// Edges 1 and 6 lead from root to root, 4 from root to jump; every other has one end
/// or both in the file, also at root and at jump. Node 3 is an exported scope.
fn mixed() -> Vec<u8> {
    let edges = [
        (2, 0),
        (0, 0),
        (0, 3),
        (3, 1),
        (0, 1),
        (3, 0),
        (0, 0),
        (3, 3),
    ];
    let edges: Vec<Edge> = edges
        .iter()
        .map(|&(source, target)| (source, target, 0))
        .collect();
    image(&[reference(7), scope(true)], &edges)
}

/// The lists of `mixed` as slots: those with 4, which is then the last, end at jump.
fn slots_of<'a>(lists: &'a [&'a [u32]]) -> Vec<Slot<'a>> {
    let end = |edges: &[u32]| u32::from(edges.last() == Some(&4));
    lists
        .iter()
        .map(|&edges| Some((NOBODY, 0, end(edges), edges)))
        .collect()
}

const BREADTH_FIRST: [&[u32]; 9] = [
    &[1],
    &[4],
    &[6],
    &[1, 4],
    &[1, 6],
    &[6, 1],
    &[6, 4],
    &[1, 6, 4],
    &[6, 1, 4],
];

const DEPTH_FIRST: [&[u32]; 9] = [
    &[1],
    &[4],
    &[6],
    &[1, 4],
    &[1, 6],
    &[1, 6, 4],
    &[6, 1],
    &[6, 4],
    &[6, 1, 4],
];

/// From root alone, and no edge with an end in a file.
#[test]
fn edges_of_no_file() {
    for (order, lists) in [
        (Order::BreadthFirst, &BREADTH_FIRST),
        (Order::DepthFirst, &DEPTH_FIRST),
    ] {
        let request = Request {
            order,
            limits: Limits::default(),
        };
        let mut words = database(4, 1, &[], 10);
        // root and nine lists; one cut behind 1 and 6, two behind 1 6 and 6 1
        let counted = PartialStatistics {
            expanded: 10,
            found: 9,
            cycles: 6,
            waited: 4,
            ..PartialStatistics::default()
        };
        assert_eq!(asked(&mixed(), &request, 4, &mut words), Ok(counted));
        assert_eq!(words, database(4, 1, &slots_of(lists), 10));
    }
}

/// Replaced breadth-first under limits, and a limit on complete paths that is not
/// read; the lists found are the first ones.
fn limited(length: Option<u64>, paths: Option<u64>) -> PartialStatistics {
    let complete = Some(0);
    let limits = Limits {
        length,
        paths,
        complete,
    };
    let order = Order::BreadthFirst;
    let mut words = database(4, 1, &[], 10);
    let counted = asked(&mixed(), &Request { order, limits }, 4, &mut words).expect("not refused");
    let lists = slots_of(&BREADTH_FIRST[..counted.found as usize]);
    assert_eq!(words, database(4, 1, &lists, 10));
    counted
}

fn counted(
    [expanded, found, cycles, waited]: [u64; 4],
    length_limited: bool,
    count_limited: bool,
) -> PartialStatistics {
    PartialStatistics {
        expanded,
        found,
        cycles,
        length_limited,
        count_limited,
        waited,
    }
}

#[test]
fn limits() {
    let whole = counted([10, 9, 6, 4], false, false);
    assert_eq!(limited(None, None), whole);
    assert_eq!(limited(Some(3), Some(10)), whole);
    assert_eq!(limited(Some(0), None), counted([1, 0, 0, 1], true, false));
    assert_eq!(limited(Some(1), None), counted([4, 3, 2, 3], true, false));
    assert_eq!(limited(None, Some(0)), counted([0, 0, 0, 1], false, true));
    assert_eq!(limited(None, Some(2)), counted([2, 5, 1, 4], false, true));
    assert_eq!(
        limited(Some(2), Some(3)),
        counted([3, 5, 1, 4], false, true)
    );
}

/// Slots of files 0 and 255 and of the set, a dead slot with rubbish in it, and
/// rubbish behind the last edges and the slots in use.
fn crowded() -> Vec<u32> {
    let parts: [Slot; 5] = [
        Some((0, 0, 3, &[2])),
        Some((NOBODY, 0, 1, &[7, 8])),
        None,
        Some((255, 2, 0, &[0])),
        Some((NOBODY, 3, 0, &[9])),
    ];
    let mut words = database(4, 256, &parts, 8);
    words[place(2) - 1] = 5;
    words[place(2) + 1..place(3)].fill(65_535);
    words[place(4) - 1] = 77;
    words[place(5)..].fill(9);
    words
}

/// C with 256 files.
fn c_of_many_files() -> Vec<u8> {
    let edges = [(2, 0, 0), (0, 0, 0), (0, 3, 0)];
    image_of(256, &[reference(7), definition(7)], &edges)
}

/// Exactly the slots of the set become zero, and the new one is put behind the last.
#[test]
fn other_slots_kept() {
    let image = c_of_many_files();
    let mut words = crowded();
    let mut wanted = words.clone();
    for dead in [1, 4] {
        wanted[place(dead)..place(dead + 1)].fill(0);
    }
    let new = database(4, 256, &PARTS_OF_C[3..], 1);
    wanted[place(5)..place(6)].copy_from_slice(&new[3..]);
    wanted[0] = 6;
    assert_eq!(replaced(&image, 1, &mut words), Ok(COUNTED_ON_C));
    assert_eq!(words, wanted);
}

/// A file's replacement keeps the slots of the set.
#[test]
fn set_kept() {
    let image = c_of_many_files();
    let (mut words, request) = (crowded(), Request::default());
    let mut wanted = words.clone();
    wanted[place(3)..place(4)].fill(0);
    // file 255 has no node, so root is expanded and nothing found
    let told = plain::replace_file(&image, 255, &request, &mut slots(1), &mut words);
    assert_eq!(told.map(|counted| counted.found), Ok(0));
    assert_eq!(words, wanted);
    wanted[place(0)..place(1)].fill(0);
    let new = database(4, 256, &PARTS_OF_C[..3], 3);
    wanted[place(5)..].copy_from_slice(&new[3..]);
    wanted[0] = 8;
    assert!(plain::replace_file(&image, 0, &request, &mut slots(2), &mut words).is_ok());
    assert_eq!(words, wanted);
}

/// A smaller graph's database takes the N and F of this one.
#[test]
fn counts_stored() {
    for (nodes, files) in [(4, 1), (2, 1), (4, 0), (0, 0)] {
        let mut words = database(nodes, files, &[], 1);
        assert!(replaced(&graph_c(), 1, &mut words).is_ok());
        assert_eq!(words, database(4, 1, &PARTS_OF_C[3..], 1));
    }
    // no edge of the kind, and no file: nothing is found, and both are stored
    let bare = image_of(0, &[], &[]);
    let mut words = database(1, 0, &[Some((NOBODY, 0, 0, &[0]))], 1);
    let none = PartialStatistics {
        expanded: 1,
        found: 0,
        cycles: 0,
        ..COUNTED_ON_C
    };
    assert_eq!(replaced(&bare, 1, &mut words), Ok(none));
    assert_eq!(words, database(2, 0, &[None], 1));
}

/// So many edges from root to root and to jump.
fn rooted(loops: usize, jumps: usize) -> Vec<u8> {
    let edges = [vec![(0, 0, 0); loops], vec![(0, 1, 0); jumps]].concat();
    image_of(0, &[], &edges)
}

fn depth_first() -> Request {
    Request {
        order: Order::DepthFirst,
        limits: Limits::default(),
    }
}

/// Six loops and an edge to jump have 3,913 lists, which fit. There are 6!/(6-i)!
/// lists of i loops, each of which cuts i loops: 9,786 in all.
#[test]
fn six_loops_fit() {
    let image = rooted(6, 1);
    let mut words = database(2, 0, &[], 3_913);
    let told = asked(&image, &depth_first(), 64, &mut words).expect("not refused");
    assert_eq!(
        (told.expanded, told.found, told.cycles),
        (3_914, 3_913, 9_786)
    );
    let lists: std::collections::BTreeSet<&[u32]> =
        (0..3_913).map(|n| plain::lookup(&words, n)).collect();
    // all differ, hence with distinct edges and jump last they are all lists
    assert_eq!(lists.len(), 3_913);
    for (number, slot) in words[3..].chunks_exact(RECORD_WORDS).enumerate() {
        let edges = plain::lookup(&words, number as u32);
        let distinct: std::collections::BTreeSet<&u32> = edges.iter().collect();
        let (last, before) = edges.split_last().expect("some edge");
        assert!(distinct.len() == edges.len() && !before.contains(&6) && *last <= 6);
        assert_eq!(
            slot[..4],
            [65_535, 0, u32::from(*last == 6), edges.len() as u32]
        );
        assert!(is_zero(&slot[4 + edges.len()..]));
    }
    let mut few = database(2, 0, &[], 3_912);
    assert_eq!(
        asked(&image, &depth_first(), 64, &mut few),
        Err(refusal(33, &[]))
    );
}

/// 6 and 2 have 5,870 lists and 7 and 0 13,699: more than a database ever holds.
#[test]
fn seven_loops_never_fit() {
    for (loops, jumps) in [(6, 2), (7, 0)] {
        let mut words = database(2, 0, &[], 6_000);
        let image = rooted(loops, jumps);
        assert_eq!(
            asked(&image, &depth_first(), 64, &mut words),
            Err(refusal(33, &[]))
        );
        // those of one edge do fit
        let mut short = depth_first();
        short.limits.length = Some(1);
        let told = asked(&image, &short, 64, &mut words).expect("not refused");
        assert_eq!(told.found, (loops + jumps) as u64);
    }
}

/// As many waiting slots as the figure says, and one fewer.
#[test]
fn waiting() {
    for order in [Order::BreadthFirst, Order::DepthFirst] {
        let request = Request {
            order,
            limits: Limits::default(),
        };
        let mut waited = Vec::new();
        for loops in 0..5 {
            let words = database(2, 0, &[], 64);
            let image = rooted(loops, 0);
            let told = asked(&image, &request, 64, &mut words.clone()).expect("not refused");
            let figure = told.waited as usize;
            assert_eq!(
                asked(&image, &request, figure, &mut words.clone()),
                Ok(told)
            );
            let fewer = asked(&image, &request, figure - 1, &mut words.clone());
            assert_eq!(fewer, Err(refusal(31, &[])));
            waited.push(figure);
        }
        // of k loops: all k! lists of k - 1 edges or of k; one branch, which leaves
        // k - 1, k - 2 and so on beside it, and its last list
        let wanted = match order {
            Order::BreadthFirst => [1, 1, 2, 6, 24],
            Order::DepthFirst => [1, 1, 2, 4, 7],
        };
        assert_eq!(waited, wanted);
    }
}

/// Image, 35, 34, 31, 33: each with all that comes behind it.
#[test]
fn refusals_in_their_order() {
    let image = graph_c();
    let none = database(4, 1, &[], 0);
    let outgrown = [database(5, 1, &[], 0), database(4, 2, &[], 0)];
    let mut malformed = database(5, 1, &[Some((NOBODY, 5, 0, &[1]))], 1);
    let cut = image[..image.len() - 1].to_vec();
    assert_eq!(replaced(&cut, 0, &mut malformed), Err(refusal(2, &[])));
    assert_eq!(replaced(&cut, 0, &mut [7; 2]), Err(refusal(2, &[])));
    assert_eq!(replaced(&image, 0, &mut malformed), Err(refusal(35, &[])));
    assert_eq!(replaced(&image, 0, &mut [7; 2]), Err(refusal(35, &[])));
    for mut words in outgrown {
        assert_eq!(replaced(&image, 0, &mut words), Err(refusal(34, &[])));
    }
    for (waiting, number) in [(0, 31), (1, 33)] {
        assert_eq!(
            replaced(&image, waiting, &mut none.clone()),
            Err(refusal(number, &[]))
        );
    }
    // the old slots of the set still take room
    let mut full = database(4, 1, &PARTS_OF_C[3..], 1);
    assert_eq!(replaced(&image, 1, &mut full), Err(refusal(33, &[])));
}

/// The 64th expansion is of a list with 63 edges, where one more loop is 30; before
/// it there are more lists than slots, of which only a finished computation speaks.
#[test]
fn too_long() {
    let image = rooted(MOST_EDGES + 1, 0);
    let mut request = depth_first();
    let mut words = database(2, 0, &[], 0);
    // each expansion leaves one fewer beside the list that it goes on with
    let waiting = (MOST_EDGES + 1) * (MOST_EDGES + 2) / 2;
    assert_eq!(
        asked(&image, &request, waiting, &mut words),
        Err(refusal(30, &[]))
    );
    request.limits.paths = Some(MOST_EDGES as u64);
    assert_eq!(
        asked(&image, &request, waiting, &mut words),
        Err(refusal(33, &[]))
    );
    assert_eq!(
        asked(&image, &request, MOST_EDGES, &mut words),
        Err(refusal(31, &[]))
    );
}

/// There is no file with the set's number: 21, after 35 and 34 and before all else.
#[test]
fn not_a_file() {
    let image = graph_c();
    let words = database(4, 1, &PARTS_OF_C, 4);
    for file in [65_534, 65_535] {
        let (mut work, mut after) = (slots(0), words.clone());
        let told = plain::replace_file(&image, file, &Request::default(), &mut work, &mut after);
        assert_eq!(told, Err(refusal(21, &[file.into()])));
        assert_eq!(after, words);
        assert!(is_zero(&work));
    }
}

/// C's database with a word of the set's slot altered.
fn altered(at: usize, word: u32) -> Vec<u32> {
    let mut words = database(4, 1, &PARTS_OF_C, 4);
    words[place(3) + at] = word;
    words
}

/// Of a slot of the set the file alone is not asked after.
#[test]
fn what_is_no_database() {
    let image = graph_c();
    let malformed = [
        // other first words
        altered(0, 65_534),
        altered(0, 65_536),
        altered(0, 2),
        altered(0, u32::MAX),
        // a start that is no node, no edge, too many
        altered(1, 4),
        altered(1, 65_535),
        altered(3, 0),
        altered(3, MOST_EDGES as u32 + 1),
        // a stored N of 0
        database(0, 0, &PARTS_OF_C[3..], 1),
    ];
    for mut words in malformed {
        let (mut work, mut result) = (slots(8), slots(8));
        let request = Request::default();
        let found = plain::stitched_recorded(
            &image,
            Visible::All,
            &words,
            9,
            &request,
            &mut work,
            &mut result,
        );
        assert_eq!(found, Err(refusal(35, &[])));
        assert!(is_zero(&work) && is_zero(&result));
        let before = words.clone();
        let told = plain::replace_file(&image, 9, &request, &mut work, &mut words);
        assert_eq!((told, &words), (Err(refusal(35, &[])), &before));
        assert_eq!(replaced(&image, 0, &mut words), Err(refusal(35, &[])));
        assert!(plain::lookup(&words, 0).is_empty());
    }
}

/// Any node below N may be its start, any edges may stand in it, also as many as a
/// path may have, and F may be 0.
#[test]
fn what_is_a_database() {
    let mut longest = altered(3, MOST_EDGES as u32);
    longest[place(3) + 4..place(4)].fill(9);
    for (words, edges) in [
        (altered(1, 3), 1),
        (altered(2, u32::MAX), 1),
        (altered(4, u32::MAX), 1),
        (longest, MOST_EDGES),
    ] {
        let part = plain::lookup(&words, 3);
        let edges_at = place(3) + 4;
        assert_eq!(
            part.as_ptr_range(),
            words[edges_at..edges_at + edges].as_ptr_range()
        );
    }
    let alone = database(1, 0, &PARTS_OF_C[3..], 1);
    assert_eq!(plain::lookup(&alone, 0), [1]);
    // a slot of the set that leads from the reference on is used like any other
    let words = database(4, 1, &[Some((NOBODY, 2, 3, &[0, 1, 2]))], 1);
    assert_eq!(recorded(&graph_c(), &words).1, [[0, 1, 2]]);
    let words = altered(4, 9);
    let found = plain::stitched(
        &graph_c(),
        Visible::All,
        &words,
        2,
        &Request::default(),
        &mut slots(8),
        &mut slots(8),
    );
    assert_eq!(found, Err(refusal(12, &[9])));
}

/// Two files about root; edges to and from root in both, loops at root and edges to
/// jump, on which the scope of a scoped push is taken.
fn drawn_graph(drawn: &mut Drawn) -> Vec<u8> {
    let of = |file: u8, mut record: Record| {
        record[2] = file;
        record
    };
    let nodes = [
        reference(7),
        scoped_push(9, 5),
        scoped_pop(9),
        scope(true),
        definition(7),
        of(1, scope(true)),
        of(1, definition(7)),
        of(1, scoped_pop(9)),
    ];
    // the first ones lead over root and jump to a definition; others are drawn
    let mut edges: Vec<Edge> = vec![(2, 3, 0), (3, 0, 0), (0, 9, 0), (9, 0, 0), (5, 6, 0)];
    let fileless = [(0, 0, 0), (0, 1, 0)];
    let others = [
        (2, 0, 0),
        (0, 6, 0),
        (0, 8, 0),
        (0, 7, 0),
        (7, 8, 0),
        (5, 0, 0),
        (9, 1, 0),
    ];
    for _ in 0..1 + drawn.below(3) {
        edges.push(drawn.one_of(&fileless));
    }
    for _ in 0..drawn.below(3) {
        edges.push(drawn.one_of(&others));
    }
    // in any order
    for last in (1..edges.len()).rev() {
        edges.swap(last, drawn.below(last as u64 + 1) as usize);
    }
    image_of(2, &nodes, &edges)
}

/// Both files and the set, in any order.
fn filed_anyhow(drawn: &mut Drawn, image: &[u8]) -> Vec<u32> {
    let request = Request::default();
    let mut words = blank(800);
    plain::fresh(image, &mut words).expect("not refused");
    let mut sets = [Some(0), Some(1), None];
    sets.rotate_left(drawn.below(3) as usize);
    for set in sets {
        let mut work = slots(400);
        let told = match set {
            Some(file) => plain::replace_file(image, file, &request, &mut work, &mut words),
            None => plain::replace_aliases(image, &request, &mut work, &mut words),
        };
        told.expect("not refused");
    }
    words
}

/// With every file and the set both searches record the same, with no condition on
/// edges; without the set the paths over its edges are missing.
#[test]
fn recorded_alike() {
    let mut drawn = Drawn(5);
    let mut over_aliases = 0;
    for _ in 0..120 {
        let image = drawn_graph(&mut drawn);
        let mut words = filed_anyhow(&mut drawn, &image);
        let (mut stitched, mut direct) = (recorded(&image, &words).1, recorded_directly(&image));
        stitched.sort();
        direct.sort();
        assert_eq!(stitched, direct);
        for slot in words[3..].chunks_exact_mut(RECORD_WORDS) {
            if slot[0] == ALIASES {
                slot.fill(0);
            }
        }
        over_aliases += direct.len() - recorded(&image, &words).1.len();
    }
    assert!(over_aliases > 100, "{over_aliases}");
}
