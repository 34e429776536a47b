//! Document 02, order 1: a name for a definition. Which reference, which path,
//! each refusal and what stands before it, and every word of both areas, which
//! are lent with no word 0. The numbers follow from the order's sentences.

mod common;

use common::{area, definition, graph_a, graph_b, graph_c, image, is_zero, plain, refusal, slots};
use common::{chain, reference, scope, Edge, Record};
use pozhdaghi::{Refusal, Visible, MOST_EDGES, SLOT_WORDS};

/// The name of a node: the reference, and its edges.
type Name = Option<(u32, Vec<u32>)>;

/// The call in so many waiting and result slots: the work area is zero after it,
/// and the result area but for the path in its first slot.
fn named(
    image: &[u8],
    node: u32,
    length: Option<u64>,
    [waiting, results]: [usize; 2],
) -> Result<Name, Refusal> {
    let (mut work, mut result) = (slots(waiting), slots(results));
    let answer = plain::find_name(image, Visible::All, node, length, &mut work, &mut result);
    assert!(is_zero(&work));
    let name = answer.map(|found| {
        let edges = || plain::paths(&result).next().map(<[u32]>::to_vec);
        found.map(|reference| (reference, edges().unwrap_or_default()))
    });
    let path: Vec<&[u32]> = match &name {
        Ok(Some((_, edges))) => vec![edges],
        _ => Vec::new(),
    };
    assert_eq!(result, area(&path, results * SLOT_WORDS + 5));
    name
}

fn found(reference: u32, edges: &[u32]) -> Result<Name, Refusal> {
    Ok(Some((reference, edges.to_vec())))
}

/// An image whose node n + 2 is nodes[n], and 9 slots of each kind.
fn in_room(nodes: &[Record], edges: &[Edge], node: u32) -> Result<Name, Refusal> {
    named(&image(nodes, edges), node, None, [9, 9])
}

#[test]
fn small_graphs() {
    assert_eq!(named(&graph_a(), 4, None, [9, 9]), found(2, &[0, 1]));
    assert_eq!(named(&graph_a(), 5, None, [9, 9]), Ok(None));
    assert_eq!(named(&graph_b(), 4, None, [9, 9]), found(2, &[0, 2]));
    assert_eq!(named(&graph_c(), 3, None, [9, 9]), found(2, &[0, 2]));
}

#[test]
fn the_lowest_reference() {
    let nodes = [reference(7), reference(7), definition(7)];
    assert_eq!(in_room(&nodes, &[(3, 4, 0), (2, 4, 0)], 4), found(2, &[1]));
    // 2 has complete paths, but none that ends at 4
    let nodes = [reference(8), reference(7), definition(7), definition(8)];
    let edges = [(2, 4, 0), (2, 5, 0), (3, 4, 0), (3, 5, 0)];
    assert_eq!(in_room(&nodes, &edges, 4), found(3, &[2]));
    assert_eq!(in_room(&nodes, &edges, 5), found(2, &[1]));
    // a removed node in front of the reference
    let nodes = [vec![0], reference(7), definition(7)];
    assert_eq!(in_room(&nodes, &[(3, 4, 0)], 4), found(3, &[0]));
}

#[test]
fn the_first_path() {
    // a long way of low numbers, a short way of high ones
    let nodes = [reference(7), scope(false), scope(false), definition(7)];
    let edges = [(2, 3, 0), (3, 4, 0), (4, 5, 0), (2, 5, 0)];
    assert_eq!(in_room(&nodes, &edges, 5), found(2, &[3]));
    // a shadowed definition has its name, which stood in the second slot
    let nodes = [reference(7), definition(7), definition(7)];
    let edges = [(2, 3, 1), (2, 4, 0)];
    assert_eq!(in_room(&nodes, &edges, 4), found(2, &[1]));
}

#[test]
fn the_length_limit() {
    for (length, name) in [
        (None, found(2, &[0, 1])),
        (Some(u64::MAX), found(2, &[0, 1])),
        (Some(2), found(2, &[0, 1])),
        (Some(1), Ok(None)),
        (Some(0), Ok(None)),
    ] {
        assert_eq!(named(&graph_a(), 4, length, [9, 9]), name);
    }
}

#[test]
fn refused_before_any_search() {
    let whole = graph_a();
    let mut version = whole.clone();
    version[0] = 3;
    let mut counts = whole.clone();
    counts[5] = 1;
    let mut record = whole.clone();
    record[12] = 3;
    let mut reference = whole.clone();
    reference[50] = 1;
    for (image, wanted) in [
        (&version, refusal(1, &[])),
        (&whole[..76].to_vec(), refusal(2, &[])),
        (&counts, refusal(3, &[])),
        (&record, refusal(4, &[11])),
        (&reference, refusal(5, &[47])),
    ] {
        // before 10, 37 and 31
        for (node, room) in [(4, [9, 9]), (6, [0, 0]), (2, [0, 0])] {
            assert_eq!(named(image, node, None, room), Err(wanted));
        }
    }
    for (node, wanted) in [
        (6, refusal(10, &[6])),
        (65_540, refusal(10, &[65_540])),
        (u32::MAX, refusal(10, &[u32::MAX.into()])),
        (0, refusal(37, &[0])),
        (1, refusal(37, &[1])),
        (2, refusal(37, &[2])),
        (3, refusal(37, &[3])),
    ] {
        for room in [[9, 9], [0, 0]] {
            assert_eq!(named(&whole, node, None, room), Err(wanted));
        }
    }
    // a removed node is unknown, and not live and no definition
    let removed = image(&[vec![0], definition(7)], &[]);
    assert_eq!(named(&removed, 2, None, [0, 0]), Err(refusal(10, &[2])));
    assert_eq!(named(&removed, 3, None, [0, 0]), Ok(None));
}

#[test]
fn refused_searches() {
    let (waiting, results) = (Err(refusal(31, &[])), Err(refusal(32, &[])));
    // B has four complete paths, which wait together at the end
    for (room, name) in [
        ([4, 4], found(2, &[0, 2])),
        ([4, 3], results.clone()),
        ([3, 4], waiting.clone()),
        ([0, 0], waiting.clone()),
    ] {
        assert_eq!(named(&graph_b(), 4, None, room), name);
    }
    // 2 has two paths that wait together and end nowhere, 3 has a name
    let nodes = [reference(7), reference(7), definition(7), scope(false)];
    let before = image(&nodes, &[(2, 5, 0), (2, 5, 0), (3, 4, 0)]);
    assert_eq!(named(&before, 4, None, [1, 1]), waiting);
    assert_eq!(named(&before, 4, None, [2, 1]), found(3, &[2]));
    // 3 has them, 2 has a name, and 3 is not searched
    let behind = image(&nodes, &[(3, 5, 0), (3, 5, 0), (2, 4, 0)]);
    assert_eq!(named(&behind, 4, None, [1, 1]), found(2, &[2]));
    // 2 has a name first and them behind it: it is searched to its end
    let nodes = [reference(7), scope(false), definition(7), scope(false)];
    let after = image(&nodes, &[(2, 4, 0), (2, 3, 0), (3, 5, 0), (3, 5, 0)]);
    assert_eq!(named(&after, 4, None, [1, 1]), waiting);
    assert_eq!(named(&after, 4, None, [2, 1]), found(2, &[0]));
}

/// A row of too many edges beside the way to the node is refused, unless a limit cuts
/// it.
#[test]
fn too_long() {
    let nodes = |row: usize| {
        let mut nodes = vec![reference(7), definition(7)];
        nodes.resize(3 + row, scope(false));
        nodes
    };
    let edges = |row: u16| {
        let mut edges = vec![(2, 3, 0), (2, 4, 0)];
        edges.extend((4..3 + row).map(|node| (node, node + 1, 0)));
        edges
    };
    let (longest, longer) = (
        image(&nodes(MOST_EDGES), &edges(MOST_EDGES as u16)),
        image(&nodes(MOST_EDGES + 1), &edges(MOST_EDGES as u16 + 1)),
    );
    assert_eq!(named(&longest, 3, None, [2, 1]), found(2, &[0]));
    assert_eq!(named(&longer, 3, None, [2, 1]), Err(refusal(30, &[])));
    assert_eq!(
        named(&longer, 3, Some(MOST_EDGES as u64), [2, 1]),
        found(2, &[0])
    );
    // a graph without a definition has no node to name
    assert_eq!(named(&chain(3), 2, None, [2, 1]), Err(refusal(37, &[2])));
}

/// The 16,777,216th expansion is made, and the next one is not: 19 double edges in
/// a row give 2^20 - 1 expansions and 2^19 paths, each of which goes on along 30
/// edges; each edge beside them gives one more.
#[test]
fn expansions() {
    let (doubled, row) = (19, 30);
    for (beside, name) in [(1, Ok(None)), (2, Err(refusal(36, &[])))] {
        let mut nodes = vec![reference(7), definition(7)];
        let mut edges = Vec::new();
        for number in 0..doubled + row {
            nodes.push(scope(false));
            let source = if number == 0 { 2 } else { 3 + number };
            let copies = if number < doubled { 2 } else { 1 };
            edges.extend(std::iter::repeat_n((source, 4 + number, 0), copies));
        }
        for number in doubled + row..doubled + row + beside {
            nodes.push(scope(false));
            edges.push((2, 4 + number, 0));
        }
        let waiting = (1 << doubled) + 1;
        assert_eq!(named(&image(&nodes, &edges), 3, None, [waiting, 1]), name);
    }
}

#[test]
fn no_reference_asks_for_no_area() {
    let nameless = image(&[definition(7)], &[]);
    assert_eq!(named(&nameless, 2, None, [0, 0]), Ok(None));
    let answer = plain::find_name(&nameless, Visible::All, 2, None, &mut [], &mut []);
    assert_eq!(answer, Ok(None));
}
