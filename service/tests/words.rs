//! What is read back from words: the paths of a result area, and a replayed path.
//! Document 01, "Answer" and "Path".

mod common;

use common::{
    definition, filed, graph_a, image, plain, reference, scope, scoped_definition, scoped_push,
    scoped_reference, slots, wide, Edge, Record,
};
use pozhdaghi::{
    Database, DatabaseMut, EdgeId, Image, Moves, NodeId, PartialPathId, Refusal, Replayed, Request,
    Results, Step, Symbol, Visible, Work, MOST_EDGES, SLOT_WORDS,
};

/// The paths that a search leaves, the longest among them; words behind the last whole slot
/// are none of its edges. Until a search is made, and after one that is refused, there are
/// none, whatever the words hold. That they are those of the words is seen to at every
/// search of every test, in `common/plain.rs`.
#[test]
fn paths() {
    let edges: Vec<Edge> = (0..MOST_EDGES as u16)
        .map(|at| (2 + at, 3 + at, 0))
        .collect();
    let mut nodes = vec![reference(7)];
    nodes.resize(MOST_EDGES, scope(false));
    nodes.push(definition(7));
    let image = image(&nodes, &edges);
    let image = Image::check(&image).expect("accepted");
    let wanted: Vec<EdgeId> = (0..MOST_EDGES as u32).map(EdgeId).collect();
    for words in [SLOT_WORDS, 2 * SLOT_WORDS - 1, 3 * SLOT_WORDS + 5] {
        let mut lent = vec![1; words];
        let mut results = Results::lend(&mut lent);
        assert_eq!(
            (results.slots(), results.paths().len()),
            (words / SLOT_WORDS, 0)
        );
        let request = Request::default();
        let told = image.linear(Visible::All, NodeId(2), &request, &mut results);
        assert!(told.is_ok());
        let found: Vec<&[EdgeId]> = results.paths().map(|path| path.edges()).collect();
        assert_eq!(found, [&wanted[..]]);
        let refused = image.linear(Visible::All, NodeId(3), &request, &mut results);
        assert_eq!(refused, Err(Refusal::NotReference(NodeId(3))));
        assert_eq!(results.paths().len(), 0);
    }
    let mut less = [1; SLOT_WORDS - 1];
    assert_eq!(Results::lend(&mut less).paths().len(), 0);
}

/// What an earlier call left is not handed back after one that is refused.
#[test]
fn nothing_is_left_of_an_earlier_call() {
    let (bytes, all, request) = (graph_a(), Visible::All, Request::default());
    let image = Image::check(&bytes).expect("accepted");
    let (mut waiting, mut found) = (slots(8), slots(8));
    let (mut work, mut results) = (Work::lend(&mut waiting), Results::lend(&mut found));
    let told = image.direct(all, NodeId(2), &request, &mut work, &mut results);
    assert_eq!((told.is_ok(), results.paths().len()), (true, 1));
    let name = image.find_name(all, NodeId(3), None, &mut work, &mut results);
    assert_eq!(name, Err(Refusal::NotDefinition(NodeId(3))));
    assert_eq!(results.paths().len(), 0);
    let (mut words, mut list) = (filed(&bytes), [7; Moves::words(5)]);
    let mut moves = Moves::lend(&mut list);
    assert_eq!(DatabaseMut::lend(&mut words).compact(&mut moves), Ok(5));
    assert_eq!(moves.pairs().len(), 5);
    let refused = DatabaseMut::lend(&mut []).compact(&mut moves);
    assert_eq!(refused, Err(Refusal::Malformed));
    assert_eq!(moves.pairs().len(), 0);
}

/// So many slots of an area, and no more than it has.
#[test]
fn lent_by_slots() {
    let mut words = [1; 3 * SLOT_WORDS + 5];
    for (slots, lent) in [(0, 0), (1, 1), (3, 3), (4, 3), (usize::MAX, 3)] {
        assert_eq!(Work::lend_slots(&mut words, slots).slots(), lent);
        assert_eq!(Results::lend_slots(&mut words, slots).slots(), lent);
    }
    let most = [Work::words(usize::MAX), Results::words(usize::MAX)];
    assert_eq!(most, [usize::MAX; 2]);
    assert_eq!(DatabaseMut::words(usize::MAX), usize::MAX);
    assert_eq!(Moves::words(usize::MAX), usize::MAX);
}

/// What a database says of itself is within its words, whatever they are.
#[test]
fn room_of_a_database() {
    for (length, capacity) in [(0, 0), (2, 0), (69, 0), (70, 1), (137, 2), (400_000, 4_096)] {
        let mut words = vec![u32::MAX; length];
        let database = Database::lend(&words);
        assert_eq!((database.used(), database.capacity()), (capacity, capacity));
        assert!(database.lookup(PartialPathId(u32::MAX)).is_none());
        words.fill(0);
        let database = Database::lend(&words);
        assert_eq!((database.used(), database.capacity()), (0, capacity));
    }
}

/// Nodes: 2 pushes 7 with scope 4, 3 takes it off, 5 pushes 7 with scope 6.
/// Each time that 7 is taken off, its scopes become the scope stack, and the next
/// one has a scope more. After 15 of these, 34 symbols with 16 scopes each are
/// pushed; no other numbers of the two take more words with 63 edges.
#[test]
fn longest_path() {
    let nodes = |push: Record, pop: Record, again: Record| {
        let scopes = [scope(true), scope(true)];
        [push, pop, scopes[0].clone(), again, scopes[1].clone()]
    };
    let edges = [(2, 3, 0), (3, 5, 0), (5, 3, 0), (5, 5, 0)];
    let narrow = nodes(
        scoped_reference(7, 4),
        scoped_definition(7),
        scoped_push(7, 6),
    );
    is_replayed(&image(&narrow, &edges), 7);
    // every word that can be: both halves of the symbol
    let symbol = u64::MAX;
    let widest = nodes(
        wide::scoped_reference(symbol, 4),
        wide::scoped_definition(symbol),
        wide::scoped_push(symbol, 6),
    );
    is_replayed(&wide::image(&widest, &edges), symbol);
}

fn is_replayed(image: &[u8], symbol: u64) {
    let mut edges = vec![0];
    edges.extend([1, 2].repeat(14));
    edges.push(1);
    edges.resize(MOST_EDGES, 3);
    // tops first: the scope of the reference is at the bottom
    let mut scopes = vec![NodeId(6); 16];
    scopes[15] = NodeId(4);
    let symbol = Symbol {
        symbol,
        scopes: Some(scopes.clone()),
    };
    let path = Replayed {
        end: NodeId(5),
        steps: edges.iter().map(|&edge| Step::Edge(EdgeId(edge))).collect(),
        symbols: vec![symbol; 34],
        scopes: scopes[1..].to_vec(),
    };
    assert_eq!(plain::replay(image, 2, &edges), Ok(path));
}
