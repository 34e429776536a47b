//! What stands in an image, read by number: the bond of `docs/GUIDE.md`, whole and with
//! files hidden, every kind of node, and every word of areas that were not zero.

mod common;

use common::{definition, graph_a, image, reference, scope, scoped_definition, scoped_push};
use common::{scoped_pop, scoped_reference, versioned, wide, Drawn};
use pozhdaghi::{sample, Edge, EdgeId, FileId, Image, Node, NodeId, Refusal, Visible};

const TERMS: FileId = FileId(0);
const DESK: FileId = FileId(1);
const DIRTY: u32 = 0xA5A5_A5A5;

fn bond() -> Image<'static> {
    Image::check(&sample::BOND).expect("accepted")
}

fn amended() -> Image<'static> {
    Image::check(&sample::AMENDED).expect("accepted")
}

fn pop(symbol: u64) -> Node {
    Node::Pop {
        file: TERMS,
        symbol,
        is_definition: true,
    }
}

fn push(symbol: u64, is_reference: bool) -> Node {
    Node::Push {
        file: DESK,
        symbol,
        is_reference,
    }
}

/// The nodes of the guide's bond.
fn nodes() -> [Node; 11] {
    let scope = Node::Scope {
        file: TERMS,
        is_exported: false,
    };
    [
        Node::Root,
        Node::JumpToScope,
        pop(1),
        scope,
        pop(2),
        pop(3),
        pop(4),
        push(2, true),
        push(3, true),
        push(4, true),
        push(1, false),
    ]
}

/// Its edges: the two nodes of each.
const EDGES: [(u32, u32); 9] = [
    (0, 2),
    (2, 3),
    (3, 4),
    (3, 5),
    (3, 6),
    (7, 10),
    (8, 10),
    (9, 10),
    (10, 0),
];

fn edge((source, target): (u32, u32), precedence: i32) -> Edge {
    Edge {
        source: NodeId(source),
        target: NodeId(target),
        precedence,
    }
}

/// What is listed in a dirty area of so many places; it stands in front, zeros behind, or
/// there are only zeros.
fn references(image: Image, visible: Visible, places: usize) -> Result<Vec<u32>, Refusal> {
    let mut area = vec![NodeId(DIRTY); places];
    let listed = image.references(visible, &mut area);
    let listed = listed.map(|nodes| nodes.iter().map(|node| node.0).collect());
    is_listed(&listed, area.iter().map(|node| node.0));
    listed
}

fn outgoing(image: Image, visible: Visible, node: u32, places: usize) -> Result<Vec<u32>, Refusal> {
    let mut area = vec![EdgeId(DIRTY); places];
    let listed = image.outgoing(visible, NodeId(node), &mut area);
    let listed = listed.map(|edges| edges.iter().map(|edge| edge.0).collect());
    is_listed(&listed, area.iter().map(|edge| edge.0));
    listed
}

fn is_listed(listed: &Result<Vec<u32>, Refusal>, area: impl ExactSizeIterator<Item = u32>) {
    let mut wanted = listed.clone().unwrap_or_default();
    wanted.resize(area.len(), 0);
    assert!(area.eq(wanted));
}

#[test]
fn of_the_bond() {
    for (number, wanted) in (0..).zip(nodes()) {
        assert_eq!(bond().node(Visible::All, NodeId(number)), Ok(wanted));
        let leaving: Vec<u32> = (0..9)
            .filter(|&at| EDGES[at as usize].0 == number)
            .collect();
        assert_eq!(outgoing(bond(), Visible::All, number, 9), Ok(leaving));
    }
    for (number, ends) in (0..).zip(EDGES) {
        let read = bond().edge(Visible::All, EdgeId(number));
        assert_eq!(read, Ok(edge(ends, 0)));
    }
    assert_eq!(references(bond(), Visible::All, 11), Ok(vec![7, 8, 9]));
}

/// The call is gone, and a new coupon has come behind.
#[test]
fn of_the_amended_bond() {
    let all = Visible::All;
    assert_eq!(amended().node(all, NodeId(11)), Ok(pop(2)));
    assert_eq!(amended().edge(all, EdgeId(9)), Ok(edge((3, 11), 1)));
    let removed = (
        amended().node(all, NodeId(6)),
        amended().edge(all, EdgeId(4)),
    );
    let (node, gone) = (
        Refusal::UnknownNode(NodeId(6)),
        Refusal::UnknownEdge(EdgeId(4)),
    );
    assert_eq!(removed, (Err(node), Err(gone)));
    assert_eq!(outgoing(amended(), all, 3, 4), Ok(vec![2, 3, 9]));
    assert_eq!(outgoing(amended(), all, 6, 4), Err(node));
    assert_eq!(references(amended(), all, 3), Ok(vec![7, 8, 9]));
}

/// What belongs to a hidden file is not known; root, jump and edges between them are.
#[test]
fn of_a_desk() {
    for (set, hidden) in [(&[1, 0][..], DESK), (&[1], DESK), (&[0, 7, 1], TERMS)] {
        let visible = Visible::Files(set);
        for (number, node) in (0..).map(NodeId).zip(nodes()) {
            let is_hidden = node.file() == Some(hidden);
            let unknown = Refusal::UnknownNode(number);
            let wanted = if is_hidden { Err(unknown) } else { Ok(node) };
            assert_eq!(bond().node(visible, number), wanted);
            let leaving = outgoing(bond(), visible, number.0, 9);
            assert_eq!(leaving.is_err(), is_hidden);
        }
    }
    let (terms, desk) = (Visible::Files(&[1]), Visible::Files(&[0, 1]));
    let gone = |edge| Err(Refusal::UnknownEdge(EdgeId(edge)));
    assert_eq!(bond().edge(terms, EdgeId(8)), gone(8));
    assert_eq!(bond().edge(desk, EdgeId(0)), gone(0));
    assert_eq!(bond().edge(desk, EdgeId(8)), Ok(edge((10, 0), 0)));
    assert_eq!(outgoing(bond(), desk, 0, 9), Ok(vec![]));
    assert_eq!(references(bond(), terms, 0), Ok(vec![]));
    assert_eq!(references(bond(), desk, 3), Ok(vec![7, 8, 9]));
    assert_eq!(references(bond(), Visible::Files(&[]), 3), Ok(vec![]));
}

/// A scope, then two nodes of each kind that has a scope or scopes, one that drops scopes, a
/// reference and a definition.
fn kinds() -> Vec<u8> {
    let drop = vec![8, 0, 0];
    let nodes = [
        scope(true),
        scoped_reference(7, 2),
        scoped_push(7, 2),
        scoped_definition(8),
        scoped_pop(8),
        drop,
        reference(9),
        definition(9),
    ];
    image(&nodes, &[])
}

/// Every kind, with the fields that it has.
#[test]
fn every_kind() {
    let (file, scope) = (TERMS, NodeId(2));
    let pushed = |is_reference| Node::PushScoped {
        file,
        symbol: 7,
        scope,
        is_reference,
    };
    let popped = |is_definition| Node::PopScoped {
        file,
        symbol: 8,
        is_definition,
    };
    let exported = Node::Scope {
        file,
        is_exported: true,
    };
    let bytes = kinds();
    let image = Image::check(&bytes).expect("accepted");
    let told = |number| image.node(Visible::All, NodeId(number));
    assert_eq!(told(2), Ok(exported));
    assert_eq!([told(3), told(4)], [Ok(pushed(true)), Ok(pushed(false))]);
    assert_eq!([told(5), told(6)], [Ok(popped(true)), Ok(popped(false))]);
    assert_eq!(told(7), Ok(Node::DropScopes { file }));
    assert_eq!(references(image, Visible::All, 9), Ok(vec![3, 8]));
}

/// What a node says of itself.
#[test]
fn asked_of_a_node() {
    let bytes = kinds();
    let image = Image::check(&bytes).expect("accepted");
    let told = (2..10).map(|number| image.node(Visible::All, NodeId(number)));
    let told: Vec<Node> = told.map(|node| node.expect("known")).collect();
    let references = [false, true, false, false, false, false, true, false];
    assert!(told.iter().map(|node| node.is_reference()).eq(references));
    let definitions = [false, false, false, true, false, false, false, true];
    assert!(told.iter().map(|node| node.is_definition()).eq(definitions));
    let symbols = [0, 7, 7, 8, 8, 0, 9, 9].map(|symbol| (symbol > 0).then_some(symbol));
    assert!(told.iter().map(|node| node.symbol()).eq(symbols));
    assert!(told.iter().all(|node| node.file() == Some(TERMS)));
}

/// Symbols of 64 bits, and precedences at both ends of what there is.
#[test]
fn widest_fields() {
    let bytes = wide::image(&[wide::reference(u64::MAX)], &[]);
    let image = Image::check(&bytes).expect("accepted");
    let node = image.node(Visible::All, NodeId(2)).expect("known");
    assert_eq!(node.symbol(), Some(u64::MAX));
    for precedence in [i32::MIN, -1, 0, 1, i32::MAX] {
        let bytes = common::image(&[reference(7)], &[(2, 0, precedence)]);
        let image = Image::check(&bytes).expect("accepted");
        let read = image.edge(Visible::All, EdgeId(0));
        assert_eq!(read, Ok(edge((2, 0), precedence)));
    }
}

/// Bytes that are no image before unknown numbers, unknown numbers before an area that is
/// too short.
#[test]
fn refusals_in_their_order() {
    let mut bytes = graph_a();
    bytes[12] = 3;
    let (broken, all) = (Image::unchecked(&bytes), Visible::All);
    let record = Refusal::Record { place: 11 };
    assert_eq!(broken.node(all, NodeId(9)), Err(record));
    assert_eq!(broken.edge(all, EdgeId(9)), Err(record));
    assert_eq!(references(broken, all, 0), Err(record));
    assert_eq!(references(broken, all, 9), Err(record));
    assert_eq!(outgoing(broken, all, 9, 9), Err(record));
    for number in [11, 2_048, u32::MAX] {
        let unknown = Refusal::UnknownNode(NodeId(number));
        assert_eq!(bond().node(all, NodeId(number)), Err(unknown));
        assert_eq!(outgoing(bond(), all, number, 0), Err(unknown));
        let edge = EdgeId(number);
        assert_eq!(bond().edge(all, edge), Err(Refusal::UnknownEdge(edge)));
    }
    for places in 0..3 {
        let short = Err(Refusal::NoResultSlot);
        assert_eq!(references(bond(), all, places), short);
        assert_eq!(outgoing(bond(), all, 3, places), short);
    }
}

/// As many references and edges as an image has room for.
#[test]
fn longest_lists() {
    let nodes = vec![reference(7); 2_046];
    let edges = vec![common::live(&(2, 0, 0)); 4_096];
    let bytes = versioned(1, 1, &nodes, &edges);
    let image = Image::check(&bytes).expect("accepted");
    let (all, nodes) = (Visible::All, (2..2_048).collect());
    assert_eq!(references(image, all, 2_046), Ok(nodes));
    assert_eq!(references(image, all, 2_045), Err(Refusal::NoResultSlot));
    assert_eq!(outgoing(image, all, 2, 4_096), Ok((0..4_096).collect()));
    assert_eq!(outgoing(image, all, 2, 4_095), Err(Refusal::NoResultSlot));
}

/// Hidden records are read as removed ones are: drawn sets on the bond, against the same
/// numbers read where all is visible.
#[test]
fn drawn_sets() {
    let mut drawn = Drawn(8);
    for _ in 0..200 {
        let set: Vec<u8> = (0..drawn.below(4)).map(|_| drawn.below(3) as u8).collect();
        let shows = |file: FileId| set.get(file.0 as usize).is_some_and(|&byte| byte > 0);
        let is_seen = |node: u32| nodes()[node as usize].file().is_none_or(shows);
        let visible = Visible::Files(&set);
        let seen: Vec<u32> = [7, 8, 9]
            .into_iter()
            .filter(|&node| is_seen(node))
            .collect();
        assert_eq!(references(bond(), visible, 3), Ok(seen));
        for (number, ends) in (0..).zip(EDGES) {
            let is_known = is_seen(ends.0) && is_seen(ends.1);
            let read = bond().edge(visible, EdgeId(number));
            assert_eq!(read.ok(), is_known.then_some(edge(ends, 0)));
        }
    }
}
