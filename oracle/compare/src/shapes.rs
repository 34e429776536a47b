//! Graphs of a shape that blind draws hardly meet: long paths about the bound of
//! 63 edges, deep stacks, long lists of scopes, many paths at once.

use crate::draw::precedence;
use crate::graph::{
    Edge, Graph, JUMP, MOST_FILES, MOST_GRAPH_EDGES, MOST_NODES, Node, ROOT, Version,
};
use crate::path::MOST_EDGES;
use crate::random::Random;

const SYMBOL: u64 = 7;
const SCOPED: u64 = 9;

fn start(files: usize) -> Graph {
    Graph {
        version: Version::Narrow,
        files,
        nodes: vec![Node::Root, Node::Jump],
        edges: vec![],
    }
}

fn scope(file: u32, flag: bool) -> Node {
    Node::Scope { file, flag }
}

fn push(file: u32, flag: bool) -> Node {
    let symbol = SYMBOL;
    Node::Push { file, symbol, flag }
}

fn pop(file: u32, flag: bool) -> Node {
    let symbol = SYMBOL;
    Node::Pop { file, symbol, flag }
}

/// Of file 0 and no reference, with this scope attached.
fn push_scoped(scope: u32) -> Node {
    Node::PushScoped {
        file: 0,
        symbol: SCOPED,
        scope,
        flag: false,
    }
}

/// Of file 0 and no definition.
fn pop_scoped() -> Node {
    Node::PopScoped {
        file: 0,
        symbol: SCOPED,
        flag: false,
    }
}

fn add(graph: &mut Graph, node: Node) -> u32 {
    graph.nodes.push(node);
    graph.nodes.len() as u32 - 1
}

fn join(graph: &mut Graph, source: u32, target: u32, precedence: i32) {
    graph.edges.push(Some(Edge {
        source,
        target,
        precedence,
    }));
}

/// A node behind the last one, and an edge to it.
fn follow(graph: &mut Graph, node: Node) {
    let last = graph.nodes.len() as u32 - 1;
    let number = add(graph, node);
    join(graph, last, number, 0);
}

/// A length about the bound, sometimes far below it.
fn about_bound(random: &mut Random) -> usize {
    if random.percent(20) {
        return random.within(1, 40);
    }
    random.within(MOST_EDGES - 3, MOST_EDGES + 4)
}

/// Reference, scopes in a row, definition; a few edges beside the row double its
/// paths, and a few of the scopes are exported so that it falls into partial paths.
pub fn chain(random: &mut Random) -> Graph {
    let mut graph = start(2);
    let length = about_bound(random);
    let crossing = random.below(2 * length);
    add(&mut graph, push(0, true));
    let mut file = 0;
    for place in 1..length {
        if place == crossing {
            // The row goes on in the other file, by way of root.
            let last = graph.nodes.len() as u32 - 1;
            join(&mut graph, last, ROOT, 0);
            file = 1;
            let number = add(&mut graph, scope(file, true));
            join(&mut graph, ROOT, number, 0);
        } else {
            follow(&mut graph, scope(file, random.percent(2)));
        }
    }
    follow(&mut graph, pop(file, true));
    for _ in 0..random.below(4) {
        beside(random, &mut graph);
    }
    graph
}

/// One more edge: a double, one to the end, or one from the end.
fn beside(random: &mut Random, graph: &mut Graph) {
    let last = graph.nodes.len() as u32 - 1;
    let any = random.within(2, last as usize) as u32;
    let level = precedence(random);
    let (source, target) = match random.below(4) {
        0 => (any, last),
        1 => (last, any),
        2 => (last, last),
        _ => {
            let edge = *random.one_of(&graph.edges);
            edge.map_or((ROOT, ROOT), |edge| (edge.source, edge.target))
        }
    };
    if graph.may_join(source, target) {
        join(graph, source, target, level);
    }
}

/// As many pops as pushes: the deepest symbol stacks. Some symbols have a scope
/// attached, and are popped with it.
pub fn tower(random: &mut Random) -> Graph {
    let mut graph = start(1);
    let is_low = random.percent(30);
    let height = if is_low {
        random.within(1, 20)
    } else {
        random.within(28, 33)
    };
    let attached = add(&mut graph, scope(0, true));
    add(&mut graph, push(0, true));
    let chance = *random.one_of(&[0, 20, 50]);
    let scoped: Vec<bool> = (0..height).map(|_| random.percent(chance)).collect();
    for &is_scoped in &scoped {
        let plain = push(0, false);
        follow(
            &mut graph,
            if is_scoped {
                push_scoped(attached)
            } else {
                plain
            },
        );
    }
    for &is_scoped in scoped.iter().rev() {
        let plain = pop(0, false);
        follow(&mut graph, if is_scoped { pop_scoped() } else { plain });
    }
    if random.percent(80) {
        follow(&mut graph, Node::DropScopes { file: 0 });
    }
    follow(&mut graph, pop(0, true));
    if random.percent(30) {
        beside(random, &mut graph);
    }
    graph
}

/// Each rung attaches one scope more; then jump takes them off one by one.
pub fn ladder(random: &mut Random) -> Graph {
    let mut graph = start(1);
    let (least, most) = *random.one_of(&[(1, 8), (18, 31)]);
    let rungs = random.within(least, most);
    let scopes: Vec<u32> = (0..rungs)
        .map(|_| add(&mut graph, scope(0, true)))
        .collect();
    add(&mut graph, push(0, true));
    for &attached in &scopes {
        follow(&mut graph, push_scoped(attached));
        follow(&mut graph, pop_scoped());
    }
    let last = graph.nodes.len() as u32 - 1;
    join(&mut graph, last, JUMP, 0);
    let end = add(&mut graph, pop(0, true));
    for (place, &number) in scopes.iter().enumerate() {
        let target = if place == 0 { end } else { JUMP };
        join(&mut graph, number, target, precedence(random));
    }
    if random.percent(40) {
        let drop = add(&mut graph, Node::DropScopes { file: 0 });
        let from = *random.one_of(&scopes);
        join(&mut graph, from, drop, precedence(random));
        join(&mut graph, drop, end, 0);
    }
    graph
}

/// Many doubles of two or three edges: many waiting and many complete paths, of
/// which some shadow others.
pub fn fan(random: &mut Random) -> Graph {
    let mut graph = start(1);
    let mut last = add(&mut graph, push(0, true));
    for _ in 0..random.within(1, 2) {
        let next = add(&mut graph, scope(0, random.percent(50)));
        doubles(random, &mut graph, last, next);
        last = next;
    }
    let end = add(&mut graph, pop(0, true));
    doubles(random, &mut graph, last, end);
    if random.percent(30) {
        join(&mut graph, end, last, 0);
    }
    graph
}

fn doubles(random: &mut Random, graph: &mut Graph, source: u32, target: u32) {
    for _ in 0..random.within(1, 6) {
        join(graph, source, target, precedence(random));
    }
}

/// References and definitions of several symbols about one scope: each reference
/// meets every definition, and its own symbol once.
pub fn namesakes(random: &mut Random) -> Graph {
    let mut graph = start(1);
    let between = add(&mut graph, scope(0, true));
    let (file, flag) = (0, true);
    for symbol in SYMBOL..SYMBOL + random.within(2, 4) as u64 {
        let reference = add(&mut graph, Node::Push { file, symbol, flag });
        let definition = add(&mut graph, Node::Pop { file, symbol, flag });
        join(&mut graph, reference, between, precedence(random));
        join(&mut graph, between, definition, precedence(random));
    }
    graph
}

/// As many files, nodes and edges as an image may have, in rows of three nodes;
/// the last edges are doubles, or removed.
pub fn largest(random: &mut Random) -> Graph {
    let mut graph = start(MOST_FILES);
    while graph.nodes.len() + 3 <= MOST_NODES {
        let file = (graph.nodes.len() / 3 % MOST_FILES) as u32;
        let reference = add(&mut graph, push(file, true));
        let between = add(&mut graph, scope(file, true));
        let end = add(&mut graph, pop(file, true));
        join(&mut graph, reference, between, precedence(random));
        join(&mut graph, between, end, precedence(random));
    }
    while graph.nodes.len() < MOST_NODES {
        graph.nodes.push(Node::Removed);
    }
    while graph.edges.len() < MOST_GRAPH_EDGES {
        let double = *random.one_of(&graph.edges);
        graph.edges.push(double.filter(|_| random.percent(90)));
    }
    graph
}

/// An image of about so many bytes, which is some about the bound of a version.
/// Nearly all of its nodes are push-scoped, and removed ones fill it up.
pub fn brim(random: &mut Random, version: Version) -> Graph {
    let mut graph = start(1);
    graph.version = version;
    let attached = add(&mut graph, scope(0, true));
    for _ in 0..MOST_GRAPH_EDGES {
        join(&mut graph, attached, attached, precedence(random));
    }
    let size = Version::Wide.longest() - 8 + random.below(17);
    // In version 2: the image so far, records of a push-scoped and of a removed node.
    let (record, removed) = (15, 2);
    let mut length = Graph {
        version: Version::Wide,
        ..graph.clone()
    }
    .image()
    .len();
    while length + record <= size {
        graph.nodes.push(push_scoped(attached));
        length += record;
    }
    while length + removed <= size {
        graph.nodes.push(Node::Removed);
        length += removed;
    }
    graph
}

/// Names that meet at root, and edges of no file there (document 02, order 5): a plain
/// name over root; one whose scope is taken where an edge leads from root to jump.
/// Other edges at root and jump have one end in a file.
pub fn aliased(random: &mut Random) -> Graph {
    let files = random.within(1, 3);
    let mut graph = start(files);
    let file = |random: &mut Random| random.below(files) as u32;
    let (here, there) = (file(random), file(random));
    let name = add(&mut graph, push(here, true));
    let target = add(&mut graph, pop(there, true));
    join(&mut graph, name, ROOT, precedence(random));
    join(&mut graph, ROOT, target, precedence(random));
    if random.percent(70) {
        add_scoped_name(random, &mut graph);
    }
    if random.percent(60) {
        beside_root(random, &mut graph, files);
    }
    let loops = *random.one_of(&[0, 1, 1, 1, 1, 2, 2, 2, 3, 3, 4, 5]);
    let jumps = *random.one_of(&[0, 1, 1, 2]);
    for target in [vec![ROOT; loops], vec![JUMP; jumps]].concat() {
        join(&mut graph, ROOT, target, precedence(random));
    }
    shuffle(random, &mut graph.edges);
    if random.percent(20) {
        let place = random.below(graph.edges.len());
        graph.edges[place] = None;
    }
    graph
}

/// A reference of file 0, a push with a scope, the pop behind or before root that
/// takes its scope off, and the definition behind that scope.
fn add_scoped_name(random: &mut Random, graph: &mut Graph) {
    let scope = add(graph, scope(0, true));
    let name = add(graph, push(0, true));
    let target = add(graph, pop(0, true));
    let with_scope = add(graph, push_scoped(scope));
    let taken = add(graph, pop_scoped());
    let first = if random.percent(30) { ROOT } else { taken };
    for (source, target) in [
        (name, with_scope),
        (with_scope, first),
        (taken, ROOT),
        (scope, target),
    ] {
        join(graph, source, target, precedence(random));
    }
    if first == ROOT {
        join(graph, ROOT, taken, precedence(random));
    }
}

/// An exported scope, and one or two edges between it and root or jump.
fn beside_root(random: &mut Random, graph: &mut Graph, files: usize) {
    let node = add(graph, scope(random.below(files) as u32, true));
    for _ in 0..random.within(1, 2) {
        let ends = [(ROOT, node), (node, ROOT), (node, JUMP), (node, node)];
        let (source, target) = *random.one_of(&ends);
        join(graph, source, target, precedence(random));
    }
}

/// Names and what they may meet behind root, in several files (document 02, order 8): a
/// search that comes to root passes over all that hidden files have there, be it something
/// that the path rules take or something that they reject.
pub fn crossing(random: &mut Random) -> Graph {
    let files = random.within(2, 4);
    let mut graph = start(files);
    for file in 0..files as u32 {
        add_crossing_file(random, &mut graph, file);
    }
    shuffle(random, &mut graph.edges);
    graph
}

/// File 0 has a name, others may have one.
fn add_crossing_file(random: &mut Random, graph: &mut Graph, file: u32) {
    if file == 0 || random.percent(40) {
        let name = add(graph, push(file, true));
        join(graph, name, ROOT, precedence(random));
    }
    for _ in 0..random.within(1, 3) {
        behind_root(random, graph, file);
    }
}

/// A node that root leads to; few lead back, as each way back multiplies the paths.
fn behind_root(random: &mut Random, graph: &mut Graph, file: u32) {
    let symbol = *random.one_of(&[SYMBOL, SCOPED]);
    let flag = random.percent(80);
    let node = match random.below(6) {
        0 => scope(file, true),
        1 => Node::PopScoped { file, symbol, flag },
        2 => Node::DropScopes { file },
        _ => Node::Pop { file, symbol, flag },
    };
    let number = add(graph, node);
    join(graph, ROOT, number, precedence(random));
    if random.percent(20) {
        join(graph, number, ROOT, precedence(random));
    }
}

/// In any order: the set's edges have any numbers.
fn shuffle<T>(random: &mut Random, items: &mut [T]) {
    for last in (1..items.len()).rev() {
        items.swap(last, random.below(last + 1));
    }
}

/// No file: only root and jump live, and edges join these.
pub fn fileless(random: &mut Random) -> Graph {
    let mut graph = start(0);
    for _ in 0..random.below(3) {
        graph.nodes.push(Node::Removed);
    }
    for _ in 0..random.below(5) {
        let target = *random.one_of(&[ROOT, JUMP]);
        join(&mut graph, ROOT, target, precedence(random));
    }
    graph
}
