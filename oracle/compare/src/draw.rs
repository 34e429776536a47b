//! Graphs drawn at random: every accepted image is possible in kind, small ones
//! with many agreeing symbols are frequent.

use crate::graph::{Edge, Graph, Node, Version};
use crate::path::Path;
use crate::random::Random;
use crate::shapes;

/// An accepted graph, of version 2 half of the time.
pub fn graph(random: &mut Random) -> Graph {
    let mut graph = narrow(random);
    if random.percent(50) {
        widen(random, &mut graph);
    }
    graph
}

/// One with edges that belong to no file, likewise; seldom with no file at all.
pub fn aliased(random: &mut Random) -> Graph {
    let mut graph = if random.percent(8) {
        shapes::fileless(random)
    } else {
        shapes::aliased(random)
    };
    if random.percent(50) {
        widen(random, &mut graph);
    }
    graph
}

/// One whose files meet at root, likewise.
pub fn crossing(random: &mut Random) -> Graph {
    let mut graph = shapes::crossing(random);
    if random.percent(50) {
        widen(random, &mut graph);
    }
    graph
}

/// Symbols of 64 bits: those of a row differ in the high half alone, in the low half
/// alone, about the bounds of both widths, and all of them fit 32 bits.
const WIDE_SYMBOLS: [[u64; 4]; 4] = [
    [7, 1 << 32 | 7, 1 << 63 | 7, 0xFFFF_FFFF << 32 | 7],
    [u64::MAX, u64::MAX - 1, u64::MAX - (1 << 31), u64::MAX << 32],
    [0xFFFF_FFFF, 1 << 32, u64::MAX, 0],
    [0, 7, 1 << 31, 0xFFFF_FFFF],
];

/// Version 2 with the symbols of a row, from any place of it on, for the graph's own;
/// different ones stay different.
pub fn widen(random: &mut Random, graph: &mut Graph) {
    graph.version = Version::Wide;
    let own = graph.symbols();
    let row = WIDE_SYMBOLS[random.weighted(&[4, 1, 1, 2])];
    let first = random.below(row.len());
    assert!(own.len() <= row.len(), "there are as many names as symbols");
    for symbol in graph.nodes.iter_mut().filter_map(Node::symbol_mut) {
        let place = own.iter().take_while(|&other| other != symbol).count();
        *symbol = row[(first + place) % row.len()];
    }
}

/// One of version 1.
fn narrow(random: &mut Random) -> Graph {
    if random.below(1_500) == 0 {
        return shapes::largest(random);
    }
    match random.weighted(&[64, 17, 5, 6, 6, 1, 6, 6, 8]) {
        0 => mixed(random),
        1 => shapes::chain(random),
        2 => shapes::tower(random),
        3 => shapes::ladder(random),
        4 => shapes::fan(random),
        5 => shapes::fileless(random),
        6 => shapes::aliased(random),
        7 => shapes::namesakes(random),
        _ => shapes::crossing(random),
    }
}

/// Every kind of node, edges drawn blindly or along routes that the path rules allow.
fn mixed(random: &mut Random) -> Graph {
    let most = *random.one_of(&[3, 6, 6, 10, 16, 16, 24, 40]);
    let files = if random.percent(2) {
        256
    } else {
        1 + random.low(4)
    };
    let symbols = *random.one_of(&[1, 2, 2, 3]);
    let mut graph = Graph {
        version: Version::Narrow,
        files,
        nodes: vec![Node::Root, Node::Jump],
        edges: vec![],
    };
    for _ in 0..random.within(1, most) {
        graph.nodes.push(node(random, files, symbols));
    }
    if graph.references().is_empty() && random.percent(90) {
        add_name(random, &mut graph, symbols);
    }
    attach(random, &mut graph);
    let edges = random.within(0, most + 6);
    let chance = *random.one_of(&[5, 30, 30, 60]);
    while graph.edges.len() < edges {
        if random.percent(chance) && !graph.references().is_empty() {
            add_route(random, &mut graph);
        } else {
            let drawn = edge(random, &graph);
            graph.edges.push(drawn);
        }
    }
    graph
}

/// A reference and its definition: without a reference nearly every call would
/// be refused at once.
fn add_name(random: &mut Random, graph: &mut Graph, symbols: usize) {
    let file = random.low(graph.files) as u32;
    let symbol = symbol(random, symbols);
    let flag = true;
    graph.nodes.push(Node::Push { file, symbol, flag });
    graph.nodes.push(Node::Pop { file, symbol, flag });
}

/// Symbols that differ in one byte only, so that a byte left out would be seen.
fn symbol(random: &mut Random, symbols: usize) -> u64 {
    [7, 8, 7 << 24 | 7, 0xFFFF_FFFF][random.low(symbols)]
}

/// A node of any kind but root and jump; its scope is chosen later. Exported
/// scopes, references and definitions end paths, hence are more frequent.
fn node(random: &mut Random, files: usize, symbols: usize) -> Node {
    let file = random.low(files) as u32;
    let symbol = symbol(random, symbols);
    let flag = random.percent(70);
    match random.weighted(&[1, 4, 4, 5, 3, 3, 1]) {
        0 => Node::Removed,
        1 => Node::Scope { file, flag },
        2 => Node::Push { file, symbol, flag },
        3 => Node::Pop { file, symbol, flag },
        4 => Node::PushScoped {
            file,
            symbol,
            scope: 0,
            flag,
        },
        5 => Node::PopScoped { file, symbol, flag },
        _ => Node::DropScopes { file },
    }
}

/// Gives each push-scoped node an exported scope of its file, before or behind
/// it; without one it becomes a push.
fn attach(random: &mut Random, graph: &mut Graph) {
    for number in 0..graph.nodes.len() {
        if let Node::PushScoped {
            file, symbol, flag, ..
        } = graph.nodes[number]
        {
            let fits = |node: Node| node.is_exported_scope() && node.file() == Some(file);
            let scopes = graph.nodes_where(fits);
            graph.nodes[number] = if scopes.is_empty() {
                Node::Push { file, symbol, flag }
            } else {
                Node::PushScoped {
                    file,
                    symbol,
                    scope: *random.one_of(&scopes),
                    flag,
                }
            };
        }
    }
}

/// Mostly 0, else small of either sign, seldom an extreme.
pub fn precedence(random: &mut Random) -> i32 {
    match random.weighted(&[6, 5, 1]) {
        0 => 0,
        1 => random.below(7) as i32 - 3,
        _ => *random.one_of(&[i32::MIN, i32::MAX, i32::MIN + 1, 1 << 16, -(1 << 24)]),
    }
}

/// A removed edge, a double of an earlier one, or a new one.
fn edge(random: &mut Random, graph: &Graph) -> Option<Edge> {
    if random.percent(8) {
        return None;
    }
    let precedence = precedence(random);
    let live: Vec<Edge> = graph.edges.iter().flatten().copied().collect();
    if !live.is_empty() && random.percent(12) {
        return Some(Edge {
            precedence,
            ..*random.one_of(&live)
        });
    }
    let sources = graph.nodes_where(|node| !matches!(node, Node::Removed | Node::Jump));
    let source = *random.one_of(&sources);
    let target = *random.one_of(&targets(graph, source));
    Some(Edge {
        source,
        target,
        precedence,
    })
}

/// Where an edge from this node may lead; root is always one.
fn targets(graph: &Graph, source: u32) -> Vec<u32> {
    (0..graph.nodes.len() as u32)
        .filter(|&target| graph.may_join(source, target))
        .collect()
}

/// Adds the edges of a route that the path rules allow from a reference. Drawn
/// blindly, few edges would lead to a pop that meets its symbol, and hardly any
/// to jump with a scope to take. A route ends where both stacks are empty.
fn add_route(random: &mut Random, graph: &mut Graph) {
    let reference = *random.one_of(&graph.references());
    let Ok(mut path) = Path::from_reference(graph, reference) else {
        return;
    };
    for _ in 0..8 {
        let ways = ways(graph, &path);
        if ways.is_empty() || path.is_spent() {
            return;
        }
        let weights: Vec<usize> = ways
            .iter()
            .map(|(target, _)| weight(graph, *target))
            .collect();
        let (target, longer) = ways[random.weighted(&weights)].clone();
        graph.edges.push(Some(Edge {
            source: path.end,
            target,
            precedence: precedence(random),
        }));
        path = longer;
    }
}

/// Every node that the path may go on to by a new edge, and the path then.
fn ways(graph: &Graph, path: &Path) -> Vec<(u32, Path)> {
    let number = graph.edges.len() as u32;
    let mut tried = graph.clone();
    let mut ways = Vec::new();
    for target in targets(graph, path.end) {
        tried.edges.truncate(number as usize);
        tried.edges.push(Some(Edge {
            source: path.end,
            target,
            precedence: 0,
        }));
        if let Ok(longer) = path.append(&tried, number) {
            ways.push((target, longer));
        }
    }
    ways
}

/// How much sooner than another node a route goes on to this one.
fn weight(graph: &Graph, target: u32) -> usize {
    match graph.nodes[target as usize] {
        Node::Pop { .. } | Node::PushScoped { .. } => 3,
        Node::PopScoped { .. } | Node::Jump => 8,
        _ => 1,
    }
}

/// Another state of the same graph, for databases that an older one has filed:
/// fewer or more nodes, files and edges, some edges removed.
pub fn variant(random: &mut Random, graph: &Graph) -> Graph {
    let mut other = graph.clone();
    match random.below(5) {
        0 => other.nodes.truncate(random.within(2, graph.nodes.len())),
        1 => other.edges.truncate(random.within(0, graph.edges.len())),
        2 => {
            let file = random.below(graph.files.max(1)) as u32;
            let added = random.within(1, 3);
            if graph.files > 0 {
                other
                    .nodes
                    .extend(vec![Node::Scope { file, flag: true }; added]);
            }
        }
        3 => other.files = (graph.files + random.below(3)).saturating_sub(1).min(256),
        _ => {}
    }
    for edge in &mut other.edges {
        if random.percent(10) {
            *edge = None;
        }
    }
    repair(&mut other);
    other
}

/// Removes what an accepted graph must not have.
pub fn repair(graph: &mut Graph) {
    let files = graph.files;
    for node in &mut graph.nodes {
        if node.file().is_some_and(|file| file as usize >= files) {
            *node = Node::Removed;
        }
    }
    for number in 0..graph.nodes.len() {
        if let Node::PushScoped { file, scope, .. } = graph.nodes[number]
            && !graph.may_attach(file, scope)
        {
            graph.nodes[number] = Node::Removed;
        }
    }
    for number in 0..graph.edges.len() {
        let joins = |edge: &Edge| graph.may_join(edge.source, edge.target);
        graph.edges[number] = graph.edges[number].filter(joins);
    }
}
