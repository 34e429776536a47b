//! Images and databases in document 01's bytes and words, its small graphs, and
//! areas to search them in. Each file of tests uses some of it.
#![allow(dead_code)]

pub mod plain;

use pozhdaghi::{Refusal, Request, DATABASE_HEAD, RECORD_WORDS, SLOT_WORDS};

/// One node's record without its count byte.
pub type Record = Vec<u8>;

/// An edge: source, target, precedence.
pub type Edge = (u16, u16, i32);

/// Nodes of file 0: references, which push, definitions, which pop, a scoped push
/// that is no reference and a scoped pop that is no definition, scopes.
pub fn reference(symbol: u32) -> Record {
    with_symbol(4, &symbol.to_be_bytes(), &[1])
}

pub fn definition(symbol: u32) -> Record {
    with_symbol(5, &symbol.to_be_bytes(), &[1])
}

pub fn scoped_reference(symbol: u32, scope: u8) -> Record {
    with_symbol(6, &symbol.to_be_bytes(), &[0, scope, 1])
}

pub fn scoped_push(symbol: u32, scope: u8) -> Record {
    with_symbol(6, &symbol.to_be_bytes(), &[0, scope, 0])
}

pub fn scoped_definition(symbol: u32) -> Record {
    with_symbol(7, &symbol.to_be_bytes(), &[1])
}

pub fn scoped_pop(symbol: u32) -> Record {
    with_symbol(7, &symbol.to_be_bytes(), &[0])
}

fn with_symbol(kind: u8, symbol: &[u8], rest: &[u8]) -> Record {
    [&[kind, 0, 0], symbol, rest].concat()
}

/// The same nodes with symbols of 64 bits, and images of version 2 (document 02,
/// order 3).
pub mod wide {
    use super::{live, versioned, with_symbol, Edge, Record};

    pub fn reference(symbol: u64) -> Record {
        with_symbol(4, &symbol.to_be_bytes(), &[1])
    }

    pub fn definition(symbol: u64) -> Record {
        with_symbol(5, &symbol.to_be_bytes(), &[1])
    }

    pub fn scoped_reference(symbol: u64, scope: u8) -> Record {
        with_symbol(6, &symbol.to_be_bytes(), &[0, scope, 1])
    }

    pub fn scoped_push(symbol: u64, scope: u8) -> Record {
        with_symbol(6, &symbol.to_be_bytes(), &[0, scope, 0])
    }

    pub fn scoped_definition(symbol: u64) -> Record {
        with_symbol(7, &symbol.to_be_bytes(), &[1])
    }

    pub fn image(nodes: &[Record], edges: &[Edge]) -> Vec<u8> {
        let edges: Vec<Record> = edges.iter().map(live).collect();
        versioned(2, 1, nodes, &edges)
    }
}

pub fn scope(exported: bool) -> Record {
    vec![3, 0, 0, u8::from(exported)]
}

/// The image of one file with root, jump, these nodes from number 2 on, and
/// these edges.
pub fn image(nodes: &[Record], edges: &[Edge]) -> Vec<u8> {
    image_of(1, nodes, edges)
}

/// The same with so many files, of which the nodes use file 0.
pub fn image_of(files: u16, nodes: &[Record], edges: &[Edge]) -> Vec<u8> {
    let edges: Vec<Record> = edges.iter().map(live).collect();
    versioned(1, files, nodes, &edges)
}

/// A live edge's record without its count byte.
pub fn live(&(source, target, precedence): &Edge) -> Record {
    let mut record = vec![1];
    record.extend(source.to_be_bytes());
    record.extend(target.to_be_bytes());
    record.extend(precedence.to_be_bytes());
    record
}

/// An image of a version, from the records of its nodes and edges.
pub fn versioned(version: u8, files: u16, nodes: &[Record], edges: &[Record]) -> Vec<u8> {
    let root_and_jump = [vec![1], vec![2]];
    let mut body = files.to_be_bytes().to_vec();
    body.extend((2 + nodes.len() as u16).to_be_bytes());
    body.extend((edges.len() as u16).to_be_bytes());
    for record in root_and_jump.iter().chain(nodes).chain(edges) {
        body.push(record.len() as u8);
        body.extend(record);
    }
    with_head(version, &body)
}

/// The version and the length before what follows them.
pub fn with_head(version: u8, body: &[u8]) -> Vec<u8> {
    let mut bytes = vec![version];
    bytes.extend((body.len() as u32).to_be_bytes());
    bytes.extend(body);
    bytes
}

pub fn graph_a() -> Vec<u8> {
    let nodes = [reference(7), scope(true), definition(7), definition(8)];
    image(&nodes, &[(2, 3, 0), (3, 4, 0), (3, 5, 1)])
}

pub fn graph_b() -> Vec<u8> {
    let nodes = [reference(7), scope(true), definition(7)];
    image(&nodes, &[(2, 3, 0), (2, 3, 1), (3, 4, 0), (3, 4, 1)])
}

pub fn graph_c() -> Vec<u8> {
    image(
        &[reference(7), definition(7)],
        &[(2, 0, 0), (0, 0, 0), (0, 3, 0)],
    )
}

/// A reference, and so many edges in a row from it over scopes, none of them
/// exported.
pub fn chain(edges: u16) -> Vec<u8> {
    let mut nodes = vec![reference(7)];
    nodes.resize(1 + edges as usize, scope(false));
    let row: Vec<Edge> = (2..2 + edges).map(|node| (node, node + 1, 0)).collect();
    image(&nodes, &row)
}

/// An area of so many slots and some words behind them, none of them 0.
pub fn slots(count: usize) -> Vec<u32> {
    vec![7; count * SLOT_WORDS + 5]
}

pub fn is_zero(words: &[u32]) -> bool {
    words.iter().all(|&word| word == 0)
}

/// A result area of so many words: for each path its edge count, its edges and
/// zeros up to the end of its slot; zeros behind the last.
pub fn area<P: AsRef<[u32]>>(paths: &[P], words: usize) -> Vec<u32> {
    let mut area = Vec::new();
    for (number, path) in paths.iter().enumerate() {
        area.push(path.as_ref().len() as u32);
        area.extend(path.as_ref());
        area.resize(SLOT_WORDS * (number + 1), 0);
    }
    area.resize(words, 0);
    area
}

/// What stands in the place of the file in a slot of the alias set, whose first word
/// is 65,535.
pub const NOBODY: u32 = 65_534;

/// A partial path: file, start, end, edges; none is a dead slot.
pub type Slot<'a> = Option<(u32, u32, u32, &'a [u32])>;

/// The words of a database of this N and F with room for so many slots: slots
/// used, N, F; each slot's file + 1, start, end, edge count, edges and zeros up
/// to its end; zeros behind the last.
pub fn database(nodes: u32, files: u32, slots: &[Slot], room: usize) -> Vec<u32> {
    database_of(RECORD_WORDS, nodes, files, slots, room)
}

/// The same with slots of so many words.
pub fn database_of(size: usize, nodes: u32, files: u32, slots: &[Slot], room: usize) -> Vec<u32> {
    let mut words = vec![slots.len() as u32, nodes, files];
    for (number, slot) in slots.iter().enumerate() {
        if let &Some((file, start, end, edges)) = slot {
            words.extend([file + 1, start, end, edges.len() as u32]);
            words.extend(edges);
        }
        words.resize(DATABASE_HEAD + size * (number + 1), 0);
    }
    words.resize(DATABASE_HEAD + size * room, 0);
    words
}

/// Where a slot of a database begins.
pub fn place(number: usize) -> usize {
    DATABASE_HEAD + RECORD_WORDS * number
}

/// Words for so many slots, none of them 0.
pub fn blank(room: usize) -> Vec<u32> {
    vec![7; place(room)]
}

/// A database with room for 16 slots in which file 0 was replaced.
pub fn filed(image: &[u8]) -> Vec<u32> {
    let mut words = blank(16);
    let request = Request::default();
    plain::fresh(image, &mut words).expect("not refused");
    plain::replace_file(image, 0, &request, &mut slots(16), &mut words).expect("not refused");
    words
}

/// A refusal by its number and the values that document 01 returns with it; the package
/// has a name for it.
pub fn refusal(number: u64, values: &[u64]) -> Refusal {
    let at = |place| values.get(place).copied().unwrap_or(0);
    let refusal = Refusal::from_numbers(number, [at(0), at(1)]);
    assert!(!matches!(refusal, Refusal::Unknown { .. }));
    refusal
}

/// Numbers that look drawn: each the high part of a product.
pub struct Drawn(pub u64);

impl Drawn {
    pub fn below(&mut self, limit: u64) -> u64 {
        self.0 = self
            .0
            .wrapping_mul(6_364_136_223_846_793_005)
            .wrapping_add(1_442_695_040_888_963_407);
        (self.0 >> 33) % limit
    }

    pub fn one_of<T: Copy>(&mut self, items: &[T]) -> T {
        items[self.below(items.len() as u64) as usize]
    }
}
