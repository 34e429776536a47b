//! Document 02, order 3: both versions of an image, and the two rewritings. Bytes are
//! compared with images that the tests write themselves; areas are lent with no byte
//! 0. The numbers follow from the order's sentences.

mod common;

use common::{
    blank, graph_a, image, live, plain, plain::Counts, reference, refusal, scope, slots, versioned,
    wide, with_head, Drawn, Edge, Record,
};
use pozhdaghi::{Limits, Refusal, Request, Visible, LONGEST_IMAGE};

type Rewrite = fn(&[u8], &mut [u8]) -> Result<usize, Refusal>;

/// The bytes of the rewritten image, or the refusal, in an area of so many bytes.
/// Behind the image, and in all of the area of a refused call, there are zeros.
fn rewritten(call: Rewrite, image: &[u8], room: usize) -> Result<Vec<u8>, Refusal> {
    let mut area = vec![7; room];
    let answer = call(image, &mut area);
    let behind = area.split_off(answer.unwrap_or(0));
    assert!(behind.iter().all(|&byte| byte == 0));
    answer.map(|_| area)
}

fn widened(image: &[u8], room: usize) -> Result<Vec<u8>, Refusal> {
    rewritten(plain::widen, image, room)
}

fn narrowed(image: &[u8], room: usize) -> Result<Vec<u8>, Refusal> {
    rewritten(plain::narrow, image, room)
}

/// A node: its kind, the file, symbol, scope and flag as far as the kind has them.
#[derive(Clone, Copy)]
struct Node {
    kind: u8,
    file: u16,
    symbol: u64,
    scope: u16,
    flag: u8,
}

impl Node {
    fn has_symbol(self) -> bool {
        (4..=7).contains(&self.kind)
    }

    /// The record in a version, without its count byte.
    fn record(self, version: u8) -> Record {
        let mut record = vec![self.kind];
        if self.kind >= 3 {
            record.extend(self.file.to_be_bytes());
        }
        match version {
            _ if !self.has_symbol() => {}
            1 => record.extend((self.symbol as u32).to_be_bytes()),
            _ => record.extend(self.symbol.to_be_bytes()),
        }
        if self.kind == 6 {
            record.extend(self.scope.to_be_bytes());
        }
        if self.kind == 3 || self.has_symbol() {
            record.push(self.flag);
        }
        record
    }
}

/// Two files; nodes 2 and 3 are exported scopes of them.
struct Graph {
    nodes: Vec<Node>,
    edges: Vec<Record>,
}

impl Graph {
    fn image(&self, version: u8) -> Vec<u8> {
        let nodes: Vec<Record> = self.nodes.iter().map(|node| node.record(version)).collect();
        versioned(version, 2, &nodes, &self.edges)
    }

    /// The places of the records with a symbol in version 2, and whether it fits 32
    /// bits.
    fn symbols(&self) -> Vec<(usize, bool)> {
        // root and jump stand behind eleven bytes
        let mut at = 11 + 2 + 2;
        let mut found = Vec::new();
        for node in &self.nodes {
            if node.has_symbol() {
                found.push((at, node.symbol >> 32 == 0));
            }
            at += 1 + node.record(2).len();
        }
        found
    }
}

impl Drawn {
    /// A reference, its definition and another one, nodes 4 to 6, with the edges between
    /// them; then every kind of record, with any of these symbols.
    fn graph(&mut self, symbols: &[u64]) -> Graph {
        let named = |kind, symbol, file| Node {
            kind,
            file,
            symbol,
            scope: 2 + file,
            flag: 1,
        };
        let (name, other) = (self.one_of(symbols), self.one_of(symbols));
        let mut nodes = vec![named(3, 0, 0), named(3, 0, 1)];
        nodes.extend(
            [(4, name), (5, name), (5, other)].map(|(kind, symbol)| named(kind, symbol, 0)),
        );
        for _ in 0..self.below(6) {
            let kind = self.one_of(&[0, 3, 4, 4, 5, 5, 6, 7, 8]);
            let flag = self.below(4).min(1) as u8;
            let node = named(kind, self.one_of(symbols), self.below(2) as u16);
            nodes.push(Node { flag, ..node });
        }
        let mut edges = [(4, 2, 0), (2, 5, 0), (2, 6, 1)]
            .map(|edge| live(&edge))
            .to_vec();
        edges.extend((0..self.below(9)).map(|_| self.edge(&nodes)));
        Graph { nodes, edges }
    }

    fn edge(&mut self, nodes: &[Node]) -> Record {
        let file = self.below(2) as u16;
        let within = |&(_, node): &(usize, &Node)| node.kind != 0 && node.file == file;
        let numbered = nodes.iter().enumerate().filter(within);
        let ends: Vec<u16> = numbered.map(|(place, _)| 2 + place as u16).collect();
        let (source, target) = (self.one_of(&ends), self.one_of(&ends));
        let precedence = self.below(5) as i32 - 2;
        match self.below(9) {
            0 => vec![0],
            1 => live(&(source, 0, precedence)),
            2 => live(&(0, target, precedence)),
            3 => live(&(source, 1, precedence)),
            _ => live(&(source, target, precedence)),
        }
    }
}

/// All fit 32 bits.
const FITTING: [u64; 5] = [0, 7, 8, 1 << 31, 0xFFFF_FFFF];
/// Some do not, some of them by their lowest or highest bit.
const ANY: [u64; 8] = [
    7,
    8,
    0xFFFF_FFFF,
    1 << 32,
    1 << 32 | 7,
    1 << 63,
    u64::MAX,
    0,
];

#[test]
fn there_and_back() {
    let mut drawn = Drawn(1);
    for _ in 0..600 {
        let graph = drawn.graph(&FITTING);
        let (one, two) = (graph.image(1), graph.image(2));
        assert!(plain::check(&one).is_ok());
        assert_eq!(plain::check(&two), plain::check(&one));
        for more in [0, 1, 60] {
            assert_eq!(widened(&one, two.len() + more), Ok(two.clone()));
            assert_eq!(narrowed(&two, one.len() + more), Ok(one.clone()));
        }
        for room in [0, 1, 5, 11, one.len() - 1] {
            assert_eq!(narrowed(&two, room), Err(refusal(32, &[])));
            assert_eq!(widened(&one, room), Err(refusal(32, &[])));
        }
        assert_eq!(widened(&one, two.len() - 1), Err(refusal(32, &[])));
    }
}

/// The way back succeeds exactly when every symbol fits; 38 tells the first record
/// whose symbol does not, and comes before 32.
#[test]
fn symbols_that_do_not_fit() {
    let mut drawn = Drawn(2);
    let mut places = Vec::new();
    for _ in 0..600 {
        let graph = drawn.graph(&ANY);
        let two = graph.image(2);
        assert!(plain::check(&two).is_ok());
        let symbols = graph.symbols();
        let first = symbols.iter().position(|&(_, fits)| !fits);
        let wanted = match first {
            None => Ok(graph.image(1)),
            Some(number) => Err(refusal(38, &[symbols[number].0 as u64])),
        };
        assert_eq!(narrowed(&two, two.len()), wanted);
        if first.is_some() {
            assert_eq!(narrowed(&two, 0), wanted);
            assert_eq!(narrowed(&two, 30), wanted);
        }
        places.push(first);
    }
    // none, the first of the records with a symbol, and later ones; the first two have
    // the same
    for number in [None, Some(0), Some(2), Some(3), Some(4)] {
        assert!(places.contains(&number));
    }
}

/// In each kind of record.
#[test]
fn bounds_of_32_bits() {
    let records: [fn(u64) -> Record; 4] = [
        wide::reference,
        wide::definition,
        |symbol| wide::scoped_push(symbol, 2),
        wide::scoped_definition,
    ];
    for record in records {
        let with = |symbol| wide::image(&[scope(true), record(symbol)], &[]);
        for symbol in [0, 0xFFFF_FFFF] {
            let back = narrowed(&with(symbol), 99).expect("it fits");
            assert_eq!(widened(&back, 99), Ok(with(symbol)));
        }
        for symbol in [1 << 32, 1 << 63, u64::MAX] {
            // behind eleven bytes, root, jump and the scope
            assert_eq!(narrowed(&with(symbol), 99), Err(refusal(38, &[20])));
        }
    }
}

/// Bytes that have the right length and nothing else: 3, if they are read so far.
fn zeros(version: u8, size: usize) -> Vec<u8> {
    with_head(version, &vec![0; size - 5])
}

fn changed(image: &[u8], place: usize, byte: u8) -> Vec<u8> {
    let mut image = image.to_vec();
    image[place] = byte;
    image
}

/// What both calls are refused with; an area of any length is zero then.
fn are_refused(image: &[u8], there: Refusal, back: Refusal) {
    for room in [0, 7, 200, LONGEST_IMAGE + 9] {
        assert_eq!(widened(image, room), Err(there));
        assert_eq!(narrowed(image, room), Err(back));
    }
}

/// Size and length, then the version, then what version 1 may have, then the counts.
#[test]
fn refused_heads() {
    let [version, length, counts] = [1, 2, 3].map(|number| refusal(number, &[]));
    let (one, two) = (graph_a(), wide::image(&[wide::reference(7)], &[]));
    for short in [&[][..], &one[..10], &one[..76], &two[..two.len() - 1]] {
        are_refused(short, length, length);
    }
    // an image that is already in the wanted version
    assert_eq!(narrowed(&one, 200), Err(version));
    assert_eq!(widened(&two, 200), Err(version));
    for claimed in [0, 3, 255] {
        are_refused(&changed(&one, 0, claimed), version, version);
        are_refused(&zeros(claimed, 63_500), version, version);
        are_refused(&zeros(claimed, LONGEST_IMAGE), version, version);
        are_refused(&zeros(claimed, LONGEST_IMAGE + 1), length, length);
        // the length before the version, the version before the counts
        are_refused(&changed(&zeros(claimed, 77), 4, 0), length, length);
        are_refused(&zeros(claimed, 11), version, version);
    }
    for size in [11, 63_498, 63_499] {
        are_refused(&zeros(1, size), counts, version);
        are_refused(&zeros(2, size), version, counts);
    }
    for size in [63_500, 65_535, LONGEST_IMAGE] {
        are_refused(&zeros(1, size), length, version);
        are_refused(&zeros(2, size), version, counts);
    }
    for claimed in [1, 2] {
        are_refused(&zeros(claimed, LONGEST_IMAGE + 1), length, length);
        are_refused(&changed(&zeros(claimed, 77), 4, 0), length, length);
    }
}

/// 2 to 5 in the records: before 38 and 32, and never where the version is 1. Of
/// graph A records begin at 11, 13, 15, 24, 29 and 38, its edges at 47, 57 and 67; in
/// version 2 at 15, 28, 33 and 46, its edges at 59, 69 and 79.
#[test]
fn refused_records() {
    let version = refusal(1, &[]);
    let far = wide::image(
        &[
            wide::reference(u64::MAX),
            scope(true),
            wide::definition(7),
            wide::definition(8),
        ],
        &[(2, 3, 0), (3, 4, 0), (3, 5, 1)],
    );
    assert_eq!(far.len(), 89);
    for (place, byte, wanted) in [
        (15, 9, refusal(2, &[])),
        (12, 3, refusal(4, &[11])),
        (23, 2, refusal(4, &[15])),
        (58, 2, refusal(4, &[57])),
        (50, 1, refusal(5, &[47])),
        (72, 6, refusal(5, &[67])),
    ] {
        are_refused(&changed(&graph_a(), place, byte), wanted, version);
    }
    for (place, byte, wanted) in [
        (15, 8, refusal(2, &[])),
        (12, 3, refusal(4, &[11])),
        (27, 2, refusal(4, &[15])),
        (70, 2, refusal(4, &[69])),
        (62, 1, refusal(5, &[59])),
        (84, 6, refusal(5, &[79])),
    ] {
        are_refused(&changed(&far, place, byte), version, wanted);
    }
    // the records of one version under the other's number
    are_refused(&changed(&graph_a(), 0, 2), version, refusal(2, &[]));
    are_refused(&changed(&far, 0, 1), refusal(2, &[]), version);
    are_refused(&far, version, refusal(38, &[15]));
}

/// A scope, push-scoped nodes, the first of them a reference, as many edges as there
/// may be, and removed nodes: so many bytes in version 2.
fn full(version: u8, size: usize) -> Vec<u8> {
    let edges = vec![live(&(0, 0, 0)); 4_096];
    let bare = versioned(2, 1, &[scope(true)], &edges).len();
    // the record of a push-scoped node has 15 bytes, that of a removed one 2
    let odd = (size - bare) / 15 % 2 != (size - bare) % 2;
    let pushes = (size - bare) / 15 - usize::from(odd);
    let removed = (size - bare - 15 * pushes) / 2;
    let mut nodes = vec![scope(true)];
    nodes.extend((0..pushes).map(|place| match (version, place) {
        (1, 0) => common::scoped_reference(7, 2),
        (1, _) => common::scoped_push(7, 2),
        (_, 0) => wide::scoped_reference(7, 2),
        _ => wide::scoped_push(7, 2),
    }));
    nodes.resize(1 + pushes + removed, vec![0]);
    versioned(version, 1, &nodes, &edges)
}

/// 65,536 bytes are an image of version 2, one more is none; what would become longer
/// has no version 2, in no area.
#[test]
fn the_longest_image() {
    for size in [LONGEST_IMAGE - 1, LONGEST_IMAGE] {
        let (one, two) = (full(1, size), full(2, size));
        assert_eq!(two.len(), size);
        let counts = plain::check(&two).expect("accepted");
        assert_eq!((counts.files, counts.edges), (1, 4_096));
        assert_eq!(plain::check(&one), Ok(counts));
        assert_eq!(widened(&one, size), Ok(two.clone()));
        assert_eq!(widened(&one, size + 1), Ok(two.clone()));
        assert_eq!(widened(&one, size - 1), Err(refusal(32, &[])));
        assert_eq!(narrowed(&two, size), Ok(one));
        let request = Request::default();
        let found = plain::direct(
            &two,
            Visible::All,
            3,
            &request,
            &mut slots(1),
            &mut slots(1),
        );
        assert_eq!(found.map(|found| found.statistics.expanded), Ok(1));
    }
    for size in [LONGEST_IMAGE + 1, LONGEST_IMAGE + 2, 71_000] {
        let one = full(1, size);
        assert!(plain::check(&one).is_ok());
        for room in [0, one.len(), size - 1, size, size + 1] {
            assert_eq!(widened(&one, room), Err(refusal(2, &[])));
        }
        assert_eq!(plain::check(&full(2, size)), Err(refusal(2, &[])));
    }
}

/// Sizes as the check of any call sees them.
#[test]
fn sizes() {
    let [version, length, counts] = [1, 2, 3].map(|number| Err(refusal(number, &[])));
    for (claimed, size, wanted) in [
        (1, 63_499, counts),
        (1, 63_500, length),
        (1, LONGEST_IMAGE, length),
        (2, 63_500, counts),
        (2, LONGEST_IMAGE, counts),
        (2, LONGEST_IMAGE + 1, length),
        (3, 63_500, version),
        (3, LONGEST_IMAGE, version),
        (3, LONGEST_IMAGE + 1, length),
    ] {
        let answer: Result<Counts, Refusal> = wanted;
        assert_eq!(plain::check(&zeros(claimed, size)), answer);
    }
}

/// Slots of every area; some searches need more and are refused.
const ROOM: usize = 24;

/// What every call answers and writes on an image, with a limit on the paths that a
/// drawn search may need.
fn all_calls(image: &[u8]) -> Vec<String> {
    let limits = Limits {
        paths: Some(60),
        ..Limits::default()
    };
    let request = Request {
        limits,
        ..Request::default()
    };
    let mut told = Vec::new();
    let mut words = blank(ROOM);
    told.push(format!("{:?}", plain::fresh(image, &mut words)));
    for file in 0..3 {
        let (mut work, mut after) = (slots(ROOM), words.clone());
        let replaced = plain::replace_file(image, file, &request, &mut work, &mut after);
        words = after;
        told.push(format!("{replaced:?} {words:?}"));
    }
    let replaced = plain::replace_aliases(image, &request, &mut slots(ROOM), &mut words);
    told.push(format!("{replaced:?} {words:?}"));
    for node in 0..12 {
        let (mut work, mut result) = (slots(ROOM), slots(ROOM));
        for call in [plain::direct, plain::direct_recorded] {
            let found = call(image, Visible::All, node, &request, &mut work, &mut result);
            told.push(format!("{found:?} {result:?}"));
        }
        for call in [plain::linear, plain::linear_recorded] {
            let found = call(image, Visible::All, node, &request, &mut result);
            told.push(format!("{found:?} {result:?}"));
        }
        for call in [plain::stitched, plain::stitched_recorded] {
            let found = call(
                image,
                Visible::All,
                &words,
                node,
                &request,
                &mut work,
                &mut result,
            );
            told.push(format!("{found:?} {result:?}"));
        }
        let name = plain::find_name(image, Visible::All, node, Some(2), &mut work, &mut result);
        told.push(format!("{name:?} {result:?}"));
        told.extend(all_paths(image, node));
    }
    told
}

/// What is said of short edge lists.
fn all_paths(image: &[u8], node: u32) -> Vec<String> {
    let mut told = vec![format!("{:?}", plain::replay(image, node, &[]))];
    for edge in 0..9 {
        let edges = [edge, (edge + 1) % 9];
        told.push(format!("{:?}", plain::replay(image, node, &edges[..1])));
        told.push(format!("{:?}", plain::replay(image, node, &edges)));
        told.push(format!(
            "{:?} {:?}",
            plain::is_complete(image, node, &edges[..1]),
            plain::shadows(image, (node, &edges[..1]), (node, &edges[1..]))
        ));
    }
    told
}

/// "An image rewritten from 1 to 2 with its symbols extended by zeros resolves with
/// the same paths and statistics."
#[test]
fn the_same_answers() {
    let mut drawn = Drawn(3);
    let mut found = 0;
    for _ in 0..60 {
        let one = drawn.graph(&FITTING[1..3]).image(1);
        let two = widened(&one, LONGEST_IMAGE).expect("not refused");
        let told = all_calls(&one);
        found += told
            .iter()
            .filter(|told| told.contains("Ok(Resolution { paths: 1"))
            .count();
        assert_eq!(all_calls(&two), told);
    }
    assert!(found > 60, "{found}");
}

/// Graph A in both versions, byte by byte as the documents describe it.
#[test]
fn graph_a_by_hand() {
    let edges: [Edge; 3] = [(2, 3, 0), (3, 4, 0), (3, 5, 1)];
    let nodes = [
        wide::reference(7),
        scope(true),
        wide::definition(7),
        wide::definition(8),
    ];
    let two = wide::image(&nodes, &edges);
    let push = [12, 4, 0, 0, 0, 0, 0, 0, 0, 0, 0, 7, 1];
    assert_eq!(two[..11], [2, 0, 0, 0, 84, 0, 1, 0, 6, 0, 3]);
    assert_eq!(two[15..28], push);
    assert_eq!(widened(&graph_a(), 89), Ok(two.clone()));
    assert_eq!(narrowed(&two, 77), Ok(graph_a()));
    // a symbol whose highest bit is set is not extended by it
    let high = image(&[reference(1 << 31)], &[]);
    let wanted = wide::image(&[wide::reference(1 << 31)], &[]);
    assert_eq!(widened(&high, 99), Ok(wanted));
}
