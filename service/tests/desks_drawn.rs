//! Document 02, order 8, on drawn graphs, databases and sets, for every call that takes
//! a set. Two graphs and databases that agree on what is visible and differ in all else
//! (N, M, F, removed and hidden records, dead and hidden slots, slot numbers) leave the
//! same answers and words. A search under a set leaves what the same search leaves
//! where hidden records are removed and hidden slots are gone.

mod common;

use common::{live, plain, slots, versioned, Drawn, Edge, Record};
use pozhdaghi::{Limits, Order, Refusal, Request, Visible, ALIASES, DATABASE_HEAD, RECORD_WORDS};

const ROOT: u16 = 0;
const JUMP: u16 = 1;
const FIRST_NODE: u16 = 2;

#[derive(Clone, Copy, PartialEq)]
struct Node {
    kind: u8,
    file: u16,
    symbol: u8,
    scope: u16,
    flag: bool,
}

const SCOPE: u8 = 3;
const PUSH: u8 = 4;
const POP: u8 = 5;
const PUSH_SCOPED: u8 = 6;
const POP_SCOPED: u8 = 7;
const DROP: u8 = 8;

/// Each as often as it is to be drawn.
const KINDS: [u8; 11] = [
    SCOPE,
    SCOPE,
    PUSH,
    PUSH,
    PUSH,
    POP,
    POP,
    POP,
    PUSH_SCOPED,
    POP_SCOPED,
    DROP,
];

impl Node {
    fn pushes(&self) -> bool {
        [PUSH, PUSH_SCOPED].contains(&self.kind)
    }

    fn pops(&self) -> bool {
        [POP, POP_SCOPED].contains(&self.kind)
    }

    fn is_exported(&self) -> bool {
        self.kind == SCOPE && self.flag
    }

    fn record(&self, version: u8) -> Record {
        let mut bytes = vec![self.kind];
        bytes.extend(self.file.to_be_bytes());
        if self.kind != SCOPE && self.kind != DROP {
            bytes.extend(vec![0; 4 * usize::from(version) - 1]);
            bytes.push(self.symbol);
        }
        if self.kind == PUSH_SCOPED {
            bytes.extend(self.scope.to_be_bytes());
        }
        if self.kind != DROP {
            bytes.push(u8::from(self.flag));
        }
        bytes
    }
}

/// Nodes from number 2 on; none is a removed record.
#[derive(Clone)]
struct Graph {
    version: u8,
    files: u16,
    nodes: Vec<Option<Node>>,
    edges: Vec<Option<Edge>>,
}

impl Graph {
    fn node(&self, number: u16) -> Option<Node> {
        let place = number.checked_sub(FIRST_NODE)?;
        self.nodes.get(usize::from(place)).copied().flatten()
    }

    /// The numbers of the nodes of which something holds.
    fn those(&self, holds: impl Fn(&Node) -> bool) -> Vec<u16> {
        let numbered = self.nodes.iter().zip(FIRST_NODE..);
        numbered
            .filter_map(|(node, number)| node.filter(&holds).map(|_| number))
            .collect()
    }

    fn image(&self) -> Vec<u8> {
        let removed = || vec![0];
        let node = |node: &Option<Node>| node.map_or_else(removed, |n| n.record(self.version));
        let edge = |edge: &Option<Edge>| edge.as_ref().map_or_else(removed, live);
        let nodes: Vec<Record> = self.nodes.iter().map(node).collect();
        let edges: Vec<Record> = self.edges.iter().map(edge).collect();
        versioned(self.version, self.files, &nodes, &edges)
    }
}

/// A partial path: the first word, start and edges.
#[derive(Clone)]
struct Slot {
    owner: u32,
    start: u32,
    edges: Vec<u32>,
}

fn shows(set: &[u8], file: u16) -> bool {
    set.get(usize::from(file)).is_some_and(|&byte| byte != 0)
}

fn any_node(random: &mut Drawn, graph: &Graph, file: u16) -> Node {
    let scopes = graph.those(|node| node.is_exported() && node.file == file);
    let mut kind = random.one_of(&KINDS);
    if kind == PUSH_SCOPED && scopes.is_empty() {
        kind = SCOPE;
    }
    let scope = match kind {
        PUSH_SCOPED => random.one_of(&scopes),
        _ => 0,
    };
    Node {
        kind,
        file,
        symbol: u8::from(random.below(6) == 0),
        scope,
        flag: random.below(6) > 0,
    }
}

/// An edge between root, jump and some nodes of one file, mostly one on which a path gets
/// on; none if the draw is no edge.
fn any_edge(random: &mut Drawn, graph: &Graph, ends: &[u16]) -> Option<Edge> {
    if ends.is_empty() {
        return None;
    }
    let pops = |end| graph.node(end).is_some_and(|node| node.pops());
    let pushes = |end| graph.node(end).is_some_and(|node| node.pushes());
    let mut edge = any_pair(random, ends);
    for _ in 0..3 {
        if pops(edge.0) || pushes(edge.1) {
            edge = any_pair(random, ends);
        }
    }
    let (source, target) = edge;
    let file = |end| graph.node(end).map(|node| node.file);
    let precedence = random.below(3) as i32 - 1;
    let in_one = file(source).is_none() || file(target).is_none() || file(source) == file(target);
    (in_one && source != JUMP).then_some((source, target, precedence))
}

fn any_pair(random: &mut Drawn, ends: &[u16]) -> (u16, u16) {
    let (one, beside) = (random.one_of(ends), random.one_of(ends));
    let other = random.one_of(&[ROOT, ROOT, JUMP, beside, beside, beside]);
    match random.below(2) == 0 && other != JUMP {
        true => (other, one),
        false => (one, other),
    }
}

/// What both have: a graph whose records are visible or removed, and visible slots.
struct Shared {
    set: Vec<u8>,
    graph: Graph,
    slots: Vec<Slot>,
}

/// Some bytes, of which one mostly shows a file of the graph.
fn drawn_set(random: &mut Drawn, files: u16) -> Vec<u8> {
    let mut set = vec![0; random.below(7) as usize];
    for byte in &mut set {
        *byte = random.one_of(&[0, 0, 1, 1, 1, 255]);
    }
    let place = random.below(u64::from(files)) as usize;
    if random.below(5) > 0 {
        set.resize(set.len().max(place + 1), 0);
        set[place] = 1;
    }
    set
}

fn drawn_shared(random: &mut Drawn) -> Shared {
    let files = 1 + random.below(4) as u16;
    let set = drawn_set(random, files);
    let mut graph = Graph {
        version: 1 + random.below(2) as u8,
        files,
        nodes: vec![],
        edges: vec![],
    };
    let shown: Vec<u16> = (0..files).filter(|&file| shows(&set, file)).collect();
    for _ in 0..3 + random.below(9) {
        let is_hole = shown.is_empty() || random.below(3) == 0;
        let node = (!is_hole).then(|| {
            let file = random.one_of(&shown);
            any_node(random, &graph, file)
        });
        graph.nodes.push(node);
    }
    let ends = [graph.those(|_| true), vec![ROOT]].concat();
    for _ in 0..random.below(24) {
        let edge = match random.below(5) {
            0 => None,
            _ => any_edge(random, &graph, &ends),
        };
        graph.edges.push(edge);
    }
    let slots = shared_slots(random, &graph, &shown);
    Shared { set, graph, slots }
}

/// Walks over visible edges; at times numbers of holes, which are 12 wherever they are
/// met, and other starts.
fn shared_slots(random: &mut Drawn, graph: &Graph, shown: &[u16]) -> Vec<Slot> {
    let owners: Vec<u32> = shown.iter().map(|&file| u32::from(file) + 1).collect();
    let owners = [&owners[..], &owners, &[ALIASES]].concat();
    let number = |edge: &(usize, &Option<Edge>)| edge.0 as u32;
    let mut slots = Vec::new();
    for _ in 0..random.below(9) {
        let mut at = random.below(2 + graph.nodes.len() as u64) as u16;
        let (start, mut edges) = (u32::from(at), Vec::new());
        for _ in 0..1 + random.below(3) {
            let from = |edge: &(usize, &Option<Edge>)| edge.1.is_some_and(|edge| edge.0 == at);
            let numbered = graph.edges.iter().enumerate();
            let next: Vec<u32> = numbered.filter(from).map(|edge| number(&edge)).collect();
            let edge = match next.is_empty() || random.below(12) == 0 {
                true => random.below(2 + graph.edges.len() as u64) as u32,
                false => random.one_of(&next),
            };
            edges.push(edge);
            let taken = graph.edges.get(edge as usize).copied().flatten();
            at = taken.map_or(at, |edge| edge.1);
        }
        let owner = random.one_of(&owners);
        slots.push(Slot {
            owner,
            start,
            edges,
        });
    }
    slots
}

/// One graph and database with what is shared; all else is drawn.
fn completed(random: &mut Drawn, shared: &Shared) -> (Graph, Vec<u32>) {
    let mut graph = shared.graph.clone();
    graph.version = 1 + random.below(2) as u8;
    let least = least_counts(shared);
    graph.files = least[1].max(1) + random.below(4) as u16;
    let most = graph.nodes.len() + 4;
    let fewest = usize::from(least[0].saturating_sub(FIRST_NODE));
    let count = fewest + random.below((most - fewest) as u64 + 1) as usize;
    graph.nodes.resize(count, None);
    while graph.edges.last() == Some(&None) && random.below(2) == 0 {
        graph.edges.pop();
    }
    graph.edges.extend(vec![None; random.below(5) as usize]);
    let is_hidden = |file: &u16| !shows(&shared.set, *file);
    let hidden: Vec<u16> = (0..graph.files).filter(is_hidden).collect();
    for place in 0..graph.nodes.len() {
        if graph.nodes[place].is_none() && !hidden.is_empty() && random.below(4) > 0 {
            let file = random.one_of(&hidden);
            graph.nodes[place] = Some(any_node(random, &graph, file));
        }
    }
    let ends = graph.those(|node| is_hidden(&node.file));
    for place in 0..graph.edges.len() {
        if graph.edges[place].is_none() && random.below(5) > 0 {
            graph.edges[place] = any_edge(random, &graph, &ends);
        }
    }
    let words = completed_words(random, shared, &graph, least);
    (graph, words)
}

/// The least N and F with which the visible records and slots are accepted.
fn least_counts(shared: &Shared) -> [u16; 2] {
    let nodes = shared.graph.those(|_| true);
    let starts = shared.slots.iter().map(|slot| slot.start as u16);
    let last = nodes.iter().copied().chain(starts).max();
    let live = shared
        .graph
        .nodes
        .iter()
        .flatten()
        .map(|node| node.file + 1);
    let owners = shared.slots.iter().map(|slot| slot.owner);
    let filed = owners.filter(|&owner| owner != ALIASES);
    let files = live.chain(filed.map(|owner| owner as u16)).max();
    [
        last.map_or(FIRST_NODE, |last| (last + 1).max(FIRST_NODE)),
        files.unwrap_or(0),
    ]
}

fn completed_words(
    random: &mut Drawn,
    shared: &Shared,
    graph: &Graph,
    least: [u16; 2],
) -> Vec<u32> {
    let all = [FIRST_NODE + graph.nodes.len() as u16, graph.files];
    let stored = [0, 1].map(|at| {
        let more = u64::from(all[at] - least[at]) + 1;
        u32::from(least[at]) + random.below(more) as u32
    });
    let mut slots: Vec<Vec<u32>> = Vec::new();
    for slot in &shared.slots {
        while random.below(3) == 0 {
            slots.push(unseen(random, &shared.set, graph, stored));
        }
        slots.push(words_of(random, slot));
    }
    while random.below(3) == 0 {
        slots.push(unseen(random, &shared.set, graph, stored));
    }
    let mut words = vec![slots.len() as u32, stored[0], stored[1]];
    words.extend(slots.concat());
    words.resize(words.len() + random.below(200) as usize, 0xBAD);
    words
}

/// The end of a slot, and the words behind its edges, are nothing to a search.
fn words_of(random: &mut Drawn, slot: &Slot) -> Vec<u32> {
    let end = random.below(1 << 20) as u32;
    let mut words = vec![slot.owner, slot.start, end, slot.edges.len() as u32];
    words.extend(&slot.edges);
    words.resize(RECORD_WORDS, random.below(9) as u32);
    words
}

/// A dead slot with any words, or one of a hidden file.
fn unseen(random: &mut Drawn, set: &[u8], graph: &Graph, [nodes, files]: [u32; 2]) -> Vec<u32> {
    let is_hidden = |owner: &u32| !shows(set, *owner as u16 - 1);
    let hidden: Vec<u32> = (1..=files).filter(is_hidden).collect();
    let count = 1 + random.below(3);
    let edge = |_| random.below(graph.edges.len() as u64 + 2) as u32;
    let edges = (0..count).map(edge).collect();
    let start = random.below(u64::from(nodes)) as u32;
    let owner = match hidden.is_empty() || random.below(4) == 0 {
        true => 0,
        false => random.one_of(&hidden),
    };
    words_of(
        random,
        &Slot {
            owner,
            start,
            edges,
        },
    )
}

fn drawn_request(random: &mut Drawn) -> Request {
    let mut limit = || (random.below(4) == 0).then(|| random.below(5));
    let limits = Limits {
        length: limit(),
        paths: limit(),
        complete: limit(),
    };
    let order = random.one_of(&[Order::BreadthFirst, Order::DepthFirst]);
    Request { order, limits }
}

/// A reference to search from and a definition to name, mostly visible ones; else any
/// number, also of a record that one of two graphs has not.
fn asked_for(random: &mut Drawn, graph: &Graph) -> [u32; 2] {
    let references = graph.those(|node| node.pushes() && node.flag);
    let definitions = graph.those(|node| node.pops() && node.flag);
    [references, definitions].map(|fitting| match fitting.is_empty() || random.below(5) == 0 {
        true => random.below(graph.nodes.len() as u64 + 6) as u32,
        false => u32::from(random.one_of(&fitting)),
    })
}

/// Without limits a search may have no end within reason.
const MOST_EXPANDED: u64 = 200;

/// What a call left: its answer, and every word of both areas.
type Left = (String, Vec<u32>, Vec<u32>);

/// Every call that takes a set.
fn all_calls(
    image: &[u8],
    visible: Visible,
    words: &[u32],
    [node, sought]: [u32; 2],
    request: &Request,
    lent: [usize; 2],
) -> Vec<Left> {
    let call = |run: &dyn Fn(&mut [u32], &mut [u32]) -> String| {
        let (mut work, mut result) = (slots(lent[0]), slots(lent[1]));
        let told = run(&mut work, &mut result);
        (told, work, result)
    };
    let directly = [plain::direct, plain::direct_recorded];
    let stitched = [plain::stitched, plain::stitched_recorded];
    let linearly = [plain::linear, plain::linear_recorded];
    let mut left = Vec::new();
    for way in [0, 1] {
        left.push(call(&|work, result| {
            worded(directly[way](image, visible, node, request, work, result))
        }));
        left.push(call(&|work, result| {
            let found = stitched[way](image, visible, words, node, request, work, result);
            worded(found)
        }));
        left.push(call(&|_, result| {
            worded(linearly[way](image, visible, node, request, result))
        }));
    }
    let length = request.limits.length.map_or(4, |length| length.min(4));
    left.push(call(&|work, result| {
        let found = plain::find_name(image, visible, sought, Some(length), work, result);
        worded(found)
    }));
    left
}

/// An answer, or the number and the values of a refusal.
fn worded<T: std::fmt::Debug>(told: Result<T, Refusal>) -> String {
    match told {
        Ok(answer) => format!("{answer:?}"),
        Err(refusal) => format!("number: {}, {:?}", refusal.number(), refusal.values()),
    }
}

fn bounded(mut request: Request) -> Request {
    let paths = request.limits.paths.unwrap_or(MOST_EXPANDED);
    request.limits.paths = Some(paths);
    request
}

/// How many calls had an answer, and how many were refused by each number.
#[derive(Default)]
struct Counts {
    answered: u64,
    found: u64,
    refused: std::collections::BTreeMap<u64, u64>,
}

impl Counts {
    fn add(&mut self, left: &[Left]) {
        for (told, _, result) in left {
            let number = told.split("number: ").nth(1).and_then(|rest| {
                let digits = rest.split(',').next()?;
                digits.parse().ok()
            });
            match number {
                Some(number) => *self.refused.entry(number).or_default() += 1,
                None => self.answered += 1,
            }
            self.found += plain::paths(result).filter(|_| number.is_none()).count() as u64;
        }
    }

    /// Every refusal that can depend on what is visible came up, and paths did.
    fn assert_many(&self) {
        println!(
            "answered {}, paths {}, refused {:?}",
            self.answered, self.found, self.refused
        );
        for number in [10, 11, 12, 20, 31, 32, 37] {
            assert!(self.refused.get(&number) > Some(&10), "{number}");
        }
        assert!(self.answered > 1_000 && self.found > 1_000);
        assert!(self.refused.keys().all(|number| ![34, 35].contains(number)));
        assert!(self.refused.keys().all(|&number| number >= 10));
    }
}

#[test]
fn what_is_hidden_changes_nothing() {
    let mut random = Drawn(8);
    let mut counts = Counts::default();
    for _ in 0..3_000 {
        let shared = drawn_shared(&mut random);
        let pair = [0; 2].map(|_| completed(&mut random, &shared));
        let [one, other] = &pair;
        for (graph, _) in &pair {
            plain::check(&graph.image()).expect("an image");
        }
        let visible = Visible::Files(&shared.set);
        for _ in 0..4 {
            let asked = asked_for(&mut random, &shared.graph);
            let request = bounded(drawn_request(&mut random));
            let lent = [0; 2].map(|_| random.one_of(&[0, 1, 2, 30, 30, 30]));
            let [left, right] = [one, other].map(|(graph, words)| {
                all_calls(&graph.image(), visible, words, asked, &request, lent)
            });
            assert_eq!(left, right);
            counts.add(&left);
        }
    }
    counts.assert_many();
}

/// Hidden records removed, the others under their numbers.
fn cleared(graph: &Graph, set: &[u8]) -> Graph {
    let mut cleared = graph.clone();
    for node in &mut cleared.nodes {
        *node = node.filter(|node| shows(set, node.file));
    }
    let is_shown = |end: u16| end < FIRST_NODE || cleared.node(end).is_some();
    let edges = graph.edges.iter();
    cleared.edges = edges
        .map(|edge| edge.filter(|edge| is_shown(edge.0) && is_shown(edge.1)))
        .collect();
    cleared
}

/// The database without the slots of hidden files.
fn without_hidden(words: &[u32], set: &[u8]) -> Vec<u32> {
    let used = words[0] as usize;
    let kept: Vec<&[u32]> = words[DATABASE_HEAD..]
        .chunks_exact(RECORD_WORDS)
        .take(used)
        .filter(|slot| match slot[0] {
            0 | ALIASES => true,
            owner => shows(set, owner as u16 - 1),
        })
        .collect();
    let head = [kept.len() as u32, words[1], words[2]];
    [&head[..], &kept.concat()].concat()
}

#[test]
fn as_if_it_were_removed() {
    let mut random = Drawn(80);
    let mut counts = Counts::default();
    for _ in 0..3_000 {
        let shared = drawn_shared(&mut random);
        let (graph, words) = completed(&mut random, &shared);
        // any set at all, so that slots of the visible name edges of the hidden
        let set: Vec<u8> = match random.below(2) {
            0 => shared.set.clone(),
            _ => drawn_set(&mut random, graph.files),
        };
        let (image, plain) = (graph.image(), cleared(&graph, &set).image());
        let fewer = without_hidden(&words, &set);
        plain::check(&plain).expect("an image");
        for _ in 0..4 {
            let asked = asked_for(&mut random, &shared.graph);
            let request = bounded(drawn_request(&mut random));
            let lent = [0; 2].map(|_| random.one_of(&[0, 1, 2, 30, 30, 30]));
            let visible = Visible::Files(&set);
            let left = all_calls(&image, visible, &words, asked, &request, lent);
            let right = all_calls(&plain, Visible::All, &fewer, asked, &request, lent);
            assert_eq!(left, right);
            counts.add(&left);
        }
    }
    counts.assert_many();
}
