//! Ten years of daily refilings in a database that is too small for two days: document
//! 02, order 7. Each business day has a new graph; the files that changed are replaced,
//! and at each 33 the words are compacted and the replacement is made again. Each day
//! every partial path must be found under the number that the lists of the compactions
//! give it; and unless some file is late, without which demand 3 promises nothing, the
//! recorded sets of stitched and direct search must be equal.

mod common;

use common::{
    definition, is_zero, live, place, plain, reference, refusal, scope, scoped_definition,
    scoped_pop, scoped_push, slots, versioned, Drawn, Edge, Record,
};
use pozhdaghi::{Limits, PartialStatistics, Refusal, Request, Resolution, Visible, PAIR_WORDS};
use std::collections::{BTreeMap, BTreeSet};

/// Ten years of 252 business days.
const DAYS: usize = 2_520;
const FULL: u64 = 33;

const ROOT: u16 = 0;
const JUMP: u16 = 1;
const FIRST_NODE: u16 = 2;

/// Of each file the first nodes are a reference, an exported scope and a definition.
const FIXED_NODES: u16 = 3;

/// What a company files, and what it lends.
#[derive(Clone, Copy)]
struct Sizes {
    files: u16,
    nodes: u16,
    edges: usize,
    /// Edges from root to root or to jump; with some the alias set is filed as well.
    fileless: usize,
    /// Most partial paths of a day, and slots of the database.
    most_live: usize,
    capacity: usize,
    /// Slots of the work and of the result area.
    lent: usize,
}

/// A file, or none for the alias set.
type Owner = Option<u32>;

/// The records of one file.
#[derive(Clone)]
struct Filing {
    nodes: Vec<Record>,
    edges: Vec<Record>,
}

#[derive(Default, Debug)]
struct Counts {
    replacements: usize,
    full: usize,
    compactions: usize,
    /// 33 directly after a compaction.
    full_again: usize,
    /// Dead slots, and live ones with a new number.
    dropped: usize,
    moved: usize,
    /// Stitched searches that answered as before a compaction, and refused ones of these.
    searches_kept: usize,
    refused_kept: usize,
    /// Days on which every owner's slots are of that day's graph.
    whole_days: usize,
    /// References whose recorded sets were compared, those with a refused search, paths.
    compared: usize,
    left_out: usize,
    paths: usize,
}

struct Company {
    sizes: Sizes,
    drawn: Drawn,
    filings: Vec<Filing>,
    fileless: Vec<Record>,
    image: Vec<u8>,
    /// How many partial paths each owner has today.
    found: BTreeMap<Owner, usize>,
    words: Vec<u32>,
    /// Owners whose slots are not of today's graph.
    stale: BTreeSet<Owner>,
    /// The edges of every number that was handed out and has not lapsed, with its owner.
    ledger: BTreeMap<u32, (Owner, Vec<u32>)>,
    counts: Counts,
}

fn in_file(file: u16, mut record: Record) -> Record {
    record[1..3].copy_from_slice(&file.to_be_bytes());
    record
}

/// Any node of a file whose exported scope is this one.
fn draw_node(drawn: &mut Drawn, scope_node: u16) -> Record {
    let symbol = drawn.one_of(&[7, 7, 8]);
    match drawn.below(8) {
        0 => reference(symbol),
        1 => definition(symbol),
        2 => scope(false),
        3 => scope(true),
        4 => scoped_push(9, scope_node as u8),
        5 => scoped_pop(9),
        6 => scoped_definition(symbol),
        _ => vec![8, 0, 0],
    }
}

/// An edge with an end in the file whose first node this is, or a removed one.
fn draw_edge(drawn: &mut Drawn, first: u16, nodes: u16) -> Record {
    let (refers, exported, defines) = (first, first + 1, first + 2);
    let any = first + drawn.below(nodes.into()) as u16;
    let other = first + drawn.below(nodes.into()) as u16;
    let routes = [
        (refers, ROOT),
        (refers, exported),
        (ROOT, exported),
        (ROOT, defines),
        (exported, defines),
        (exported, ROOT),
        (any, JUMP),
        (ROOT, any),
        (any, ROOT),
    ];
    let (source, target) = match drawn.below(8) {
        0 => return vec![0],
        1..5 => drawn.one_of(&routes),
        _ => (any, other),
    };
    let edge: Edge = (source, target, drawn.below(3) as i32 - 1);
    live(&edge)
}

fn draw_filing(drawn: &mut Drawn, sizes: &Sizes, file: u16) -> Filing {
    let first = FIRST_NODE + file * sizes.nodes;
    let mut nodes = vec![
        reference(drawn.one_of(&[7, 8])),
        scope(true),
        definition(drawn.one_of(&[7, 8])),
    ];
    for _ in FIXED_NODES..sizes.nodes {
        nodes.push(draw_node(drawn, first + 1));
    }
    let edges = (0..sizes.edges).map(|_| draw_edge(drawn, first, sizes.nodes));
    Filing {
        edges: edges.collect(),
        nodes: nodes.into_iter().map(|node| in_file(file, node)).collect(),
    }
}

fn draw_fileless(drawn: &mut Drawn) -> Record {
    match drawn.below(3) {
        0 => vec![0],
        kind => live(&(ROOT, kind as u16 - 1, 0)),
    }
}

fn replaced(
    image: &[u8],
    owner: Owner,
    paths: Option<u64>,
    lent: usize,
    words: &mut [u32],
) -> Result<PartialStatistics, Refusal> {
    let limits = Limits {
        paths,
        ..Limits::default()
    };
    let request = Request {
        limits,
        ..Request::default()
    };
    let mut work = slots(lent);
    let told = match owner {
        Some(file) => plain::replace_file(image, file, &request, &mut work, words),
        None => plain::replace_aliases(image, &request, &mut work, words),
    };
    assert!(is_zero(&work));
    told
}

type Told = Result<Resolution, Refusal>;
type Found = (Told, Vec<u32>);

impl Company {
    fn founded(seed: u64, sizes: Sizes) -> Self {
        let mut company = Self {
            sizes,
            drawn: Drawn(seed),
            filings: Vec::new(),
            fileless: Vec::new(),
            image: Vec::new(),
            found: BTreeMap::new(),
            words: vec![0; place(sizes.capacity)],
            stale: BTreeSet::new(),
            ledger: BTreeMap::new(),
            counts: Counts::default(),
        };
        let owners = company.owners();
        company.draw_day(&owners);
        plain::fresh(&company.image, &mut company.words).expect("not refused");
        company
    }

    fn owners(&self) -> Vec<Owner> {
        let files = (0..u32::from(self.sizes.files)).map(Some);
        let aliases = (self.sizes.fileless > 0).then_some(None);
        files.chain(aliases).collect()
    }

    /// Edges keep their numbers from day to day, so the partial paths of files that did
    /// not change are those of the new graph too.
    fn image_of(&self, filings: &[Filing], fileless: &[Record]) -> Vec<u8> {
        let nodes: Vec<Record> = filings.iter().flat_map(|f| f.nodes.clone()).collect();
        let of_files = filings.iter().flat_map(|f| f.edges.clone());
        let edges: Vec<Record> = of_files.chain(fileless.to_vec()).collect();
        versioned(1, self.sizes.files, &nodes, &edges)
    }

    /// A new graph that differs from yesterday's in the records of these owners, drawn
    /// until its partial paths are not too many.
    fn draw_day(&mut self, changed: &[Owner]) {
        loop {
            let (mut filings, mut fileless) = (self.filings.clone(), self.fileless.clone());
            if filings.is_empty() {
                let files = 0..self.sizes.files;
                filings = files
                    .map(|file| draw_filing(&mut self.drawn, &self.sizes, file))
                    .collect();
            }
            for &owner in changed {
                match owner {
                    Some(file) => {
                        let drawn = draw_filing(&mut self.drawn, &self.sizes, file as u16);
                        filings[file as usize] = drawn;
                    }
                    None => {
                        let edges = 0..self.sizes.fileless;
                        fileless = edges.map(|_| draw_fileless(&mut self.drawn)).collect();
                    }
                }
            }
            let image = self.image_of(&filings, &fileless);
            if let Some(found) = self.found_on(&image) {
                (self.filings, self.fileless) = (filings, fileless);
                (self.image, self.found) = (image, found);
                self.stale.extend(changed);
                return;
            }
        }
    }

    /// How many partial paths each owner has on a graph; none if they are too many.
    fn found_on(&self, image: &[u8]) -> Option<BTreeMap<Owner, usize>> {
        let most = self.sizes.most_live;
        let mut words = vec![0; place(most)];
        plain::fresh(image, &mut words).expect("not refused");
        let mut found = BTreeMap::new();
        for owner in self.owners() {
            let told = replaced(image, owner, None, self.sizes.lent, &mut words).ok()?;
            found.insert(owner, told.found as usize);
        }
        Some(found)
    }

    fn used(&self) -> usize {
        self.words[0] as usize
    }

    /// One replacement in the words as they are: 33 just when the slots used and the new
    /// ones are more than there are. Numbers of new paths are handed out.
    fn replace(&mut self, owner: Owner, paths: Option<u64>) -> bool {
        let new = if paths.is_some() {
            0
        } else {
            self.found[&owner]
        };
        let used = self.used();
        let told = replaced(&self.image, owner, paths, self.sizes.lent, &mut self.words);
        self.counts.replacements += 1;
        if used + new > self.sizes.capacity {
            assert_eq!(told, Err(refusal(FULL, &[])));
            return false;
        }
        assert_eq!(told.map(|told| told.found as usize), Ok(new));
        self.ledger.retain(|_, (of, _)| *of != owner);
        for number in used as u32..(used + new) as u32 {
            let edges = plain::lookup(&self.words, number).to_vec();
            self.ledger.insert(number, (owner, edges));
        }
        true
    }

    /// A refiling: at a 33 the words are compacted and it is made again. A second 33 is
    /// right where live and new slots together are too many; then its own slots and those
    /// of all who have to be refiled anyhow are given up first.
    fn refile(&mut self, owner: Owner) {
        if !self.replace(owner, None) {
            self.counts.full += 1;
            self.compact();
            if !self.replace(owner, None) {
                self.counts.full_again += 1;
                self.stale.insert(owner);
                for stale in self.stale.clone() {
                    assert!(self.replace(stale, Some(0)));
                }
                self.compact();
                assert!(self.replace(owner, None), "the day's paths fit");
            }
        }
        self.stale.remove(&owner);
    }

    /// Compacts, holds the list to the ledger and the searches to those before.
    fn compact(&mut self) {
        let (before, used) = (self.searches(), self.used());
        let mut list = vec![9; PAIR_WORDS * used + 1];
        let live = plain::compact(&mut self.words, &mut list).expect("a database");
        assert_eq!(
            (self.used(), self.ledger.len()),
            (live as usize, live as usize)
        );
        let (pairs, behind) = list.split_at(PAIR_WORDS * live as usize);
        assert!(is_zero(behind));
        assert!(is_zero(&self.words[place(live as usize)..place(used)]));
        let old = std::mem::take(&mut self.ledger);
        assert!(pairs
            .chunks_exact(PAIR_WORDS)
            .map(|pair| &pair[0])
            .eq(old.keys()));
        for (pair, part) in pairs.chunks_exact(PAIR_WORDS).zip(old.into_values()) {
            self.counts.moved += usize::from(pair[0] != pair[1]);
            self.ledger.insert(pair[1], part);
        }
        self.numbers_hold();
        let after = self.searches();
        assert!(before == after, "another answer after the compaction");
        self.counts.compactions += 1;
        self.counts.dropped += used - live as usize;
        self.counts.searches_kept += after.len();
        self.counts.refused_kept += after.iter().filter(|(told, _)| told.is_err()).count();
    }

    /// Both stitched searches from each reference, in enough slots and in few.
    fn searches(&self) -> Vec<Found> {
        let mut found = Vec::new();
        for reference in self.references() {
            for call in [plain::stitched, plain::stitched_recorded] {
                for lent in [2, self.sizes.lent] {
                    found.push(self.search(call, reference, lent));
                }
            }
        }
        found
    }

    fn search<C>(&self, call: C, reference: u32, lent: usize) -> Found
    where
        C: Fn(&[u8], Visible, &[u32], u32, &Request, &mut [u32], &mut [u32]) -> Told,
    {
        let (mut work, mut result, request) = (slots(lent), slots(lent), Request::default());
        let (image, words) = (&self.image, &self.words);
        let told = call(
            image,
            Visible::All,
            words,
            reference,
            &request,
            &mut work,
            &mut result,
        );
        assert!(is_zero(&work));
        (told, result)
    }

    /// The first node of each file.
    fn references(&self) -> impl Iterator<Item = u32> + '_ {
        let first = |file| FIRST_NODE + file * self.sizes.nodes;
        (0..self.sizes.files).map(move |file| u32::from(first(file)))
    }

    /// Every number in use and the next ones have the edges that the ledger says.
    fn numbers_hold(&self) {
        for number in 0..self.words[0] + 2 {
            let part = self.ledger.get(&number);
            let edges = part.map_or(&[][..], |(_, edges)| edges);
            assert_eq!(plain::lookup(&self.words, number), edges);
        }
    }

    /// The recorded sets of both searches, where every owner's slots are today's.
    fn agree(&mut self) {
        if !self.stale.is_empty() {
            return;
        }
        self.counts.whole_days += 1;
        for reference in self.references().collect::<Vec<_>>() {
            let lent = self.sizes.lent;
            let stitched = self.search(plain::stitched_recorded, reference, lent);
            let directly = |image: &[u8],
                            visible: Visible,
                            _: &[u32],
                            reference,
                            request: &Request,
                            work: &mut [u32],
                            result: &mut [u32]| {
                plain::direct_recorded(image, visible, reference, request, work, result)
            };
            let direct = self.search(directly, reference, lent);
            if stitched.0.is_err() || direct.0.is_err() {
                self.counts.left_out += 1;
                continue;
            }
            let sets = [&stitched.1, &direct.1]
                .map(|result| plain::paths(result).collect::<BTreeSet<_>>());
            assert_eq!(sets[0], sets[1], "other paths from {reference}");
            let counts = [stitched.0, direct.0].map(|told| told.map(|told| told.paths as usize));
            assert_eq!(counts, [Ok(sets[0].len()); 2], "one twice");
            self.counts.compared += 1;
            self.counts.paths += sets[0].len();
        }
    }

    /// Every owner or some change; who changed is refiled, but one in twelve is late,
    /// and some others are refiled as well.
    fn day(&mut self) {
        let owners = self.owners();
        let all = self.drawn.below(4) == 0;
        let mut changed = owners.clone();
        changed.retain(|_| all || self.drawn.below(2) == 0);
        self.draw_day(&changed);
        let mut due = owners;
        due.retain(|owner| {
            let is_stale = self.stale.contains(owner);
            self.drawn.below(12) < if is_stale { 11 } else { 2 }
        });
        if !due.is_empty() {
            let first = self.drawn.below(due.len() as u64) as usize;
            due.rotate_left(first);
        }
        for owner in due {
            self.refile(owner);
        }
        self.numbers_hold();
        self.agree();
    }
}

/// So many days; what is promised is asserted on the way.
fn lived(seed: u64, sizes: Sizes, days: usize) -> Counts {
    let mut company = Company::founded(seed, sizes);
    for _ in 0..days {
        company.day();
    }
    company.counts
}

const SMALL: Sizes = Sizes {
    files: 3,
    nodes: 6,
    edges: 7,
    fileless: 0,
    most_live: 60,
    capacity: 64,
    lent: 400,
};

/// The same with edges that belong to no file, and the alias set.
const WITH_ALIASES: Sizes = Sizes {
    fileless: 2,
    most_live: 80,
    capacity: 84,
    ..SMALL
};

/// Ten years in which enough came up; answers how often it was 33 directly after a
/// compaction.
fn ten_years(seed: u64, sizes: Sizes) -> usize {
    let counts = lived(seed, sizes, DAYS);
    println!("seed {seed}: {counts:?}");
    assert!(counts.compactions > DAYS / 10, "{counts:?}");
    assert!(counts.whole_days > DAYS / 2, "{counts:?}");
    assert!(counts.compared > 5 * counts.left_out, "{counts:?}");
    assert!(counts.paths > counts.compared, "{counts:?}");
    counts.full_again
}

#[test]
fn ten_years_of_files() {
    assert!(ten_years(1, SMALL) > 20);
}

#[test]
fn ten_years_with_aliases() {
    assert!(ten_years(2, WITH_ALIASES) > 20);
}

/// Twelve larger companies, ten years each. Takes minutes:
/// cargo test --release --offline --test soak -- --ignored --nocapture
#[test]
#[ignore = "takes minutes"]
fn many_companies() {
    let mut full_again = 0;
    for seed in 3..15 {
        let larger = Sizes {
            files: 4 + (seed % 3) as u16,
            nodes: 7,
            edges: 9,
            fileless: (seed % 4) as usize,
            most_live: 240,
            capacity: 250,
            lent: 2_000,
        };
        full_again += ten_years(seed, larger);
    }
    assert!(full_again > 30, "{full_again}");
}
