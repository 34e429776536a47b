//! Names for definitions against what they make: the recorded direct searches of
//! the references up to the one that has the name, or of all, each less its check
//! of the image. A name checks the image once, and lends its areas once.

use crate::ours;
use crate::report::{best_of, timed};
use crate::settings::Settings;
use pozhdaghi::{Image, Limits, NodeId, Refusal, Request, Results, SLOT_WORDS, Visible, Work};
use std::cell::RefCell;

/// So many definitions of an image are named, spread over all of them.
const MOST_NAMED: usize = 16;
const MOST_SLOTS: usize = 65_536;

struct Names<'a> {
    image: Image<'a>,
    settings: &'a Settings,
    definitions: Vec<u32>,
    work: Vec<u32>,
    result: Vec<u32>,
}

/// So many times the names, the searches that they make, or as many checks as
/// either has, for a profile.
pub fn run_only(times: usize, side: &str, bytes: &[u8], settings: &Settings) {
    let mut names = Names::new(bytes, settings);
    let searched = names.searched();
    for _ in 0..times {
        match side {
            "ours" => names.name_all(),
            "recorded" => names.record_all(&searched),
            "check" => ours::check(bytes, names.definitions.len()),
            _ => ours::check(bytes, searched.iter().map(Vec::len).sum()),
        }
    }
}

/// A line for an image; whether each name is the first that its searches have.
pub fn compare(name: &str, bytes: &[u8], settings: &Settings) -> bool {
    let mut names = Names::new(bytes, settings);
    let searched = names.searched();
    let agreed = names.agrees(&searched);
    let calls = names.definitions.len();
    let searches = searched.iter().map(Vec::len).sum::<usize>();
    let [named, check, recorded, checks] = names.times(&searched, searches);
    let (alone, sum) = (named - check, recorded - checks);
    println!(
        "{:<20} names {calls:>3} searches {searches:>6} slots {:>5} named {named:>11.2} less check {alone:>11.2} \
         recorded alone {sum:>11.2} ratio {:>5.2}  {}",
        name.rsplit('/').next().unwrap_or(name),
        names.work.len() / SLOT_WORDS,
        alone / sum,
        if agreed { "alike" } else { "DIFFER" }
    );
    agreed
}

impl<'a> Names<'a> {
    fn new(bytes: &'a [u8], settings: &'a Settings) -> Names<'a> {
        let apart = settings.definitions.len().div_ceil(MOST_NAMED).max(1);
        let definitions = settings.definitions.iter().copied().step_by(apart);
        let mut names = Names {
            image: Image::check(bytes).expect("the image is accepted"),
            settings,
            definitions: definitions.collect(),
            work: Vec::new(),
            result: Vec::new(),
        };
        names.lend();
        names
    }

    fn name_all(&mut self) {
        for at in 0..self.definitions.len() {
            std::hint::black_box(self.name(self.definitions[at])).ok();
        }
    }

    fn record_all(&mut self, searched: &[Vec<u32>]) {
        for &reference in searched.iter().flatten() {
            std::hint::black_box(self.record(reference));
        }
    }

    /// Without count limits, breadth-first.
    fn request(&self) -> Request {
        Request {
            limits: Limits {
                length: self.settings.search.length,
                ..Limits::default()
            },
            ..Request::default()
        }
    }

    /// As many slots as SLOTS in the environment says, or doubled until no name is
    /// refused.
    fn lend(&mut self) {
        let given = std::env::var("SLOTS").ok();
        let mut slots = given.map_or(1, |slots| slots.parse().expect("SLOTS is a number"));
        loop {
            self.work = vec![0; Work::words(slots)];
            self.result = vec![0; Results::words(slots)];
            let definitions = self.definitions.clone();
            let mut each = definitions.iter();
            if slots >= MOST_SLOTS || each.all(|&node| self.name(node).is_ok()) {
                return;
            }
            slots *= 2;
        }
    }

    fn name(&mut self, node: u32) -> Result<Option<u32>, Refusal> {
        self.named(node, |_| ())
            .map(|name| name.map(|(reference, ())| reference))
    }

    /// The reference of a name, and what is read from its results.
    fn named<T>(
        &mut self,
        node: u32,
        read: impl FnOnce(&Results) -> T,
    ) -> Result<Option<(u32, T)>, Refusal> {
        let length = self.settings.search.length;
        let mut work = Work::lend(&mut self.work);
        let mut results = Results::lend(&mut self.result);
        let (image, node) = (self.image, NodeId(node));
        let name = image.find_name(Visible::All, node, length, &mut work, &mut results)?;
        Ok(name.map(|reference| (reference.0, read(&results))))
    }

    fn record(&mut self, reference: u32) -> bool {
        self.recorded(reference, |_| ()).is_ok()
    }

    /// What is read from the results of a recorded search.
    fn recorded<T>(
        &mut self,
        reference: u32,
        read: impl FnOnce(&Results) -> T,
    ) -> Result<T, Refusal> {
        let request = self.request();
        let mut work = Work::lend(&mut self.work);
        let mut results = Results::lend(&mut self.result);
        let (image, reference) = (self.image, NodeId(reference));
        image.direct_recorded(Visible::All, reference, &request, &mut work, &mut results)?;
        Ok(read(&results))
    }

    /// For each definition the references that are searched for its name.
    fn searched(&mut self) -> Vec<Vec<u32>> {
        let definitions = self.definitions.clone();
        let mut searched = Vec::new();
        for node in definitions {
            let found = self.name(node).ok().flatten();
            let all = self.settings.every_reference.iter().copied();
            searched.push(match found {
                Some(reference) => all.filter(|&other| other <= reference).collect(),
                None => all.collect(),
            });
        }
        searched
    }

    /// Each name is the first recorded path to the node, by the searches one by one.
    fn agrees(&mut self, searched: &[Vec<u32>]) -> bool {
        let definitions = self.definitions.clone();
        definitions.iter().zip(searched).all(|(&node, references)| {
            let image = self.image;
            let named = self.named(node, |results| {
                results.paths().next().map(|path| path.edges().to_vec())
            });
            let first = references.iter().find_map(|&reference| {
                let ends_there = |path: &pozhdaghi::Path| {
                    let path = image.replay(NodeId(reference), path.edges());
                    path.is_ok_and(|path| path.end == NodeId(node))
                };
                let path = self.recorded(reference, |results| {
                    let path = results.paths().find(ends_there);
                    path.map(|path| path.edges().to_vec())
                });
                path.ok().flatten().map(|edges| (reference, Some(edges)))
            });
            named == Ok(first)
        })
    }

    /// All names, as many checks, all their searches, as many checks.
    fn times(&mut self, searched: &[Vec<u32>], searches: usize) -> [f64; 4] {
        let (bytes, calls) = (self.image.bytes(), self.definitions.len());
        let names = RefCell::new(self);
        best_of([
            &mut || timed(|| names.borrow_mut().name_all()),
            &mut || timed(|| ours::check(bytes, calls)),
            &mut || timed(|| names.borrow_mut().record_all(searched)),
            &mut || timed(|| ours::check(bytes, searches)),
        ])
    }
}
