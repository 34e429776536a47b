//! The proved library's side. The areas have the fewest slots in which no call
//! is refused 31 or 32, unless SLOTS says how many, and the database those that
//! are used.

use crate::settings::Settings;
use crate::{Job, Told};
use pozhdaghi::{
    Database, DatabaseMut, FileId, Image, MOST_RECORDS, NodeId, Refusal, Results, Visible, Work,
};
use std::time::{Duration, Instant};

const MOST_SLOTS: usize = 65_536;
pub const TOO_LONG: u64 = 30;

pub struct Ours<'a> {
    image: Image<'a>,
    settings: &'a Settings,
    words: Vec<u32>,
    work: Vec<u32>,
    result: Vec<u32>,
    /// Files that the database lacks, as one of their routes is over the bound.
    pub unfiled: usize,
}

/// The image checked so many times.
pub fn check(bytes: &[u8], times: usize) {
    for _ in 0..times {
        std::hint::black_box(Image::check(bytes)).expect("the image is accepted");
    }
}

/// The calls that the bound on edges refuses, which the Rust does not have.
pub fn too_long(told: &[Told]) -> usize {
    told.iter().filter(|told| told[0] == TOO_LONG).count()
}

fn refusal(refusal: Refusal) -> Told {
    vec![refusal.number(), refusal.values()[0]]
}

fn resolution(found: Result<pozhdaghi::Resolution, Refusal>) -> Told {
    found.map_or_else(refusal, |found| {
        let stats = found.statistics;
        vec![
            0,
            found.paths,
            stats.expanded,
            stats.complete,
            stats.rejected,
            stats.cycles,
            u64::from(stats.length_limited),
            u64::from(stats.count_limited),
            u64::from(stats.complete_limited),
        ]
    })
}

fn replacement(done: Result<pozhdaghi::PartialStatistics, Refusal>) -> Told {
    done.map_or_else(refusal, |stats| {
        vec![
            0,
            stats.expanded,
            stats.found,
            stats.cycles,
            u64::from(stats.length_limited),
            u64::from(stats.count_limited),
        ]
    })
}

impl<'a> Ours<'a> {
    /// The database is filed here, for the stitched search.
    pub fn new(bytes: &'a [u8], settings: &'a Settings) -> Ours<'a> {
        let mut ours = Ours {
            image: Image::check(bytes).expect("the image is accepted"),
            settings,
            words: vec![0; DatabaseMut::words(MOST_RECORDS)],
            work: Vec::new(),
            result: Vec::new(),
            unfiled: 0,
        };
        let slots = ours.slots(Job::Replace);
        let (_, told) = ours.run(Job::Replace, slots);
        ours.unfiled = too_long(&told);
        // Words behind the used ones would be cleared before every run of the
        // replacement, and what the caches hold of a small job with them.
        let used = Database::lend(&ours.words).used();
        ours.words.truncate(DatabaseMut::words(used));
        ours
    }

    /// The slots that are lent to a job: as many as SLOTS in the environment
    /// says, or the fewest in which it is done.
    pub fn slots(&mut self, job: Job) -> usize {
        std::env::var("SLOTS").map_or_else(
            |_| self.fewest_slots(job),
            |slots| slots.parse().expect("SLOTS is a number"),
        )
    }

    /// The fewest slots in which a job is done: doubled until it is, then halved in on.
    fn fewest_slots(&mut self, job: Job) -> usize {
        let mut enough = 1;
        while enough < MOST_SLOTS && !self.is_done(job, enough) {
            enough *= 2;
        }
        let mut few = enough / 2;
        while few + 1 < enough {
            let middle = usize::midpoint(few, enough);
            if self.is_done(job, middle) {
                enough = middle;
            } else {
                few = middle;
            }
        }
        enough
    }

    fn is_done(&mut self, job: Job, slots: usize) -> bool {
        let (_, told) = self.run(job, slots);
        told.iter().all(|told| told[0] != 31 && told[0] != 32)
    }

    /// The time of all calls of a job with so many slots, and what they answered.
    pub fn run(&mut self, job: Job, slots: usize) -> (Duration, Vec<Told>) {
        let request = self.settings.request(job);
        // Lent again in every run, as a service would keep them.
        let lent = Work::words(slots);
        self.work.resize(self.work.len().max(lent), 0);
        self.result.resize(self.result.len().max(lent), 0);
        let mut work = Work::lend_slots(&mut self.work, slots);
        let mut results = Results::lend_slots(&mut self.result, slots);
        let (image, all) = (self.image, Visible::All);
        let mut database = DatabaseMut::lend(&mut self.words);
        if job == Job::Replace {
            database.fresh(image).expect("the words are enough");
        }
        let mut told = Vec::with_capacity(self.settings.calls(job));
        let start = Instant::now();
        for call in 0..self.settings.calls(job) {
            let at = NodeId(self.settings.references.get(call).copied().unwrap_or(0));
            let file = FileId(call as u32);
            let (work, to) = (&mut work, &mut results);
            told.push(match job {
                Job::Direct => resolution(image.direct(all, at, &request, work, to)),
                Job::Linear => resolution(image.linear(all, at, &request, to)),
                Job::Replace => replacement(database.replace_file(image, file, &request, work)),
                Job::Stitched => {
                    resolution(image.stitched(all, database.read(), at, &request, work, to))
                }
            });
        }
        (start.elapsed(), told)
    }
}
