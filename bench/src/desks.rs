//! Direct searches with every second file hidden, against the same searches on the image
//! whose hidden records are removed, where all is visible; and against the check of the
//! image, which is one pass over its records and more.

use crate::Job;
use crate::report::{best_of, timed};
use crate::settings::Settings;
use pozhdaghi::{Image, NodeId, Refusal, Resolution, Results, Visible, Work};
use std::cell::RefCell;

/// Slots of both areas: zeroing them is in both times alike.
const SLOTS: usize = 1_024;

/// In front of the records of an image: the version, the length and three counts.
const HEAD: usize = 11;
const COUNTS: usize = 5;
const NODE_COUNT: usize = 7;
const REMOVED: [u8; 2] = [1, 0];

/// Kinds from this one on have a file.
const FIRST_WITH_FILE: u8 = 3;

/// Places in a record with its count byte.
const KIND: usize = 1;
const FILE: usize = 2;
const ENDS: [usize; 2] = [2, 4];

fn number(bytes: &[u8]) -> usize {
    usize::from(u16::from_be_bytes([bytes[0], bytes[1]]))
}

/// Each record with its count byte.
fn records(bytes: &[u8]) -> Vec<&[u8]> {
    let mut rest = &bytes[HEAD..];
    let mut records = Vec::new();
    while let Some(&count) = rest.first() {
        let (record, behind) = rest.split_at(1 + usize::from(count));
        records.push(record);
        rest = behind;
    }
    records
}

/// The image with the records of hidden files removed; which nodes were hidden.
fn cleared(bytes: &[u8], set: &[u8]) -> (Vec<u8>, Vec<bool>) {
    let records = records(bytes);
    let (nodes, edges) = records.split_at(number(&bytes[NODE_COUNT..]));
    let is_hidden = |node: &&[u8]| node[KIND] >= FIRST_WITH_FILE && set[number(&node[FILE..])] == 0;
    let hidden: Vec<bool> = nodes.iter().map(is_hidden).collect();
    let is_lost =
        |edge: &&[u8]| edge[KIND] > 0 && ENDS.iter().any(|&at| hidden[number(&edge[at..])]);
    let lost = hidden.iter().copied().chain(edges.iter().map(is_lost));
    let kept = records.iter().zip(lost).map(|(record, lost)| match lost {
        true => &REMOVED[..],
        false => record,
    });
    let body = [&bytes[COUNTS..HEAD], &kept.collect::<Vec<_>>().concat()].concat();
    let length = (body.len() as u32).to_be_bytes();
    ([&bytes[..1], &length, &body].concat(), hidden)
}

struct Desk<'a> {
    settings: &'a Settings,
    references: Vec<u32>,
    work: Vec<u32>,
    result: Vec<u32>,
}

impl Desk<'_> {
    fn search(&mut self, image: Image, visible: Visible) -> Vec<Result<Resolution, Refusal>> {
        let request = self.settings.request(Job::Direct);
        let mut work = Work::lend(&mut self.work);
        let mut results = Results::lend(&mut self.result);
        let references = self.references.iter().copied().map(NodeId);
        references
            .map(|node| image.direct(visible, node, &request, &mut work, &mut results))
            .collect()
    }
}

/// A line for an image of more than one file; whether the answers are alike.
pub fn compare(name: &str, bytes: &[u8], settings: &Settings) -> bool {
    let set: Vec<u8> = (0..settings.files)
        .map(|file| (file % 2 == 0).into())
        .collect();
    let (plain, hidden) = cleared(bytes, &set);
    let visible = Visible::Files(&set);
    let mut references = settings.references.clone();
    references.retain(|&reference| !hidden[reference as usize]);
    let calls = references.len();
    let desk = RefCell::new(Desk {
        settings,
        references,
        work: vec![0; Work::words(SLOTS)],
        result: vec![0; Results::words(SLOTS)],
    });
    let [image, plain] =
        [bytes, &plain].map(|bytes| Image::check(bytes).expect("the image is accepted"));
    let run = |image, visible| desk.borrow_mut().search(image, visible);
    let agreed = run(image, visible) == run(plain, Visible::All);
    let [half, removed, checked] = best_of([
        &mut || timed(|| drop(run(image, visible))),
        &mut || timed(|| drop(run(plain, Visible::All))),
        &mut || timed(|| crate::ours::check(bytes, calls)),
    ]);
    println!(
        "{:<20} files {:>3} searches {calls:>4} half hidden {half:>10.2} us, removed {removed:>10.2} us, \
         more {:>8.2} us, checks {checked:>10.2} us  {}",
        name.rsplit('/').next().unwrap_or(name),
        settings.files,
        half - removed,
        if agreed { "alike" } else { "DIFFER" }
    );
    agreed
}
