//! Tallies of the references of an image, against the recorded direct searches that find
//! the same paths: depth-first, without limits, in the same work area.

use crate::report::{best_of, timed};
use crate::settings::Settings;
use pozhdaghi::{Image, NodeId, Order, Refusal, Request, Results, Visible, Work};
use std::cell::RefCell;

const MOST_SLOTS: usize = 65_536;

struct Name<'a> {
    image: Image<'a>,
    work: Vec<u32>,
    result: Vec<u32>,
}

impl Name<'_> {
    /// How many lists are counted.
    fn tally(&mut self, node: u32) -> Result<u64, Refusal> {
        let mut work = Work::lend(&mut self.work);
        let numbers = self.image.tally(Visible::All, NodeId(node), &mut work)?;
        Ok(numbers.iter().sum())
    }

    /// How many paths are found complete.
    fn record(&mut self, node: u32) -> Result<u64, Refusal> {
        let request = Request {
            order: Order::DepthFirst,
            ..Request::default()
        };
        let (image, node) = (self.image, NodeId(node));
        let mut work = Work::lend(&mut self.work);
        let mut results = Results::lend(&mut self.result);
        let found = image.direct_recorded(Visible::All, node, &request, &mut work, &mut results)?;
        Ok(found.statistics.complete)
    }
}

/// A line for an image; whether both count alike. References that are refused otherwise
/// than for want of slots are left out.
pub fn compare(name: &str, bytes: &[u8], settings: &Settings) -> bool {
    let image = Image::check(bytes).expect("the image is accepted");
    let mut slots = 1;
    let (name_of, references) = loop {
        let mut lent = Name {
            image,
            work: vec![0; Work::words(slots)],
            result: vec![0; Results::words(slots)],
        };
        let answers = settings
            .references
            .iter()
            .map(|&node| (node, lent.record(node)));
        let answers: Vec<_> = answers.collect();
        let is_short = |answer: &Result<u64, Refusal>| {
            matches!(answer, Err(Refusal::NoWaitingSlot | Refusal::NoResultSlot))
        };
        if slots >= MOST_SLOTS || !answers.iter().any(|(_, answer)| is_short(answer)) {
            let found = answers.into_iter().filter(|(_, answer)| answer.is_ok());
            break (lent, found.map(|(node, _)| node).collect::<Vec<_>>());
        }
        slots *= 2;
    };
    let lent = RefCell::new(name_of);
    let tallied = || references.iter().map(|&node| lent.borrow_mut().tally(node));
    let recorded = || {
        references
            .iter()
            .map(|&node| lent.borrow_mut().record(node))
    };
    let agreed = tallied().eq(recorded());
    let paths: u64 = tallied().flatten().sum();
    let [tally, record, checked] = best_of([
        &mut || timed(|| drop(tallied().collect::<Vec<_>>())),
        &mut || timed(|| drop(recorded().collect::<Vec<_>>())),
        &mut || timed(|| crate::ours::check(bytes, references.len())),
    ]);
    println!(
        "{:<20} tallies {:>4} paths {paths:>6} tally {tally:>10.2} us, recorded {record:>10.2} us, \
         ratio {:>5.2}, less checks {:>5.2}  {}",
        name.rsplit('/').next().unwrap_or(name),
        references.len(),
        record / tally,
        (record - checked) / (tally - checked),
        if agreed { "alike" } else { "DIFFER" }
    );
    agreed
}
