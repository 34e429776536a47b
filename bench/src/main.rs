//! bench [--only TIMES JOB SIDE] IMAGE ..: direct, linear and stitched search from
//! every reference, and the replacement of every file, by the proved library
//! and by the given Rust. bench --names IMAGE ..: names for definitions, against
//! the recorded searches that they make. bench --convert: an old database converted,
//! against a plain copy. bench --compact: a database compacted, against two copies.
//! bench --window: an entry and a report of the window over the last searches.
//! bench --desks IMAGE ..: direct searches with half of the files hidden, against those
//! where their records are removed. bench --tally IMAGE ..: tallies, against the recorded
//! searches that find the same paths. README.md says what a line holds.

use settings::Settings;
use std::process::exit;

mod compaction;
mod conversion;
mod desks;
#[path = "../../oracle/src/load.rs"]
mod load;
mod names;
mod ours;
mod report;
mod settings;
mod tally;
mod theirs;
mod window;

/// What one call answered, in document 01's numbers: 0, paths and statistics,
/// or the refusal's number and value.
pub type Told = Vec<u64>;

/// What is done to an image.
#[derive(Clone, Copy, Debug, PartialEq, Eq)]
pub enum Job {
    Direct,
    Linear,
    Replace,
    Stitched,
}

pub const JOBS: [Job; 4] = [Job::Direct, Job::Linear, Job::Replace, Job::Stitched];

fn main() {
    let mut words: Vec<String> = std::env::args().skip(1).collect();
    if words.first().is_some_and(|word| word == "--convert") {
        return conversion::compare();
    }
    if words.first().is_some_and(|word| word == "--compact") {
        return compaction::compare();
    }
    if words.first().is_some_and(|word| word == "--window") {
        return window::measure();
    }
    let only = (words.first().is_some_and(|word| word == "--only") && words.len() >= 4)
        .then(|| words.drain(..4).collect::<Vec<String>>());
    let of_names = words.first().is_some_and(|word| word == "--names");
    let of_desks = words.first().is_some_and(|word| word == "--desks");
    let of_tallies = words.first().is_some_and(|word| word == "--tally");
    words.drain(..usize::from(of_names || of_desks || of_tallies));
    let mut agreed = true;
    for name in words {
        let bytes = std::fs::read(&name).expect("the image can be read");
        let settings = Settings::read(&name, &bytes);
        match &only {
            Some(words) => run_only(&words[1..], &bytes, &settings),
            None if of_names => agreed &= names::compare(&name, &bytes, &settings),
            None if of_tallies => agreed &= tally::compare(&name, &bytes, &settings),
            None if of_desks && settings.files < 2 => {}
            None if of_desks => agreed &= desks::compare(&name, &bytes, &settings),
            None => agreed &= report::compare(&name, &bytes, &settings),
        }
    }
    exit(i32::from(!agreed));
}

/// One job by one side so many times, for a profile: "load" of the Rust is the
/// loading alone, once for each call, and "check" of ours the check alone.
fn run_only(words: &[String], bytes: &[u8], settings: &Settings) {
    let times: usize = words[0].parse().expect("a number of runs");
    if words[1] == "names" {
        return names::run_only(times, &words[2], bytes, settings);
    }
    let job = match words[1].as_str() {
        "direct" => Job::Direct,
        "linear" => Job::Linear,
        "replace" => Job::Replace,
        _ => Job::Stitched,
    };
    match words[2].as_str() {
        "check" => ours::check(bytes, times * settings.calls(job)),
        "load" => theirs::load_often(bytes, times * settings.calls(job)),
        "ours" => {
            let mut ours = ours::Ours::new(bytes, settings);
            let slots = ours.slots(job);
            (0..times).for_each(|_| drop(ours.run(job, slots)));
        }
        _ => {
            let mut theirs = theirs::Theirs::new(bytes, settings);
            (0..times).for_each(|_| drop(theirs.run(job)));
        }
    }
}
