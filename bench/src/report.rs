//! A line for each job: the least times of several runs, and their ratios.

use crate::ours::{self, Ours, TOO_LONG, too_long};
use crate::settings::Settings;
use crate::theirs::{self, Theirs};
use crate::{JOBS, Job, Told};
use std::time::{Duration, Instant};

/// So many rounds at least, and as many as begin within the time.
const ROUNDS: usize = 7;
const ENOUGH: Duration = Duration::from_millis(400);
/// No round begins after this.
const LONGEST: Duration = Duration::from_secs(16);
/// A job that is done sooner is repeated until so much time is measured: one
/// run of a microsecond would tell more of the clock than of the job.
const SHORTEST: Duration = Duration::from_millis(2);

/// The mean of as many runs as take SHORTEST, in microseconds.
fn mean_of(run: &mut impl FnMut() -> Duration) -> f64 {
    let mut sum = Duration::ZERO;
    let mut runs = 0;
    while sum < SHORTEST {
        sum += run();
        runs += 1;
    }
    sum.as_secs_f64() * 1e6 / f64::from(runs)
}

/// The least of several such means for each of the runs. They take turns, so
/// that what else the machine does falls on all of them alike.
pub fn best_of<const N: usize>(mut runs: [&mut dyn FnMut() -> Duration; N]) -> [f64; N] {
    let begun = Instant::now();
    let mut best = [f64::INFINITY; N];
    let mut rounds = 0;
    while (rounds < ROUNDS || begun.elapsed() < ENOUGH) && begun.elapsed() < LONGEST {
        for (best, run) in best.iter_mut().zip(&mut runs) {
            *best = best.min(mean_of(run));
        }
        rounds += 1;
    }
    best
}

pub fn timed(run: impl FnOnce()) -> Duration {
    let start = Instant::now();
    run();
    start.elapsed()
}

/// Times every job on an image; whether both sides answered alike throughout.
pub fn compare(name: &str, bytes: &[u8], settings: &Settings) -> bool {
    let name = name.rsplit('/').next().unwrap_or(name);
    println!(
        "{name}: {} references, {} files, {} bytes",
        settings.references.len(),
        settings.files,
        bytes.len()
    );
    println!(
        "  {:<9} {:>6} {:>6} {:>8} {:>11} {:>11} {:>11} {:>11} {:>7} {:>7}  answers",
        "job",
        "calls",
        "slots",
        "expanded",
        "ours",
        "less check",
        "Rust",
        "with load",
        "ratio",
        "ratio 2"
    );
    let mut ours = Ours::new(bytes, settings);
    let mut theirs = Theirs::new(bytes, settings);
    JOBS.iter()
        .map(|&job| compare_job(job, bytes, settings, &mut ours, &mut theirs))
        .fold(true, |all, one| all && one)
}

fn compare_job(
    job: Job,
    bytes: &[u8],
    settings: &Settings,
    ours: &mut Ours,
    theirs: &mut Theirs,
) -> bool {
    let calls = settings.calls(job);
    let slots = ours.slots(job);
    let (_, our_answers) = ours.run(job, slots);
    let (_, their_answers) = theirs.run(job);
    // a search over fewer partial paths than the Rust has tells nothing of either
    let is_comparable = job != Job::Stitched || ours.unfiled == 0;
    let [our_time, their_time, checks, loads] = best_of([
        &mut || ours.run(job, slots).0,
        &mut || theirs.run(job).0,
        &mut || timed(|| ours::check(bytes, calls)),
        &mut || timed(|| theirs::load_often(bytes, calls)),
    ]);
    let bare = (our_time - checks).max(0.0);
    println!(
        "  {:<9} {calls:>6} {slots:>6} {:>8} {our_time:>11.2} {bare:>11.2} {their_time:>11.2} {:>11.2} {:>7.2} {:>7}  {}",
        format!("{job:?}").to_lowercase(),
        expanded(job, &our_answers),
        their_time + loads,
        (their_time + loads) / our_time,
        ratio(their_time, bare),
        if is_comparable {
            verdict(&our_answers, &their_answers)
        } else {
            format!("not compared: {} files lacking by 30", ours.unfiled)
        }
    );
    !is_comparable || differing(&our_answers, &their_answers).is_none()
}

/// The expansions of all calls; a refused one tells of none.
fn expanded(job: Job, answers: &[Told]) -> u64 {
    let at = if job == Job::Replace { 1 } else { 2 };
    answers
        .iter()
        .filter(|told| told[0] == 0)
        .map(|told| told[at])
        .sum()
}

/// A search on a small graph may take less time than its check varies by.
fn ratio(theirs: f64, ours: f64) -> String {
    if ours > 0.0 {
        return format!("{:.2}", theirs / ours);
    }
    "-".to_owned()
}

/// The first call that the sides answer differently; the Rust has no bound on edges, so
/// 30 is no difference.
fn differing(ours: &[Told], theirs: &[Told]) -> Option<usize> {
    let differ = |(left, right): (&Told, &Told)| left != right && left[0] != TOO_LONG;
    ours.iter().zip(theirs).position(differ)
}

fn verdict(ours: &[Told], theirs: &[Told]) -> String {
    let refused = too_long(ours);
    match differing(ours, theirs) {
        _ if ours.len() != theirs.len() => "missing".to_owned(),
        Some(at) => format!("DIFFER at {at}: {:?} {:?}", ours[at], theirs[at]),
        None if refused > 0 => format!("{} alike, {refused} refused by 30", ours.len() - refused),
        None => format!("{} alike", ours.len()),
    }
}
