//! The window over the last searches: a million drawn calls as `oracle/window.py` counted them
//! out, the same draws and others against a plain queue, and what document 02, order 10 says of
//! its first entries, its last ones and of 40. Short areas and words that no window wrote are
//! tried in `c/tests/window.c`, as the type of this package has none.

use pozhdaghi::{Refusal, Trend, Window, MOST_EXPANSIONS, WINDOW_ENTRIES};
use std::collections::VecDeque;

const CALLS: usize = 1_000_000;
const MULTIPLIER: u64 = 6_364_136_223_846_793_005;
const INCREMENT: u64 = 1_442_695_040_888_963_407;
const RUN: usize = 700;

/// The counts of `drawn` in `oracle/window.py`.
struct Drawn {
    state: u64,
    calls: usize,
}

impl Iterator for Drawn {
    type Item = u64;

    fn next(&mut self) -> Option<u64> {
        self.state = self.state.wrapping_mul(MULTIPLIER).wrapping_add(INCREMENT);
        let kept = (self.state >> 40) >> (self.calls / RUN % 25);
        self.calls += 1;
        Some(match (self.state >> 20) % 1_024 {
            0 => 0,
            1 => MOST_EXPANSIONS,
            2 => MOST_EXPANSIONS + 1,
            3 => u64::MAX,
            _ => kept,
        })
    }
}

fn drawn(seed: u64) -> impl Iterator<Item = u64> {
    Drawn {
        state: seed,
        calls: 0,
    }
}

/// 0 or the number of the refusal.
fn entered(window: &mut Window, count: u64) -> u64 {
    window.enter(count).map_or_else(|why| why.number(), |()| 0)
}

/// The trend of counts that are at hand.
fn trend<'a>(counts: impl Iterator<Item = &'a u64> + Clone) -> Trend {
    Trend {
        sum: counts.clone().sum(),
        greatest: counts.copied().max().unwrap_or(0),
    }
}

/// Every line of the list, and through the digest every one of the million reports.
#[test]
fn a_million_calls_as_counted_out() {
    let mut lines = include_str!("list.txt").lines().peekable();
    let (mut window, mut digest, mut compared) = (Window::new(), 0_u64, 0);
    let first = window.report();
    assert_eq!(lines.next(), Some("0 0 0 0"));
    assert_eq!(first, Trend::default());
    for (made, count) in (1..=CALLS).zip(drawn(10)) {
        let told = entered(&mut window, count);
        let Trend { sum, greatest } = window.report();
        for number in [told, sum, greatest] {
            digest = digest.wrapping_mul(MULTIPLIER).wrapping_add(number + 1);
        }
        let line = format!("{made} {told} {sum} {greatest}");
        let number = lines.peek().and_then(|line| line.split(' ').next());
        if number == Some(made.to_string().as_str()) {
            assert_eq!(lines.next(), Some(line.as_str()));
            compared += 1;
        }
    }
    assert_eq!(compared, 126);
    assert_eq!(lines.next(), Some(format!("digest {digest}").as_str()));
    assert_eq!(lines.next(), None);
}

/// A plain queue beside it: after each call the same report, also when the greatest has left.
#[test]
fn as_a_plain_queue() {
    for seed in [1, 2, 3] {
        let (mut window, mut queue) = (Window::new(), VecDeque::new());
        let (mut falls, mut refused, mut before) = (0, 0, 0);
        for count in drawn(seed).take(30_000) {
            let told = entered(&mut window, count);
            if count <= MOST_EXPANSIONS {
                queue.push_back(count);
                assert_eq!(told, 0);
            } else {
                refused += 1;
                assert_eq!(told, 40);
            }
            if queue.len() > WINDOW_ENTRIES {
                queue.pop_front();
            }
            let report = window.report();
            assert_eq!(report, trend(queue.iter()));
            falls += u32::from(report.greatest < before);
            before = report.greatest;
        }
        assert!(falls > 20 && refused > 20, "{falls} falls, {refused} of 40");
    }
}

/// 0 and 0 before the first; all entries while there are fewer; then the last 1,024.
#[test]
fn at_the_ends() {
    let mut window = Window::default();
    assert_eq!(window.report(), Trend::default());
    let history: Vec<u64> = (0..3 * WINDOW_ENTRIES as u64)
        .map(|n| n * 37 % 5_003)
        .collect();
    for made in 1..=history.len() {
        window.enter(history[made - 1]).expect("accepted");
        let from = made.saturating_sub(WINDOW_ENTRIES);
        assert_eq!(window.report(), trend(history[from..made].iter()));
    }
    window.begin();
    assert_eq!(window.report(), Trend::default());
    window.enter(7).expect("accepted");
    assert_eq!(window.report(), trend([7].iter()));
}

/// 1,024 times the bound: a sum of 2^34. One more than the bound is 40, and the next entry goes
/// where it would have gone.
#[test]
fn the_greatest_entries() {
    let mut window = Window::new();
    for _ in 0..WINDOW_ENTRIES + 3 {
        window.enter(MOST_EXPANSIONS).expect("accepted");
        for count in [MOST_EXPANSIONS + 1, 1 << 32, u64::MAX] {
            assert_eq!(window.enter(count), Err(Refusal::TooGreat));
        }
    }
    let full = Trend {
        sum: 1 << 34,
        greatest: MOST_EXPANSIONS,
    };
    assert_eq!(window.report(), full);
    for _ in 0..WINDOW_ENTRIES {
        window.enter(0).expect("accepted");
        window.enter(MOST_EXPANSIONS + 1).expect_err("refused");
    }
    assert_eq!(window.report(), Trend::default());
}
