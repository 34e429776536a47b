//! The window over the last searches: an entry, and a report of a full window, each as one of
//! many thousand in a row, through the package for Rust.

use crate::report::{best_of, timed};
use pozhdaghi::{MOST_EXPANSIONS, Window};
use std::hint::black_box;

const CALLS: u64 = 10_000;

/// So many entries, so many reports: nanoseconds of one.
pub fn measure() {
    let mut window = Window::new();
    for count in 0..CALLS {
        assert!(window.enter(count).is_ok());
    }
    let full = window.clone();
    let [enter, refuse, report] = best_of([
        &mut || {
            timed(|| {
                for count in 0..CALLS {
                    assert!(window.enter(black_box(count)).is_ok());
                }
            })
        },
        &mut || {
            let mut window = full.clone();
            timed(|| {
                for count in 0..CALLS {
                    assert!(
                        window
                            .enter(black_box(MOST_EXPANSIONS + 1 + count))
                            .is_err()
                    );
                }
            })
        },
        &mut || {
            timed(|| {
                for _ in 0..CALLS {
                    black_box(black_box(&full).report());
                }
            })
        },
    ]);
    let each = [enter, refuse, report].map(|all| all * 1_000.0 / CALLS as f64);
    println!(
        "entered {:.1} ns, refused {:.1} ns, reported {:.1} ns",
        each[0], each[1], each[2]
    );
}
