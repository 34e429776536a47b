//! The bound on expansions, document 01's 36: the 16,777,216th is made and the
//! next one is not. A row of double edges doubles the paths at each scope, so
//! that 23 of them give 2^24 - 1 expansions; each further edge gives one more. The
//! alias set of ten edges from root to root and one to jump takes 19,728,202.

mod common;

use common::{database, image, image_of, is_zero, plain, reference, refusal, scope, slots, Edge};
use pozhdaghi::{Limits, Order, Refusal, Request, Resolution, Visible};

const MOST: u64 = 1 << 24;

/// The search along the row, with so many edges beside it.
fn searched(beside: u16) -> Result<Resolution, Refusal> {
    let row = 23;
    let mut nodes = vec![reference(7)];
    let mut edges = Vec::new();
    for source in 2..2 + row {
        nodes.push(scope(false));
        edges.extend([(source, source + 1, 0); 2]);
    }
    for target in 3 + row..3 + row + beside {
        nodes.push(scope(false));
        edges.push((2, target, 0));
    }
    let request = Request {
        order: Order::DepthFirst,
        limits: Limits::default(),
    };
    let (mut work, mut result) = (slots(32), slots(1));
    let found = plain::direct(
        &image(&nodes, &edges),
        Visible::All,
        2,
        &request,
        &mut work,
        &mut result,
    );
    assert!(is_zero(&work) && is_zero(&result));
    found
}

#[test]
fn as_many_as_allowed() {
    let found = searched(1).expect("not refused");
    assert_eq!((found.paths, found.statistics.expanded), (0, MOST));
}

#[test]
fn one_too_many() {
    assert_eq!(searched(2), Err(refusal(36, &[])));
}

/// Where the path count ends the computation before, it has found more than fits.
#[test]
fn aliases() {
    let edges: Vec<Edge> = [vec![(0, 0, 0); 10], vec![(0, 1, 0)]].concat();
    let image = image_of(0, &[], &edges);
    for (paths, number) in [(MOST, 33), (MOST + 1, 36)] {
        let request = Request {
            order: Order::DepthFirst,
            limits: Limits {
                paths: Some(paths),
                ..Limits::default()
            },
        };
        let (mut work, mut words) = (slots(64), database(2, 0, &[], 1));
        let told = plain::replace_aliases(&image, &request, &mut work, &mut words);
        assert_eq!(told, Err(refusal(number, &[])));
        assert!(is_zero(&work));
        assert_eq!(words, database(2, 0, &[], 1));
    }
}
