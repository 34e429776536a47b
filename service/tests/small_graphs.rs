//! The cases of document 01, "Small graphs", through the calls for Rust.

mod common;

use common::{
    area, database, filed, graph_a, graph_b, graph_c, is_zero, plain, plain::Counts, refusal, slots,
};
use pozhdaghi::{Limits, Order, PartialStatistics, Request, Resolution, Statistics, Visible};

fn limited(length: Option<u64>, paths: Option<u64>, complete: Option<u64>) -> Request {
    Request {
        order: Order::BreadthFirst,
        limits: Limits {
            length,
            paths,
            complete,
        },
    }
}

/// The paths, and every word behind them.
fn paths(result: &[u32]) -> Vec<Vec<u32>> {
    let paths: Vec<Vec<u32>> = plain::paths(result).map(<[u32]>::to_vec).collect();
    assert_eq!(result, area(&paths, result.len()));
    paths
}

/// Direct search from node 2: the answer and the returned paths.
fn direct(image: &[u8], request: &Request) -> (Resolution, Vec<Vec<u32>>) {
    let (mut work, mut result) = (slots(128), slots(128));
    let found = plain::direct(image, Visible::All, 2, request, &mut work, &mut result)
        .expect("not refused");
    assert!(is_zero(&work));
    (found, paths(&result))
}

/// The recorded paths of a direct search from node 2.
fn recorded(image: &[u8]) -> Vec<Vec<u32>> {
    let (mut work, mut result) = (slots(4), slots(4));
    plain::direct_recorded(
        image,
        Visible::All,
        2,
        &Request::default(),
        &mut work,
        &mut result,
    )
    .expect("not refused");
    paths(&result)
}

/// Stitched search from node 2: the answer, the returned and the recorded paths.
fn stitched(image: &[u8]) -> (Resolution, Vec<Vec<u32>>, Vec<Vec<u32>>) {
    let (words, request) = (filed(image), Request::default());
    let (mut work, mut result) = (slots(8), slots(8));
    let found = plain::stitched(
        image,
        Visible::All,
        &words,
        2,
        &request,
        &mut work,
        &mut result,
    )
    .expect("not refused");
    let returned = paths(&result);
    plain::stitched_recorded(
        image,
        Visible::All,
        &words,
        2,
        &request,
        &mut work,
        &mut result,
    )
    .expect("not refused");
    assert!(is_zero(&work));
    (found, returned, paths(&result))
}

/// What the four numbers of a search without limits and cuts make: the last is
/// how many paths ever waited together.
fn counted(paths: u64, [expanded, complete, rejected, waited]: [u64; 4]) -> Resolution {
    let statistics = Statistics {
        expanded,
        complete,
        rejected,
        waited,
        ..Statistics::default()
    };
    Resolution { paths, statistics }
}

#[test]
fn graph_a_directly() {
    let image = graph_a();
    assert_eq!(image.len(), 77);
    let counts = Counts {
        files: 1,
        nodes: 6,
        edges: 3,
    };
    assert_eq!(plain::check(&image), Ok(counts));
    for order in [Order::BreadthFirst, Order::DepthFirst] {
        let limits = Limits::default();
        let (found, paths) = direct(&image, &Request { order, limits });
        assert_eq!(found, counted(1, [3, 1, 1, 1]));
        assert_eq!(paths, [[0, 1]]);
    }
    assert_eq!(recorded(&image), [[0, 1]]);
}

#[test]
fn graph_a_with_limits() {
    let image = graph_a();
    let counted = |request| direct(&image, &request).0.statistics;
    let short = counted(limited(Some(1), None, None));
    assert_eq!((short.expanded, short.length_limited), (2, true));
    assert_eq!(
        direct(&image, &limited(Some(2), None, None)),
        direct(&image, &Request::default())
    );
    let none = counted(limited(None, Some(0), None));
    assert_eq!((none.expanded, none.count_limited), (0, true));
    let two = counted(limited(None, Some(2), None));
    assert_eq!(
        (two.expanded, two.complete, two.count_limited),
        (2, 1, true)
    );
    assert!(!counted(limited(None, Some(3), None)).count_limited);
}

/// Linear search takes no other edge of A than direct search appends.
#[test]
fn graph_a_linearly() {
    let (image, request) = (graph_a(), Request::default());
    let mut result = slots(2);
    for call in [plain::linear, plain::linear_recorded] {
        let found = call(&image, Visible::All, 2, &request, &mut result);
        assert_eq!(found, Ok(counted(1, [3, 1, 1, 0])));
        assert_eq!(paths(&result), [[0, 1]]);
    }
}

#[test]
fn graph_a_in_parts() {
    let image = graph_a();
    let parts: [&[u32]; 5] = [&[0], &[1], &[2], &[0, 1], &[0, 2]];
    let ends = [(2, 3), (3, 4), (3, 5), (2, 4), (2, 5)];
    let slots: Vec<common::Slot> = parts
        .iter()
        .zip(ends)
        .map(|(&edges, (start, end))| Some((0, start, end, edges)))
        .collect();
    let words = filed(&image);
    assert_eq!(words, database(6, 1, &slots, 16));
    for (number, part) in parts.iter().enumerate() {
        assert_eq!(plain::lookup(&words, number as u32), *part);
    }
    let (found, returned, recorded) = stitched(&image);
    assert_eq!(found, counted(1, [4, 2, 2, 2]));
    assert_eq!((returned, recorded), (vec![vec![0, 1]], vec![vec![0, 1]]));
}

#[test]
fn graph_a_file_counted() {
    let image = graph_a();
    let mut words = filed(&image);
    let replaced = plain::replace_file(&image, 0, &Request::default(), &mut slots(8), &mut words);
    let statistics = PartialStatistics {
        expanded: 8,
        found: 5,
        waited: 4,
        ..PartialStatistics::default()
    };
    assert_eq!(replaced, Ok(statistics));
}

#[test]
fn graph_a_replayed() {
    let image = graph_a();
    assert_eq!(plain::replay(&image, 2, &[0, 2]), Err(refusal(15, &[5])));
    assert_eq!(plain::replay(&image, 2, &[1]), Err(refusal(13, &[2, 3])));
}

/// Four paths are recorded, of which the last shadows all others.
#[test]
fn graph_b_returned_and_recorded() {
    let image = graph_b();
    let all = [[0, 2], [0, 3], [1, 2], [1, 3]];
    let (found, returned) = direct(&image, &Request::default());
    assert_eq!(found, counted(1, [7, 4, 0, 4]));
    assert_eq!(returned, [[1, 3]]);
    assert_eq!(recorded(&image), all);
    let (_, returned, recorded) = stitched(&image);
    assert_eq!(returned, [[1, 3]]);
    assert_eq!(recorded, all);
}

#[test]
fn graph_b_limited_and_linear() {
    let image = graph_b();
    let (found, none) = direct(&image, &limited(None, None, Some(3)));
    assert_eq!(found.statistics.complete, 4);
    assert!(found.statistics.complete_limited && none.is_empty());
    for call in [plain::linear, plain::linear_recorded] {
        let mut result = slots(4);
        assert_eq!(
            call(&image, Visible::All, 2, &Request::default(), &mut result),
            Err(refusal(20, &[2]))
        );
        assert!(is_zero(&result));
    }
}

#[test]
fn graph_b_shadows() {
    let image = graph_b();
    let shadows = |left: &[u32], right: &[u32]| plain::shadows(&image, (2, left), (2, right));
    assert_eq!(shadows(&[1, 3], &[0, 3]), Ok(true));
    assert_eq!(shadows(&[0, 3], &[1, 3]), Ok(false));
    // A smaller precedence does not end the walk.
    assert_eq!(shadows(&[0, 3], &[1, 2]), Ok(true));
}

#[test]
fn graph_c_recorded() {
    let image = graph_c();
    let directly: [&[u32]; 2] = [&[0, 2], &[0, 1, 2]];
    assert_eq!(recorded(&image), directly);
    assert_eq!(stitched(&image).2, [[0, 2]]);
}
