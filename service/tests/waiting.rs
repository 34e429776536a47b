//! The waiting figure: the greatest number of paths that ever waited together.
//! With as many waiting slots the same call gives the same answer, with one
//! fewer it is refused with 31.

mod common;

use common::{
    blank, definition, filed, graph_a, graph_b, image, is_zero, plain, reference, refusal, scope,
    slots, Drawn, Edge, Record,
};
use pozhdaghi::{Limits, Order, PartialStatistics, Refusal, Request, Resolution, Visible};

/// The figure of a search of a small graph, from node 2 and without limits.
fn figure(image: &[u8], order: Order) -> u64 {
    let request = Request {
        order,
        limits: Limits::default(),
    };
    let found = plain::direct(
        image,
        Visible::All,
        2,
        &request,
        &mut slots(128),
        &mut slots(8),
    );
    found.expect("not refused").statistics.waited
}

#[test]
fn small_graphs() {
    let (a, b) = (graph_a(), graph_b());
    assert_eq!(figure(&a, Order::BreadthFirst), 1);
    assert_eq!(figure(&a, Order::DepthFirst), 1);
    assert_eq!(figure(&b, Order::BreadthFirst), 4);
    assert_eq!(figure(&b, Order::DepthFirst), 3);
    assert_eq!(
        replaced(&a, &Request::default(), 128).map(|(counted, _)| counted.waited),
        Ok(4)
    );
    let found = plain::linear(&a, Visible::All, 2, &Request::default(), &mut slots(2));
    assert_eq!(found.expect("not refused").statistics.waited, 0);
}

/// The start waits too, also where the path count ends the search at once.
#[test]
fn nothing_expanded() {
    let request = Request {
        order: Order::BreadthFirst,
        limits: Limits {
            paths: Some(0),
            ..Limits::default()
        },
    };
    let found = plain::direct(
        &graph_b(),
        Visible::All,
        2,
        &request,
        &mut slots(8),
        &mut slots(8),
    );
    assert_eq!(found.expect("not refused").statistics.waited, 1);
    assert_eq!(
        replaced(&graph_a(), &request, 8).map(|(counted, _)| counted.waited),
        Ok(3)
    );
}

impl Drawn {
    /// References, scopes and definitions of two symbols; edges between any of them,
    /// and to and from root.
    fn graph(&mut self) -> Vec<u8> {
        let symbol = 7;
        let mut nodes: Vec<Record> = vec![reference(symbol)];
        for _ in 0..2 + self.below(4) {
            nodes.push(match self.below(4) {
                0 => definition(symbol),
                1 => definition(symbol + 1),
                2 => reference(symbol),
                _ => scope(self.below(2) == 0),
            });
        }
        let numbers = nodes.len() as u64 + 2;
        let edges: Vec<Edge> = (0..3 + self.below(6))
            .map(|_| (self.end(numbers), self.end(numbers), self.below(3) as i32))
            .collect();
        image(&nodes, &edges)
    }

    /// Any node but jump.
    fn end(&mut self, numbers: u64) -> u16 {
        match self.below(numbers - 1) {
            0 => 0,
            number => number as u16 + 1,
        }
    }

    fn limit(&mut self, most: u64) -> Option<u64> {
        (self.below(3) == 0).then(|| self.below(most))
    }

    fn request(&mut self) -> Request {
        let order = match self.below(2) {
            0 => Order::BreadthFirst,
            _ => Order::DepthFirst,
        };
        let limits = Limits {
            length: self.limit(6),
            // without it a drawn search may take long
            paths: Some(self.limit(8).unwrap_or(400)),
            complete: self.limit(4),
        };
        Request { order, limits }
    }
}

/// A search with so many waiting slots, and every word of its result area.
type Searched = Result<(Resolution, Vec<u32>), Refusal>;

fn searched(
    image: &[u8],
    words: &[u32],
    request: &Request,
    recorded: bool,
    waiting: usize,
) -> Searched {
    let (mut work, mut result) = (slots(waiting), slots(600));
    let found = match (words.is_empty(), recorded) {
        (true, false) => plain::direct(image, Visible::All, 2, request, &mut work, &mut result),
        (true, true) => {
            plain::direct_recorded(image, Visible::All, 2, request, &mut work, &mut result)
        }
        (false, false) => plain::stitched(
            image,
            Visible::All,
            words,
            2,
            request,
            &mut work,
            &mut result,
        ),
        (false, true) => plain::stitched_recorded(
            image,
            Visible::All,
            words,
            2,
            request,
            &mut work,
            &mut result,
        ),
    };
    assert!(is_zero(&work));
    found.map(|found| (found, result))
}

/// File 0 replaced in a fresh database, and every word of it.
fn replaced(
    image: &[u8],
    request: &Request,
    waiting: usize,
) -> Result<(PartialStatistics, Vec<u32>), Refusal> {
    let mut words = blank(600);
    plain::fresh(image, &mut words).expect("not refused");
    let before = words.clone();
    let counted = plain::replace_file(image, 0, request, &mut slots(waiting), &mut words);
    assert!(counted.is_ok() || words == before);
    counted.map(|counted| (counted, words))
}

/// As many slots as the figure are enough, and one fewer is 31. Answers the figure,
/// or none where the call is refused with many slots.
fn exact<T: PartialEq + std::fmt::Debug>(
    figure: impl Fn(&T) -> u64,
    call: impl Fn(usize) -> Result<T, Refusal>,
) -> Option<u64> {
    let many = call(2_000).ok()?;
    let waited = figure(&many);
    assert!(waited > 0);
    assert_eq!(call(waited as usize), Ok(many));
    assert_eq!(call(waited as usize - 1), Err(refusal(31, &[])));
    Some(waited)
}

#[test]
fn drawn_searches() {
    let mut drawn = Drawn(1);
    let mut figures = Vec::new();
    for _ in 0..150 {
        let (image, request) = (drawn.graph(), drawn.request());
        let unlimited = Request {
            order: Order::BreadthFirst,
            limits: Limits {
                paths: Some(400),
                ..Limits::default()
            },
        };
        let database = replaced(&image, &unlimited, 2_000)
            .map_or_else(|_| filed(&graph_a()), |(_, words)| words);
        for words in [&[][..], &database] {
            for recorded in [false, true] {
                figures.push(exact(
                    |(found, _): &(Resolution, Vec<u32>)| found.statistics.waited,
                    |waiting| searched(&image, words, &request, recorded, waiting),
                ));
            }
        }
        figures.push(exact(
            |(counted, _): &(PartialStatistics, Vec<u32>)| counted.waited,
            |waiting| replaced(&image, &request, waiting),
        ));
    }
    let found: Vec<u64> = figures.into_iter().flatten().collect();
    // most are not refused, and figures are of many sizes
    assert!(found.len() > 500, "{}", found.len());
    for least in [1, 2, 4, 8, 16] {
        assert!(
            found
                .iter()
                .any(|&figure| figure >= least && figure < 2 * least),
            "none about {least}"
        );
    }
}
