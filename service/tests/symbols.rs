//! Symbols of 64 bits, document 02, order 3: two that differ in one half alone are
//! different in direct and linear search, in stitched search over a file that was
//! replaced, in names and in replayed paths, which tell them whole.

mod common;

use common::{area, blank, filed, is_zero, plain, refusal, scope, slots, wide, Record};
use pozhdaghi::{NodeId, Request, Symbol, Visible, MOST_EDGES};

/// Pairs of different symbols: in the high half alone, in its lowest and highest bit,
/// in all of it; in the low half alone; about the bound of 32 bits.
const PAIRS: [(u64, u64); 8] = [
    (7, 1 << 32 | 7),
    (1 << 32 | 7, 2 << 32 | 7),
    (7, 1 << 63 | 7),
    (0xFFFF_FFFF, u64::MAX),
    (u64::MAX, u64::MAX - 1),
    (1 << 32, 0),
    (0xFFFF_FFFF, 1 << 32),
    (1 << 32, 1 << 63),
];

fn pairs() -> impl Iterator<Item = (u64, u64)> {
    PAIRS
        .into_iter()
        .flat_map(|(one, two)| [(one, two), (two, one)])
}

/// Graph A with these two for 7 and 8: node 2 pushes the first, 4 pops it, 5 pops the
/// second.
fn graph(symbol: u64, other: u64) -> Vec<u8> {
    let nodes = [
        wide::reference(symbol),
        scope(true),
        wide::definition(symbol),
        wide::definition(other),
    ];
    wide::image(&nodes, &[(2, 3, 0), (3, 4, 0), (3, 5, 1)])
}

/// The only path, and every word behind it.
fn only(result: &[u32]) -> Vec<u32> {
    let paths: Vec<&[u32]> = plain::paths(result).collect();
    assert_eq!(result, area(&paths, result.len()));
    assert_eq!(paths.len(), 1);
    paths[0].to_vec()
}

/// The only path of each search that needs no database.
fn searched(image: &[u8]) -> [Vec<u32>; 4] {
    let request = Request::default();
    let (mut work, mut result) = (slots(4), slots(4));
    let directly = [plain::direct, plain::direct_recorded].map(|call| {
        let found =
            call(image, Visible::All, 2, &request, &mut work, &mut result).expect("not refused");
        let counted = found.statistics;
        assert_eq!((counted.complete, counted.rejected), (1, 1));
        assert!(is_zero(&work));
        only(&result)
    });
    let linearly = [plain::linear, plain::linear_recorded].map(|call| {
        call(image, Visible::All, 2, &request, &mut result).expect("not refused");
        only(&result)
    });
    let [returned, recorded] = directly;
    let [linear, linear_recorded] = linearly;
    [returned, recorded, linear, linear_recorded]
}

fn stitched(image: &[u8], words: &[u32]) -> [Vec<u32>; 2] {
    let request = Request::default();
    let (mut work, mut result) = (slots(8), slots(8));
    [plain::stitched, plain::stitched_recorded].map(|call| {
        call(
            image,
            Visible::All,
            words,
            2,
            &request,
            &mut work,
            &mut result,
        )
        .expect("not refused");
        assert!(is_zero(&work));
        only(&result)
    })
}

#[test]
fn searches() {
    for (symbol, other) in pairs() {
        let image = graph(symbol, other);
        assert_eq!(searched(&image), [(); 4].map(|()| vec![0, 1]));
        let words = filed(&image);
        assert_eq!(stitched(&image, &words), [[0, 1], [0, 1]]);
        let name = plain::find_name(&image, Visible::All, 4, None, &mut slots(4), &mut slots(4));
        assert_eq!(name, Ok(Some(2)));
        let none = plain::find_name(&image, Visible::All, 5, None, &mut slots(4), &mut slots(4));
        assert_eq!(none, Ok(None));
    }
}

/// The two definitions exchange their symbols, and the file is replaced: first the old
/// partial paths are stitched on the new graph, then the new ones.
#[test]
fn a_replaced_file() {
    for (symbol, other) in pairs() {
        let before = graph(symbol, other);
        let nodes = [
            wide::reference(symbol),
            scope(true),
            wide::definition(other),
            wide::definition(symbol),
        ];
        let after = wide::image(&nodes, &[(2, 3, 0), (3, 4, 0), (3, 5, 1)]);
        let mut words = blank(16);
        let request = Request::default();
        plain::fresh(&before, &mut words).expect("not refused");
        for image in [&before, &after] {
            let replaced = plain::replace_file(image, 0, &request, &mut slots(8), &mut words);
            assert_eq!(replaced.map(|counted| counted.found), Ok(5));
            assert_eq!(stitched(&before, &words), [[0, 1], [0, 1]]);
            assert_eq!(stitched(&after, &words), [[0, 2], [0, 2]]);
        }
    }
}

#[test]
fn replays() {
    for (symbol, other) in pairs() {
        let image = graph(symbol, other);
        let path = plain::replay(&image, 2, &[0]).expect("not refused");
        let scopes = None;
        assert_eq!(path.symbols, [Symbol { symbol, scopes }]);
        assert_eq!(plain::is_complete(&image, 2, &[0, 1]), Ok(true));
        for edges in [&[0, 2][..], &[0, 2, 9]] {
            let wrong = refusal(15, &[5]);
            assert_eq!(plain::replay(&image, 2, edges), Err(wrong));
            assert_eq!(plain::is_complete(&image, 2, edges), Err(wrong));
            assert_eq!(plain::shadows(&image, (2, &[0]), (2, edges)), Err(wrong));
        }
    }
}

/// The same of symbols with scopes: the attached scope stands behind eight bytes. The
/// symbol is compared before the scopes are looked at.
#[test]
fn scoped() {
    for (symbol, other) in pairs() {
        let nodes: [Record; 6] = [
            wide::scoped_reference(symbol, 3),
            scope(true),
            wide::scoped_definition(symbol),
            wide::scoped_definition(other),
            wide::definition(other),
            wide::scoped_push(other, 3),
        ];
        let image = wide::image(
            &nodes,
            &[(2, 4, 0), (2, 5, 0), (2, 6, 0), (2, 7, 0), (4, 1, 0)],
        );
        let pushed = |symbol| Symbol {
            symbol,
            scopes: Some(vec![NodeId(3)]),
        };
        let path = plain::replay(&image, 2, &[3]).expect("not refused");
        assert_eq!(path.symbols, [pushed(other), pushed(symbol)]);
        let path = plain::replay(&image, 2, &[0]).expect("not refused");
        assert_eq!(
            (path.symbols.len(), &path.scopes[..]),
            (0, &[NodeId(3)][..])
        );
        let path = plain::replay(&image, 2, &[0, 4]).expect("not refused");
        assert_eq!((path.end, path.scopes.len()), (NodeId(3), 0));
        for (edge, node) in [(1, 5), (2, 6)] {
            let wrong = refusal(15, &[node]);
            assert_eq!(plain::replay(&image, 2, &[edge]), Err(wrong));
        }
    }
}

/// A stack of as many symbols as a path may have, one for each bit, and one of others.
#[test]
fn a_stack() {
    let bits: Vec<u64> = (0..64).map(|bit| 1 << bit).collect();
    assert_eq!(bits.len(), MOST_EDGES + 1);
    is_told(&bits);
    is_told(&[0, u64::MAX, 0, 7]);
}

/// Each symbol is told whole, tops first.
fn is_told(symbols: &[u64]) {
    let mut nodes = vec![scope(true), wide::reference(symbols[0])];
    nodes.extend(
        symbols[1..]
            .iter()
            .map(|&symbol| wide::scoped_push(symbol, 2)),
    );
    let row: Vec<_> = (3..2 + symbols.len() as u16)
        .map(|node| (node, node + 1, 0))
        .collect();
    let edges: Vec<u32> = (0..row.len() as u32).collect();
    let path = plain::replay(&wide::image(&nodes, &row), 3, &edges).expect("not refused");
    let found: Vec<u64> = path.symbols.iter().rev().map(|each| each.symbol).collect();
    assert_eq!(found, symbols);
}
