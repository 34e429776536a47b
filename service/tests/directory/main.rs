//! Document 02, order 11: the row of an ISIN, a tranche and a leg, and where the paths from its
//! reference end. Each line of `list.txt` is an ISIN or a call and its answer, made by
//!
//! ```text
//! python3 oracle/directory.py > service/tests/directory/list.txt
//! ```
//!
//! which reads the order a second time. The last line is wrong, to show that a difference is
//! found. Beside each call that comes to a search stands the direct search from the row's
//! reference: the same answer, and the same words in the result area.

#[path = "../common/mod.rs"]
mod common;

use common::{graph_a, is_zero, plain, slots};
use pozhdaghi::{
    Definitions, Flow, FlowKey, Image, Limits, NodeId, Order, Refusal, Request, Resolution,
    Results, Visible, Work, ROW_BYTES,
};
use std::collections::HashMap;

const LIST: &str = include_str!("list.txt");

/// Bytes of a row's key.
const KEY_BYTES: usize = 16;

type Images = HashMap<&'static str, Vec<u8>>;

struct Call {
    image: Vec<u8>,
    visible: Vec<u8>,
    request: Request,
    waiting: usize,
    results: usize,
    rows: Vec<u8>,
    isin: Vec<u8>,
    tranche: u32,
    leg: u32,
    answer: &'static str,
}

/// The lines of a kind, without its name.
fn of_kind(kind: &'static str) -> impl Iterator<Item = &'static str> {
    let rest = move |line: &'static str| line.strip_prefix(kind)?.strip_prefix(' ');
    LIST.lines().filter_map(rest)
}

fn bytes(text: &str) -> Vec<u8> {
    let digits = if text == "-" { "" } else { text };
    let byte = |at: usize| u8::from_str_radix(&digits[at..at + 2], 16).expect("two digits");
    (0..digits.len()).step_by(2).map(byte).collect()
}

/// A number, where a limit may be left out.
fn number<N: std::str::FromStr>(text: &str) -> Option<N> {
    let value = || text.parse().ok().expect("a number");
    (text != "-").then(value)
}

fn images() -> Images {
    let named = |line: &'static str| line.split_once(' ').expect("a name and an image");
    of_kind("image")
        .map(named)
        .map(|(name, image)| (name, bytes(image)))
        .collect()
}

/// Byte f is 1 where file f is listed.
fn shown(files: &str) -> Vec<u8> {
    let listed: Vec<usize> = files.split(',').filter_map(number).collect();
    (0..256)
        .map(|file| u8::from(listed.contains(&file)))
        .collect()
}

fn call(line: &'static str, images: &Images) -> Call {
    let (asked, answer) = line.split_once(" | ").expect("a call and its answer");
    let words: Vec<&str> = asked.split(' ').collect();
    let [image, files, order, length, paths, complete, waiting, results, rows, isin, tranche, leg] =
        words[..]
    else {
        panic!("no call: {asked}");
    };
    let order = match order {
        "b" => Order::BreadthFirst,
        _ => Order::DepthFirst,
    };
    let limits = Limits {
        length: number(length),
        paths: number(paths),
        complete: number(complete),
    };
    Call {
        image: images[image].clone(),
        visible: shown(files),
        request: Request { order, limits },
        waiting: number(waiting).expect("slots"),
        results: number(results).expect("slots"),
        rows: bytes(rows),
        isin: bytes(isin),
        tranche: number(tranche).expect("a tranche"),
        leg: number(leg).expect("a leg"),
        answer,
    }
}

fn calls() -> impl Iterator<Item = Call> {
    let images = images();
    of_kind("call").map(move |line| call(line, &images))
}

/// A call on document 01's graph A in ample areas.
fn on_graph_a(rows: &[u8], isin: &[u8], tranche: u32, leg: u32) -> Call {
    Call {
        image: graph_a(),
        visible: vec![1],
        request: Request::default(),
        waiting: 4,
        results: 4,
        rows: rows.to_vec(),
        isin: isin.to_vec(),
        tranche,
        leg,
        answer: "",
    }
}

/// The answer, and the words of the result area. The areas are lent with no word 0; afterwards
/// the work area is zero, and after a refusal the result area too.
fn resolved(call: &Call) -> (Result<Flow, Refusal>, Vec<u32>) {
    let (mut work, mut result) = (slots(call.waiting), slots(call.results));
    let mut results = Results::lend(&mut result);
    let key = FlowKey {
        isin: &call.isin,
        tranche: call.tranche,
        leg: call.leg,
    };
    let told = Image::unchecked(&call.image).resolve_flow(
        Visible::Files(&call.visible),
        &call.rows,
        key,
        &call.request,
        &mut Work::lend(&mut work),
        &mut results,
    );
    let paths = told.as_ref().map_or(0, |flow| flow.resolution.paths);
    assert_eq!(results.paths().len() as u64, paths);
    assert!(is_zero(&work));
    assert!(told.is_ok() || is_zero(&result));
    (told, result)
}

/// Paths, counts, flags and the waiting figure.
fn numbers(found: &Resolution) -> String {
    let told = &found.statistics;
    let numbers = [
        found.paths,
        told.expanded,
        told.complete,
        told.rejected,
        told.cycles,
        u64::from(told.length_limited),
        u64::from(told.count_limited),
        u64::from(told.complete_limited),
        told.waited,
    ];
    numbers.map(|number| number.to_string()).join(" ")
}

/// An answer as the list has it.
fn written(told: &Result<Flow, Refusal>) -> String {
    let flow = match told {
        Ok(flow) => flow,
        Err(refusal) => {
            let [first, second] = refusal.values();
            return format!("refused {} {first} {second}", refusal.number());
        }
    };
    let definitions = match &flow.definitions {
        Definitions::Nothing => "nothing".to_string(),
        Definitions::One(node) => format!("one {node}"),
        Definitions::Several => "several".to_string(),
    };
    format!("{definitions} | {}", numbers(&flow.resolution))
}

/// Whether an ISIN is taken: in a directory without rows it is then 43, else 41.
fn is_taken(isin: &[u8]) -> bool {
    match resolved(&on_graph_a(&[], isin, 1, 1)).0 {
        Err(Refusal::UnknownKey) => true,
        Err(Refusal::MalformedIsin) => false,
        other => panic!("{}", written(&other)),
    }
}

/// The check digits that make these bytes an ISIN.
fn right_digits(stem: &[u8]) -> Vec<u8> {
    (b'0'..=b'9')
        .filter(|&digit| is_taken(&[stem, &[digit]].concat()))
        .collect()
}

/// Real ones, one with two letters exchanged, drawn ones: of ten digits one is right.
#[test]
fn right_isins() {
    for isin in of_kind("isin") {
        let (stem, digit) = isin.split_at(11);
        assert_eq!(right_digits(stem.as_bytes()), digit.as_bytes(), "{isin}");
    }
    assert_eq!(of_kind("isin").count(), 135);
}

/// A byte beside the ranges, the lower case, a digit in the country: no check digit is right.
/// Other lengths, and a last byte that is no digit.
#[test]
fn malformed_isins() {
    for stem in of_kind("stem") {
        assert_eq!(right_digits(&bytes(stem)), [], "{stem}");
    }
    for isin in of_kind("malformed") {
        assert!(!is_taken(&bytes(isin)), "{isin}");
    }
    let counted = ["stem", "malformed"].map(|kind| of_kind(kind).count());
    assert_eq!(counted, [152, 65]);
}

#[test]
fn each_line() {
    let differing: Vec<String> = calls()
        .map(|call| (written(&resolved(&call).0), call.answer))
        .filter(|(told, answer)| told != answer)
        .map(|(told, answer)| format!("{told}, not {answer}"))
        .collect();
    let wrong = "one 10 | 2 6 2 4 0 0 0 0 3, not several | 2 6 2 4 0 0 0 0 3";
    assert_eq!(differing, [wrong]);
}

/// The reference of the row whose key is given.
fn reference(call: &Call) -> u32 {
    let numbers = [call.tranche, call.leg].map(|number| (number as u16).to_be_bytes());
    let key = [&call.isin[..], numbers.as_flattened()].concat();
    let mut rows = call.rows.chunks_exact(ROW_BYTES);
    let row = rows.find(|row| row[..KEY_BYTES] == key).expect("a row");
    u32::from_be_bytes([0, 0, row[KEY_BYTES], row[KEY_BYTES + 1]])
}

/// Whether the call came to a search: none of 1 to 5 and 41 to 43 is told.
fn is_searched(told: &Result<Flow, Refusal>) -> bool {
    match told {
        Ok(_) => true,
        Err(refusal) => (10..41).contains(&refusal.number()),
    }
}

/// Where there was a search, the answer and the words are those of the direct search.
#[test]
fn as_the_direct_search() {
    let (mut answered, mut refused) = (0, 0);
    for call in calls() {
        let (told, words) = resolved(&call);
        if !is_searched(&told) {
            continue;
        }
        let (mut work, mut result) = (slots(call.waiting), slots(call.results));
        let found = plain::direct(
            &call.image,
            Visible::Files(&call.visible),
            reference(&call),
            &call.request,
            &mut work,
            &mut result,
        );
        assert_eq!(told.map(|flow| flow.resolution), found);
        assert_eq!(words, result);
        answered += usize::from(found.is_ok());
        refused += usize::from(found.is_err());
    }
    assert!(answered > 130 && refused > 90, "{answered}, {refused}");
}

/// Number n of a long directory has tranche n / 256 and leg n % 256. Every third reference is
/// graph A's; the others are a scope.
fn long_directory(rows: u32) -> Vec<u8> {
    let row = |n: u32| {
        let numbers = [n / 256, n % 256, if n.is_multiple_of(3) { 2 } else { 3 }];
        let numbers = numbers.map(|number| (number as u16).to_be_bytes());
        [&b"US0378331005"[..], numbers.as_flattened()].concat()
    };
    (0..rows).flat_map(row).collect()
}

/// More rows than 16 bits count: both ends and the middle are found, and what is wrong behind
/// the last row is 42 for every key.
#[test]
fn a_long_directory() {
    const ROWS: u32 = 70_000;
    let rows = long_directory(ROWS);
    let end = |rows: &[u8], n: u32| {
        let call = on_graph_a(rows, b"US0378331005", n / 256, n % 256);
        resolved(&call).0.map(|flow| flow.definitions)
    };
    let doubled = [&rows[..], &rows[rows.len() - ROW_BYTES..]].concat();
    let with_rest = [&rows[..], &[0]].concat();
    for n in [0, 1, 32_768, 65_535, 65_536, ROWS - 1] {
        let wanted = match n % 3 {
            0 => Ok(Definitions::One(NodeId(4))),
            _ => Err(Refusal::NotReference(NodeId(3))),
        };
        assert_eq!(end(&rows, n), wanted);
        assert_eq!(end(&doubled, n), Err(Refusal::Disordered));
        assert_eq!(end(&with_rest, n), Err(Refusal::Disordered));
    }
    assert_eq!(end(&rows, ROWS), Err(Refusal::UnknownKey));
    assert_eq!(end(&[], 0), Err(Refusal::UnknownKey));
}
