//! The calls answer as the given Rust does. Each line of `list.txt` is a request
//! and the Rust's answer in the words of `oracle/README.md`, written by
//! `oracle/service_cases.py`; what the calls answer is put into the same words
//! and compared. The last line is wrong, to show that a difference is found.

#[path = "../common/mod.rs"]
mod common;
mod told;

use common::{area, blank, database, is_zero, plain, slots, Slot};
use pozhdaghi::{Limits, Order, Refusal, Request, Resolution, Visible};

/// Slots of every area, more than any line of the list needs.
const ROOM: usize = 128;

/// The image and the database that later lines use.
#[derive(Default)]
struct State {
    image: Vec<u8>,
    words: Vec<u32>,
}

#[test]
fn each_line() {
    let mut state = State::default();
    let lines = include_str!("list.txt").lines();
    let differing: Vec<&str> = lines
        .filter(|line| !line.starts_with('#'))
        .filter(|line| {
            let (request, wanted) = line.split_once(" | ").expect("a request and its answer");
            answered(&mut state, request) != wanted
        })
        .collect();
    assert_eq!(differing, ["C 2 0 | ok 1"]);
}

fn answered(state: &mut State, request: &str) -> String {
    let words: Vec<&str> = request.split(' ').collect();
    match words[..] {
        ["G", hexadecimal] => load(state, hexadecimal),
        ["N"] => fresh(state),
        ["R", file, order, length, paths] => {
            replace_file(state, number(file), &asked([order, length, paths, "-"]))
        }
        ["W", nodes, files, slots] => arbitrary(state, number(nodes), number(files), slots),
        ["B"] => told::slots(&state.words),
        ["Y", node, list] => told::outcome(
            plain::replay(&state.image, number(node), &edges(list)),
            told::path,
        ),
        ["C", node, list] => told::outcome(
            plain::is_complete(&state.image, number(node), &edges(list)),
            told::judgement,
        ),
        ["H", left, left_list, right, right_list] => {
            let left = (number(left), &edges(left_list)[..]);
            let right = (number(right), &edges(right_list)[..]);
            told::outcome(plain::shadows(&state.image, left, right), told::judgement)
        }
        [letter, node, order, length, paths, complete] => {
            let request = asked([order, length, paths, complete]);
            search(state, letter, number(node), &request)
        }
        _ => panic!("no request: {request}"),
    }
}

fn load(state: &mut State, hexadecimal: &str) -> String {
    let byte = |at: usize| u8::from_str_radix(&hexadecimal[at..at + 2], 16).expect("two digits");
    state.image = (0..hexadecimal.len()).step_by(2).map(byte).collect();
    told::outcome(plain::check(&state.image), told::counts)
}

fn fresh(state: &mut State) -> String {
    state.words = blank(ROOM);
    told::outcome(plain::fresh(&state.image, &mut state.words), |()| {
        "ok".to_owned()
    })
}

fn replace_file(state: &mut State, file: u32, request: &Request) -> String {
    let mut work = slots(ROOM);
    let before = state.words.clone();
    let replaced = plain::replace_file(&state.image, file, request, &mut work, &mut state.words);
    assert!(is_zero(&work));
    assert!(replaced.is_ok() || state.words == before);
    told::outcome(replaced, told::partial_statistics)
}

/// A database of these slots: `x` for a dead one, else file, start, end, edges.
fn arbitrary(state: &mut State, nodes: u32, files: u32, list: &str) -> String {
    let parts: Vec<Vec<&str>> = list
        .split(';')
        .map(|slot| slot.split(':').collect())
        .collect();
    let lists: Vec<Vec<u32>> = parts
        .iter()
        .map(|slot| slot.get(3).map_or(Vec::new(), |list| edges(list)))
        .collect();
    let slots: Vec<Slot> = parts
        .iter()
        .zip(&lists)
        .map(|(slot, edges)| match slot[..] {
            [file, start, end, _] => Some((number(file), number(start), number(end), &edges[..])),
            _ => None,
        })
        .collect();
    state.words = database(nodes, files, &slots, ROOM);
    "ok".to_owned()
}

/// The search, and every word of its areas.
fn search(state: &State, letter: &str, node: u32, request: &Request) -> String {
    let (mut work, mut result) = (slots(ROOM), slots(ROOM));
    let found = searched(state, letter, node, request, &mut work, &mut result);
    assert!(is_zero(&work));
    let paths: Vec<&[u32]> = plain::paths(&result).collect();
    assert_eq!(result, area(&paths, result.len()));
    assert_eq!(found.map_or(0, |found| found.paths), paths.len() as u64);
    told::outcome(found, |found| told::resolution(found, &paths))
}

fn searched(
    State { image, words }: &State,
    letter: &str,
    node: u32,
    request: &Request,
    work: &mut [u32],
    result: &mut [u32],
) -> Result<Resolution, Refusal> {
    match letter {
        "D" => plain::direct(image, Visible::All, node, request, work, result),
        "d" => plain::direct_recorded(image, Visible::All, node, request, work, result),
        "S" => plain::stitched(image, Visible::All, words, node, request, work, result),
        "s" => plain::stitched_recorded(image, Visible::All, words, node, request, work, result),
        _ => {
            // No work area is lent.
            work.fill(0);
            match letter {
                "L" => plain::linear(image, Visible::All, node, request, result),
                "l" => plain::linear_recorded(image, Visible::All, node, request, result),
                _ => panic!("no search: {letter}"),
            }
        }
    }
}

fn number(word: &str) -> u32 {
    word.parse().expect("a number")
}

/// Numbers between commas, or `-` for none.
fn edges(word: &str) -> Vec<u32> {
    match word {
        "-" => Vec::new(),
        _ => word.split(',').map(number).collect(),
    }
}

fn limit(word: &str) -> Option<u64> {
    (word != "-").then(|| number(word).into())
}

fn asked([order, length, paths, complete]: [&str; 4]) -> Request {
    Request {
        order: match order {
            "b" => Order::BreadthFirst,
            "d" => Order::DepthFirst,
            _ => panic!("no order: {order}"),
        },
        limits: Limits {
            length: limit(length),
            paths: limit(paths),
            complete: limit(complete),
        },
    }
}
