//! Reading the words of a request. A malformed word panics, which the oracle
//! turns into its answer.

use cfglib::graph::search::SearchOrder;
use cfglib::graph::stack::{
    StackEdgeId, StackFileId, StackNodeId, StackPartialPathConfig, StackPartialPathDatabase,
    StackSearchConfig,
};

/// The bytes that a word of hexadecimal digits writes.
pub fn bytes(word: &str) -> Vec<u8> {
    (0..word.len() / 2)
        .map(|at| hexadecimal_byte(&word[2 * at..2 * at + 2]))
        .collect()
}

fn hexadecimal_byte(digits: &str) -> u8 {
    u8::from_str_radix(digits, 16).expect("two hexadecimal digits")
}

pub fn number(word: &str) -> u32 {
    word.parse().expect("a number")
}

pub fn node(word: &str) -> StackNodeId {
    StackNodeId::from_raw(number(word))
}

pub fn file(word: &str) -> StackFileId {
    StackFileId::from_raw(number(word))
}

/// A list of edges separated by commas, or `-` for none.
pub fn edges(word: &str) -> Vec<StackEdgeId> {
    if word == "-" {
        return Vec::new();
    }
    word.split(',')
        .map(|edge| StackEdgeId::from_raw(number(edge)))
        .collect()
}

fn order(word: &str) -> SearchOrder {
    match word {
        "b" => SearchOrder::BreadthFirst,
        "d" => SearchOrder::DepthFirst,
        other => panic!("order {other} is neither b nor d"),
    }
}

/// A limit, or `-` for none.
pub fn limit(word: &str) -> Option<usize> {
    (word != "-").then(|| word.parse().expect("a limit"))
}

/// ORDER LENGTH COUNT COMPLETE
pub fn search_config(words: &[&str]) -> StackSearchConfig {
    StackSearchConfig {
        order: order(words[0]),
        max_path_length: limit(words[1]),
        max_path_count: limit(words[2]),
        max_complete_path_count: limit(words[3]),
    }
}

/// ORDER LENGTH COUNT
pub fn partial_path_config(words: &[&str]) -> StackPartialPathConfig {
    StackPartialPathConfig {
        order: order(words[0]),
        max_path_length: limit(words[1]),
        max_path_count: limit(words[2]),
    }
}

/// NODES FILES SLOTS, the slots separated by semicolons or `-` for none.
pub fn database(words: &[&str]) -> StackPartialPathDatabase {
    let bound = |word| number(word) as usize;
    let mut database = StackPartialPathDatabase::door_new(bound(words[0]), bound(words[1]));
    if words[2] == "-" {
        return database;
    }
    for slot in words[2].split(';') {
        if slot == "x" {
            database.door_push_dead();
            continue;
        }
        let parts: Vec<&str> = slot.split(':').collect();
        database.door_push(
            file(parts[0]),
            node(parts[1]),
            node(parts[2]),
            edges(parts[3]),
        );
    }
    database
}
