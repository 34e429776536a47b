//! What the calls answer, in the words of `oracle/README.md`.

use crate::common::plain::{self, Counts};
use pozhdaghi::{
    PartialStatistics, Refusal, Replayed, Resolution, Step, Symbol, DATABASE_HEAD, RECORD_WORDS,
};
use std::fmt::Display;

/// The items with a separator between them, or `-` when there is none.
fn list<T: Display>(items: impl IntoIterator<Item = T>, separator: &str) -> String {
    let texts: Vec<String> = items.into_iter().map(|item| item.to_string()).collect();
    match texts.is_empty() {
        true => "-".to_owned(),
        false => texts.join(separator),
    }
}

fn flags<const N: usize>(flags: [bool; N]) -> String {
    flags.map(|flag| if flag { "1" } else { "0" }).concat()
}

/// Every refusal that the Rust has returns one value, but for 13.
pub fn outcome<T>(answer: Result<T, Refusal>, done: impl FnOnce(T) -> String) -> String {
    match answer {
        Ok(answer) => done(answer),
        Err(refusal) => match (refusal.number(), refusal.values()) {
            (number, [first, 0]) if number != 13 => format!("err {number} {first}"),
            (number, [first, second]) => format!("err {number} {first} {second}"),
        },
    }
}

pub fn counts(counts: Counts) -> String {
    let Counts {
        files,
        nodes,
        edges,
    } = counts;
    format!("ok {files} {nodes} {edges}")
}

pub fn judgement(holds: bool) -> String {
    format!("ok {}", u8::from(holds))
}

pub fn resolution(found: Resolution, paths: &[&[u32]]) -> String {
    let counted = found.statistics;
    format!(
        "ok exp={} comp={} rej={} cyc={} fl={} paths={}",
        counted.expanded,
        counted.complete,
        counted.rejected,
        counted.cycles,
        flags([
            counted.length_limited,
            counted.count_limited,
            counted.complete_limited
        ]),
        list(paths.iter().map(|&path| list(path, ",")), ";")
    )
}

pub fn partial_statistics(counted: PartialStatistics) -> String {
    format!(
        "ok exp={} parts={} cyc={} fl={}",
        counted.expanded,
        counted.found,
        counted.cycles,
        flags([counted.length_limited, counted.count_limited])
    )
}

/// The stacks are written from bottom to top, and are answered tops first.
pub fn path(path: Replayed) -> String {
    let steps = path.steps.iter();
    let edges = steps.clone().filter(|step| matches!(step, Step::Edge(_)));
    format!(
        "ok end={} len={} steps={} sym={} sco={}",
        path.end,
        edges.count(),
        list(steps.map(step), ","),
        list(path.symbols.iter().rev().map(symbol), ","),
        list(path.scopes.iter().rev(), ",")
    )
}

fn step(step: &Step) -> String {
    match step {
        Step::Edge(edge) => edge.to_string(),
        Step::Jump(scope) => format!("j1>{scope}"),
    }
}

fn symbol(Symbol { symbol, scopes }: &Symbol) -> String {
    match scopes {
        None => symbol.to_string(),
        Some(scopes) => format!("{symbol}/{}", list(scopes.iter().rev(), ".")),
    }
}

/// Each used slot: its first words, and the edges that a lookup hands back.
pub fn slots(words: &[u32]) -> String {
    let records = words[DATABASE_HEAD..].chunks_exact(RECORD_WORDS);
    let slots = records.zip(0..words[0]).map(|(record, number)| {
        let edges = list(plain::lookup(words, number), ",");
        match record[..3] {
            [0, ..] => edges.replace('-', "x"),
            [owner, start, end] => format!("{}:{start}:{end}:{edges}", owner - 1),
            _ => unreachable!("three words"),
        }
    });
    format!("ok {}", list(slots, ";"))
}
