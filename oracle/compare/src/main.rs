//! compare SEED CASES [SCENE]: the given Rust, our static library and a second
//! implementation of documents 01 and 02 on the same drawn input. With SCENE only the
//! calls of that scene. Ends with 1 if there is a difference.

mod agreement;
mod budget;
mod case;
mod check;
mod compaction;
mod comparison;
mod conversion;
mod damage;
mod database;
mod desks;
mod directory;
mod draw;
mod former;
mod given;
mod graph;
mod lists;
mod load;
mod names;
mod neighbours;
mod ours;
mod partials;
mod path;
mod random;
mod readers;
mod replayed;
mod report;
mod requests;
mod rewriting;
mod scenes;
mod search;
mod second;
mod shapes;
mod shrink;
mod slots;
mod sparse;
mod tally;
mod turned;

use comparison::compare;
use random::Random;
use report::Counts;
use std::process::ExitCode;

/// More are counted, but not shown.
const MOST_SHOWN: u64 = 5;

fn main() -> ExitCode {
    let numbers: Vec<u64> = std::env::args()
        .skip(1)
        .map(|word| word.parse().expect("SEED, CASES and SCENE are numbers"))
        .collect();
    let seed = numbers.first().copied().unwrap_or(1);
    let wanted = numbers.get(1).copied().unwrap_or(100_000);
    println!("seed {seed}, cases {wanted}");
    let mut counts = Counts::default();
    let scenes = numbers
        .get(2)
        .map_or(0..u64::MAX, |&scene| scene..scene + 1);
    for scene in scenes {
        if counts.cases >= wanted {
            break;
        }
        run(seed, scene, wanted, &mut counts);
    }
    counts.print();
    if counts.differences == 0 {
        ExitCode::SUCCESS
    } else {
        ExitCode::FAILURE
    }
}

fn run(seed: u64, scene: u64, wanted: u64, counts: &mut Counts) {
    for case in scenes::scene(&mut Random::of_scene(seed, scene)) {
        let Some(compared) = compare(&case) else {
            continue;
        };
        if counts.cases >= wanted {
            return;
        }
        counts.add(&case, &compared);
        if compared.differs() && counts.differences <= MOST_SHOWN {
            println!(
                "\ndifference {} in scene {scene} of seed {seed}:",
                counts.differences
            );
            report::show(&shrink::shrink(&case));
        }
    }
}
