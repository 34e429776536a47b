//! Timing the given library: bench IMAGE ... . README.md says what is timed
//! and how limits are given.

use cfglib::graph::search::SearchOrder;
use cfglib::graph::stack::{
    StackNodeId, StackPartialPathConfig, StackPartialPathDatabase, StackPartialPathSet,
    StackResolution, StackSearchConfig,
};
use load::{Graph, load};
use std::time::Instant;

mod load;

const RUNS: u32 = 5;
const NO_LIMITS: &str = "- - - - - 0";

/// What is searched under which limits.
struct Settings {
    search: StackSearchConfig,
    partial: StackPartialPathConfig,
    /// Only so many references are searched; 0 means all.
    reference_count: usize,
}

/// Work done by one measured run: paths expanded, and paths or slots found.
#[derive(Clone, Copy, Default)]
struct Work {
    expanded: usize,
    found: usize,
}

impl Work {
    fn add(&mut self, expanded: usize, found: usize) {
        self.expanded += expanded;
        self.found += found;
    }
}

fn main() {
    for name in std::env::args().skip(1) {
        let bytes = std::fs::read(&name).expect("the image can be read");
        let limits = std::fs::read_to_string(format!("{name}.cfg"));
        let settings = settings(limits.as_deref().unwrap_or(NO_LIMITS));
        measure(&name, &bytes, &settings);
    }
}

/// Six words: L C K of searches, L C of partial paths, number of references.
fn settings(text: &str) -> Settings {
    let words: Vec<&str> = text.split_whitespace().collect();
    let limit = |at: usize| (words[at] != "-").then(|| words[at].parse().expect("a limit"));
    Settings {
        search: StackSearchConfig {
            order: SearchOrder::BreadthFirst,
            max_path_length: limit(0),
            max_path_count: limit(1),
            max_complete_path_count: limit(2),
        },
        partial: StackPartialPathConfig {
            order: SearchOrder::BreadthFirst,
            max_path_length: limit(3),
            max_path_count: limit(4),
        },
        reference_count: words[5].parse().expect("a number of references"),
    }
}

fn measure(name: &str, bytes: &[u8], settings: &Settings) {
    let graph = load(bytes);
    let references = references(&graph, settings.reference_count);
    println!(
        "{name}: F {} N {} M {} refs {}",
        graph.file_count(),
        graph.node_bound(),
        graph.edge_bound(),
        references.len()
    );
    let (load_time, ()) = best_of(|| drop(load(bytes)));
    println!("  load        {load_time:9.3} ms");
    report("direct     ", "returned", || {
        direct(&graph, &references, settings)
    });
    report("partial    ", "found", || partial(&graph, settings));
    report("replace all", "slots", || {
        let (expanded, database) = replace_all(&graph, settings);
        Work {
            expanded,
            found: database.path_count(),
        }
    });
    let (_, database) = replace_all(&graph, settings);
    report("stitched   ", "returned", || {
        stitched(&graph, &database, &references, settings)
    });
}

fn references(graph: &Graph, count: usize) -> Vec<StackNodeId> {
    let is_reference = |&node: &StackNodeId| graph.node(node).kind().is_reference();
    let mut references: Vec<StackNodeId> = graph.node_ids().filter(is_reference).collect();
    if count > 0 {
        references.truncate(count);
    }
    references
}

/// The least time of several runs, in milliseconds, and what the last returned.
fn best_of<T: Default>(mut run: impl FnMut() -> T) -> (f64, T) {
    let mut best = f64::MAX;
    let mut result = T::default();
    for _ in 0..RUNS {
        let start = Instant::now();
        result = run();
        best = best.min(start.elapsed().as_secs_f64() * 1e3);
    }
    (best, result)
}

fn report(what: &str, found_word: &str, run: impl FnMut() -> Work) {
    let (time, work) = best_of(run);
    println!(
        "  {what} {time:9.3} ms  expanded {:8} {found_word} {}",
        work.expanded, work.found
    );
}

fn direct(graph: &Graph, references: &[StackNodeId], settings: &Settings) -> Work {
    let mut work = Work::default();
    for &reference in references {
        let answer = StackResolution::try_compute(graph, reference, settings.search)
            .expect("a reference is searched");
        work.add(answer.stats().expanded_path_count, answer.paths().len());
    }
    work
}

fn partial(graph: &Graph, settings: &Settings) -> Work {
    let mut work = Work::default();
    for file in graph.file_ids() {
        let set = StackPartialPathSet::compute(graph, file, settings.partial)
            .expect("the file is the graph's");
        work.add(set.stats().expanded_path_count, set.paths().len());
    }
    work
}

fn replace_all(graph: &Graph, settings: &Settings) -> (usize, StackPartialPathDatabase) {
    let mut database = StackPartialPathDatabase::new(graph);
    let mut expanded = 0;
    for file in graph.file_ids() {
        expanded += database
            .replace_file(graph, file, settings.partial)
            .expect("the file is the graph's")
            .expanded_path_count;
    }
    (expanded, database)
}

fn stitched(
    graph: &Graph,
    database: &StackPartialPathDatabase,
    references: &[StackNodeId],
    settings: &Settings,
) -> Work {
    let mut work = Work::default();
    for &reference in references {
        let answer =
            StackResolution::try_compute_from_partials(graph, database, reference, settings.search)
                .expect("a reference is searched with its own graph's database");
        work.add(answer.stats().expanded_path_count, answer.paths().len());
    }
    work
}
