//! The given Rust's side, with the graph loaded before the clock starts.

use crate::load::{Graph, Symbol, load};
use crate::settings::Settings;
use crate::{Job, Told};
use cfglib::graph::search::SearchOrder;
use cfglib::graph::stack::{
    StackFileId, StackLinearResolutionError, StackNodeId, StackPartialPathConfig,
    StackPartialPathDatabase, StackResolution, StackSearchConfig,
};
use pozhdaghi::Order;
use std::time::{Duration, Instant};

pub struct Theirs<'a> {
    settings: &'a Settings,
    graph: Graph,
    database: StackPartialPathDatabase,
}

/// The image loaded so many times.
pub fn load_often(bytes: &[u8], times: usize) {
    for _ in 0..times {
        drop(std::hint::black_box(load(bytes)));
    }
}

fn resolution(found: &StackResolution<Symbol>) -> Told {
    let stats = found.stats();
    vec![
        0,
        found.paths().len() as u64,
        stats.expanded_path_count as u64,
        stats.complete_path_count as u64,
        stats.rejected_extension_count as u64,
        stats.cycle_cut_count as u64,
        u64::from(stats.path_length_limited),
        u64::from(stats.path_count_limited),
        u64::from(stats.complete_path_count_limited),
    ]
}

/// A second appendable edge is 20 with the node; from a reference no path
/// error reaches the caller.
fn linear_error(error: &StackLinearResolutionError) -> Told {
    match error {
        StackLinearResolutionError::MultipleEdges { node } => vec![20, u64::from(node.raw())],
        StackLinearResolutionError::Path(_) => vec![10],
    }
}

impl<'a> Theirs<'a> {
    pub fn new(bytes: &[u8], settings: &'a Settings) -> Theirs<'a> {
        let graph = load(bytes);
        let database = StackPartialPathDatabase::new(&graph);
        let mut theirs = Theirs {
            settings,
            graph,
            database,
        };
        theirs.run(Job::Replace);
        theirs
    }

    fn order(&self) -> SearchOrder {
        match self.settings.order {
            Order::BreadthFirst => SearchOrder::BreadthFirst,
            Order::DepthFirst => SearchOrder::DepthFirst,
        }
    }

    fn search_config(&self) -> StackSearchConfig {
        let limits = self.settings.search;
        let limit = |limit: Option<u64>| limit.map(|value| value as usize);
        StackSearchConfig {
            order: self.order(),
            max_path_length: limit(limits.length),
            max_path_count: limit(limits.paths),
            max_complete_path_count: limit(limits.complete),
        }
    }

    /// The time of all calls of a job, and what they answered.
    pub fn run(&mut self, job: Job) -> (Duration, Vec<Told>) {
        if job == Job::Replace {
            return self.replace_all();
        }
        let config = self.search_config();
        let mut told = Vec::with_capacity(self.settings.references.len());
        let start = Instant::now();
        for &reference in &self.settings.references {
            let node = StackNodeId::from_raw(reference);
            told.push(match job {
                Job::Linear => StackResolution::try_compute_linear(&self.graph, node, config)
                    .map_or_else(|error| linear_error(&error), |found| resolution(&found)),
                Job::Direct => StackResolution::try_compute(&self.graph, node, config)
                    .map_or_else(|_| vec![10], |found| resolution(&found)),
                Job::Stitched | Job::Replace => {
                    let graph = &self.graph;
                    StackResolution::try_compute_from_partials(graph, &self.database, node, config)
                        .map_or_else(|_| vec![12], |found| resolution(&found))
                }
            });
        }
        (start.elapsed(), told)
    }

    fn replace_all(&mut self) -> (Duration, Vec<Told>) {
        let limits = self.settings.partial;
        let config = StackPartialPathConfig {
            order: self.order(),
            max_path_length: limits.length.map(|value| value as usize),
            max_path_count: limits.paths.map(|value| value as usize),
        };
        self.database = StackPartialPathDatabase::new(&self.graph);
        let mut told = Vec::with_capacity(self.settings.files as usize);
        let start = Instant::now();
        for file in 0..self.settings.files {
            let stats = self
                .database
                .replace_file(&self.graph, StackFileId::from_raw(file), config)
                .expect("the file is the graph's");
            told.push(vec![
                0,
                stats.expanded_path_count as u64,
                stats.partial_path_count as u64,
                stats.cycle_cut_count as u64,
                u64::from(stats.path_length_limited),
                u64::from(stats.path_count_limited),
            ]);
        }
        (start.elapsed(), told)
    }
}
