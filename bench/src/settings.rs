//! What is searched under which limits: `NAME.img.cfg` holds six words, L C K
//! of searches, L C of partial paths, and how many references are searched, 0
//! for all; `-` is no limit. A seventh, `d`, means depth-first. Without the
//! file there are no limits.

use crate::Job;
use crate::load::load;
use cfglib::graph::stack::StackNodeId;
use pozhdaghi::{Limits, Order, Request};

const NO_LIMITS: &str = "- - - - - 0";

pub struct Settings {
    pub order: Order,
    pub search: Limits,
    pub partial: Limits,
    pub references: Vec<u32>,
    /// All of them, whatever the configuration says.
    pub every_reference: Vec<u32>,
    pub definitions: Vec<u32>,
    pub files: u32,
}

impl Settings {
    pub fn read(name: &str, bytes: &[u8]) -> Settings {
        let text = std::fs::read_to_string(format!("{name}.cfg"));
        let text = text.as_deref().unwrap_or(NO_LIMITS);
        let words: Vec<&str> = text.split_whitespace().collect();
        let limit = |at: usize| (words[at] != "-").then(|| words[at].parse().expect("a limit"));
        let count: usize = words[5].parse().expect("a number of references");
        let graph = load(bytes);
        let is_reference = |&node: &StackNodeId| graph.node(node).kind().is_reference();
        let is_definition = |&node: &StackNodeId| graph.node(node).kind().is_definition();
        let references = graph.node_ids().filter(is_reference).map(StackNodeId::raw);
        let every_reference: Vec<u32> = references.collect();
        let definitions = graph.node_ids().filter(is_definition);
        Settings {
            order: match words.get(6) {
                Some(&"d") => Order::DepthFirst,
                _ => Order::BreadthFirst,
            },
            search: Limits {
                length: limit(0),
                paths: limit(1),
                complete: limit(2),
            },
            partial: Limits {
                length: limit(3),
                paths: limit(4),
                complete: None,
            },
            references: every_reference
                .iter()
                .copied()
                .take(if count > 0 { count } else { usize::MAX })
                .collect(),
            every_reference,
            definitions: definitions.map(StackNodeId::raw).collect(),
            files: graph.file_count() as u32,
        }
    }

    /// How many calls a job makes.
    pub fn calls(&self, job: Job) -> usize {
        match job {
            Job::Replace => self.files as usize,
            Job::Direct | Job::Linear | Job::Stitched => self.references.len(),
        }
    }

    pub fn request(&self, job: Job) -> Request {
        Request {
            order: self.order,
            limits: match job {
                Job::Replace => self.partial,
                Job::Direct | Job::Linear | Job::Stitched => self.search,
            },
        }
    }
}
