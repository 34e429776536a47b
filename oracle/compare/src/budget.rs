//! What every search counts, keeps and refuses, written a second time from
//! document 01, "Budget and frontier" and "Answer".

use crate::check::Refusal;
use crate::graph::Graph;
use crate::path::{MOST_EDGES, Path};
use std::collections::VecDeque;

/// "Result and waiting slots take 64 words": document 02, order 6.
pub const SLOT: usize = 64;

/// 36 is not tried: a search is given up long before its 16,777,217th expansion,
/// and whatever answers 36 here is no case.
pub const MOST_EXPANSIONS: u64 = 4_000;

/// The order and the limits of a search; None is a limit that is absent.
#[derive(Clone, Copy, PartialEq, Eq, Debug)]
pub struct Asked {
    pub depth_first: bool,
    pub length: Option<u64>,
    pub count: Option<u64>,
    pub complete: Option<u64>,
}

/// How many slots the areas have.
#[derive(Clone, Copy)]
pub struct Slots {
    pub waiting: usize,
    pub results: usize,
}

impl Slots {
    /// For finding out how many a search needs.
    pub const ENDLESS: Self = Self {
        waiting: usize::MAX,
        results: usize::MAX,
    };
}

pub struct Budget {
    asked: Asked,
    slots: Slots,
    pub expanded: u64,
    pub complete: u64,
    pub rejected: u64,
    pub cycles: u64,
    pub length_limited: bool,
    pub count_limited: bool,
    pub complete_limited: bool,
    /// Copies included.
    pub kept: Vec<Path>,
    /// How many ever waited together, which a search tells, and how long a path
    /// became: limits and areas are drawn around these.
    pub most_waiting: usize,
    pub longest: usize,
}

impl Budget {
    pub fn new(asked: Asked, slots: Slots) -> Self {
        Self {
            asked,
            slots,
            expanded: 0,
            complete: 0,
            rejected: 0,
            cycles: 0,
            length_limited: false,
            count_limited: false,
            complete_limited: false,
            kept: Vec::new(),
            most_waiting: 0,
            longest: 0,
        }
    }

    /// "Expansion is refused when the count has reached its limit"; then 36.
    pub fn admits_expansion(&mut self) -> Result<bool, Refusal> {
        if self.asked.count.is_some_and(|limit| self.expanded >= limit) {
            self.count_limited = true;
            return Ok(false);
        }
        if self.expanded == MOST_EXPANSIONS {
            return Err(vec![36]);
        }
        self.expanded += 1;
        Ok(true)
    }

    /// Cycle, length, the bound on edges: whether these edges may follow those of a path.
    pub fn admits_edges(&mut self, held: &[u32], added: &[u32]) -> Result<bool, Refusal> {
        if added.iter().any(|edge| held.contains(edge)) {
            self.cycles += 1;
            return Ok(false);
        }
        let length = held.len() + added.len();
        if self.asked.length.is_some_and(|limit| length as u64 > limit) {
            self.length_limited = true;
            return Ok(false);
        }
        if length > MOST_EDGES {
            return Err(vec![30]);
        }
        self.longest = self.longest.max(length);
        Ok(true)
    }

    /// "A complete path is counted even when not kept"; 32 only for one to be kept.
    pub fn record(&mut self, graph: &Graph, path: &Path) -> Result<(), Refusal> {
        if !path.is_complete(graph) {
            return Ok(());
        }
        self.complete += 1;
        if self
            .asked
            .complete
            .is_some_and(|limit| self.kept.len() as u64 >= limit)
        {
            self.complete_limited = true;
            return Ok(());
        }
        if self.kept.len() >= self.slots.results {
            return Err(vec![32]);
        }
        self.kept.push(path.clone());
        Ok(())
    }

    /// 31 if one more comes to so many that wait.
    pub fn admits_waiting(&mut self, waiting: usize) -> Result<(), Refusal> {
        if waiting >= self.slots.waiting {
            return Err(vec![31]);
        }
        self.most_waiting = self.most_waiting.max(waiting + 1);
        Ok(())
    }

    /// "Breadth-first is a queue; depth-first takes the first pushed of the newest
    /// successors." The first waiting item is the next.
    pub fn enqueue<T>(&self, waiting: &mut VecDeque<T>, successors: Vec<T>) {
        if !self.asked.depth_first {
            waiting.extend(successors);
            return;
        }
        for successor in successors.into_iter().rev() {
            waiting.push_front(successor);
        }
    }
}
