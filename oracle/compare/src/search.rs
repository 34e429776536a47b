//! Direct, linear and stitched search, written a second time from document 01.

use crate::budget::{Asked, Budget, Slots};
use crate::check::Refusal;
use crate::database::PartialPath;
use crate::graph::Graph;
use crate::path::Path;
use std::collections::VecDeque;

pub struct Found {
    pub budget: Budget,
    /// Copies dropped, nothing shadowed.
    pub recorded: Vec<Path>,
}

impl Found {
    fn new(budget: Budget) -> Self {
        let mut recorded: Vec<Path> = Vec::new();
        for path in &budget.kept {
            if !recorded.iter().any(|earlier| earlier.edges == path.edges) {
                recorded.push(path.clone());
            }
        }
        Self { budget, recorded }
    }

    /// The recorded paths that no other recorded one shadows.
    pub fn returned(&self) -> Vec<Path> {
        let is_shadowed = |path: &Path| self.recorded.iter().any(|other| other.shadows(path));
        self.recorded
            .iter()
            .filter(|path| !is_shadowed(path))
            .cloned()
            .collect()
    }

    /// The four counts, the three flags, and how many paths ever waited together.
    pub fn told(&self) -> Vec<u64> {
        let b = &self.budget;
        let flags = [b.length_limited, b.count_limited, b.complete_limited].map(u64::from);
        let counts = [b.expanded, b.complete, b.rejected, b.cycles];
        [&counts[..], &flags, &[b.most_waiting as u64]].concat()
    }
}

/// What is tried on a path under expansion: lists of edges, in their order.
type Trials<'a> = dyn Fn(&Path) -> Vec<Vec<u32>> + 'a;

pub fn direct(graph: &Graph, reference: u32, asked: Asked, slots: Slots) -> Result<Found, Refusal> {
    let trials = |path: &Path| {
        graph
            .outgoing(path.end)
            .map(|(edge, _)| vec![edge])
            .collect()
    };
    explore(graph, reference, Budget::new(asked, slots), &trials)
}

/// "Stitching tries partial paths from the path's end by ascending number."
pub fn stitched(
    graph: &Graph,
    partials: &[Option<PartialPath>],
    reference: u32,
    asked: Asked,
    slots: Slots,
) -> Result<Found, Refusal> {
    let trials = |path: &Path| {
        let live = partials.iter().flatten();
        live.filter(|partial| partial.start == path.end)
            .map(|partial| partial.edges.clone())
            .collect()
    };
    explore(graph, reference, Budget::new(asked, slots), &trials)
}

fn explore(
    graph: &Graph,
    reference: u32,
    mut budget: Budget,
    trials: &Trials,
) -> Result<Found, Refusal> {
    let mut waiting = VecDeque::from([Path::from_reference(graph, reference)?]);
    budget.admits_waiting(0)?;
    while let Some(path) = waiting.pop_front() {
        if !budget.admits_expansion()? {
            break;
        }
        let mut successors = Vec::new();
        for edges in trials(&path) {
            if let Some(longer) = extended(graph, &mut budget, &path, &edges)? {
                budget.record(graph, &longer)?;
                budget.admits_waiting(waiting.len() + successors.len())?;
                successors.push(longer);
            }
        }
        budget.enqueue(&mut waiting, successors);
    }
    Ok(Found::new(budget))
}

/// "Cycle, length, the 127 bound", which is 63 now, "append." An unknown edge ends the search, other
/// errors are rejections; an edge of the graph is never unknown.
fn extended(
    graph: &Graph,
    budget: &mut Budget,
    path: &Path,
    edges: &[u32],
) -> Result<Option<Path>, Refusal> {
    if !budget.admits_edges(&path.edges, edges)? {
        return Ok(None);
    }
    let mut longer = path.clone();
    for &edge in edges {
        longer = match longer.append(graph, edge) {
            Ok(longer) => longer,
            Err(refusal) if refusal[0] == 12 => return Err(refusal),
            Err(_) => {
                budget.rejected += 1;
                return Ok(None);
            }
        };
    }
    Ok(Some(longer))
}

/// "Linear stops at a second appendable edge of one node. That test stands
/// between append and completeness. Linear pushes nothing."
pub fn linear(
    graph: &Graph,
    reference: u32,
    asked: Asked,
    results: usize,
) -> Result<Found, Refusal> {
    let mut budget = Budget::new(
        asked,
        Slots {
            waiting: 0,
            results,
        },
    );
    let mut next = Some(Path::from_reference(graph, reference)?);
    while let Some(path) = next.take() {
        if !budget.admits_expansion()? {
            break;
        }
        for (edge, _) in graph.outgoing(path.end) {
            if let Some(longer) = extended(graph, &mut budget, &path, &[edge])? {
                if next.is_some() {
                    return Err(vec![20, path.end.into()]);
                }
                budget.record(graph, &longer)?;
                next = Some(longer);
            }
        }
    }
    Ok(Found::new(budget))
}
