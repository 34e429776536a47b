//! A tally by length, written a second time from document 02, order 9: every list of
//! distinct edges of the graph that the path rules take from the reference is walked, with
//! no frontier, and counted by its length where it is complete.

use crate::budget::{Asked, Slots};
use crate::check::Refusal;
use crate::graph::Graph;
use crate::path::{MOST_EDGES, Path};
use crate::search::direct;

/// From 0 to the bound on edges.
pub const LENGTHS: usize = MOST_EDGES + 1;

/// "Refusals are those of that search in depth-first order, except 32": of the unlimited
/// search in so many waiting slots, with no end of result slots. "Their sum is the complete
/// count."
pub fn tally(graph: &Graph, reference: u32, waiting: usize) -> Result<Vec<u64>, Refusal> {
    let asked = Asked {
        depth_first: true,
        length: None,
        count: None,
        complete: None,
    };
    let slots = Slots {
        waiting,
        ..Slots::ENDLESS
    };
    let found = direct(graph, reference, asked, slots)?;
    let mut numbers = vec![0; LENGTHS];
    count(
        graph,
        &Path::from_reference(graph, reference)?,
        &mut numbers,
    );
    assert_eq!(numbers.iter().sum::<u64>(), found.budget.complete);
    Ok(numbers)
}

/// Any edge may follow that the path has not and that can be appended.
fn count(graph: &Graph, path: &Path, numbers: &mut [u64]) {
    if path.is_complete(graph) {
        numbers[path.edges.len()] += 1;
    }
    for edge in 0..graph.edges.len() as u32 {
        if !path.edges.contains(&edge)
            && let Ok(longer) = path.append(graph, edge)
        {
            count(graph, &longer, numbers);
        }
    }
}
