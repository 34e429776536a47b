//! The recorded sets of direct and stitched search, compared in our own answers. "Where
//! that set stands beside every file's, and no others, direct and stitched recorded
//! sets agree with no condition on edges" (document 02, order 5); where it is lacking,
//! stitching records the lists without an edge whose ends both lack a file (document
//! 01, demand 3). Both are of the visible files alone (order 8), and take the same set.

use crate::budget::{Asked, SLOT, Slots};
use crate::case::{Call, Case, Outcome};
use crate::database::{PartialPath, partial_paths};
use crate::desks;
use crate::graph::Graph;
use crate::ours;
use crate::partials::{Owner, compute};
use crate::search::direct;
use std::collections::BTreeSet;

#[derive(Clone, Copy)]
pub struct Agreement {
    /// The database has the set that belongs to no file.
    pub with_aliases: bool,
    /// A recorded path has an edge of that set.
    pub over_aliases: bool,
    pub holds: bool,
}

/// More files than these are left out: each must be computed anew.
const MOST_FILES: usize = 8;

type Lists = BTreeSet<Vec<u32>>;

const UNLIMITED: Asked = Asked {
    depth_first: false,
    length: None,
    count: None,
    complete: None,
};

/// None where the premises fail: another call, a refusal, a limit on counts that was
/// met, a database with too few or other partial paths.
pub fn found(case: &Case, second: &Outcome, ours: &Outcome) -> Option<Agreement> {
    let &[0, _, _, _, _, _, _, count_limited, complete_limited, _] = &second.answer[..] else {
        return None;
    };
    if case.call != Call::StitchedRecorded || count_limited + complete_limited > 0 {
        return None;
    }
    let graph = desks::seen_by(case).ok()?;
    let with_aliases = holds_all(&graph, case)?;
    let directly = recorded_directly(case, &graph)?;
    let (over, beside): (Lists, Lists) = directly
        .into_iter()
        .partition(|edges| edges.iter().any(|&edge| is_of_no_file(&graph, edge)));
    let over_aliases = !over.is_empty();
    let wanted = if with_aliases {
        &over | &beside
    } else {
        beside
    };
    let (recorded, count) = lists(&ours.result);
    Some(Agreement {
        with_aliases,
        over_aliases,
        holds: recorded == wanted && count == wanted.len(),
    })
}

fn is_of_no_file(graph: &Graph, edge: u32) -> bool {
    graph.live_edge(edge).is_some_and(|edge| {
        let file = |end: u32| graph.nodes[end as usize].file();
        file(edge.source).is_none() && file(edge.target).is_none()
    })
}

/// The edge lists in the used result slots, and how many slots these are.
fn lists(result: &[u32]) -> (Lists, usize) {
    let used = result.chunks_exact(SLOT).take_while(|slot| slot[0] > 0);
    let lists: Vec<Vec<u32>> = used
        .map(|slot| slot[1..].iter().take(slot[0] as usize).copied().collect())
        .collect();
    let count = lists.len();
    (lists.into_iter().collect(), count)
}

/// Whether the words hold every visible file's partial paths, and those that belong to
/// none or not; None where they hold other visible slots, or too few. A hidden file has
/// no partial paths in the graph that is seen.
fn holds_all(graph: &Graph, case: &Case) -> Option<bool> {
    if graph.files > MOST_FILES {
        return None;
    }
    let slots = desks::seen_paths(partial_paths(&case.words), &case.visible);
    let held: BTreeSet<PartialPath> = slots.into_iter().flatten().collect();
    let mut wanted = BTreeSet::new();
    for file in 0..graph.files as u32 {
        wanted.extend(computed(graph, Owner::File(file))?);
        if wanted.len() > held.len() {
            return None;
        }
    }
    if held == wanted {
        return Some(false);
    }
    wanted.extend(computed(graph, Owner::Nobody)?);
    (held == wanted).then_some(true)
}

fn computed(graph: &Graph, owner: Owner) -> Option<Vec<PartialPath>> {
    let found = compute(graph, owner, UNLIMITED, usize::MAX).ok()?;
    Some(found.paths)
}

/// What our direct search records under the same limit on length, without other
/// limits; None where that search has no end within reason or is 30.
fn recorded_directly(case: &Case, graph: &Graph) -> Option<Lists> {
    let asked = Asked {
        length: case.meaning().length,
        ..UNLIMITED
    };
    let needs = direct(graph, case.number, asked, Slots::ENDLESS)
        .ok()?
        .budget;
    let mut search = Case::new(Call::DirectRecorded, &case.image);
    search.number = case.number;
    search.visible = case.visible.clone();
    search.asked = vec![
        0,
        u64::from(asked.length.is_some()),
        asked.length.unwrap_or(0),
    ];
    search.work = vec![0; SLOT * needs.most_waiting];
    search.result = vec![0; SLOT * needs.kept.len()];
    Some(lists(&ours::run(&search).result).0)
}
