//! A case that differs made smaller, as long as it still differs.

use crate::budget::SLOT;
use crate::case::{Call, Case};
use crate::check::check;
use crate::comparison::compare;
use crate::conversion::{FORMER_SLOT, former_place};
use crate::database::{
    COUNT, DATABASE_SLOT, EDGES, FIRST_SLOT, NODES, OWNER, START, USED, is_sound, place,
};
use crate::draw::repair;
use crate::graph::{Edge, Graph, Node};
use crate::path::MOST_EDGES;

/// Enough for every case drawn here; large words could go on for long.
const MOST_TRIALS: usize = 20_000;

/// A trial of an image counts one more for each time that it has so many bytes.
const TRIAL_BYTES: usize = 2_048;

type Cases<'a> = Box<dyn Iterator<Item = Case> + 'a>;

/// The smallest case that is reached by dropping one thing after another.
pub fn shrink(case: &Case) -> Case {
    let mut smallest = case.clone();
    let mut trials = 0;
    loop {
        let is_left = |_: &Case| {
            trials += 1 + smallest.image.len() / TRIAL_BYTES;
            trials < MOST_TRIALS
        };
        let found = smaller(&smallest).take_while(is_left).find(|smaller| {
            let is_new = *smaller != smallest;
            is_new && compare(smaller).is_some_and(|compared| compared.differs())
        });
        match found {
            Some(found) => smallest = found,
            None => return smallest,
        }
    }
}

/// Everything that is one step smaller.
fn smaller(case: &Case) -> Cases<'_> {
    let graphs: Cases = match check(&case.image) {
        Ok(graph) => Box::new(
            fewer_nodes(case, graph.clone())
                .chain(fewer_edges(case, graph.clone()))
                .flat_map(with_smaller_areas)
                .chain(plainer(case, graph)),
        ),
        Err(_) => shorter_image(case),
    };
    let words = if case.call == Call::Convert {
        fewer_former_slots(case)
    } else {
        shorter_words(case)
    };
    Box::new(
        graphs
            .chain(words)
            .chain(shorter_areas(case))
            .chain(simpler(case)),
    )
}

fn with_graph(case: &Case, graph: &Graph) -> Case {
    Case {
        image: graph.image(),
        ..case.clone()
    }
}

/// A smaller graph often needs fewer slots, and the areas must become smaller
/// with it for the difference to stay.
fn with_smaller_areas(case: Case) -> impl Iterator<Item = Case> {
    let slots = [(0, 0), (1, 0), (0, 1), (1, 1)];
    slots.into_iter().map(move |(work, result)| {
        let mut less = case.clone();
        less.work
            .truncate(case.work.len().saturating_sub(work * SLOT));
        less.result
            .truncate(case.result.len().saturating_sub(result * SLOT));
        less
    })
}

/// Without one node that is not root or jump, later ones renumbered.
fn fewer_nodes(case: &Case, graph: Graph) -> Cases<'_> {
    let drops = (2..graph.nodes.len() as u32).rev().map(move |dropped| {
        let moved = |number: u32| number - u32::from(number > dropped);
        let mut less = graph.clone();
        less.nodes[dropped as usize] = Node::Removed;
        repair(&mut less);
        less.nodes.remove(dropped as usize);
        for node in &mut less.nodes {
            if let Node::PushScoped { scope, .. } = node {
                *scope = moved(*scope);
            }
        }
        for edge in less.edges.iter_mut().flatten() {
            *edge = Edge {
                source: moved(edge.source),
                target: moved(edge.target),
                ..*edge
            };
        }
        let mut smaller = with_graph(case, &less);
        smaller.number = moved(case.number);
        smaller.right_number = moved(case.right_number);
        renumber(&mut smaller.words, moved, |edge| edge);
        if let Some(nodes) = smaller.words.get_mut(NODES) {
            *nodes = nodes.saturating_sub(1);
        }
        smaller
    });
    Box::new(drops)
}

/// Without one edge, later ones renumbered; or with one edge removed in its place.
fn fewer_edges(case: &Case, graph: Graph) -> Cases<'_> {
    let drops = (0..graph.edges.len() as u32)
        .rev()
        .flat_map(move |dropped| {
            let moved = |number: u32| number - u32::from(number > dropped);
            let mut less = graph.clone();
            less.edges.remove(dropped as usize);
            let mut shorter = with_graph(case, &less);
            for edge in shorter.edges.iter_mut().chain(&mut shorter.right_edges) {
                *edge = moved(*edge);
            }
            renumber(&mut shorter.words, |node| node, moved);
            let mut removed = graph.clone();
            removed.edges[dropped as usize] = None;
            [shorter, with_graph(case, &removed)]
        });
    Box::new(drops)
}

/// The slots of sound words follow the graph's new numbers.
fn renumber(words: &mut [u32], node: impl Fn(u32) -> u32, edge: impl Fn(u32) -> u32) {
    if !is_sound(words) {
        return;
    }
    for number in 0..words[USED] as usize {
        let slot = &mut words[place(number)..place(number + 1)];
        if slot[OWNER] == 0 {
            continue;
        }
        slot[START] = node(slot[START]);
        let count = slot[COUNT] as usize;
        for number in &mut slot[EDGES..EDGES + count] {
            *number = edge(*number);
        }
    }
}

/// Precedences 0, one file less, flags off.
fn plainer(case: &Case, graph: Graph) -> Cases<'_> {
    let mut files = graph.clone();
    files.files = graph.files.saturating_sub(1);
    repair(&mut files);
    let level = (0..graph.edges.len()).map(move |number| {
        let mut less = graph.clone();
        less.edges[number] = less.edges[number].map(|edge| Edge {
            precedence: 0,
            ..edge
        });
        with_graph(case, &less)
    });
    Box::new(std::iter::once(with_graph(case, &files)).chain(level))
}

/// A damaged image without some of its bytes, its length fitting or as it was.
fn shorter_image(case: &Case) -> Cases<'_> {
    let lengths = [64, 16, 4, 1].into_iter();
    let cuts = lengths.flat_map(move |length| {
        (0..case.image.len().saturating_sub(length)).flat_map(move |at| {
            let mut cut = case.clone();
            cut.image.drain(at..at + length);
            let mut fitting = cut.clone();
            if fitting.image.len() > 5 {
                let length = (fitting.image.len() - 5) as u32;
                fitting.image[1..5].copy_from_slice(&length.to_be_bytes());
            }
            [fitting, cut]
        })
    });
    Box::new(cuts)
}

/// Without one slot of the database, or with fewer words behind the slots in use.
fn shorter_words(case: &Case) -> Cases<'_> {
    let used = if is_sound(&case.words) {
        case.words[USED] as usize
    } else {
        0
    };
    let slots = (0..used).rev().map(move |number| {
        let mut less = case.clone();
        less.words.drain(place(number)..place(number + 1));
        less.words[USED] -= 1;
        less
    });
    let lengths = lengths(case.words.len(), DATABASE_SLOT)
        .into_iter()
        .map(move |length| {
            let mut less = case.clone();
            less.words.truncate(length);
            less
        });
    // Words behind the last edge of each slot, then those behind the slots in use.
    let tails = (0..used).map(move |number| {
        let mut less = case.clone();
        let edges =
            place(number) + EDGES + (case.words[place(number) + COUNT] as usize).min(MOST_EDGES);
        less.words[edges..place(number + 1)].fill(0);
        less
    });
    let behind = (FIRST_SLOT + DATABASE_SLOT * used).min(case.words.len());
    let zero = zeroed(case, |case| &mut case.words[behind..]);
    Box::new(slots.chain(lengths).chain(tails).chain(zero))
}

/// An old area without one slot, with one more word zero, or shorter.
fn fewer_former_slots(case: &Case) -> Cases<'_> {
    let lent = case.words.len().saturating_sub(FIRST_SLOT) / FORMER_SLOT;
    let slots = (0..lent).rev().map(move |number| {
        let mut less = case.clone();
        less.words
            .drain(former_place(number)..former_place(number + 1));
        less.words[USED] = less.words[USED].saturating_sub(1);
        less
    });
    let cut = lengths(case.words.len(), FORMER_SLOT)
        .into_iter()
        .map(move |length| {
            let mut less = case.clone();
            less.words.truncate(length);
            less
        });
    let zeros = (0..case.words.len()).map(move |at| {
        let mut less = case.clone();
        less.words[at] = 0;
        less
    });
    Box::new(slots.chain(cut).chain(zeros))
}

/// Shorter lengths to try.
fn lengths(length: usize, slot: usize) -> Vec<usize> {
    let less = [
        0,
        length / 2,
        length.saturating_sub(slot),
        length - length % slot,
    ];
    let mut lengths: Vec<usize> = less.into_iter().chain(length.checked_sub(1)).collect();
    lengths.retain(|&shorter| shorter < length);
    lengths
}

/// The case with a part of it zero.
fn zeroed(case: &Case, part: impl Fn(&mut Case) -> &mut [u32]) -> Option<Case> {
    let mut zero = case.clone();
    part(&mut zero).fill(0);
    Some(zero)
}

fn shorter_areas(case: &Case) -> Cases<'_> {
    let works = lengths(case.work.len(), SLOT)
        .into_iter()
        .map(move |length| Case {
            work: case.work[..length].to_vec(),
            ..case.clone()
        });
    let results = lengths(case.result.len(), SLOT)
        .into_iter()
        .map(move |length| Case {
            result: case.result[..length].to_vec(),
            ..case.clone()
        });
    let areas = lengths(case.area.len(), 1).into_iter().map(|length| Case {
        area: case.area[..length].to_vec(),
        ..case.clone()
    });
    let zero = zeroed(case, |case| &mut case.work)
        .into_iter()
        .chain(zeroed(case, |case| &mut case.result));
    Box::new(works.chain(results).chain(areas).chain(zero))
}

/// Fewer limits and lower ones, shorter edge lists, fewer visible files, a whole answer.
fn simpler(case: &Case) -> Cases<'_> {
    let whole = Case {
        answer_length: case.call.longest_answer(),
        ..case.clone()
    };
    let asked = (0..case.asked.len()).flat_map(move |at| {
        let lower = [0, 1, case.asked[at] / 2, case.asked[at].saturating_sub(1)];
        lower
            .into_iter()
            .filter(move |&value| value < case.asked[at])
            .map(move |value| {
                let mut less = case.clone();
                less.asked[at] = value;
                less
            })
    });
    let left = (0..case.edges.len()).map(move |at| {
        let mut less = case.clone();
        less.edges.remove(at);
        less
    });
    let right = (0..case.right_edges.len()).map(move |at| {
        let mut less = case.clone();
        less.right_edges.remove(at);
        less
    });
    let sets = (0..case.visible.len()).rev().flat_map(move |at| {
        let mut shorter = case.clone();
        shorter.visible.truncate(at);
        let mut less = case.clone();
        less.visible[at] = 0;
        [shorter, less]
    });
    let parts = asked.chain(left).chain(right).chain(sets);
    Box::new(std::iter::once(whole).chain(parts))
}
