//! What a call is asked: references, orders, limits about what the search needs,
//! areas about what it then needs, filled with rubbish.

use crate::budget::{Asked, Budget, SLOT, Slots};
use crate::case::{Call, Case};
use crate::check::check;
use crate::desks;
use crate::graph::{Graph, Node};
use crate::names::find_name;
use crate::partials::{Owner, compute};
use crate::path::{MOST_EDGES, replay};
use crate::random::Random;
use crate::readers::outgoing;
use crate::rewriting::bytes_of_other;
use crate::second::found;

/// What a search turned out to need without areas; guesses for one that is refused.
struct Needs {
    longest: usize,
    expanded: usize,
    complete: usize,
    kept: usize,
    waiting: usize,
    /// The search has no end within reason.
    is_endless: bool,
}

const GUESS: Needs = Needs {
    longest: 20,
    expanded: 12,
    complete: 3,
    kept: 3,
    waiting: 8,
    is_endless: false,
};

/// A refused replay leaves zeros: the end and three empty lists.
const REFUSED_PATH: usize = 4;

/// Limits are drawn about it.
const MOST: u64 = MOST_EDGES as u64;

/// Areas are seldom larger than so many slots: filling them would take the time.
const MOST_DRAWN: usize = 400;

/// A reference, sometimes another node, sometimes no node at all.
pub fn reference(random: &mut Random, graph: &Graph) -> u32 {
    let references = graph.references();
    if !references.is_empty() && random.percent(92) {
        return *random.one_of(&references);
    }
    number_about(random, graph.nodes.len())
}

/// A definition, sometimes another node, sometimes no node at all.
pub fn definition(random: &mut Random, graph: &Graph) -> u32 {
    let definitions = graph.nodes_where(Node::is_definition);
    if !definitions.is_empty() && random.percent(85) {
        return *random.one_of(&definitions);
    }
    number_about(random, graph.nodes.len())
}

/// Below the bound, at it or far behind it, also where 16 bits would wrap.
pub fn number_about(random: &mut Random, bound: usize) -> u32 {
    match random.below(18) {
        0 => bound as u32,
        1 => u32::MAX,
        2 => 65_536u32.wrapping_add(random.below(bound + 1) as u32),
        _ => random.below(bound.max(1)) as u32,
    }
}

/// Draws order, limits, areas and the length of the answer of a search or a
/// replacement whose other parts are there. False if it has no end within reason.
pub fn complete(random: &mut Random, case: &mut Case) -> bool {
    draw_set(random, case);
    let mut asked = Asked {
        depth_first: random.percent(50),
        length: None,
        count: None,
        complete: None,
    };
    case.asked = numbers(asked);
    let mut needs = needs(case);
    if needs.is_endless && case.call == Call::FindName {
        asked.length = Some(random.below(5) as u64);
        case.asked = numbers(asked);
        needs = self::needs(case);
    } else if needs.is_endless {
        asked.count = Some(random.below(300) as u64);
        case.asked = numbers(asked);
        needs = self::needs(case);
    }
    limit(random, &mut asked.length, needs.longest, 25);
    limit(random, &mut asked.count, needs.expanded, 25);
    limit(random, &mut asked.complete, needs.complete, 25);
    case.asked = numbers(asked);
    needs = self::needs(case);
    lend_areas(random, case, &needs);
    case.asked = oddly_written(random, &case.asked);
    case.answer_length = answer_length(random, case.call);
    !needs.is_endless
}

/// A search or a replacement without limits, in either order, with as many slots as it
/// needs. False if it has no end within reason.
pub fn ask_all(random: &mut Random, case: &mut Case) -> bool {
    draw_set(random, case);
    case.asked = numbers(Asked {
        depth_first: random.percent(50),
        length: None,
        count: None,
        complete: None,
    });
    let needs = needs(case);
    case.work = area(random, needs.waiting);
    if !case.call.is_replacement() {
        case.result = area(random, needs.kept);
    }
    !needs.is_endless
}

/// A tally in about as many slots as it needs. False if its search has no end within reason.
pub fn tally(random: &mut Random, case: &mut Case) -> bool {
    draw_set(random, case);
    case.asked = numbers(Asked {
        depth_first: true,
        length: None,
        count: None,
        complete: None,
    });
    let needs = needs(case);
    let slots = slots_about(random, needs.waiting, false);
    case.work = area(random, slots);
    case.asked = vec![];
    case.answer_length = answer_length(random, case.call);
    !needs.is_endless
}

/// The visible files of a search.
fn draw_set(random: &mut Random, case: &mut Case) {
    if case.call.takes_set() {
        case.visible = desks::draw(random, case);
    }
}

/// Draws the set, the list and the length of the answer of a reader.
pub fn read(random: &mut Random, case: &mut Case) {
    draw_set(random, case);
    if case.call.is_list() {
        let listed = desks::seen_by(case).and_then(|graph| match case.call {
            Call::References => Ok(graph.references()),
            _ => outgoing(&graph, case.number),
        });
        let words = slots_about(random, listed.map_or(2, |numbers| numbers.len()), false);
        case.result = random.rubbish(words);
    }
    case.answer_length = answer_length(random, case.call);
}

/// Mostly whole; the library writes as many numbers as are asked for.
pub fn answer_length(random: &mut Random, call: Call) -> usize {
    let longest = call.longest_answer();
    if random.percent(92) {
        longest
    } else {
        random.below(longest + 3)
    }
}

/// Words for a replayed path: mostly as many as it has, or some more; at times too
/// few, or none.
pub fn path_area(random: &mut Random, graph: &Graph, reference: u32, edges: &[u32]) -> Vec<u32> {
    let words = replay(graph, reference, edges).map(|path| path.replayed().words());
    let need = words.map_or(REFUSED_PATH, |words| words.len());
    let count = match random.below(10) {
        0 => random.below(need + 1),
        1 => need.saturating_sub(1),
        2 | 3 => need,
        _ => need + random.below(40),
    };
    random.rubbish(count)
}

/// Bytes for a rewritten image: mostly as many as it has or some more, at times one
/// too few, or none.
pub fn image_area(random: &mut Random, graph: &Graph) -> Vec<u8> {
    let other = bytes_of_other(graph);
    let need = other.map_or(graph.image().len(), |bytes| bytes.len());
    let count = match random.below(8) {
        0 => random.below(need + 1),
        1 | 2 => need.saturating_sub(1),
        3 | 4 => need,
        _ => need + random.below(40),
    };
    let words = random.rubbish(count);
    words.into_iter().map(|word| word as u8).collect()
}

fn numbers(asked: Asked) -> Vec<u64> {
    let mut numbers = vec![u64::from(asked.depth_first)];
    for limit in [asked.length, asked.count, asked.complete] {
        numbers.extend([u64::from(limit.is_some()), limit.unwrap_or(0)]);
    }
    numbers
}

/// The same in another writing: any number but 0 is yes, what stands behind a no
/// does not matter, zeros at the end may be missing.
fn oddly_written(random: &mut Random, numbers: &[u64]) -> Vec<u64> {
    let mut odd = numbers.to_vec();
    if random.percent(85) {
        return odd;
    }
    for at in [0, 1, 3, 5] {
        if odd[at] != 0 {
            odd[at] = *random.one_of(&[1, 2, 1 << 32, u64::MAX]);
        } else if at > 0 {
            odd[at + 1] = random.next();
        }
    }
    while odd.last() == Some(&0) && random.percent(70) {
        odd.pop();
    }
    odd
}

fn needs(case: &Case) -> Needs {
    if case.call == Call::FindName {
        return needs_of_name(case);
    }
    let outcome = if case.call.is_replacement() {
        let graph = check(&case.image);
        let owner = match case.call {
            Call::ReplaceAliases => Owner::Nobody,
            _ => Owner::File(case.number),
        };
        let computed = |graph: Graph| compute(&graph, owner, case.meaning(), usize::MAX);
        graph.and_then(computed).map(|computed| computed.budget)
    } else {
        found(case, Slots::ENDLESS).map(|found| found.budget)
    };
    match outcome {
        Ok(budget) => needs_of(&budget),
        Err(refusal) => Needs {
            is_endless: refusal[0] == 36,
            ..GUESS
        },
    }
}

/// What the hungriest of the searches needs; a node that is none or no definition
/// needs nothing.
fn needs_of_name(case: &Case) -> Needs {
    let length = case.meaning().length;
    let named = desks::seen_by(case)
        .and_then(|graph| find_name(&graph, case.number, length, Slots::ENDLESS));
    let searched = match named {
        Ok(named) => named.searched,
        Err(refusal) => {
            return Needs {
                is_endless: refusal[0] == 36,
                ..GUESS
            };
        }
    };
    let most = |need: fn(&Needs) -> usize| {
        let each = searched.iter().map(|budget| need(&needs_of(budget)));
        each.max().unwrap_or(0)
    };
    Needs {
        longest: most(|needs| needs.longest),
        expanded: most(|needs| needs.expanded),
        complete: most(|needs| needs.complete),
        kept: most(|needs| needs.kept),
        waiting: most(|needs| needs.waiting),
        is_endless: false,
    }
}

fn needs_of(budget: &Budget) -> Needs {
    Needs {
        longest: budget.longest,
        expanded: budget.expanded as usize,
        complete: budget.complete as usize,
        kept: budget.kept.len(),
        waiting: budget.most_waiting,
        is_endless: false,
    }
}

/// With this chance a limit, mostly about what is needed; one that is there may
/// only become lower.
fn limit(random: &mut Random, limit: &mut Option<u64>, need: usize, chance: usize) {
    if !random.percent(chance) {
        return;
    }
    let drawn = match random.below(8) {
        0 => 0,
        1 => random.below(need + 3) as u64,
        2 => *random.one_of(&[u64::MAX, 1 << 32, MOST - 1, MOST, MOST + 1]),
        3 => need as u64,
        4 => need as u64 + 1,
        _ => (need as u64).saturating_sub(1),
    };
    *limit = Some(limit.map_or(drawn, |before| before.min(drawn)));
}

/// The areas that the call takes. Sometimes both are too small, to see which of
/// 31 and 32 comes first.
fn lend_areas(random: &mut Random, case: &mut Case, needs: &Needs) {
    let is_tight = random.percent(12);
    let takes_work = !matches!(case.call, Call::Linear | Call::LinearRecorded);
    let takes_result = !case.call.is_replacement();
    if takes_work {
        // A refusal for want of slots is of no use too often where a sequence builds on it.
        let is_roomy = case.call.is_replacement() && random.percent(50);
        let more = if is_roomy { 4 } else { 0 };
        let slots = more + slots_about(random, needs.waiting, is_tight);
        case.work = area(random, slots);
    }
    if takes_result {
        let slots = slots_about(random, needs.kept, is_tight);
        case.result = area(random, slots);
    }
}

fn slots_about(random: &mut Random, need: usize, is_tight: bool) -> usize {
    let need = need.min(MOST_DRAWN);
    if is_tight {
        return random.below(need + 1);
    }
    match random.below(12) {
        0 => 0,
        1 => random.below(need + 2),
        2 => need.saturating_sub(1),
        3 => need + 1,
        4 => need + random.below(20),
        _ => need,
    }
}

/// So many slots, with some words behind the last whole one.
fn area(random: &mut Random, slots: usize) -> Vec<u32> {
    let behind = random.below(SLOT) * random.below(2);
    random.rubbish(SLOT * slots + behind)
}
