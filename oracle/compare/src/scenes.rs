//! A scene: a drawn graph and the calls that are tried on it.

use crate::case::{Call, Case};
use crate::check::check;
use crate::damage;
use crate::database::{ALIASES, DATABASE_SLOT, FIRST_SLOT, USED};
use crate::directory;
use crate::draw;
use crate::former;
use crate::graph::{Graph, Node, Version};
use crate::lists;
use crate::partials::Owner;
use crate::random::Random;
use crate::requests::{self, number_about};
use crate::second;
use crate::shapes;
use crate::slots;
use crate::sparse;
use crate::turned::rewriting_of;

const SEARCHES: [Call; 5] = [
    Call::Direct,
    Call::Direct,
    Call::DirectRecorded,
    Call::Linear,
    Call::LinearRecorded,
];
/// No room for the new slots.
const FULL: u64 = 33;
const STITCHED: [Call; 2] = [Call::Stitched, Call::StitchedRecorded];
const READERS: [Call; 4] = [Call::Node, Call::Edge, Call::References, Call::Outgoing];

pub fn scene(random: &mut Random) -> Vec<Case> {
    let kind = random.weighted(&[30, 30, 25, 15, 12, 15, 8, 10, 15]);
    let is_shaped = random.percent(80);
    let graph = match kind {
        5 if is_shaped => draw::aliased(random),
        8 if is_shaped => draw::crossing(random),
        _ => draw::graph(random),
    };
    let mut cases = match kind {
        0 => searches(random, &graph),
        1 => filing(random, &graph),
        2 => any_slots(random, &graph),
        3 => damages(random, &graph),
        4 => rewritings(random, &graph),
        5 => aliases(random, &graph),
        6 => conversions(random, &graph),
        7 => compactions(random, &graph),
        _ => desks(random, &graph),
    };
    let image = graph.image();
    cases.extend((0..3).map(|_| reading(random, &graph, &image)));
    cases.push(Case::new(Call::Check, &image));
    cases
}

/// Direct and linear searches, names, tallies, cash flows, replays, and what is judged of paths.
fn searches(random: &mut Random, graph: &Graph) -> Vec<Case> {
    let image = graph.image();
    let mut cases = Vec::new();
    for _ in 0..8 {
        let call = *random.one_of(&SEARCHES);
        cases.extend(search(random, graph, &image, call, &[]));
    }
    for _ in 0..4 {
        cases.extend(name(random, graph, &image));
        cases.extend(tally(random, graph, &image));
        cases.extend(flow(random, graph, &image));
        cases.push(judgement(random, graph, &image));
        cases.push(replay(random, graph, &image));
    }
    cases
}

/// The same search under one set and another, mostly where files meet at root.
fn desks(random: &mut Random, graph: &Graph) -> Vec<Case> {
    let image = graph.image();
    let mut cases = Vec::new();
    for _ in 0..8 {
        let call = *random.one_of(&SEARCHES);
        cases.extend(search(random, graph, &image, call, &[]));
    }
    for _ in 0..2 {
        cases.extend(name(random, graph, &image));
        cases.extend(tally(random, graph, &image));
        cases.extend(flow(random, graph, &image));
    }
    cases
}

/// None for one without end within reason.
fn search(
    random: &mut Random,
    graph: &Graph,
    image: &[u8],
    call: Call,
    words: &[u32],
) -> Option<Case> {
    let mut case = Case::new(call, image);
    case.number = requests::reference(random, graph);
    case.words = words.to_vec();
    requests::complete(random, &mut case).then_some(case)
}

/// None for one with a search without end within reason.
fn name(random: &mut Random, graph: &Graph, image: &[u8]) -> Option<Case> {
    let mut case = Case::new(Call::FindName, image);
    case.number = requests::definition(random, graph);
    requests::complete(random, &mut case).then_some(case)
}

/// None for one without end within reason.
fn flow(random: &mut Random, graph: &Graph, image: &[u8]) -> Option<Case> {
    let mut case = Case::new(Call::ResolveFlow, image);
    case.number = requests::reference(random, graph);
    directory::draw(random, &mut case);
    requests::complete(random, &mut case).then_some(case)
}

/// None for one without end within reason.
fn tally(random: &mut Random, graph: &Graph, image: &[u8]) -> Option<Case> {
    let mut case = Case::new(Call::Tally, image);
    case.number = requests::reference(random, graph);
    requests::tally(random, &mut case).then_some(case)
}

fn replay(random: &mut Random, graph: &Graph, image: &[u8]) -> Case {
    let mut case = Case::new(Call::Replay, image);
    case.number = requests::reference(random, graph);
    case.edges = if random.percent(30) {
        lists::found(random, graph, case.number)
    } else {
        lists::edge_list(random, graph, case.number)
    };
    case.result = requests::path_area(random, graph, case.number, &case.edges);
    case.answer_length = requests::answer_length(random, case.call);
    case
}

/// A node, an edge or a list of them, by any number.
fn reading(random: &mut Random, graph: &Graph, image: &[u8]) -> Case {
    let call = *random.one_of(&READERS);
    let mut case = Case::new(call, image);
    let bound = match call {
        Call::Edge => graph.edges.len(),
        _ => graph.nodes.len(),
    };
    case.number = number_about(random, bound);
    requests::read(random, &mut case);
    case
}

fn judgement(random: &mut Random, graph: &Graph, image: &[u8]) -> Case {
    let call = *random.one_of(&[Call::IsComplete, Call::Shadows, Call::Shadows]);
    let mut case = Case::new(call, image);
    case.number = requests::reference(random, graph);
    case.edges = lists::edge_list(random, graph, case.number);
    if call == Call::Shadows && random.percent(85) {
        case.right_number = case.number;
        case.right_edges = lists::forked(random, graph, case.number, &case.edges);
    } else if call == Call::Shadows {
        case.right_number = requests::reference(random, graph);
        case.right_edges = lists::edge_list(random, graph, case.right_number);
    }
    case.answer_length = requests::answer_length(random, case.call);
    case
}

/// A fresh database, then replacements on this graph and on other states of it,
/// with lookups and stitched searches between them.
fn filing(random: &mut Random, graph: &Graph) -> Vec<Case> {
    let capacity = *random.one_of(&[0, 2, 6, 12, 30, 60, 150]);
    let behind = random.below(DATABASE_SLOT);
    let mut state = graph.clone();
    let mut cases = vec![fresh(
        random,
        &state.image(),
        FIRST_SLOT + DATABASE_SLOT * capacity + behind,
    )];
    let mut words = second::run(&cases[0]).words;
    for turn in 0..random.within(2, 5) {
        if random.percent(25) {
            state = draw::variant(random, graph);
        }
        let image = state.image();
        let owner = if turn < graph.files {
            Owner::File(turn as u32)
        } else {
            any_owner(random, graph)
        };
        if let Some(case) = replacement(random, &image, owner, &words) {
            cases.extend(refiling(random, case, &mut words));
        }
        if random.percent(50) {
            cases.push(lookup(random, &words));
        }
        for _ in 0..random.within(1, 3) {
            let call = *random.one_of(&STITCHED);
            cases.extend(search(random, &state, &image, call, &words));
        }
    }
    cases
}

/// A replacement; at a 33 the words are compacted, and it is made again.
fn refiling(random: &mut Random, case: Case, words: &mut Vec<u32>) -> Vec<Case> {
    let outcome = second::run(&case);
    *words = outcome.words.clone();
    if outcome.number() != FULL {
        return vec![case];
    }
    let compacted = compaction(random, words.clone());
    let mut again = case.clone();
    again.words = second::run(&compacted).words;
    *words = second::run(&again).words;
    vec![case, compacted, again]
}

fn fresh(random: &mut Random, image: &[u8], length: usize) -> Case {
    let mut case = Case::new(Call::Fresh, image);
    let length = if random.percent(4) {
        random.below(4)
    } else {
        length
    };
    case.words = random.rubbish(length);
    case.answer_length = requests::answer_length(random, case.call);
    case
}

/// A file, the set that belongs to none, or what might be taken for it.
fn any_owner(random: &mut Random, graph: &Graph) -> Owner {
    match random.below(20) {
        0..4 => Owner::Nobody,
        4 => Owner::File(*random.one_of(&[ALIASES - 1, ALIASES, ALIASES - 2])),
        _ => Owner::File(number_about(random, graph.files)),
    }
}

fn unasked(image: &[u8], owner: Owner, words: &[u32]) -> Case {
    let (call, number) = match owner {
        Owner::File(file) => (Call::ReplaceFile, file),
        Owner::Nobody => (Call::ReplaceAliases, 0),
    };
    let mut case = Case::new(call, image);
    case.number = number;
    case.words = words.to_vec();
    case
}

/// None for a computation without end within reason.
fn replacement(random: &mut Random, image: &[u8], owner: Owner, words: &[u32]) -> Option<Case> {
    let mut case = unasked(image, owner, words);
    requests::complete(random, &mut case).then_some(case)
}

/// The same without limits and with enough waiting slots, as the premise on databases
/// asks for; none for a computation without end within reason.
fn whole_replacement(
    random: &mut Random,
    image: &[u8],
    owner: Owner,
    words: &[u32],
) -> Option<Case> {
    let mut case = unasked(image, owner, words);
    requests::ask_all(random, &mut case).then_some(case)
}

/// A stitched search of which all recorded paths are asked for; likewise.
fn whole_search(random: &mut Random, graph: &Graph, image: &[u8], words: &[u32]) -> Option<Case> {
    let mut case = Case::new(Call::StitchedRecorded, image);
    case.number = requests::reference(random, graph);
    case.words = words.to_vec();
    requests::ask_all(random, &mut case).then_some(case)
}

/// Every file and the set that belongs to none, replaced in any order, and one of them
/// again; stitched searches between and behind, lookups, wrong words at last.
fn aliases(random: &mut Random, graph: &Graph) -> Vec<Case> {
    let image = graph.image();
    let room = *random.one_of(&[12, 40, 100, 100, 400, 400, 1_000]);
    let length = FIRST_SLOT + DATABASE_SLOT * room + random.below(DATABASE_SLOT);
    let mut cases = vec![fresh(random, &image, length)];
    let mut words = second::run(&cases[0]).words;
    let mut owners: Vec<Owner> = (0..graph.files.min(6) as u32).map(Owner::File).collect();
    for owner in [
        Owner::Nobody,
        *random.one_of(&[Owner::Nobody, Owner::File(0)]),
    ] {
        owners.insert(random.below(owners.len() + 1), owner);
    }
    for owner in owners {
        let case = if random.percent(88) {
            whole_replacement(random, &image, owner, &words)
        } else {
            replacement(random, &image, owner, &words)
        };
        if let Some(case) = case {
            words = second::run(&case).words;
            cases.push(case);
        }
        if random.percent(25) {
            let call = *random.one_of(&STITCHED);
            cases.extend(search(random, graph, &image, call, &words));
        }
    }
    cases.extend(behind_aliases(random, graph, &mut words));
    cases
}

/// Stitched searches over such words, and over words that are altered then.
fn behind_aliases(random: &mut Random, graph: &Graph, words: &mut Vec<u32>) -> Vec<Case> {
    let image = graph.image();
    let mut cases = vec![lookup(random, words)];
    for _ in 0..2 {
        let call = *random.one_of(&STITCHED);
        cases.extend(search(random, graph, &image, call, words));
        cases.extend(whole_search(random, graph, &image, words));
    }
    let other = draw::variant(random, graph).image();
    cases.extend(replacement(random, &other, Owner::Nobody, words));
    if words.len() >= FIRST_SLOT {
        slots::spoil(random, words);
    }
    cases.push(lookup(random, words));
    let call = *random.one_of(&STITCHED);
    cases.extend(search(random, graph, &image, call, words));
    for owner in [Owner::Nobody, any_owner(random, graph)] {
        cases.extend(replacement(random, &image, owner, words));
    }
    cases
}

fn lookup(random: &mut Random, words: &[u32]) -> Case {
    let mut case = Case::new(Call::Lookup, &[]);
    case.words = words.to_vec();
    case.number = number_about(random, words.get(USED).map_or(1, |&used| used as usize));
    case.answer_length = requests::answer_length(random, case.call);
    case
}

/// Slots that no replacement files, and words that are no database; some belong
/// to another state of the graph.
fn any_slots(random: &mut Random, graph: &Graph) -> Vec<Case> {
    let image = graph.image();
    let filed_on = if random.percent(30) {
        draw::variant(random, graph)
    } else {
        graph.clone()
    };
    let mut words = if random.below(120) == 0 {
        slots::many_slots(random, &filed_on)
    } else {
        slots::any_words(random, &filed_on)
    };
    let mut cases = Vec::new();
    for turn in 0..6 {
        if turn == 3 && random.percent(80) {
            slots::spoil(random, &mut words);
        }
        let call = *random.one_of(&STITCHED);
        cases.extend(search(random, graph, &image, call, &words));
        if turn % 2 == 0 {
            let owner = any_owner(random, graph);
            cases.extend(replacement(random, &image, owner, &words));
        }
        if turn % 3 == 0 {
            cases.push(lookup(random, &words));
        }
    }
    cases
}

/// Old areas of all kinds; then one with slots for this graph, with which lookups,
/// stitched searches and a replacement go on.
fn conversions(random: &mut Random, graph: &Graph) -> Vec<Case> {
    let mut cases = Vec::new();
    for _ in 0..10 {
        let old = if random.below(60) == 0 {
            former::many_slots(random)
        } else {
            former::any_area(random)
        };
        cases.push(conversion(random, old));
    }
    let words = slots::any_words(random, graph);
    let old = former::as_before(random, &words);
    let case = conversion(random, old);
    let outcome = second::run(&case);
    cases.push(case);
    if outcome.number() == 0 {
        cases.extend(behind_rewritten(random, graph, &outcome.result));
    }
    cases
}

fn behind_rewritten(random: &mut Random, graph: &Graph, words: &[u32]) -> Vec<Case> {
    let image = graph.image();
    let mut cases = vec![lookup(random, words)];
    for call in STITCHED {
        cases.extend(search(random, graph, &image, call, words));
    }
    let owner = any_owner(random, graph);
    cases.extend(replacement(random, &image, owner, words));
    cases
}

fn conversion(random: &mut Random, old: Vec<u32>) -> Case {
    let mut case = Case::new(Call::Convert, &[]);
    let room = former::room(random, &old);
    case.result = random.rubbish(room);
    case.words = old;
    case.answer_length = requests::answer_length(random, case.call);
    case
}

/// Databases of all kinds; then one with slots for this graph, with which lookups,
/// stitched searches and replacements go on.
fn compactions(random: &mut Random, graph: &Graph) -> Vec<Case> {
    let mut cases = Vec::new();
    for _ in 0..10 {
        let words = if random.below(60) == 0 {
            sparse::many_slots(random)
        } else {
            sparse::any_area(random)
        };
        cases.push(compaction(random, words));
    }
    let mut words = slots::any_words(random, graph);
    sparse::kill(random, &mut words);
    let case = compaction(random, words);
    let words = second::run(&case).words;
    cases.push(case);
    cases.extend(behind_rewritten(random, graph, &words));
    for owner in [Owner::Nobody, any_owner(random, graph)] {
        cases.extend(replacement(random, &graph.image(), owner, &words));
    }
    cases
}

fn compaction(random: &mut Random, words: Vec<u32>) -> Case {
    let mut case = Case::new(Call::Compact, &[]);
    let length = sparse::list(random, &words);
    case.result = random.rubbish(length);
    case.words = words;
    case.answer_length = requests::answer_length(random, case.call);
    case
}

/// Damaged images, mostly for the check alone; every other call must refuse them alike.
fn damages(random: &mut Random, graph: &Graph) -> Vec<Case> {
    let mut cases = Vec::new();
    for _ in 0..10 {
        let image = if random.percent(90) {
            damage::damaged(random, graph)
        } else {
            damage::noise(random)
        };
        let mut case = Case::new(Call::Check, &image);
        case.answer_length = requests::answer_length(random, case.call);
        cases.push(case);
        if random.percent(40) {
            cases.extend(other_call(random, graph, &image));
        }
    }
    cases
}

/// Both rewritings of the graph, of others with its records, and of damaged images.
fn rewritings(random: &mut Random, graph: &Graph) -> Vec<Case> {
    let mut cases = Vec::new();
    for _ in 0..10 {
        let graph = with_other_symbols(random, graph);
        let image = match random.weighted(&[78, 18, 4]) {
            0 => graph.image(),
            1 => damage::damaged(random, &graph),
            _ => damage::about_bounds(random),
        };
        cases.push(rewriting(random, &graph, &image));
    }
    if random.percent(10) {
        let version = *random.one_of(&[Version::Narrow, Version::Wide]);
        let graph = shapes::brim(random, version);
        cases.push(Case::new(Call::Check, &graph.image()));
        cases.push(rewriting(random, &graph, &graph.image()));
    }
    cases
}

/// The same graph, or of version 2 with symbols drawn anew.
fn with_other_symbols(random: &mut Random, graph: &Graph) -> Graph {
    let mut other = graph.clone();
    if other.version == Version::Wide {
        draw::widen(random, &mut other);
        if random.percent(40) {
            widen_one(random, &mut other);
        }
    }
    other
}

/// At most one record has a symbol that does not fit 32 bits.
fn widen_one(random: &mut Random, graph: &mut Graph) {
    let with_symbol = graph.nodes.iter_mut().filter_map(Node::symbol_mut);
    let mut symbols: Vec<&mut u64> = with_symbol.collect();
    for symbol in &mut symbols {
        **symbol &= u64::from(u32::MAX);
    }
    if !symbols.is_empty() {
        let place = random.below(symbols.len());
        *symbols[place] = *random.one_of(&[0xFFFF_FFFF, 1 << 32, 1 << 63, u64::MAX]);
    }
}

/// Mostly to the version that the graph's image has not; a damaged one is refused as
/// often for its version as for its damage.
fn rewriting(random: &mut Random, graph: &Graph, image: &[u8]) -> Case {
    let chance = if check(image).is_ok() { 90 } else { 50 };
    let version = if random.percent(chance) {
        graph.version
    } else {
        graph.version.other()
    };
    let mut case = Case::new(rewriting_of(version), image);
    case.area = requests::image_area(random, graph);
    case.answer_length = requests::answer_length(random, case.call);
    case
}

fn other_call(random: &mut Random, graph: &Graph, image: &[u8]) -> Option<Case> {
    let mut words = slots::any_words(random, graph);
    if random.percent(30) {
        slots::spoil(random, &mut words);
    }
    match random.below(12) {
        11 => flow(random, graph, image),
        10 => tally(random, graph, image),
        9 => Some(reading(random, graph, image)),
        8 => Some(rewriting(random, graph, image)),
        0 => Some(judgement(random, graph, image)),
        6 => Some(replay(random, graph, image)),
        7 => name(random, graph, image),
        1 => Some(fresh(random, image, words.len())),
        2 => {
            let owner = any_owner(random, graph);
            replacement(random, image, owner, &words)
        }
        3 => search(random, graph, image, Call::Stitched, &words),
        4 => search(random, graph, image, Call::StitchedRecorded, &words),
        _ => {
            let call = *random.one_of(&SEARCHES);
            search(random, graph, image, call, &[])
        }
    }
}
