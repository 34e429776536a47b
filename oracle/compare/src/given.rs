//! A call answered by the given library cfglib, in the form of our answers.
//! It has no image check, no bound of 63 edges, no areas and no words, so it is
//! asked only where none of these has refused the call.

use crate::case::{Call, Case, Outcome};
use crate::check::Refusal;
use crate::database::{self, FILES, NODES, PartialPath};
use crate::desks::{shows, shows_owner};
use crate::graph::{JUMP, MOST_FILES, MOST_NODES};
use crate::load::{Graph, Symbol, load};
use crate::replayed::{Passage, Replayed};
use cfglib::graph::search::SearchOrder;
use cfglib::graph::stack::{
    StackEdgeId, StackFileId, StackLinearResolutionError, StackNodeId, StackPartialPathConfig,
    StackPartialPathDatabase, StackPartialPathId, StackPath, StackPathError, StackPathStep,
    StackResolution, StackSearchConfig,
};

/// Whether the given library has what led to an answer of this number.
pub fn has(case: &Case, number: u64) -> bool {
    match case.call {
        Call::FindName
        | Call::Tally
        | Call::ResolveFlow
        | Call::Widen
        | Call::Narrow
        | Call::ReplaceAliases
        | Call::Convert
        | Call::Compact
        | Call::Node
        | Call::Edge
        | Call::References
        | Call::Outgoing => false,
        Call::Lookup => is_buildable(&case.words),
        Call::ReplaceFile | Call::Stitched | Call::StitchedRecorded => {
            is_answer(number) && is_buildable(&case.words)
        }
        _ => is_answer(number),
    }
}

fn is_answer(number: u64) -> bool {
    number == 0 || (10..=21).contains(&number)
}

/// A lookup takes any stored N and F, for which the library's tables would be too large.
/// "The Rust is consulted only for databases lacking" the set of order 5.
fn is_buildable(words: &[u32]) -> bool {
    database::is_sound(words)
        && !database::has_aliases(words)
        && words[NODES] as usize <= MOST_NODES
        && words[FILES] as usize <= MOST_FILES
}

pub fn run(case: &Case) -> Outcome {
    answered(case).unwrap_or_else(|refusal| Outcome::new(case, refusal))
}

fn answered(case: &Case) -> Result<Outcome, Refusal> {
    if case.call == Call::Lookup {
        return Ok(looked_up(case));
    }
    let graph = load(&case.image);
    match case.call {
        Call::Check => {
            let counts = [graph.file_count(), graph.node_bound(), graph.edge_bound()];
            let told = counts.map(|count| count as u64);
            Ok(Outcome::new(case, [&[0], &told[..]].concat()))
        }
        Call::Replay => {
            let path = replay(&graph, case.number, &case.edges)?;
            let mut outcome = Outcome::new(case, vec![0]);
            outcome.put_replayed(&replayed(&path));
            Ok(outcome)
        }
        Call::IsComplete => {
            let path = replay(&graph, case.number, &case.edges)?;
            Ok(Outcome::new(case, vec![0, path.is_complete(&graph).into()]))
        }
        Call::Shadows => {
            let left = replay(&graph, case.number, &case.edges)?;
            let right = replay(&graph, case.right_number, &case.right_edges)?;
            Ok(Outcome::new(
                case,
                vec![0, left.shadows(&graph, &right).into()],
            ))
        }
        Call::Fresh => Ok(created(case, &graph)),
        Call::ReplaceFile => replaced(case, &graph),
        _ => searched(case, graph),
    }
}

fn path_refusal(error: StackPathError) -> Refusal {
    let (number, node) = match error {
        StackPathError::UnknownEdge(edge) => return vec![12, edge.raw().into()],
        StackPathError::IncorrectSource { expected, actual } => {
            return vec![13, expected.raw().into(), actual.raw().into()];
        }
        StackPathError::UnknownNode(node) => (10, node),
        StackPathError::NotReference(node) => (11, node),
        StackPathError::EmptySymbolStack(node) => (14, node),
        StackPathError::IncorrectPoppedSymbol(node) => (15, node),
        StackPathError::UnexpectedAttachedScopes(node) => (16, node),
        StackPathError::MissingAttachedScopes(node) => (17, node),
        StackPathError::EmptyScopeStack(node) => (18, node),
        StackPathError::UnknownAttachedScope(node) => (19, node),
    };
    vec![number, node.raw().into()]
}

fn linear_refusal(error: StackLinearResolutionError) -> Refusal {
    match error {
        StackLinearResolutionError::Path(error) => path_refusal(error),
        StackLinearResolutionError::MultipleEdges { node } => vec![20, node.raw().into()],
    }
}

fn replay(graph: &Graph, reference: u32, edges: &[u32]) -> Result<StackPath<Symbol>, Refusal> {
    let mut path =
        StackPath::from_reference(graph, StackNodeId::from_raw(reference)).map_err(path_refusal)?;
    for &edge in edges {
        path.append(graph, StackEdgeId::from_raw(edge))
            .map_err(path_refusal)?;
    }
    Ok(path)
}

/// The library's stacks have their tops last, and its jumps name their source too.
fn replayed(path: &StackPath<Symbol>) -> Replayed {
    let reversed = |scopes: &[StackNodeId]| scopes.iter().rev().map(|scope| scope.raw()).collect();
    let steps = path.steps().iter().map(|step| match step {
        StackPathStep::Edge(edge) => Passage::Edge(edge.raw()),
        StackPathStep::Jump { source, target } => {
            assert_eq!(source.raw(), JUMP);
            Passage::Jump(target.raw())
        }
    });
    let symbols = path.symbol_stack().iter().rev();
    Replayed {
        end: path.end().raw(),
        steps: steps.collect(),
        symbols: symbols
            .map(|symbol| (*symbol.symbol(), symbol.scopes().map(reversed)))
            .collect(),
        scopes: reversed(path.scope_stack()),
    }
}

fn order(depth_first: bool) -> SearchOrder {
    if depth_first {
        SearchOrder::DepthFirst
    } else {
        SearchOrder::BreadthFirst
    }
}

fn config(case: &Case) -> StackSearchConfig {
    let asked = case.meaning();
    StackSearchConfig {
        order: order(asked.depth_first),
        max_path_length: asked.length.map(|limit| limit as usize),
        max_path_count: asked.count.map(|limit| limit as usize),
        max_complete_path_count: asked.complete.map(|limit| limit as usize),
    }
}

/// The recorded paths are those of the graph with every precedence 0, where
/// nothing is shadowed.
fn searched(case: &Case, mut graph: Graph) -> Result<Outcome, Refusal> {
    clear_hidden(case, &mut graph);
    if case.call.is_recorded() {
        for edge in graph.edge_ids().collect::<Vec<_>>() {
            graph.set_edge_precedence(edge, 0);
        }
    }
    let reference = StackNodeId::from_raw(case.number);
    let found = match case.call {
        Call::Linear | Call::LinearRecorded => {
            StackResolution::try_compute_linear(&graph, reference, config(case))
                .map_err(linear_refusal)?
        }
        Call::Stitched | Call::StitchedRecorded => {
            let database = built_of(&case.words, |path| shows_owner(&case.visible, path.owner));
            StackResolution::try_compute_from_partials(&graph, &database, reference, config(case))
                .map_err(path_refusal)?
        }
        _ => StackResolution::try_compute(&graph, reference, config(case)).map_err(path_refusal)?,
    };
    Ok(resolved(case, &found))
}

fn resolved(case: &Case, found: &StackResolution<Symbol>) -> Outcome {
    let stats = found.stats();
    let counts = [
        found.paths().len(),
        stats.expanded_path_count,
        stats.complete_path_count,
        stats.rejected_extension_count,
        stats.cycle_cut_count,
    ];
    let flags = [
        stats.path_length_limited,
        stats.path_count_limited,
        stats.complete_path_count_limited,
    ];
    let counts = counts.map(|count| count as u64);
    let mut outcome = Outcome::new(case, [&[0], &counts[..], &flags.map(u64::from)].concat());
    outcome.put_paths(&found.paths().iter().map(edges_of).collect::<Vec<_>>());
    outcome
}

fn edges_of(path: &StackPath<Symbol>) -> Vec<u32> {
    let edges = path.steps().iter().filter_map(|step| match step {
        StackPathStep::Edge(edge) => Some(edge.raw()),
        StackPathStep::Jump { .. } => None,
    });
    edges.collect()
}

/// "The oracle is given the graph with hidden files cleared and the database without
/// their partial paths": cleared by the library's own call.
fn clear_hidden(case: &Case, graph: &mut Graph) {
    let files = 0..graph.file_count() as u32;
    for file in files.filter(|&file| !shows(&case.visible, file)) {
        let cleared = graph.clear_file(StackFileId::from_raw(file));
        cleared.expect("the graph has the file");
    }
}

/// The library's own database with the slots that the words hold.
fn built(words: &[u32]) -> StackPartialPathDatabase {
    built_of(words, |_| true)
}

/// The same without those of which something does not hold; later ones move up.
fn built_of(words: &[u32], holds: impl Fn(&PartialPath) -> bool) -> StackPartialPathDatabase {
    let (nodes, files) = (words[NODES] as usize, words[FILES] as usize);
    let mut database = StackPartialPathDatabase::door_new(nodes, files);
    for slot in database::partial_paths(words) {
        let Some(path) = slot else {
            database.door_push_dead();
            continue;
        };
        if !holds(&path) {
            continue;
        }
        database.door_push(
            StackFileId::from_raw(path.owner - 1),
            StackNodeId::from_raw(path.start),
            StackNodeId::from_raw(path.end),
            path.edges.into_iter().map(StackEdgeId::from_raw).collect(),
        );
    }
    database
}

/// The words that a fresh database of the library stands for.
fn created(case: &Case, graph: &Graph) -> Outcome {
    let mut outcome = Outcome::new(case, vec![0]);
    outcome.words.fill(0);
    outcome.words[NODES] = graph.node_bound() as u32;
    outcome.words[FILES] = graph.file_count() as u32;
    let agree = built(&outcome.words) == StackPartialPathDatabase::new(graph);
    assert!(agree, "a fresh database is not what its words say");
    outcome
}

/// Dead slots are zero only where this call has killed them: others keep their words.
fn replaced(case: &Case, graph: &Graph) -> Result<Outcome, Refusal> {
    let asked = case.meaning();
    let config = StackPartialPathConfig {
        order: order(asked.depth_first),
        max_path_length: asked.length.map(|limit| limit as usize),
        max_path_count: asked.count.map(|limit| limit as usize),
    };
    let mut library = built(&case.words);
    let stats = library
        .replace_file(graph, StackFileId::from_raw(case.number), config)
        .map_err(|_| vec![21, case.number.into()])?;
    let counts = [
        stats.expanded_path_count,
        stats.partial_path_count,
        stats.cycle_cut_count,
    ];
    let flags = [stats.path_length_limited, stats.path_count_limited].map(u64::from);
    let told = [&[0], &counts.map(|count| count as u64)[..], &flags].concat();
    let mut outcome = Outcome::new(case, told);
    put_slots(&mut outcome.words, &library);
    outcome.words[NODES] = graph.node_bound() as u32;
    outcome.words[FILES] = graph.file_count() as u32;
    assert!(
        built(&outcome.words) == library,
        "a replaced database is not what its words say"
    );
    Ok(outcome)
}

fn put_slots(words: &mut [u32], library: &StackPartialPathDatabase) {
    let used_before = words[database::USED] as usize;
    for number in 0..library.path_slot_count() {
        let slot = &mut words[database::place(number)..database::place(number + 1)];
        let is_live_before = number < used_before && slot[database::OWNER] != 0;
        match library.path(StackPartialPathId::from_index(number)) {
            None if is_live_before => slot.fill(0),
            Some(path) if !is_live_before => slot.copy_from_slice(&slot_words(path)),
            _ => {}
        }
    }
    words[database::USED] = library.path_slot_count() as u32;
}

fn slot_words(path: &cfglib::graph::stack::StackPartialPath) -> Vec<u32> {
    let slot = database::PartialPath {
        owner: path.file().raw() + 1,
        start: path.start().raw(),
        end: path.end().raw(),
        edges: path.edges().iter().map(|edge| edge.raw()).collect(),
    };
    slot.words()
}

/// The library hands back the edges themselves; their place is ours to say.
fn looked_up(case: &Case) -> Outcome {
    let library = built(&case.words);
    let id = StackPartialPathId::from_index(case.number as usize);
    let Some(path) = library.path(id) else {
        return Outcome::new(case, vec![0, 0]);
    };
    let first = database::place(case.number as usize) + database::EDGES;
    let edges: Vec<u32> = path.edges().iter().map(|edge| edge.raw()).collect();
    assert_eq!(case.words[first..first + edges.len()], edges[..]);
    Outcome::new(case, vec![first as u64, edges.len() as u64])
}
