//! The oracle: one request on each line of standard input, one line of answer.
//! README.md lists the requests.

use cfglib::graph::stack::{
    StackEdgeId, StackNodeId, StackPartialPathDatabase, StackPartialPathId, StackPartialPathSet,
    StackPath, StackPathError, StackResolution,
};
use load::{Graph, Symbol};
use std::any::Any;
use std::io::{BufRead, BufWriter, Write, stdin, stdout};
use std::panic::{AssertUnwindSafe, catch_unwind};

mod answer;
mod load;
mod request;

/// What requests leave behind for later ones. Loading a graph keeps the
/// database, so that a stale one can be tried.
#[derive(Default)]
struct State {
    graph: Option<Graph>,
    /// The graph with every precedence 0: nothing shadows there, so a search
    /// returns its recorded paths, copies dropped.
    flat: Option<Graph>,
    database: Option<StackPartialPathDatabase>,
}

impl State {
    fn graph(&self) -> &Graph {
        self.graph.as_ref().expect("no graph is loaded")
    }

    fn database(&self) -> &StackPartialPathDatabase {
        self.database.as_ref().expect("there is no database")
    }
}

fn main() {
    // A panic becomes the answer; its report on standard error would only
    // repeat it.
    std::panic::set_hook(Box::new(|_| {}));
    let mut state = State::default();
    let mut output = BufWriter::new(stdout().lock());
    for line in stdin().lock().lines() {
        let line = line.expect("the request is text");
        if line.trim() == "flush" {
            output.flush().expect("the answers are read");
            continue;
        }
        let answered = catch_unwind(AssertUnwindSafe(|| respond(&mut state, &line)));
        let text = answered.unwrap_or_else(|cause| panic_text(cause.as_ref()));
        writeln!(output, "{text}").expect("the answers are read");
    }
}

fn panic_text(cause: &(dyn Any + Send)) -> String {
    let message = cause
        .downcast_ref::<String>()
        .map(String::as_str)
        .or_else(|| cause.downcast_ref::<&str>().copied());
    format!("panic {}", message.unwrap_or_default())
}

fn respond(state: &mut State, line: &str) -> String {
    let words: Vec<&str> = line.split_whitespace().collect();
    let Some((&letter, words)) = words.split_first() else {
        return String::new();
    };
    match letter {
        "G" => load_graph(state, words),
        "D" | "L" | "S" => search(state, state.graph(), letter, words),
        "d" | "l" | "s" => {
            let flat = state.flat.as_ref().expect("no graph is loaded");
            search(state, flat, &letter.to_uppercase(), words)
        }
        "P" => partial_paths(state, words),
        "N" => {
            state.database = Some(StackPartialPathDatabase::new(state.graph()));
            "ok".to_owned()
        }
        "R" => replace_file(state, words),
        "W" => {
            state.database = Some(request::database(words));
            "ok".to_owned()
        }
        "B" => slots(state.database()),
        "Y" => replay(state, words).map_or_else(answer::path_error, |path| answer::path(&path)),
        "C" => is_complete(state, words).map_or_else(answer::path_error, yes_or_no),
        "H" => shadows(state, words).map_or_else(answer::path_error, yes_or_no),
        "O" => outgoing(state.graph(), request::node(words[0])),
        other => format!("bad request {other}"),
    }
}

fn load_graph(state: &mut State, words: &[&str]) -> String {
    let graph = load::load(&request::bytes(words[0]));
    let counts = format!(
        "ok {} {} {}",
        graph.file_count(),
        graph.node_bound(),
        graph.edge_bound()
    );
    state.flat = Some(without_precedence(&graph));
    state.graph = Some(graph);
    counts
}

fn without_precedence(graph: &Graph) -> Graph {
    let mut flat = graph.clone();
    for edge in graph.edge_ids() {
        flat.set_edge_precedence(edge, 0);
    }
    flat
}

fn search(state: &State, graph: &Graph, letter: &str, words: &[&str]) -> String {
    let reference = request::node(words[0]);
    let config = request::search_config(&words[1..]);
    let found = match letter {
        "D" => StackResolution::try_compute(graph, reference, config).map_err(answer::path_error),
        "L" => StackResolution::try_compute_linear(graph, reference, config)
            .map_err(answer::linear_error),
        _ => StackResolution::try_compute_from_partials(graph, state.database(), reference, config)
            .map_err(answer::path_error),
    };
    found.map_or_else(|refusal| refusal, |found| answer::resolution(&found))
}

fn partial_paths(state: &State, words: &[&str]) -> String {
    let config = request::partial_path_config(&words[1..]);
    match StackPartialPathSet::compute(state.graph(), request::file(words[0]), config) {
        Err(error) => answer::file_error(error),
        Ok(set) => format!(
            "{} paths={}",
            answer::partial_path_stats(set.stats()),
            answer::list(set.paths().iter().map(answer::partial_path), ";")
        ),
    }
}

fn replace_file(state: &mut State, words: &[&str]) -> String {
    let config = request::partial_path_config(&words[1..]);
    let graph = state.graph.as_ref().expect("no graph is loaded");
    let database = state.database.as_mut().expect("there is no database");
    database
        .replace_file(graph, request::file(words[0]), config)
        .map_or_else(answer::file_error, answer::partial_path_stats)
}

fn slots(database: &StackPartialPathDatabase) -> String {
    let slots = (0..database.path_slot_count()).map(|index| {
        database
            .path(StackPartialPathId::from_index(index))
            .map_or("x".to_owned(), answer::partial_path)
    });
    format!("ok {}", answer::list(slots, ";"))
}

/// REF EDGES
fn replay(state: &State, words: &[&str]) -> Result<StackPath<Symbol>, StackPathError> {
    let reference: StackNodeId = request::node(words[0]);
    let edges: Vec<StackEdgeId> = request::edges(words[1]);
    let mut path = StackPath::from_reference(state.graph(), reference)?;
    for edge in edges {
        path.append(state.graph(), edge)?;
    }
    Ok(path)
}

fn is_complete(state: &State, words: &[&str]) -> Result<bool, StackPathError> {
    Ok(replay(state, words)?.is_complete(state.graph()))
}

fn shadows(state: &State, words: &[&str]) -> Result<bool, StackPathError> {
    let left = replay(state, words)?;
    let right = replay(state, &words[2..])?;
    Ok(left.shadows(state.graph(), &right))
}

fn yes_or_no(answer: bool) -> String {
    format!("ok {}", u8::from(answer))
}

fn outgoing(graph: &Graph, node: StackNodeId) -> String {
    let edges = graph.outgoing(node).map(|edge| edge.raw());
    format!("ok {}", answer::list(edges, ","))
}
