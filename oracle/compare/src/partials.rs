//! The partial paths of a file, written a second time from document 01, "Partial
//! paths", and the further set of document 02, order 5.

use crate::budget::{Asked, Budget, Slots};
use crate::check::Refusal;
use crate::database::{ALIASES, PartialPath};
use crate::graph::{Edge, Graph, Node, ROOT};
use std::collections::VecDeque;

/// Whose partial paths: a file's, or those of the edges "whose ends have no file".
#[derive(Clone, Copy, PartialEq, Eq, Debug)]
pub enum Owner {
    File(u32),
    Nobody,
}

impl Owner {
    /// The first word of its slots. A file that the graph has is below 256.
    pub fn word(self) -> u32 {
        match self {
            Self::File(file) => file + 1,
            Self::Nobody => ALIASES,
        }
    }

    /// "Starts: root, then the file's references and exported scopes by number." The
    /// further set is computed "from root".
    fn starts(self, graph: &Graph) -> Vec<u32> {
        let Self::File(file) = self else {
            return vec![ROOT];
        };
        let is_start = |node: Node| {
            node.file() == Some(file) && (node.is_reference() || node.is_exported_scope())
        };
        [vec![ROOT], graph.nodes_where(is_start)].concat()
    }

    /// "An edge belongs to a file if either end does"; to the further set, if neither
    /// end belongs to any.
    fn has(self, graph: &Graph, edge: Edge) -> bool {
        let files = [edge.source, edge.target].map(|end| graph.nodes[end as usize].file());
        match self {
            Self::File(file) => files.contains(&Some(file)),
            Self::Nobody => files.iter().all(Option::is_none),
        }
    }
}

pub struct Computed {
    pub budget: Budget,
    pub paths: Vec<PartialPath>,
}

impl Computed {
    /// Expansions, paths found, cycle cuts, both flags, and how many routes ever
    /// waited together.
    pub fn told(&self) -> Vec<u64> {
        let b = &self.budget;
        let flags = [b.length_limited, b.count_limited].map(u64::from);
        let counts = [b.expanded, self.paths.len() as u64, b.cycles];
        [&counts[..], &flags, &[b.most_waiting as u64]].concat()
    }
}

/// "Each edge passes cycle, length and the 127 bound", 63 now, "is recorded if it reaches an
/// endpoint, and is then pushed." The limit on complete paths has no meaning here.
pub fn compute(
    graph: &Graph,
    owner: Owner,
    asked: Asked,
    waiting: usize,
) -> Result<Computed, Refusal> {
    if let Owner::File(file) = owner
        && file as usize >= graph.files
    {
        return Err(vec![21, file.into()]);
    }
    let results = 0;
    let mut budget = Budget::new(asked, Slots { waiting, results });
    let mut paths = Vec::new();
    let mut routes = VecDeque::new();
    for start in owner.starts(graph) {
        budget.admits_waiting(routes.len())?;
        routes.push_back(without_edges(owner, start));
    }
    while let Some(route) = routes.pop_front() {
        if !budget.admits_expansion()? {
            break;
        }
        let mut successors = Vec::new();
        for (number, edge) in graph.outgoing(route.end) {
            if !owner.has(graph, edge) || !budget.admits_edges(&route.edges, &[number])? {
                continue;
            }
            let longer = extended(&route, number, edge);
            if is_endpoint(graph.nodes[longer.end as usize]) {
                paths.push(longer.clone());
            }
            budget.admits_waiting(routes.len() + successors.len())?;
            successors.push(longer);
        }
        budget.enqueue(&mut routes, successors);
    }
    Ok(Computed { budget, paths })
}

fn without_edges(owner: Owner, start: u32) -> PartialPath {
    PartialPath {
        owner: owner.word(),
        start,
        end: start,
        edges: vec![],
    }
}

fn extended(route: &PartialPath, number: u32, edge: Edge) -> PartialPath {
    let mut longer = route.clone();
    longer.edges.push(number);
    longer.end = edge.target;
    longer
}

/// "Endpoints: root, exported scope, definition, jump."
fn is_endpoint(node: Node) -> bool {
    matches!(node, Node::Root | Node::Jump) || node.is_exported_scope() || node.is_definition()
}
