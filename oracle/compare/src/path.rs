//! Paths, written a second time from document 01, "Path".

use crate::check::Refusal;
use crate::graph::{Graph, JUMP, Node};
use crate::replayed::{Passage, Replayed};

/// "A path holds at most 127 edges", of which document 02, order 6, says: "the bound
/// becomes 63 edges wherever 127 stood".
pub const MOST_EDGES: usize = 63;

/// A step: the node that it leaves, and its precedence.
type Step = (u32, i32);

/// A symbol with the scopes attached to it, if it has any.
type Symbol = (u64, Option<Vec<u32>>);

/// Tops of stacks stand last.
#[derive(Clone, PartialEq, Eq, Debug)]
pub struct Path {
    pub end: u32,
    pub edges: Vec<u32>,
    steps: Vec<Step>,
    passages: Vec<Passage>,
    symbols: Vec<Symbol>,
    scopes: Vec<u32>,
}

impl Path {
    /// 10, 11; else the path without edges, the reference applied.
    pub fn from_reference(graph: &Graph, reference: u32) -> Result<Self, Refusal> {
        let node = graph
            .live_node(reference)
            .ok_or(vec![10, reference.into()])?;
        if !node.is_reference() {
            return Err(vec![11, reference.into()]);
        }
        let mut path = Self {
            end: reference,
            edges: vec![],
            steps: vec![],
            passages: vec![],
            symbols: vec![],
            scopes: vec![],
        };
        path.apply(node, reference)?;
        Ok(path)
    }

    /// The path with one more edge, or 12 to 18.
    pub fn append(&self, graph: &Graph, number: u32) -> Result<Self, Refusal> {
        let edge = graph.live_edge(number).ok_or(vec![12, number.into()])?;
        if edge.source != self.end {
            return Err(vec![13, self.end.into(), edge.source.into()]);
        }
        let mut path = self.clone();
        path.apply(graph.nodes[edge.target as usize], edge.target)?;
        path.edges.push(number);
        path.steps.push((edge.source, edge.precedence));
        path.passages.push(Passage::Edge(number));
        path.end = edge.target;
        if edge.target == JUMP {
            path.end = path.scopes.pop().ok_or(vec![18, JUMP.into()])?;
            path.steps.push((JUMP, 0));
            path.passages.push(Passage::Jump(path.end));
        }
        Ok(path)
    }

    /// What a node does to both stacks. The scope that jump takes is taken by `append`.
    fn apply(&mut self, node: Node, number: u32) -> Result<(), Refusal> {
        match node {
            Node::Push { symbol, .. } => self.symbols.push((symbol, None)),
            Node::PushScoped { symbol, scope, .. } => {
                let mut attached = self.scopes.clone();
                attached.push(scope);
                self.symbols.push((symbol, Some(attached)));
            }
            Node::Pop { symbol, .. } => {
                if self.pop(symbol, number)?.is_some() {
                    return Err(vec![16, number.into()]);
                }
            }
            Node::PopScoped { symbol, .. } => {
                self.scopes = self.pop(symbol, number)?.ok_or(vec![17, number.into()])?;
            }
            Node::DropScopes { .. } => self.scopes.clear(),
            Node::Removed | Node::Root | Node::Jump | Node::Scope { .. } => {}
        }
        Ok(())
    }

    /// The scopes of the top symbol, which is compared before they are looked at.
    fn pop(&mut self, symbol: u64, number: u32) -> Result<Option<Vec<u32>>, Refusal> {
        let (top, scopes) = self.symbols.pop().ok_or(vec![14, number.into()])?;
        if top != symbol {
            return Err(vec![15, number.into()]);
        }
        Ok(scopes)
    }

    /// At a definition with both stacks empty.
    pub fn is_complete(&self, graph: &Graph) -> bool {
        graph.nodes[self.end as usize].is_definition()
            && self.symbols.is_empty()
            && self.scopes.is_empty()
    }

    /// Both stacks are empty: a drawn route may end here.
    pub fn is_spent(&self) -> bool {
        self.symbols.is_empty() && self.scopes.is_empty()
    }

    /// "The path (end, steps, both stacks)", tops first.
    pub fn replayed(&self) -> Replayed {
        let reversed = |scopes: &[u32]| scopes.iter().rev().copied().collect::<Vec<_>>();
        let symbols = self.symbols.iter().rev();
        Replayed {
            end: self.end,
            steps: self.passages.clone(),
            symbols: symbols
                .map(|(symbol, scopes)| (*symbol, scopes.as_deref().map(reversed)))
                .collect(),
            scopes: reversed(&self.scopes),
        }
    }

    /// "Different sources: no. Left precedence greater: yes. Otherwise go on."
    pub fn shadows(&self, right: &Self) -> bool {
        for (left, right) in self.steps.iter().zip(&right.steps) {
            if left.0 != right.0 {
                return false;
            }
            if left.1 > right.1 {
                return true;
            }
        }
        false
    }
}

/// "Replay tests the bound, then appends."
pub fn replay(graph: &Graph, reference: u32, edges: &[u32]) -> Result<Path, Refusal> {
    let mut path = Path::from_reference(graph, reference)?;
    for &edge in edges {
        if path.edges.len() == MOST_EDGES {
            return Err(vec![30]);
        }
        path = path.append(graph, edge)?;
    }
    Ok(path)
}
