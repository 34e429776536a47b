//! Stands in for store/adjacency.rs, which was not given.
//! It must keep document 01's order: `outgoing` of a node means its live edges
//! by ascending number. Two lists of edge numbers for each node are appended
//! to as edges are added, so they ascend; walks pass over removed edges. The
//! missing file keeps linked chains, so the speed of a walk may differ.

extern crate alloc;

use alloc::vec::Vec;

use super::{Graph, Id, IdTag};
use crate::graph::traverse::TraversalDirection;

pub(super) const MAX_SLOTS: usize = u32::MAX as usize;

#[derive(Debug, Clone, PartialEq, Eq)]
pub(super) struct DeltaChains {
    outgoing: Vec<Vec<u32>>,
    incoming: Vec<Vec<u32>>,
    edge_count: u32,
}

impl DeltaChains {
    pub(super) fn new() -> Self {
        Self {
            outgoing: Vec::new(),
            incoming: Vec::new(),
            edge_count: 0,
        }
    }

    pub(super) fn with_capacity(_nodes: usize, _edges: usize) -> Self {
        Self::new()
    }

    pub(super) fn append(&mut self, source: usize, target: usize, nodes: usize) {
        self.outgoing.resize_with(nodes, Vec::new);
        self.incoming.resize_with(nodes, Vec::new);
        self.outgoing[source].push(self.edge_count);
        self.incoming[target].push(self.edge_count);
        self.edge_count += 1;
    }

    fn edges_at(&self, node: usize, direction: TraversalDirection) -> &[u32] {
        let lists = match direction {
            TraversalDirection::Outgoing => &self.outgoing,
            TraversalDirection::Incoming => &self.incoming,
        };
        // A node added after the last edge has no list yet.
        lists.get(node).map_or(&[], Vec::as_slice)
    }
}

/// Only named: store.rs hands the name on.
pub struct AdjacentEdges;

impl<N, E, NT: IdTag, ET: IdTag> Graph<N, E, NT, ET> {
    fn adjacent(
        &self,
        node: Id<NT>,
        direction: TraversalDirection,
    ) -> impl Iterator<Item = Id<ET>> + '_ {
        self.chains
            .edges_at(node.index(), direction)
            .iter()
            .filter(|&&slot| self.edge_is_live(slot as usize))
            .map(|&slot| Id::from_raw(slot))
    }

    pub fn outgoing(&self, node: Id<NT>) -> impl Iterator<Item = Id<ET>> + '_ {
        self.adjacent(node, TraversalDirection::Outgoing)
    }

    pub fn incoming(&self, node: Id<NT>) -> impl Iterator<Item = Id<ET>> + '_ {
        self.adjacent(node, TraversalDirection::Incoming)
    }

    pub fn successors(&self, node: Id<NT>) -> impl Iterator<Item = Id<NT>> + '_ {
        self.outgoing(node).map(|edge| self.edge(edge).target())
    }

    pub fn predecessors(&self, node: Id<NT>) -> impl Iterator<Item = Id<NT>> + '_ {
        self.incoming(node).map(|edge| self.edge(edge).source())
    }

    pub(super) fn clear_adjacency(&mut self, node: Id<NT>, direction: TraversalDirection) {
        let slots = self.chains.edges_at(node.index(), direction).to_vec();
        for slot in slots {
            self.retire_edge(slot as usize);
        }
    }
}
