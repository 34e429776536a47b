//! Stands in for graph/view.rs, which was not given.
//! It must define the traits and wrappers that edge_view.rs, stack/storage.rs
//! and store/id.rs name, so that these compile. No search uses any of them.

use core::fmt::Debug;
use core::hash::Hash;

pub trait DenseId: Copy + Ord + Hash + Debug {
    fn from_index(index: usize) -> Self;
    fn index(self) -> usize;
}

pub trait GraphView {
    type NodeId: DenseId;
    fn node_bound(&self) -> usize;
    fn node_ids(&self) -> impl Iterator<Item = Self::NodeId> + '_;
    fn successors(&self, node: Self::NodeId) -> impl Iterator<Item = Self::NodeId> + '_;
    fn predecessors(&self, node: Self::NodeId) -> impl Iterator<Item = Self::NodeId> + '_;
}

pub trait NodeView: GraphView {
    type NodeData: ?Sized;
    fn node(&self, node: Self::NodeId) -> &Self::NodeData;
}

pub trait RootedView: GraphView {
    fn root(&self) -> Self::NodeId;
}

/// A view with a root of its own.
pub struct Rooted<'g, G> {
    graph: &'g G,
}

impl<'g, G> Rooted<'g, G> {
    pub fn graph(&self) -> &'g G {
        self.graph
    }
}

impl<G: GraphView> GraphView for Rooted<'_, G> {
    type NodeId = G::NodeId;

    fn node_bound(&self) -> usize {
        self.graph.node_bound()
    }

    fn node_ids(&self) -> impl Iterator<Item = Self::NodeId> + '_ {
        self.graph.node_ids()
    }

    fn successors(&self, node: Self::NodeId) -> impl Iterator<Item = Self::NodeId> + '_ {
        self.graph.successors(node)
    }

    fn predecessors(&self, node: Self::NodeId) -> impl Iterator<Item = Self::NodeId> + '_ {
        self.graph.predecessors(node)
    }
}

/// A view with every edge turned round.
pub struct Reversed<'g, G> {
    graph: &'g G,
}

impl<'g, G> Reversed<'g, G> {
    pub fn graph(&self) -> &'g G {
        self.graph
    }
}

impl<G: GraphView> GraphView for Reversed<'_, G> {
    type NodeId = G::NodeId;

    fn node_bound(&self) -> usize {
        self.graph.node_bound()
    }

    fn node_ids(&self) -> impl Iterator<Item = Self::NodeId> + '_ {
        self.graph.node_ids()
    }

    fn successors(&self, node: Self::NodeId) -> impl Iterator<Item = Self::NodeId> + '_ {
        self.graph.predecessors(node)
    }

    fn predecessors(&self, node: Self::NodeId) -> impl Iterator<Item = Self::NodeId> + '_ {
        self.graph.successors(node)
    }
}
