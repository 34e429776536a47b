//! Stands in for graph/traverse.rs, which was not given.
//! It must define the two directions that store.rs names when it clears the
//! edges of a removed node.

#[derive(Clone, Copy)]
pub enum TraversalDirection {
    Outgoing,
    Incoming,
}
