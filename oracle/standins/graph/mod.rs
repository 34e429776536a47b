//! Stands in for graph/mod.rs, which was not given.
//! It must declare the modules that the given files of graph/ name.

pub mod edge_view;
pub mod search;
pub mod stack;
pub mod store;
pub mod traverse;
pub mod view;
