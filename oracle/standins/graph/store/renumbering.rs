//! Stands in for store/renumbering.rs, which was not given.
//! It must define the name that store.rs hands on: what a compaction gives
//! back. No stack graph is compacted.

pub struct Renumbering;
