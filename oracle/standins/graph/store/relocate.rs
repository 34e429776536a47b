//! Stands in for store/relocate.rs, which was not given.
//! It must define the type of store.rs's field for redirected edges, which
//! stays empty: no stack graph redirects an edge.

#[derive(Debug, Clone, PartialEq, Eq)]
pub(super) struct Relocations;
