//! Stands in for store/compact.rs, which was not given.
//! It is empty because no stack graph is compacted; it must be there because
//! store.rs declares it.
