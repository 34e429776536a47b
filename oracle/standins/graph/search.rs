//! Stands in for graph/search.rs, which is given but left out by document 01
//! except for the enum `SearchOrder`: build.sh cuts that enum out unchanged
//! into search/order.rs. It must declare the two given child modules as the
//! given file does at its end.

mod order;
mod path_budget;
mod path_frontier;

pub use order::SearchOrder;
pub(crate) use path_budget::PathBudget;
pub(crate) use path_frontier::PathFrontier;
