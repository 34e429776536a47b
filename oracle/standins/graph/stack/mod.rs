//! Stands in for graph/stack/mod.rs, which was not given.
//! It must declare the five given files of stack/ and hand on their public
//! names to the programs.

mod partial;
mod path;
mod search;
mod stitching;
mod storage;

pub use partial::*;
pub use path::*;
pub use search::*;
pub use storage::*;
