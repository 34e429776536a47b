//! A door in the place of stack/partial/stored.rs, which is given but only
//! serves serde, left out by document 01. Being a child of stack/partial.rs it
//! may build a database from slots, which no public operation does. It must
//! group the slots by start and by file in ascending number, as the given
//! stored.rs demands of a stored database.

extern crate alloc;

use alloc::vec;
use alloc::vec::Vec;

use super::{
    StackEdgeId, StackFileId, StackNodeId, StackPartialPath, StackPartialPathDatabase,
    StackPartialPathId,
};

impl StackPartialPathDatabase {
    /// A database without slots for a graph of so many nodes and files.
    #[must_use]
    pub fn door_new(node_bound: usize, file_count: usize) -> Self {
        Self {
            paths: Vec::new(),
            paths_by_start: vec![Vec::new(); node_bound],
            paths_by_file: vec![Vec::new(); file_count],
        }
    }

    /// Append a slot whose partial path was replaced.
    pub fn door_push_dead(&mut self) {
        self.paths.push(None);
    }

    /// Append a live slot.
    ///
    /// # Panics
    ///
    /// Panics when `file` or `start` is outside the database's bounds.
    pub fn door_push(
        &mut self,
        file: StackFileId,
        start: StackNodeId,
        end: StackNodeId,
        edges: Vec<StackEdgeId>,
    ) {
        let id = StackPartialPathId::from_index(self.paths.len());
        self.paths_by_start[start.index()].push(id);
        self.paths_by_file[file.index()].push(id);
        self.paths.push(Some(StackPartialPath {
            file,
            start,
            end,
            edges,
        }));
    }
}
