//! A door in the place of stack/storage/stored.rs, which was not given and
//! only serves serde. Being a child of stack/storage.rs it may add the two
//! nodes that an image can hold and the public builders cannot add by
//! ascending number. It must leave the graph as the builders would.

use super::{StackFileId, StackGraph, StackGraphError, StackNode, StackNodeId, StackNodeKind};

impl<F, S, N, E> StackGraph<F, S, N, E> {
    /// Add a node that is already removed. The public way to remove one clears
    /// its whole file; a removed node of an image has no file.
    pub fn door_add_removed_node(&mut self) -> StackNodeId {
        let node = self.graph.add_node(StackNode {
            file: None,
            kind: StackNodeKind::DropScopes,
            payload: None,
        });
        self.graph.remove_node(node);
        node
    }

    /// Add a scoped push whose scope may follow later. The public builder does
    /// the same after checking that the scope is there.
    ///
    /// # Errors
    ///
    /// Returns [`StackGraphError::UnknownFile`] for an invalid file identity.
    pub fn door_add_push_scoped_symbol_node(
        &mut self,
        file: StackFileId,
        symbol: S,
        scope: StackNodeId,
        is_reference: bool,
        payload: N,
    ) -> Result<StackNodeId, StackGraphError> {
        self.add_local_node(
            file,
            StackNodeKind::PushScopedSymbol {
                symbol,
                scope,
                is_reference,
            },
            payload,
        )
    }
}
