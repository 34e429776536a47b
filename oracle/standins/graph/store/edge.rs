//! Stands in for store/edge.rs, which was not given.
//! It must define the edge record of store.rs: two ends that never change here
//! and a payload.

use super::{Id, IdTag};

#[derive(Debug, Clone, PartialEq, Eq)]
pub struct EdgeRecord<E, NT: IdTag> {
    source: Id<NT>,
    target: Id<NT>,
    payload: E,
}

impl<E, NT: IdTag> EdgeRecord<E, NT> {
    pub(super) const fn new(source: Id<NT>, target: Id<NT>, payload: E) -> Self {
        Self {
            source,
            target,
            payload,
        }
    }

    pub const fn source(&self) -> Id<NT> {
        self.source
    }

    pub const fn target(&self) -> Id<NT> {
        self.target
    }

    pub const fn payload(&self) -> &E {
        &self.payload
    }

    pub const fn payload_mut(&mut self) -> &mut E {
        &mut self.payload
    }
}
