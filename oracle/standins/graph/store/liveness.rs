//! Stands in for store/liveness.rs, which was not given.
//! It must keep one bit for each slot, set when the slot is added and cleared
//! once when it is removed; a slot never added is not live.

extern crate alloc;

use alloc::vec::Vec;

#[derive(Debug, Clone, PartialEq, Eq)]
pub(super) struct LiveSet {
    live: Vec<bool>,
}

impl LiveSet {
    pub(super) fn new() -> Self {
        Self::with_capacity(0)
    }

    pub(super) fn with_capacity(slots: usize) -> Self {
        Self {
            live: Vec::with_capacity(slots),
        }
    }

    pub(super) fn push_live(&mut self) {
        self.live.push(true);
    }

    pub(super) fn is_live(&self, slot: usize) -> bool {
        self.live.get(slot).is_some_and(|&live| live)
    }

    /// Clear one bit and say whether it was set.
    pub(super) fn clear(&mut self, slot: usize) -> bool {
        self.live
            .get_mut(slot)
            .is_some_and(|live| core::mem::replace(live, false))
    }
}
