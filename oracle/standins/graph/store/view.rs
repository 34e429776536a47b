//! Stands in for store/view.rs, which was not given.
//! It is empty because no search views the store itself; it must be there
//! because store.rs declares it.
