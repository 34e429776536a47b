//! Stands in for store/validate.rs, which was not given.
//! It is empty because nothing is read through serde; it must be there because
//! store.rs declares it beside serde.
