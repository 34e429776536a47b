//! The numbers of nodes, edges, files and partial paths, each a type of its own, so that
//! none is taken for another.

use std::fmt;

macro_rules! id {
    ($(#[$says:meta])* $name:ident) => {
        $(#[$says])*
        ///
        /// Any number can be made one: a call that is lent a number which the image or the
        /// database does not have is refused, or answers that there is none.
        #[derive(Clone, Copy, Debug, Default, PartialEq, Eq, PartialOrd, Ord, Hash)]
        #[repr(transparent)]
        pub struct $name(pub u32);

        impl fmt::Display for $name {
            fn fmt(&self, to: &mut fmt::Formatter<'_>) -> fmt::Result {
                self.0.fmt(to)
            }
        }

        impl From<u32> for $name {
            fn from(number: u32) -> Self {
                Self(number)
            }
        }

        impl From<$name> for u32 {
            fn from(id: $name) -> Self {
                id.0
            }
        }
    };
}

id! {
    /// A node, by its number in the image: 0 is root, 1 is jump.
    NodeId
}
id! {
    /// An edge, by its number in the image.
    EdgeId
}
id! {
    /// A file, by its number in the image.
    FileId
}
id! {
    /// A partial path, by the number of its record in a database. It lapses when the
    /// database is compacted or made anew, and nothing tells so.
    PartialPathId
}

/// Words that are edge numbers, as such.
pub(crate) fn edges(words: &[u32]) -> &[EdgeId] {
    // SAFETY: an `EdgeId` is laid out as the `u32` that it holds, and takes any.
    unsafe { std::slice::from_raw_parts(words.as_ptr().cast(), words.len()) }
}
