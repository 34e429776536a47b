//! What a search or a replacement is asked, as the library's numbers.

use crate::MOST_FILES;

/// The order in which waiting paths are taken.
#[derive(Clone, Copy, Debug, Default, PartialEq, Eq)]
pub enum Order {
    /// The one that has waited longest.
    #[default]
    BreadthFirst,
    /// The one that came last.
    DepthFirst,
}

/// Limits on a path's length, on the number of expanded paths, and on the
/// complete paths that are kept; `None` is no limit.
#[derive(Clone, Copy, Debug, Default, PartialEq, Eq)]
pub struct Limits {
    /// How many edges a path may have.
    pub length: Option<u64>,
    /// How many paths are expanded; then the search ends.
    pub paths: Option<u64>,
    /// How many complete paths are kept.
    pub complete: Option<u64>,
}

/// What a search or a replacement is asked; by default breadth-first and without limits. A
/// search reads all of it, a linear search no order, a replacement no limit on complete
/// paths.
#[derive(Clone, Copy, Debug, Default, PartialEq, Eq)]
pub struct Request {
    /// In which order waiting paths are taken.
    pub order: Order,
    /// What is left out.
    pub limits: Limits,
}

impl Request {
    /// Breadth-first, with no limit but on length.
    pub(crate) fn of_length(length: Option<u64>) -> Self {
        let limits = Limits {
            length,
            ..Limits::default()
        };
        Self {
            limits,
            ..Self::default()
        }
    }

    /// The order, then for each limit whether there is one, and its value.
    pub(crate) fn numbers(&self) -> [u64; 7] {
        let order = match self.order {
            Order::BreadthFirst => 0,
            Order::DepthFirst => 1,
        };
        let [length, length_value] = limit(self.limits.length);
        let [paths, paths_value] = limit(self.limits.paths);
        let [complete, complete_value] = limit(self.limits.complete);
        [
            order,
            length,
            length_value,
            paths,
            paths_value,
            complete,
            complete_value,
        ]
    }
}

/// The files that a search or a reader may show.
///
/// What belongs to a hidden file is passed over as if it were removed, and nothing in
/// the answer or in the areas tells whether it is there. Edges between root and jump,
/// and the alias set of a database, belong to no file and are visible to all.
#[derive(Clone, Copy, Debug, Default, PartialEq, Eq)]
pub enum Visible<'a> {
    /// Every file.
    #[default]
    All,
    /// File f is visible where byte f is there and is not 0. Bytes from the image's
    /// number of files on change nothing.
    Files(&'a [u8]),
}

const EVERY_FILE: [u8; MOST_FILES] = [1; MOST_FILES];

impl<'a> Visible<'a> {
    pub(crate) fn bytes(self) -> &'a [u8] {
        match self {
            Self::All => &EVERY_FILE,
            Self::Files(bytes) => bytes,
        }
    }
}

fn limit(limit: Option<u64>) -> [u64; 2] {
    match limit {
        Some(value) => [1, value],
        None => [0, 0],
    }
}
