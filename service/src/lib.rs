//! Resolution of cash-flow names over stack graphs: safe calls of a library that is proved
//! against its contracts.
//!
//! A *name*, such as `ACME31.coupon`, is a reference in a graph. To resolve it is to find the
//! paths that lead from it to definitions. The graph is an *image*, bytes that a service
//! writes from its term files (`docs/FORMAT.md` in the repository has every byte). The
//! library keeps nothing and allocates nothing: the caller lends the image and areas of words
//! to work in, and takes the paths from there.
//!
//! ```
//! use pozhdaghi::{sample, Image, NodeId, Request, Results, Visible, Work};
//!
//! // An image is checked first.
//! let image = Image::check(&sample::BOND)?;
//!
//! // Areas: here with room for 16 paths that wait and 16 that are found.
//! let (mut waiting, mut found) = ([0; Work::words(16)], [0; Results::words(16)]);
//! let (mut work, mut results) = (Work::lend(&mut waiting), Results::lend(&mut found));
//!
//! // The references of the sample: the first is the name ACME31.coupon.
//! let mut names = [NodeId(0); 16];
//! let coupon = image.references(Visible::All, &mut names)?[0];
//!
//! // All files are shown, without limits.
//! let request = Request::default();
//! let told = image.direct(Visible::All, coupon, &request, &mut work, &mut results)?;
//! assert_eq!(told.paths, 1);
//!
//! // A path is its edges; a replay tells where it ends: at node 4, the coupon.
//! for path in results.paths() {
//!     assert_eq!(image.replay(coupon, path.edges())?.end, NodeId(4));
//! }
//!
//! // The next time, lend no more than is needed.
//! let mut work = Work::lend_slots(&mut waiting, told.statistics.waited as usize);
//! image.direct(Visible::All, coupon, &request, &mut work, &mut results)?;
//! # Ok::<(), pozhdaghi::Refusal>(())
//! ```
//!
//! # Three searches
//!
//! | call | over | use it |
//! |---|---|---|
//! | [`Image::direct`] | the edges of the graph | without a database |
//! | [`Image::stitched`] | partial paths, filed in a [`Database`] for each file | for names that are resolved often, over files that change now and then |
//! | [`Image::linear`] | the edges, where each node has one that fits | for graphs without a choice |
//!
//! Each has a `_recorded` call, which also returns the paths that a better one shadows.
//! [`Image::find_name`] goes the other way, from a definition to a reference;
//! [`Image::tally`] counts how many paths of each length a reference has, and keeps none;
//! [`Image::resolve_flow`] searches from the row of an ISIN, a tranche and a leg in a directory.
//!
//! # The day of a service
//!
//! [`DatabaseMut::fresh`] once, [`DatabaseMut::replace_file`] for each file, and again for each
//! file that has changed. When that is [`Refusal::Full`], [`DatabaseMut::compact`] drops the
//! dead records, and the replacement is made again. The example `daily` does all of it.
//!
//! [`Window::enter`] takes the expanded count of each search; [`Window::report`] gives the sum
//! and the greatest of the last 1,024.
//!
//! **A database belongs to its image.** Where a file has changed and was not replaced, or
//! where nodes and edges of other files have new numbers, searches give wrong paths, and
//! nothing tells so: `docs/GUIDE.md`, "Numbers must stay".
//!
//! # What holds of every call
//!
//! - Nothing panics, whatever is lent, and nothing keeps state. Nothing allocates but
//!   [`Image::replay`], which hands its path back as vectors.
//! - A refused call says why by a [`Refusal`], leaves its areas zero and alters no database.
//! - What an area held before has no influence. Calls on different areas may run on any
//!   threads at once.
//! - An area that a call writes overlaps no other: the borrow checker sees to it.
//! - A call takes up to about 230 KB of the caller's stack. **Give a thread 512 KB.**
//! - Each search, finding a name, the tally, a cash flow of a directory, and the four readers ([`Image::node`], [`Image::edge`],
//!   [`Image::references`], [`Image::outgoing`]) take the set of visible files and show
//!   nothing of the others ([`Visible`]). All other calls take none: they show hidden records
//!   or depend on them. So a service that keeps desks apart gives a desk these calls only,
//!   with the set of that desk, and lends the image and the database itself.
#![deny(missing_docs)]

mod answer;
mod areas;
mod database;
mod directory;
mod ids;
mod image;
mod link;
mod readers;
mod refusal;
mod replayed;
mod request;
pub mod sample;
mod searches;
mod window;

pub use answer::{PartialStatistics, Resolution, Statistics};
pub use areas::{Moves, Path, Paths, Results, Work};
pub use database::{Database, DatabaseMut, Former};
pub use directory::{Definitions, Flow, FlowKey};
pub use ids::{EdgeId, FileId, NodeId, PartialPathId};
pub use image::Image;
pub use readers::{Edge, Node};
pub use refusal::Refusal;
pub use replayed::{Replayed, Step, Symbol};
pub use request::{Limits, Order, Request, Visible};
pub use window::{Trend, Window};

/// How many edges a path may have.
pub const MOST_EDGES: usize = 63;

/// How many lengths a path may have, none and the greatest among them: the numbers of
/// [`Image::tally`].
pub const LENGTHS: usize = 1 + MOST_EDGES;

/// How many files an image may have.
pub const MOST_FILES: usize = 256;

/// Words of a waiting slot and of a result slot: the edge count and the edges.
pub const SLOT_WORDS: usize = 1 + MOST_EDGES;

/// Words in front of a database's records: how many are used, nodes, files.
pub const DATABASE_HEAD: usize = 3;

/// Words of a record: the owner, start, end, edge count and edges.
pub const RECORD_WORDS: usize = 4 + MOST_EDGES;

/// How many records of a database are used at most; words behind them are of no use.
pub const MOST_RECORDS: usize = 4_096;

/// Words of the list of a compaction for each live record: its old and its new number.
pub const PAIR_WORDS: usize = 2;

/// Words of a record when a path might have 127 edges: what [`Former::convert`] reads.
pub const FORMER_RECORD_WORDS: usize = 131;

/// The first word of a record of the alias set. A file's is its number + 1; a dead record's
/// is 0.
pub const ALIASES: u32 = 65_535;

/// Bytes of a row of a directory: the ISIN, the tranche, the leg and the reference. See
/// [`Image::resolve_flow`].
pub const ROW_BYTES: usize = 18;

/// How many entries the [`Window`] over the last searches is over.
pub const WINDOW_ENTRIES: usize = 1_024;

/// Words of that window: the place of the next entry, and the entries.
pub const WINDOW_WORDS: usize = 1 + WINDOW_ENTRIES;

/// How many expansions a search or a replacement may make, and the greatest count that a
/// [`Window`] takes.
pub const MOST_EXPANSIONS: u64 = 16_777_216;

/// Bytes of the longest image, which is of version 2: any rewritten image fits
/// into as many.
pub const LONGEST_IMAGE: usize = 65_536;

/// Words that any replayed path fits into: its end; at most two steps for each edge,
/// as each may be followed by a jump; at most a symbol for each node that the path
/// meets; scopes. A symbol takes three words, any other item two, and a word ends
/// each list. A scope more on a symbol takes a push and a pop among those nodes, so
/// there are at most half as many scopes on one and on the stack.
pub const PATH_WORDS: usize = 1
    + (2 * (2 * MOST_EDGES) + 1)
    + (PATH_NODES * (3 + 2 * PATH_SCOPES + 1) + 1)
    + (2 * PATH_SCOPES + 1);

const PATH_NODES: usize = 1 + MOST_EDGES;
const PATH_SCOPES: usize = PATH_NODES / 2;
