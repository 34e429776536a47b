//! The areas that a caller lends to a search or a compaction, and what stands in them
//! afterwards. Each is a type of its own, so that none is lent in the place of another.

use crate::ids::edges;
use crate::{EdgeId, PartialPathId, PAIR_WORDS, SLOT_WORDS};
use std::fmt;
use std::slice::{ChunksExact, Iter};

/// Words in which paths wait, lent to a search or a replacement: [`SLOT_WORDS`] for each
/// path. What they held has no influence, and afterwards they are zero.
///
/// Lend many once, read [`waited`](crate::Statistics::waited), and lend as many slots from
/// then on: zeroing what is lent takes time.
///
/// ```
/// use pozhdaghi::Work;
/// let mut words = [0; Work::words(16)];
/// assert_eq!(Work::lend(&mut words).slots(), 16);
/// assert_eq!(Work::lend_slots(&mut words, 3).slots(), 3);
/// ```
#[derive(Debug)]
pub struct Work<'a> {
    words: &'a mut [u32],
}

impl<'a> Work<'a> {
    /// How many words so many slots have.
    #[must_use]
    pub const fn words(slots: usize) -> usize {
        slots.saturating_mul(SLOT_WORDS)
    }

    /// All whole slots of the words.
    #[must_use]
    pub fn lend(words: &'a mut [u32]) -> Self {
        Self { words }
    }

    /// The first so many slots of the words, or all if there are fewer.
    #[must_use]
    pub fn lend_slots(words: &'a mut [u32], slots: usize) -> Self {
        Self {
            words: first(words, Self::words(slots)),
        }
    }

    /// How many paths can wait.
    #[must_use]
    pub fn slots(&self) -> usize {
        self.words.len() / SLOT_WORDS
    }

    pub(crate) fn lent(&mut self) -> &mut [u32] {
        self.words
    }
}

/// Words for the paths that a search returns: [`SLOT_WORDS`] for each complete path that it
/// meets, copies and shadowed ones among them.
///
/// ```
/// use pozhdaghi::{sample, EdgeId, Image, NodeId, Request, Results, Visible, Work};
/// let image = Image::check(&sample::BOND)?;
/// let (mut waiting, mut found) = ([0; Work::words(4)], [0; Results::words(4)]);
/// let (mut work, mut results) = (Work::lend(&mut waiting), Results::lend(&mut found));
/// assert_eq!(results.paths().len(), 0);
/// image.direct(Visible::All, NodeId(7), &Request::default(), &mut work, &mut results)?;
/// assert_eq!(results.paths().len(), 1);
/// for path in results.paths() {
///     assert_eq!(path.edges(), [5, 8, 0, 1, 2].map(EdgeId));
/// }
/// # Ok::<(), pozhdaghi::Refusal>(())
/// ```
///
/// An area is lent for one thing alone: [`Work`] is no `Results`.
///
/// ```compile_fail,E0308
/// use pozhdaghi::{sample, Image, NodeId, Request, Results, Visible, Work};
/// let image = Image::check(&sample::BOND)?;
/// let (mut one, mut other) = ([0; Work::words(4)], [0; Work::words(4)]);
/// let (mut work, mut more) = (Work::lend(&mut one), Work::lend(&mut other));
/// image.direct(Visible::All, NodeId(7), &Request::default(), &mut work, &mut more)?;
/// # Ok::<(), pozhdaghi::Refusal>(())
/// ```
///
/// Nor is one area both, which the library's contracts do not speak of:
///
/// ```compile_fail,E0499
/// use pozhdaghi::{sample, Image, NodeId, Request, Results, Visible, Work};
/// let image = Image::check(&sample::BOND)?;
/// let mut area = [0; Work::words(4)];
/// let (mut work, mut results) = (Work::lend(&mut area), Results::lend(&mut area));
/// image.direct(Visible::All, NodeId(7), &Request::default(), &mut work, &mut results)?;
/// # Ok::<(), pozhdaghi::Refusal>(())
/// ```
#[derive(Debug)]
pub struct Results<'a> {
    words: &'a mut [u32],
    found: usize,
}

impl<'a> Results<'a> {
    /// How many words so many slots have.
    #[must_use]
    pub const fn words(slots: usize) -> usize {
        slots.saturating_mul(SLOT_WORDS)
    }

    /// All whole slots of the words. Until a search has been made there are no paths in
    /// them, whatever the words hold.
    #[must_use]
    pub fn lend(words: &'a mut [u32]) -> Self {
        Self { words, found: 0 }
    }

    /// The first so many slots of the words, or all if there are fewer.
    #[must_use]
    pub fn lend_slots(words: &'a mut [u32], slots: usize) -> Self {
        Self::lend(first(words, Self::words(slots)))
    }

    /// How many complete paths can be kept.
    #[must_use]
    pub fn slots(&self) -> usize {
        self.words.len() / SLOT_WORDS
    }

    /// The paths that the last search left here, in the order in which they were found;
    /// none if it was refused.
    #[must_use]
    pub fn paths(&self) -> Paths<'_> {
        let slots = self.words.get(..Self::words(self.found)).unwrap_or(&[]);
        Paths {
            slots: slots.chunks_exact(SLOT_WORDS),
        }
    }

    /// Until the next answer there is no path here.
    pub(crate) fn lent(&mut self) -> &mut [u32] {
        self.found = 0;
        self.words
    }

    pub(crate) fn hold(&mut self, paths: u64) {
        self.found = paths as usize;
    }
}

/// The paths of [`Results::paths`]; how many are left is known.
#[derive(Clone, Debug)]
pub struct Paths<'a> {
    slots: ChunksExact<'a, u32>,
}

impl<'a> Iterator for Paths<'a> {
    type Item = Path<'a>;

    fn next(&mut self) -> Option<Path<'a>> {
        self.slots.next().map(Path::of_slot)
    }

    fn size_hint(&self) -> (usize, Option<usize>) {
        self.slots.size_hint()
    }
}

impl DoubleEndedIterator for Paths<'_> {
    fn next_back(&mut self) -> Option<Self::Item> {
        self.slots.next_back().map(Path::of_slot)
    }
}

impl ExactSizeIterator for Paths<'_> {}

/// A path or a partial path, as its edges in order. The node that it starts from is not
/// among them: [`Image::replay`](crate::Image::replay) takes it and tells the end.
#[derive(Clone, Copy, Debug, PartialEq, Eq, PartialOrd, Ord, Hash)]
pub struct Path<'a> {
    edges: &'a [EdgeId],
}

impl<'a> Path<'a> {
    /// The edge count and the edges of a slot.
    fn of_slot(slot: &'a [u32]) -> Self {
        let (count, words) = slot.split_first().unwrap_or((&0, &[]));
        Self::of_words(words.get(..*count as usize).unwrap_or(&[]))
    }

    pub(crate) fn of_words(words: &'a [u32]) -> Self {
        Self {
            edges: edges(words),
        }
    }

    /// The edges, from the first to the last.
    #[must_use]
    pub fn edges(&self) -> &'a [EdgeId] {
        self.edges
    }
}

/// The edges' numbers with spaces between them.
impl fmt::Display for Path<'_> {
    fn fmt(&self, to: &mut fmt::Formatter<'_>) -> fmt::Result {
        let Some((first, rest)) = self.edges.split_first() else {
            return Ok(());
        };
        write!(to, "{first}")?;
        rest.iter().try_for_each(|edge| write!(to, " {edge}"))
    }
}

impl<'a> IntoIterator for Path<'a> {
    type Item = &'a EdgeId;
    type IntoIter = Iter<'a, EdgeId>;

    fn into_iter(self) -> Self::IntoIter {
        self.edges.iter()
    }
}

/// Words for the old and the new number of each live record, lent to
/// [`DatabaseMut::compact`](crate::DatabaseMut::compact), with the numbers once that is done.
///
/// Numbers of before name other records, or none, after a compaction, and nothing tells so:
/// put the new ones in their place wherever they are kept.
#[derive(Debug)]
pub struct Moves<'a> {
    words: &'a mut [u32],
    live: usize,
}

impl<'a> Moves<'a> {
    /// How many words are enough for so many live records; as many as are
    /// [`used`](crate::Database::used) are enough in any case.
    #[must_use]
    pub const fn words(records: usize) -> usize {
        records.saturating_mul(PAIR_WORDS)
    }

    /// All of the words. Until a compaction has been made there are no numbers in them,
    /// whatever they hold.
    #[must_use]
    pub fn lend(words: &'a mut [u32]) -> Self {
        Self { words, live: 0 }
    }

    /// The old and the new number of each live record, ascending; none if the last
    /// compaction was refused.
    pub fn pairs(
        &self,
    ) -> impl DoubleEndedIterator<Item = (PartialPathId, PartialPathId)> + ExactSizeIterator + '_
    {
        let words = self.words.get(..Self::words(self.live)).unwrap_or(&[]);
        words.chunks_exact(PAIR_WORDS).map(|pair| match *pair {
            [old, new] => (PartialPathId(old), PartialPathId(new)),
            _ => Default::default(),
        })
    }

    /// The new number of a record, if it was live.
    #[must_use]
    pub fn new_number(&self, old: PartialPathId) -> Option<PartialPathId> {
        self.pairs().find(|pair| pair.0 == old).map(|pair| pair.1)
    }

    /// Until the next answer there is no number here.
    pub(crate) fn lent(&mut self) -> &mut [u32] {
        self.live = 0;
        self.words
    }

    pub(crate) fn hold(&mut self, live: usize) {
        self.live = live;
    }
}

fn first(words: &mut [u32], count: usize) -> &mut [u32] {
    let there = words.len().min(count);
    words.get_mut(..there).unwrap_or(&mut [])
}
