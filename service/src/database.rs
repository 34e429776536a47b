//! The words of a database: read, written, and those of before.

use crate::answer::{self, PartialStatistics};
use crate::image::EMPTY;
use crate::link;
use crate::request::Request;
use crate::{FileId, Image, Moves, PartialPathId, Path, Refusal, Work};
use crate::{DATABASE_HEAD, MOST_RECORDS, RECORD_WORDS};

/// The words of a database, to be read: partial paths of files, filed on an image. As cheap
/// to copy as a slice, and any number of threads may search it at once.
///
/// The words are whatever a caller stored; a search that is lent others is
/// [`Malformed`](Refusal::Malformed). [`DatabaseMut`] writes them. A database has no version:
/// `docs/FORMAT.md`, "Compatibility".
#[derive(Clone, Copy, Debug)]
pub struct Database<'a> {
    words: &'a [u32],
}

impl<'a> Database<'a> {
    /// These words.
    #[must_use]
    pub fn lend(words: &'a [u32]) -> Self {
        Self { words }
    }

    /// How many records there is room for.
    #[must_use]
    pub fn capacity(self) -> usize {
        let behind = self.words.len().saturating_sub(DATABASE_HEAD);
        (behind / RECORD_WORDS).min(MOST_RECORDS)
    }

    /// How many records are used, dead ones among them.
    #[must_use]
    pub fn used(self) -> usize {
        let used = self.words.first().map_or(0, |&word| word as usize);
        used.min(self.capacity())
    }

    /// The edges of a partial path, unless its record is dead or not used, or the words are
    /// no database. It takes no set of visible files and shows any record.
    ///
    /// ```
    /// use pozhdaghi::{sample, DatabaseMut, EdgeId, FileId, Image, PartialPathId};
    /// use pozhdaghi::{Request, Work};
    /// let image = Image::check(&sample::BOND)?;
    /// let (mut waiting, mut words) = ([0; Work::words(4)], [0; DatabaseMut::words(14)]);
    /// let mut database = DatabaseMut::lend(&mut words);
    /// database.fresh(image)?;
    /// let mut work = Work::lend(&mut waiting);
    /// database.replace_file(image, FileId(0), &Request::default(), &mut work)?;
    /// let path = database.read().lookup(PartialPathId(1)).unwrap();
    /// assert_eq!(path.edges(), [0, 1, 2].map(EdgeId));
    /// assert!(database.read().lookup(PartialPathId(4)).is_none());
    /// # Ok::<(), pozhdaghi::Refusal>(())
    /// ```
    #[must_use]
    pub fn lookup(self, number: PartialPathId) -> Option<Path<'a>> {
        let mut told = EMPTY;
        // SAFETY: each pointer and length is that of a slice held here.
        unsafe {
            link::pozhdaghi_lookup(
                self.words.as_ptr(),
                self.words.len(),
                number.0,
                told.as_mut_ptr(),
                told.len(),
            );
        }
        let [place, count, ..] = told;
        let (from, up_to) = (place as usize, place.saturating_add(count) as usize);
        let edges = self.words.get(from..up_to).unwrap_or(&[]);
        (!edges.is_empty()).then(|| Path::of_words(edges))
    }

    pub(crate) fn lent(self) -> &'a [u32] {
        self.words
    }
}

/// The words of a database, to be written. A refused call alters none of them.
///
/// Lend room for all live records and, beside them, for the new ones of the largest file:
/// with less, refiling ends at a [`Full`](Refusal::Full) that no compaction helps against.
///
/// ```
/// use pozhdaghi::DatabaseMut;
/// let mut words = vec![0; DatabaseMut::words(14)];
/// let database = DatabaseMut::lend(&mut words);
/// assert_eq!(database.read().capacity(), 14);
/// ```
///
/// A database is no work area:
///
/// ```compile_fail,E0308
/// use pozhdaghi::{sample, DatabaseMut, FileId, Image, Request, Work};
/// let image = Image::check(&sample::BOND)?;
/// let (mut one, mut other) = ([0; DatabaseMut::words(9)], [0; DatabaseMut::words(9)]);
/// let (mut database, mut more) = (DatabaseMut::lend(&mut one), DatabaseMut::lend(&mut other));
/// database.replace_file(image, FileId(0), &Request::default(), &mut more)?;
/// # Ok::<(), pozhdaghi::Refusal>(())
/// ```
#[derive(Debug)]
pub struct DatabaseMut<'a> {
    words: &'a mut [u32],
}

impl<'a> DatabaseMut<'a> {
    /// How many words a database with room for so many records has.
    #[must_use]
    pub const fn words(records: usize) -> usize {
        records
            .saturating_mul(RECORD_WORDS)
            .saturating_add(DATABASE_HEAD)
    }

    /// These words, whatever they hold: [`fresh`](Self::fresh) makes a database of them, and
    /// all other calls are [`Malformed`](Refusal::Malformed) where they are none.
    #[must_use]
    pub fn lend(words: &'a mut [u32]) -> Self {
        Self { words }
    }

    /// The same words, to be read.
    #[must_use]
    pub fn read(&self) -> Database<'_> {
        Database::lend(self.words)
    }

    /// Makes a fresh database for an image, without a record.
    ///
    /// # Errors
    ///
    /// [`Malformed`](Refusal::Malformed) if there are fewer than three words.
    ///
    /// ```
    /// use pozhdaghi::{sample, DatabaseMut, Image, Refusal};
    /// let image = Image::check(&sample::BOND)?;
    /// let mut words = [7; DatabaseMut::words(2)];
    /// DatabaseMut::lend(&mut words).fresh(image)?;
    /// assert_eq!(words[..4], [0, 11, 2, 0]);
    /// assert_eq!(DatabaseMut::lend(&mut []).fresh(image), Err(Refusal::Malformed));
    /// # Ok::<(), Refusal>(())
    /// ```
    pub fn fresh(&mut self, image: Image) -> Result<(), Refusal> {
        let (image, words) = (image.bytes(), &mut *self.words);
        let mut told = EMPTY;
        // SAFETY: each pointer and length is that of a slice held here.
        unsafe {
            link::pozhdaghi_fresh(
                image.as_ptr(),
                image.len(),
                words.as_mut_ptr(),
                words.len(),
                told.as_mut_ptr(),
                told.len(),
            );
        }
        answer::done(&told)
    }

    /// Computes the partial paths of a file anew: its old records die, and the new ones are
    /// written behind the used ones.
    ///
    /// # Errors
    ///
    /// [`Malformed`](Refusal::Malformed), [`Outgrown`](Refusal::Outgrown),
    /// [`UnknownFile`](Refusal::UnknownFile); [`NoWaitingSlot`](Refusal::NoWaitingSlot) if
    /// `work` has too few slots, [`TooManyExpansions`](Refusal::TooManyExpansions),
    /// [`TooLong`](Refusal::TooLong); last [`Full`](Refusal::Full), at which
    /// [`compact`](Self::compact) and call again.
    ///
    /// ```
    /// use pozhdaghi::{sample, DatabaseMut, FileId, Image, Refusal, Request, Work};
    /// let image = Image::check(&sample::BOND)?;
    /// let (mut waiting, mut words) = ([0; Work::words(3)], [0; DatabaseMut::words(4)]);
    /// let (mut work, mut database) = (Work::lend(&mut waiting), DatabaseMut::lend(&mut words));
    /// let (request, terms) = (Request::default(), FileId(0));
    /// database.fresh(image)?;
    /// let told = database.replace_file(image, terms, &request, &mut work)?;
    /// assert_eq!((told.found, told.waited), (4, 3));
    /// let again = database.replace_file(image, terms, &request, &mut work);
    /// assert_eq!(again, Err(Refusal::Full));
    /// # Ok::<(), Refusal>(())
    /// ```
    pub fn replace_file(
        &mut self,
        image: Image,
        file: FileId,
        request: &Request,
        work: &mut Work,
    ) -> Result<PartialStatistics, Refusal> {
        let (image, asked) = (image.bytes(), request.numbers());
        let (work, words) = (work.lent(), &mut *self.words);
        let mut told = EMPTY;
        // SAFETY: each pointer and length is that of a slice held here.
        unsafe {
            link::pozhdaghi_replace_file(
                image.as_ptr(),
                image.len(),
                file.0,
                asked.as_ptr(),
                asked.len(),
                work.as_mut_ptr(),
                work.len(),
                words.as_mut_ptr(),
                words.len(),
                told.as_mut_ptr(),
                told.len(),
            );
        }
        answer::replacement(&told)
    }

    /// Computes the alias set anew: the partial paths over the edges that belong to no file,
    /// those from root to root and from root to jump. The records of files stay as they are.
    ///
    /// With the set beside every file's partial paths and no others, all of them replaced on
    /// this image without limits, stitched search records what direct search records. Without
    /// it stitching misses every path with such an edge.
    ///
    /// The number of lists is factorial: k edges from root to root and j to jump have
    /// (1 + j) * (k!/0! + k!/1! + .. + k!/k!) - 1. Six and one have 3,913; six and two, or
    /// seven and none, have more than the 4,096 records that a database has at most, so that
    /// the call without limits is [`Full`](Refusal::Full) whatever is lent.
    ///
    /// # Errors
    ///
    /// Those of [`replace_file`](Self::replace_file), but there is no file to be unknown.
    ///
    /// ```
    /// use pozhdaghi::{sample, DatabaseMut, Image, Request, Work};
    /// let image = Image::check(&sample::BOND)?;
    /// let (mut waiting, mut words) = ([0; Work::words(1)], [0; DatabaseMut::words(4)]);
    /// let (mut work, mut database) = (Work::lend(&mut waiting), DatabaseMut::lend(&mut words));
    /// database.fresh(image)?;
    /// let told = database.replace_aliases(image, &Request::default(), &mut work)?;
    /// assert_eq!(told.found, 0);
    /// # Ok::<(), pozhdaghi::Refusal>(())
    /// ```
    pub fn replace_aliases(
        &mut self,
        image: Image,
        request: &Request,
        work: &mut Work,
    ) -> Result<PartialStatistics, Refusal> {
        let (image, asked) = (image.bytes(), request.numbers());
        let (work, words) = (work.lent(), &mut *self.words);
        let mut told = EMPTY;
        // SAFETY: each pointer and length is that of a slice held here.
        unsafe {
            link::pozhdaghi_replace_aliases(
                image.as_ptr(),
                image.len(),
                asked.as_ptr(),
                asked.len(),
                work.as_mut_ptr(),
                work.len(),
                words.as_mut_ptr(),
                words.len(),
                told.as_mut_ptr(),
                told.len(),
            );
        }
        answer::replacement(&told)
    }

    /// Drops the dead records and answers how many are live. The live ones, of files and of
    /// the alias set, move down in their order; `moves` holds the old and the new number of
    /// each. Stitched searches answer the same before and after.
    ///
    /// Replacements do not use dead records again, so daily refiling ends at
    /// [`Full`](Refusal::Full): compact then, and replace again. A `Full` directly after a
    /// compaction means that the live records and the new ones together are more than there
    /// is room for; those being replaced count until they are replaced. Then lend more words.
    ///
    /// # Errors
    ///
    /// [`Malformed`](Refusal::Malformed); [`NoResultSlot`](Refusal::NoResultSlot) if `moves`
    /// has no room for all live records.
    ///
    /// ```
    /// use pozhdaghi::{sample, DatabaseMut, FileId, Image, Moves, PartialPathId};
    /// use pozhdaghi::{Request, Work};
    /// let image = Image::check(&sample::BOND)?;
    /// let (mut waiting, mut words) = ([0; Work::words(3)], [0; DatabaseMut::words(8)]);
    /// let (mut work, mut database) = (Work::lend(&mut waiting), DatabaseMut::lend(&mut words));
    /// database.fresh(image)?;
    /// for _day in 0..2 {
    ///     database.replace_file(image, FileId(0), &Request::default(), &mut work)?;
    /// }
    /// let mut list = vec![0; Moves::words(database.read().used())];
    /// let mut moves = Moves::lend(&mut list);
    /// assert_eq!(database.compact(&mut moves)?, 4);
    /// assert_eq!(moves.pairs().next(), Some((PartialPathId(4), PartialPathId(0))));
    /// assert_eq!(moves.new_number(PartialPathId(7)), Some(PartialPathId(3)));
    /// # Ok::<(), pozhdaghi::Refusal>(())
    /// ```
    pub fn compact(&mut self, moves: &mut Moves) -> Result<usize, Refusal> {
        let (words, list) = (&mut *self.words, moves.lent());
        let mut told = EMPTY;
        // SAFETY: each pointer and length is that of a slice held here.
        unsafe {
            link::pozhdaghi_compact(
                words.as_mut_ptr(),
                words.len(),
                list.as_mut_ptr(),
                list.len(),
                told.as_mut_ptr(),
                told.len(),
            );
        }
        let live = answer::length(&told)?;
        moves.hold(live);
        Ok(live)
    }
}

/// The words of a database of before order 6, when a path might have 127 edges and a record
/// had [`FORMER_RECORD_WORDS`](crate::FORMER_RECORD_WORDS) words. They are only read.
///
/// Nothing in the words tells them from those of now: one that is lent in the wrong size may
/// pass for a database. So keep account of it, and convert each one exactly once.
#[derive(Clone, Copy, Debug)]
pub struct Former<'a> {
    words: &'a [u32],
}

impl<'a> Former<'a> {
    /// These words.
    #[must_use]
    pub fn lend(words: &'a [u32]) -> Self {
        Self { words }
    }

    /// Writes the database as one of now. Every live path keeps its number; all words that
    /// hold nothing become zero, and so do all if the call is refused.
    ///
    /// # Errors
    ///
    /// [`Malformed`](Refusal::Malformed) if these words were no database;
    /// [`Full`](Refusal::Full) if the other ones have too few records;
    /// [`TooLongToConvert`](Refusal::TooLongToConvert) if a live path has more than
    /// [`MOST_EDGES`](crate::MOST_EDGES) edges: then make the database anew.
    ///
    /// ```
    /// use pozhdaghi::{Database, DatabaseMut, EdgeId, Former, PartialPathId};
    /// use pozhdaghi::{DATABASE_HEAD, FORMER_RECORD_WORDS};
    /// let mut old = [0; DATABASE_HEAD + FORMER_RECORD_WORDS];
    /// // one record, of an image of 6 nodes and 1 file; file 0, from 2 to 3, 1 edge: 5
    /// old[..8].copy_from_slice(&[1, 6, 1, 1, 2, 3, 1, 5]);
    /// let mut words = [7; DatabaseMut::words(1)];
    /// Former::lend(&old).convert(&mut DatabaseMut::lend(&mut words))?;
    /// let path = Database::lend(&words).lookup(PartialPathId(0)).unwrap();
    /// assert_eq!(path.edges(), [EdgeId(5)]);
    /// # Ok::<(), pozhdaghi::Refusal>(())
    /// ```
    pub fn convert(self, to: &mut DatabaseMut) -> Result<(), Refusal> {
        let (old, new) = (self.words, &mut *to.words);
        let mut told = EMPTY;
        // SAFETY: each pointer and length is that of a slice held here.
        unsafe {
            link::pozhdaghi_convert(
                old.as_ptr(),
                old.len(),
                new.as_mut_ptr(),
                new.len(),
                told.as_mut_ptr(),
                told.len(),
            );
        }
        answer::done(&told)
    }
}
