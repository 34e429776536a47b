//! The searches, finding a name, and the tally. Each hands the library the pointer and the length of
//! slices that it holds, which is all that the library reads and writes.

use crate::answer::{self, Resolution, TALLY};
use crate::image::EMPTY;
use crate::link::{self, Direct, Linear, Stitched};
use crate::request::{Request, Visible};
use crate::{Database, Image, NodeId, Refusal, Results, Work, LENGTHS};

/// Searches. Each shows nothing of hidden files: see [`Visible`].
impl Image<'_> {
    /// Searches from a reference over the edges of the graph. The paths that no other one
    /// shadows stand in the results afterwards.
    ///
    /// What belongs to a hidden file is passed over and not counted.
    ///
    /// # Errors
    ///
    /// [`UnknownNode`](Refusal::UnknownNode), which a node of a hidden file is, whatever its
    /// kind; [`NotReference`](Refusal::NotReference);
    /// [`NoWaitingSlot`](Refusal::NoWaitingSlot) if `work` has too few slots;
    /// [`TooManyExpansions`](Refusal::TooManyExpansions); [`TooLong`](Refusal::TooLong);
    /// [`NoResultSlot`](Refusal::NoResultSlot) if `results` has too few.
    ///
    /// ```
    /// use pozhdaghi::{sample, EdgeId, Image, NodeId, Request, Results, Visible, Work};
    /// let image = Image::check(&sample::BOND)?;
    /// let (mut waiting, mut found) = ([0; Work::words(4)], [0; Results::words(4)]);
    /// let (mut work, mut results) = (Work::lend(&mut waiting), Results::lend(&mut found));
    /// let request = Request::default();
    /// let told = image.direct(Visible::All, NodeId(7), &request, &mut work, &mut results)?;
    /// assert_eq!((told.paths, told.statistics.waited), (1, 1));
    /// assert_eq!(results.paths().next().unwrap().edges(), [5, 8, 0, 1, 2].map(EdgeId));
    /// # Ok::<(), pozhdaghi::Refusal>(())
    /// ```
    pub fn direct(
        self,
        visible: Visible,
        reference: NodeId,
        request: &Request,
        work: &mut Work,
        results: &mut Results,
    ) -> Result<Resolution, Refusal> {
        let call = link::pozhdaghi_direct;
        self.search_directly(call, visible, reference, request, work, results)
    }

    /// The same search; every recorded path stands in the results, shadowed ones among them.
    ///
    /// # Errors
    ///
    /// Those of [`direct`](Self::direct).
    ///
    /// ```
    /// use pozhdaghi::{sample, Image, NodeId, Request, Results, Visible, Work};
    /// let image = Image::check(&sample::AMENDED)?;
    /// let (mut waiting, mut found) = ([0; Work::words(4)], [0; Results::words(4)]);
    /// let (mut work, mut results) = (Work::lend(&mut waiting), Results::lend(&mut found));
    /// let (request, coupon) = (Request::default(), NodeId(7));
    /// image.direct_recorded(Visible::All, coupon, &request, &mut work, &mut results)?;
    /// assert_eq!(results.paths().len(), 2);
    /// # Ok::<(), pozhdaghi::Refusal>(())
    /// ```
    pub fn direct_recorded(
        self,
        visible: Visible,
        reference: NodeId,
        request: &Request,
        work: &mut Work,
        results: &mut Results,
    ) -> Result<Resolution, Refusal> {
        let call = link::pozhdaghi_direct_recorded;
        self.search_directly(call, visible, reference, request, work, results)
    }

    fn search_directly(
        self,
        call: Direct,
        visible: Visible,
        reference: NodeId,
        request: &Request,
        work: &mut Work,
        results: &mut Results,
    ) -> Result<Resolution, Refusal> {
        let (image, visible, asked) = (self.bytes(), visible.bytes(), request.numbers());
        let (work, lent) = (work.lent(), results.lent());
        let mut told = EMPTY;
        // SAFETY: each pointer and length is that of a slice held here.
        unsafe {
            call(
                image.as_ptr(),
                image.len(),
                visible.as_ptr(),
                visible.len(),
                reference.0,
                asked.as_ptr(),
                asked.len(),
                work.as_mut_ptr(),
                work.len(),
                lent.as_mut_ptr(),
                lent.len(),
                told.as_mut_ptr(),
                told.len(),
            );
        }
        held(answer::resolution(&told), results)
    }

    /// A name for a definition: the reference with the lowest number from which a recorded
    /// path of at most so many edges ends at the node. The first such path in breadth-first
    /// order stands in the results afterwards. `None` is answered only if no reference has
    /// one and no search was refused.
    ///
    /// References are searched ascending, each to its end, and every complete path of the
    /// one being searched takes a result slot, wherever it ends. References in hidden files
    /// are passed over.
    ///
    /// # Errors
    ///
    /// [`UnknownNode`](Refusal::UnknownNode), which a node of a hidden file is, whatever its
    /// kind; [`NotDefinition`](Refusal::NotDefinition); then those of
    /// [`direct`](Self::direct) for each reference in turn.
    ///
    /// ```
    /// use pozhdaghi::{sample, EdgeId, Image, NodeId, Results, Visible, Work};
    /// let image = Image::check(&sample::BOND)?;
    /// let (mut waiting, mut found) = ([0; Work::words(4)], [0; Results::words(4)]);
    /// let (mut work, mut results) = (Work::lend(&mut waiting), Results::lend(&mut found));
    /// let call = image.find_name(Visible::All, NodeId(6), None, &mut work, &mut results)?;
    /// assert_eq!(call, Some(NodeId(9)));
    /// assert_eq!(results.paths().next().unwrap().edges(), [7, 8, 0, 1, 4].map(EdgeId));
    /// let bond = image.find_name(Visible::All, NodeId(2), None, &mut work, &mut results)?;
    /// assert_eq!(bond, None);
    /// # Ok::<(), pozhdaghi::Refusal>(())
    /// ```
    pub fn find_name(
        self,
        visible: Visible,
        node: NodeId,
        length: Option<u64>,
        work: &mut Work,
        results: &mut Results,
    ) -> Result<Option<NodeId>, Refusal> {
        let asked = Request::of_length(length).numbers();
        let (image, visible) = (self.bytes(), visible.bytes());
        let (work, lent) = (work.lent(), results.lent());
        let mut told = EMPTY;
        // SAFETY: each pointer and length is that of a slice held here.
        unsafe {
            link::pozhdaghi_find_name(
                image.as_ptr(),
                image.len(),
                visible.as_ptr(),
                visible.len(),
                node.0,
                asked.as_ptr(),
                asked.len(),
                work.as_mut_ptr(),
                work.len(),
                lent.as_mut_ptr(),
                lent.len(),
                told.as_mut_ptr(),
                told.len(),
            );
        }
        let name = answer::name(&told)?;
        results.hold(name.is_some().into());
        Ok(name)
    }

    /// How far a name fans out: for each length from 0 to [`MOST_EDGES`](crate::MOST_EDGES),
    /// how many lists of so many distinct edges lead from the reference to a definition with
    /// both stacks empty. Copies do not occur; shadowed paths are counted too. The number at 0
    /// is always 0.
    ///
    /// No path is kept, so no results are lent, and there is no limit. The sum is the
    /// [`complete`](crate::Statistics::complete) of [`direct`](Self::direct) without limits, in
    /// either order, wherever neither is refused.
    ///
    /// # Errors
    ///
    /// Those of [`direct`](Self::direct), depth-first and without limits, but never
    /// [`NoResultSlot`](Refusal::NoResultSlot).
    ///
    /// ```
    /// use pozhdaghi::{sample, Image, NodeId, Visible, Work};
    /// let image = Image::check(&sample::AMENDED)?;
    /// let mut waiting = [0; Work::words(4)];
    /// let mut work = Work::lend(&mut waiting);
    /// // the coupon has two paths, of which one shadows the other
    /// let numbers = image.tally(Visible::All, NodeId(7), &mut work)?;
    /// assert_eq!(numbers.iter().sum::<u64>(), 2);
    /// assert_eq!((numbers[0], numbers[5]), (0, 2));
    /// # Ok::<(), pozhdaghi::Refusal>(())
    /// ```
    pub fn tally(
        self,
        visible: Visible,
        reference: NodeId,
        work: &mut Work,
    ) -> Result<[u64; LENGTHS], Refusal> {
        let (image, visible, work) = (self.bytes(), visible.bytes(), work.lent());
        let mut told = [0; TALLY];
        // SAFETY: each pointer and length is that of a slice held here.
        unsafe {
            link::pozhdaghi_tally(
                image.as_ptr(),
                image.len(),
                visible.as_ptr(),
                visible.len(),
                reference.0,
                work.as_mut_ptr(),
                work.len(),
                told.as_mut_ptr(),
                told.len(),
            );
        }
        answer::tally(&told)
    }

    /// Searches from a reference where each node has one edge that can be appended. Nothing
    /// waits, so no work area is lent, and no order is read. The paths that no other one
    /// shadows stand in the results afterwards.
    ///
    /// # Errors
    ///
    /// As [`direct`](Self::direct), and [`MultipleEdges`](Refusal::MultipleEdges) where a
    /// second edge can be appended; never [`NoWaitingSlot`](Refusal::NoWaitingSlot).
    ///
    /// ```
    /// use pozhdaghi::{sample, Image, NodeId, Refusal, Request, Results, Visible};
    /// let (request, coupon) = (Request::default(), NodeId(7));
    /// let mut found = [0; Results::words(4)];
    /// let mut results = Results::lend(&mut found);
    /// let image = Image::check(&sample::BOND)?;
    /// image.linear(Visible::All, coupon, &request, &mut results)?;
    /// assert_eq!(results.paths().len(), 1);
    /// let amended = Image::check(&sample::AMENDED)?;
    /// let refused = amended.linear(Visible::All, coupon, &request, &mut results);
    /// assert_eq!(refused, Err(Refusal::MultipleEdges(NodeId(3))));
    /// assert_eq!(results.paths().len(), 0);
    /// # Ok::<(), pozhdaghi::Refusal>(())
    /// ```
    pub fn linear(
        self,
        visible: Visible,
        reference: NodeId,
        request: &Request,
        results: &mut Results,
    ) -> Result<Resolution, Refusal> {
        let call = link::pozhdaghi_linear;
        self.search_linearly(call, visible, reference, request, results)
    }

    /// The same search; every recorded path stands in the results. As each path of a linear
    /// search begins with the one before it, none shadows another, and the paths are the
    /// same.
    ///
    /// # Errors
    ///
    /// Those of [`linear`](Self::linear).
    ///
    /// ```
    /// use pozhdaghi::{sample, Image, NodeId, Request, Results, Visible};
    /// let (request, coupon) = (Request::default(), NodeId(7));
    /// let mut found = [0; Results::words(4)];
    /// let mut results = Results::lend(&mut found);
    /// let image = Image::check(&sample::BOND)?;
    /// image.linear_recorded(Visible::All, coupon, &request, &mut results)?;
    /// assert_eq!(results.paths().len(), 1);
    /// # Ok::<(), pozhdaghi::Refusal>(())
    /// ```
    pub fn linear_recorded(
        self,
        visible: Visible,
        reference: NodeId,
        request: &Request,
        results: &mut Results,
    ) -> Result<Resolution, Refusal> {
        let call = link::pozhdaghi_linear_recorded;
        self.search_linearly(call, visible, reference, request, results)
    }

    fn search_linearly(
        self,
        call: Linear,
        visible: Visible,
        reference: NodeId,
        request: &Request,
        results: &mut Results,
    ) -> Result<Resolution, Refusal> {
        let (image, visible, asked) = (self.bytes(), visible.bytes(), request.numbers());
        let lent = results.lent();
        let mut told = EMPTY;
        // SAFETY: each pointer and length is that of a slice held here.
        unsafe {
            call(
                image.as_ptr(),
                image.len(),
                visible.as_ptr(),
                visible.len(),
                reference.0,
                asked.as_ptr(),
                asked.len(),
                lent.as_mut_ptr(),
                lent.len(),
                told.as_mut_ptr(),
                told.len(),
            );
        }
        held(answer::resolution(&told), results)
    }

    /// Searches from a reference over the partial paths of a database. The paths that no
    /// other one shadows stand in the results afterwards.
    ///
    /// The partial paths of hidden files are passed over, those of the alias set never.
    ///
    /// **The database must be filed on this image.** Where a file has changed since and was
    /// not replaced, or where its edges have other numbers now, the paths are wrong, and
    /// nothing tells so (`docs/GUIDE.md`, "Numbers must stay").
    ///
    /// # Errors
    ///
    /// [`Malformed`](Refusal::Malformed), [`Outgrown`](Refusal::Outgrown); then as
    /// [`direct`](Self::direct), and [`UnknownEdge`](Refusal::UnknownEdge) if a partial path
    /// has an edge that is unknown or hidden: replace every file.
    ///
    /// ```
    /// use pozhdaghi::{sample, DatabaseMut, EdgeId, FileId, Image, NodeId};
    /// use pozhdaghi::{Request, Results, Visible, Work};
    /// let image = Image::check(&sample::BOND)?;
    /// let (mut waiting, mut found) = ([0; Work::words(4)], [0; Results::words(4)]);
    /// let (mut work, mut results) = (Work::lend(&mut waiting), Results::lend(&mut found));
    /// let (request, coupon) = (Request::default(), NodeId(7));
    /// let mut words = [0; DatabaseMut::words(14)];
    /// let mut database = DatabaseMut::lend(&mut words);
    /// database.fresh(image)?;
    /// for file in (0..image.files()).map(FileId) {
    ///     database.replace_file(image, file, &request, &mut work)?;
    /// }
    /// let filed = database.read();
    /// image.stitched(Visible::All, filed, coupon, &request, &mut work, &mut results)?;
    /// assert_eq!(results.paths().next().unwrap().edges(), [5, 8, 0, 1, 2].map(EdgeId));
    /// # Ok::<(), pozhdaghi::Refusal>(())
    /// ```
    pub fn stitched(
        self,
        visible: Visible,
        database: Database,
        reference: NodeId,
        request: &Request,
        work: &mut Work,
        results: &mut Results,
    ) -> Result<Resolution, Refusal> {
        let call = link::pozhdaghi_stitched;
        self.search_stitched(call, visible, database, reference, request, work, results)
    }

    /// The same search; every recorded path stands in the results, shadowed ones among them.
    ///
    /// # Errors
    ///
    /// Those of [`stitched`](Self::stitched).
    ///
    /// ```
    /// use pozhdaghi::{sample, Database, Image, NodeId, Refusal};
    /// use pozhdaghi::{Request, Results, Visible, Work};
    /// let image = Image::check(&sample::BOND)?;
    /// let (mut waiting, mut found) = ([0; Work::words(4)], [0; Results::words(4)]);
    /// let (mut work, mut results) = (Work::lend(&mut waiting), Results::lend(&mut found));
    /// let (request, none) = (Request::default(), Database::lend(&[]));
    /// let node = NodeId(7);
    /// let told =
    ///     image.stitched_recorded(Visible::All, none, node, &request, &mut work, &mut results);
    /// assert_eq!(told, Err(Refusal::Malformed));
    /// # Ok::<(), pozhdaghi::Refusal>(())
    /// ```
    pub fn stitched_recorded(
        self,
        visible: Visible,
        database: Database,
        reference: NodeId,
        request: &Request,
        work: &mut Work,
        results: &mut Results,
    ) -> Result<Resolution, Refusal> {
        let call = link::pozhdaghi_stitched_recorded;
        self.search_stitched(call, visible, database, reference, request, work, results)
    }

    // What the library is lent, each by itself.
    #[allow(clippy::too_many_arguments)]
    fn search_stitched(
        self,
        call: Stitched,
        visible: Visible,
        database: Database,
        reference: NodeId,
        request: &Request,
        work: &mut Work,
        results: &mut Results,
    ) -> Result<Resolution, Refusal> {
        let (image, visible, asked) = (self.bytes(), visible.bytes(), request.numbers());
        let (words, work, lent) = (database.lent(), work.lent(), results.lent());
        let mut told = EMPTY;
        // SAFETY: each pointer and length is that of a slice held here.
        unsafe {
            call(
                image.as_ptr(),
                image.len(),
                visible.as_ptr(),
                visible.len(),
                words.as_ptr(),
                words.len(),
                reference.0,
                asked.as_ptr(),
                asked.len(),
                work.as_mut_ptr(),
                work.len(),
                lent.as_mut_ptr(),
                lent.len(),
                told.as_mut_ptr(),
                told.len(),
            );
        }
        held(answer::resolution(&told), results)
    }
}

/// The results hold as many paths as are answered.
fn held(told: Result<Resolution, Refusal>, to: &mut Results) -> Result<Resolution, Refusal> {
    to.hold(told.as_ref().map_or(0, |found| found.paths));
    told
}
