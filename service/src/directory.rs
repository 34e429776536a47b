//! The flow directory: from an ISIN, a tranche and a leg to the definitions of a cash flow.

use crate::answer;
use crate::image::EMPTY;
use crate::link;
use crate::request::{Request, Visible};
use crate::{Image, NodeId, Refusal, Resolution, Results, Work};

/// What a row of a directory is looked up by.
#[derive(Clone, Copy, Debug, PartialEq, Eq)]
pub struct FlowKey<'a> {
    /// The ISIN of the bond: twelve bytes, or it is [`MalformedIsin`](Refusal::MalformedIsin).
    pub isin: &'a [u8],
    /// The tranche. No row has one above 65,535.
    pub tranche: u32,
    /// The leg, likewise.
    pub leg: u32,
}

/// The definitions that returned paths end at.
#[derive(Clone, Copy, Debug, PartialEq, Eq)]
pub enum Definitions {
    /// No path is returned.
    Nothing,
    /// Every returned path ends at this one.
    One(NodeId),
    /// Some two returned paths end at different ones.
    Several,
}

/// A cash flow resolved.
#[derive(Clone, Copy, Debug, PartialEq, Eq)]
pub struct Flow {
    /// Where its returned paths end.
    pub definitions: Definitions,
    /// What the direct search from the row's reference tells.
    pub resolution: Resolution,
}

impl Image<'_> {
    /// Finds the row of a key in a directory, and searches directly from the row's reference.
    /// The returned paths stand in the results afterwards.
    ///
    /// A directory is rows of [`ROW_BYTES`](crate::ROW_BYTES) bytes without a header, each key
    /// above the one before: the ISIN, then tranche, leg and reference node, each of 16 bits,
    /// big-endian. Every row is looked at on each call, so keep one directory for a bond or
    /// for a desk.
    ///
    /// # Errors
    ///
    /// [`MalformedIsin`](Refusal::MalformedIsin), [`Disordered`](Refusal::Disordered),
    /// [`UnknownKey`](Refusal::UnknownKey); then those of [`direct`](Self::direct) from the
    /// row's reference.
    ///
    /// ```
    /// use pozhdaghi::{sample, Definitions, FlowKey, Image, NodeId, Refusal, Request, Results};
    /// use pozhdaghi::{Visible, Work};
    /// let image = Image::check(&sample::BOND)?;
    /// let rows = [
    ///     *b"US0378331005\0\x01\0\x01\0\x07", // tranche 1, leg 1: the coupon, reference 7
    ///     *b"US0378331005\0\x01\0\x02\0\x09", // tranche 1, leg 2: the call, reference 9
    /// ];
    /// let (mut waiting, mut found) = ([0; Work::words(4)], [0; Results::words(4)]);
    /// let (mut work, mut results) = (Work::lend(&mut waiting), Results::lend(&mut found));
    /// let mut end = |isin: &[u8], leg| {
    ///     let (rows, key) = (rows.as_flattened(), FlowKey { isin, tranche: 1, leg });
    ///     let request = Request::default();
    ///     let told = image.resolve_flow(Visible::All, rows, key, &request, &mut work, &mut results);
    ///     told.map(|flow| flow.definitions)
    /// };
    /// assert_eq!(end(b"US0378331005", 1), Ok(Definitions::One(NodeId(4))));
    /// assert_eq!(end(b"US0378331005", 2), Ok(Definitions::One(NodeId(6))));
    /// assert_eq!(end(b"US0378331005", 3), Err(Refusal::UnknownKey));
    /// assert_eq!(end(b"US0378331006", 1), Err(Refusal::MalformedIsin));
    /// # Ok::<(), Refusal>(())
    /// ```
    pub fn resolve_flow(
        self,
        visible: Visible,
        rows: &[u8],
        key: FlowKey,
        request: &Request,
        work: &mut Work,
        results: &mut Results,
    ) -> Result<Flow, Refusal> {
        let (image, visible, asked) = (self.bytes(), visible.bytes(), request.numbers());
        let (work, lent) = (work.lent(), results.lent());
        let mut told = EMPTY;
        // SAFETY: each pointer and length is that of a slice held here.
        unsafe {
            link::pozhdaghi_resolve_flow(
                image.as_ptr(),
                image.len(),
                visible.as_ptr(),
                visible.len(),
                rows.as_ptr(),
                rows.len(),
                key.isin.as_ptr(),
                key.isin.len(),
                key.tranche,
                key.leg,
                asked.as_ptr(),
                asked.len(),
                work.as_mut_ptr(),
                work.len(),
                lent.as_mut_ptr(),
                lent.len(),
                told.as_mut_ptr(),
                told.len(),
            );
        }
        let told = answer::flow(&told);
        results.hold(told.as_ref().map_or(0, |flow| flow.resolution.paths));
        told
    }
}
