//! A checked image, and the calls that read paths of it or rewrite it.

use crate::answer::{self, ANSWER};
use crate::link::{self, Answer, Rewriting};
use crate::replayed::{self, Replayed};
use crate::{EdgeId, NodeId, Refusal, PATH_WORDS};
use std::fmt;

pub(crate) const EMPTY: Answer = [0; ANSWER];

/// Bytes that were checked to be an image, that is one graph: `docs/FORMAT.md`, "Image".
/// It is made by [`check`](Self::check) and is as cheap to copy as a slice.
///
/// Every call of the library checks the bytes again, whatever type they come in: the proof
/// of a call relies on nothing that was checked before. This type keeps a service from
/// lending bytes that are something else.
#[derive(Clone, Copy, PartialEq, Eq)]
pub struct Image<'a> {
    bytes: &'a [u8],
    files: u32,
    nodes: u32,
    edges: u32,
}

impl<'a> Image<'a> {
    /// Checks that the bytes are an image, in version 1 or 2.
    ///
    /// # Errors
    ///
    /// [`Version`](Refusal::Version) to [`Reference`](Refusal::Reference), that is 1 to 5.
    ///
    /// ```
    /// use pozhdaghi::{sample, Image, Refusal};
    /// let image = Image::check(&sample::BOND)?;
    /// assert_eq!((image.files(), image.nodes(), image.edges()), (2, 11, 9));
    /// assert_eq!(Image::check(b"no image at all").unwrap_err(), Refusal::Length);
    /// # Ok::<(), Refusal>(())
    /// ```
    pub fn check(bytes: &'a [u8]) -> Result<Self, Refusal> {
        let mut told = EMPTY;
        // SAFETY: each pointer and length is that of a slice held here.
        unsafe {
            link::pozhdaghi_check(bytes.as_ptr(), bytes.len(), told.as_mut_ptr(), told.len());
        }
        let [files, nodes, edges] = answer::counts(&told)?;
        Ok(Self {
            bytes,
            files,
            nodes,
            edges,
        })
    }

    /// Bytes that nobody has checked, to try what each call does with them: it is refused by
    /// 1 to 5. Its counts are 0.
    #[doc(hidden)]
    #[must_use]
    pub fn unchecked(bytes: &'a [u8]) -> Self {
        Self {
            bytes,
            files: 0,
            nodes: 0,
            edges: 0,
        }
    }

    /// The bytes.
    #[must_use]
    pub fn bytes(self) -> &'a [u8] {
        self.bytes
    }

    /// How many files it has: their numbers are below that.
    #[must_use]
    pub fn files(self) -> u32 {
        self.files
    }

    /// How many nodes it has, removed ones among them: their numbers are below that.
    #[must_use]
    pub fn nodes(self) -> u32 {
        self.nodes
    }

    /// How many edges it has, removed ones among them: their numbers are below that.
    #[must_use]
    pub fn edges(self) -> u32 {
        self.edges
    }

    /// Follows edges from a reference and tells where they lead, with both stacks. It takes
    /// no set of visible files and shows any record.
    ///
    /// This is the one call that allocates: the path is handed back as vectors.
    ///
    /// # Errors
    ///
    /// [`UnknownNode`](Refusal::UnknownNode), [`NotReference`](Refusal::NotReference); then
    /// for each edge [`TooLong`](Refusal::TooLong), [`UnknownEdge`](Refusal::UnknownEdge),
    /// [`IncorrectSource`](Refusal::IncorrectSource), and 14 to 18 where a symbol or a scope
    /// does not fit.
    ///
    /// ```
    /// use pozhdaghi::{sample, EdgeId, Image, NodeId, Refusal};
    /// let image = Image::check(&sample::BOND)?;
    /// let path = image.replay(NodeId(7), &[5, 8, 0, 1, 2].map(EdgeId))?;
    /// assert_eq!(path.end, NodeId(4));
    /// assert!(path.symbols.is_empty());
    /// let other = image.replay(NodeId(7), &[5, 8, 0, 1, 3].map(EdgeId));
    /// assert_eq!(other, Err(Refusal::IncorrectPoppedSymbol(NodeId(5))));
    /// # Ok::<(), Refusal>(())
    /// ```
    pub fn replay(self, reference: NodeId, edges: &[EdgeId]) -> Result<Replayed, Refusal> {
        let mut path = vec![0; PATH_WORDS];
        let mut told = EMPTY;
        // SAFETY: each pointer and length is that of a slice held here.
        unsafe {
            link::pozhdaghi_replay(
                self.bytes.as_ptr(),
                self.bytes.len(),
                reference.0,
                edges.as_ptr().cast(),
                edges.len(),
                path.as_mut_ptr(),
                path.len(),
                told.as_mut_ptr(),
                told.len(),
            );
        }
        answer::done(&told).map(|()| replayed::read(&path))
    }

    /// Whether the path of a reference and its edges is complete: it ends at a definition,
    /// and both stacks are empty.
    ///
    /// # Errors
    ///
    /// Those of [`replay`](Self::replay).
    ///
    /// ```
    /// use pozhdaghi::{sample, EdgeId, Image, NodeId};
    /// let image = Image::check(&sample::BOND)?;
    /// assert!(image.is_complete(NodeId(7), &[5, 8, 0, 1, 2].map(EdgeId))?);
    /// assert!(!image.is_complete(NodeId(7), &[5, 8].map(EdgeId))?);
    /// # Ok::<(), pozhdaghi::Refusal>(())
    /// ```
    pub fn is_complete(self, reference: NodeId, edges: &[EdgeId]) -> Result<bool, Refusal> {
        let mut told = EMPTY;
        // SAFETY: each pointer and length is that of a slice held here.
        unsafe {
            link::pozhdaghi_is_complete(
                self.bytes.as_ptr(),
                self.bytes.len(),
                reference.0,
                edges.as_ptr().cast(),
                edges.len(),
                told.as_mut_ptr(),
                told.len(),
            );
        }
        answer::judgement(&told)
    }

    /// Whether the left path, a reference and its edges, shadows the right one: up to some
    /// step they go the same way, and there left has the greater precedence.
    ///
    /// # Errors
    ///
    /// Those of [`replay`](Self::replay), of the left path before those of the right one.
    ///
    /// ```
    /// use pozhdaghi::{sample, EdgeId, Image, NodeId};
    /// let image = Image::check(&sample::AMENDED)?;
    /// let (new, old) = ([5, 8, 0, 1, 9].map(EdgeId), [5, 8, 0, 1, 2].map(EdgeId));
    /// assert!(image.shadows((NodeId(7), &new), (NodeId(7), &old))?);
    /// assert!(!image.shadows((NodeId(7), &old), (NodeId(7), &new))?);
    /// # Ok::<(), pozhdaghi::Refusal>(())
    /// ```
    pub fn shadows(
        self,
        (left, left_edges): (NodeId, &[EdgeId]),
        (right, right_edges): (NodeId, &[EdgeId]),
    ) -> Result<bool, Refusal> {
        let mut told = EMPTY;
        // SAFETY: each pointer and length is that of a slice held here.
        unsafe {
            link::pozhdaghi_shadows(
                self.bytes.as_ptr(),
                self.bytes.len(),
                left.0,
                left_edges.as_ptr().cast(),
                left_edges.len(),
                right.0,
                right_edges.as_ptr().cast(),
                right_edges.len(),
                told.as_mut_ptr(),
                told.len(),
            );
        }
        answer::judgement(&told)
    }

    /// Rewrites an image of version 1 in version 2, its symbols extended by zeros, into the
    /// first bytes of the area; behind it there are zeros, and in all of the area of a
    /// refused call. [`LONGEST_IMAGE`](crate::LONGEST_IMAGE) bytes are always enough.
    /// [`narrow`](Self::narrow) undoes it byte for byte, and every call answers the same on
    /// a rewritten image.
    ///
    /// # Errors
    ///
    /// [`Version`](Refusal::Version) if it is of version 2 already,
    /// [`Length`](Refusal::Length) if the result would be too long for an image,
    /// [`NoResultSlot`](Refusal::NoResultSlot) if the area is too short.
    ///
    /// ```
    /// use pozhdaghi::{sample, Image, Refusal, LONGEST_IMAGE};
    /// let image = Image::check(&sample::BOND)?;
    /// let (mut there, mut back) = ([0; LONGEST_IMAGE], [0; LONGEST_IMAGE]);
    /// let wide = image.widen(&mut there)?;
    /// assert_eq!(wide.bytes().len(), 214);
    /// assert_eq!(wide.narrow(&mut back)?.bytes(), sample::BOND);
    /// assert_eq!(image.widen(&mut [0; 213]), Err(Refusal::NoResultSlot));
    /// # Ok::<(), Refusal>(())
    /// ```
    pub fn widen(self, area: &mut [u8]) -> Result<Image<'_>, Refusal> {
        self.rewrite(link::pozhdaghi_widen, area)
    }

    /// Rewrites an image of version 2 in version 1, likewise. [`widen`](Self::widen) undoes
    /// it byte for byte.
    ///
    /// # Errors
    ///
    /// [`Version`](Refusal::Version) if it is of version 1 already,
    /// [`WideSymbol`](Refusal::WideSymbol) with the place of the first record whose symbol
    /// does not fit 32 bits, [`NoResultSlot`](Refusal::NoResultSlot) if the area is too
    /// short.
    ///
    /// ```
    /// use pozhdaghi::{sample, Image, Refusal};
    /// let image = Image::check(&sample::BOND)?;
    /// assert_eq!(image.narrow(&mut [0; 182]), Err(Refusal::Version));
    /// # Ok::<(), Refusal>(())
    /// ```
    pub fn narrow(self, area: &mut [u8]) -> Result<Image<'_>, Refusal> {
        self.rewrite(link::pozhdaghi_narrow, area)
    }

    fn rewrite(self, call: Rewriting, area: &mut [u8]) -> Result<Image<'_>, Refusal> {
        let mut told = EMPTY;
        // SAFETY: each pointer and length is that of a slice held here.
        unsafe {
            call(
                self.bytes.as_ptr(),
                self.bytes.len(),
                area.as_mut_ptr(),
                area.len(),
                told.as_mut_ptr(),
                told.len(),
            );
        }
        let length = answer::length(&told)?;
        Ok(Image {
            bytes: area.get(..length).unwrap_or(&[]),
            files: self.files,
            nodes: self.nodes,
            edges: self.edges,
        })
    }
}

/// Its counts: the bytes say nothing to a reader.
impl fmt::Debug for Image<'_> {
    fn fmt(&self, to: &mut fmt::Formatter<'_>) -> fmt::Result {
        to.debug_struct("Image")
            .field("files", &self.files)
            .field("nodes", &self.nodes)
            .field("edges", &self.edges)
            .finish_non_exhaustive()
    }
}
