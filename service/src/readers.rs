//! What stands in an image: a node, an edge, the references, the edges that leave a node.

use crate::answer;
use crate::image::EMPTY;
use crate::link;
use crate::request::Visible;
use crate::{EdgeId, FileId, Image, NodeId, Refusal};

/// A node of an image: what it is, and what it does to a path that comes to it.
#[derive(Clone, Copy, Debug, PartialEq, Eq, Hash)]
pub enum Node {
    /// Node 0, over which files are joined.
    Root,
    /// Node 1: goes on from the top of the scope stack.
    JumpToScope,
    /// Leaves both stacks as they are.
    Scope {
        /// The file that it belongs to.
        file: FileId,
        /// Whether a scoped push may name it.
        is_exported: bool,
    },
    /// Pushes a symbol.
    Push {
        /// The file that it belongs to.
        file: FileId,
        /// The symbol.
        symbol: u64,
        /// Whether it is a reference, from which a search may start.
        is_reference: bool,
    },
    /// Pops a symbol.
    Pop {
        /// The file that it belongs to.
        file: FileId,
        /// The symbol.
        symbol: u64,
        /// Whether it is a definition, at which a path may be complete.
        is_definition: bool,
    },
    /// Pushes a symbol with scopes: those of the scope stack, and its own above them.
    PushScoped {
        /// The file that it belongs to.
        file: FileId,
        /// The symbol.
        symbol: u64,
        /// Its own scope.
        scope: NodeId,
        /// Whether it is a reference, from which a search may start.
        is_reference: bool,
    },
    /// Pops a symbol with scopes, which become the scope stack.
    PopScoped {
        /// The file that it belongs to.
        file: FileId,
        /// The symbol.
        symbol: u64,
        /// Whether it is a definition, at which a path may be complete.
        is_definition: bool,
    },
    /// Empties the scope stack.
    DropScopes {
        /// The file that it belongs to.
        file: FileId,
    },
}

impl Node {
    /// The kind, file, symbol, attached scope and flag of an answer; nothing for a kind that
    /// this package does not know.
    fn of_numbers([kind, file, symbol, scope, flag]: [u64; 5]) -> Option<Self> {
        let (file, scope, flag) = (FileId(file as u32), NodeId(scope as u32), flag != 0);
        Some(match kind {
            1 => Self::Root,
            2 => Self::JumpToScope,
            3 => Self::Scope {
                file,
                is_exported: flag,
            },
            4 => Self::Push {
                file,
                symbol,
                is_reference: flag,
            },
            5 => Self::Pop {
                file,
                symbol,
                is_definition: flag,
            },
            6 => Self::PushScoped {
                file,
                symbol,
                scope,
                is_reference: flag,
            },
            7 => Self::PopScoped {
                file,
                symbol,
                is_definition: flag,
            },
            8 => Self::DropScopes { file },
            _ => return None,
        })
    }

    /// The file that it belongs to; root and jump belong to none.
    #[must_use]
    pub fn file(self) -> Option<FileId> {
        match self {
            Self::Root | Self::JumpToScope => None,
            Self::Scope { file, .. }
            | Self::Push { file, .. }
            | Self::Pop { file, .. }
            | Self::PushScoped { file, .. }
            | Self::PopScoped { file, .. }
            | Self::DropScopes { file } => Some(file),
        }
    }

    /// The symbol that it pushes or pops, if it does.
    #[must_use]
    pub fn symbol(self) -> Option<u64> {
        match self {
            Self::Push { symbol, .. }
            | Self::Pop { symbol, .. }
            | Self::PushScoped { symbol, .. }
            | Self::PopScoped { symbol, .. } => Some(symbol),
            Self::Root | Self::JumpToScope | Self::Scope { .. } | Self::DropScopes { .. } => None,
        }
    }

    /// Whether a search may start from it.
    #[must_use]
    pub fn is_reference(self) -> bool {
        match self {
            Self::Push { is_reference, .. } | Self::PushScoped { is_reference, .. } => is_reference,
            _ => false,
        }
    }

    /// Whether a path may be complete at it.
    #[must_use]
    pub fn is_definition(self) -> bool {
        match self {
            Self::Pop { is_definition, .. } | Self::PopScoped { is_definition, .. } => {
                is_definition
            }
            _ => false,
        }
    }
}

/// An edge of an image.
#[derive(Clone, Copy, Debug, PartialEq, Eq, Hash)]
pub struct Edge {
    /// The node that it leaves.
    pub source: NodeId,
    /// The node that it leads to.
    pub target: NodeId,
    /// Of two paths that part at a node, the one with the greater precedence there shadows
    /// the other.
    pub precedence: i32,
}

/// What stands in an image. Each shows nothing of hidden files: see [`Visible`].
impl Image<'_> {
    /// A node. Where a path ends is the target of its last edge, unless that is jump.
    ///
    /// # Errors
    ///
    /// [`UnknownNode`](Refusal::UnknownNode) if it is unknown, removed or hidden.
    ///
    /// ```
    /// use pozhdaghi::{sample, FileId, Image, Node, NodeId, Refusal, Visible};
    /// let image = Image::check(&sample::BOND)?;
    /// let coupon = Node::Push {
    ///     file: FileId(1),
    ///     symbol: 2,
    ///     is_reference: true,
    /// };
    /// assert_eq!(image.node(Visible::All, NodeId(7))?, coupon);
    /// let hidden = image.node(Visible::Files(&[1, 0]), NodeId(7));
    /// assert_eq!(hidden, Err(Refusal::UnknownNode(NodeId(7))));
    /// # Ok::<(), Refusal>(())
    /// ```
    pub fn node(self, visible: Visible, node: NodeId) -> Result<Node, Refusal> {
        let (image, visible) = (self.bytes(), visible.bytes());
        let mut told = EMPTY;
        // SAFETY: each pointer and length is that of a slice held here.
        unsafe {
            link::pozhdaghi_node(
                image.as_ptr(),
                image.len(),
                visible.as_ptr(),
                visible.len(),
                node.0,
                told.as_mut_ptr(),
                told.len(),
            );
        }
        let [kind, file, symbol, scope, flag, ..] = answer::values(&told)?;
        Node::of_numbers([kind, file, symbol, scope, flag]).ok_or(Refusal::Unknown {
            number: 0,
            values: [kind, file],
        })
    }

    /// An edge.
    ///
    /// # Errors
    ///
    /// [`UnknownEdge`](Refusal::UnknownEdge) if it is unknown, removed or hidden.
    ///
    /// ```
    /// use pozhdaghi::{sample, Edge, EdgeId, Image, NodeId, Refusal, Visible};
    /// let image = Image::check(&sample::AMENDED)?;
    /// let to_the_new_coupon = Edge {
    ///     source: NodeId(3),
    ///     target: NodeId(11),
    ///     precedence: 1,
    /// };
    /// assert_eq!(image.edge(Visible::All, EdgeId(9))?, to_the_new_coupon);
    /// let removed = image.edge(Visible::All, EdgeId(4));
    /// assert_eq!(removed, Err(Refusal::UnknownEdge(EdgeId(4))));
    /// # Ok::<(), Refusal>(())
    /// ```
    pub fn edge(self, visible: Visible, edge: EdgeId) -> Result<Edge, Refusal> {
        let (image, visible) = (self.bytes(), visible.bytes());
        let mut told = EMPTY;
        // SAFETY: each pointer and length is that of a slice held here.
        unsafe {
            link::pozhdaghi_edge(
                image.as_ptr(),
                image.len(),
                visible.as_ptr(),
                visible.len(),
                edge.0,
                told.as_mut_ptr(),
                told.len(),
            );
        }
        let [source, target, precedence, ..] = answer::values(&told)?;
        Ok(Edge {
            source: NodeId(source as u32),
            target: NodeId(target as u32),
            // 32 bits in two's complement
            precedence: precedence as u32 as i32,
        })
    }

    /// The references, ascending, in the first places of the area, of which the rest is
    /// zero. As many places as the image has nodes are always enough.
    ///
    /// # Errors
    ///
    /// [`NoResultSlot`](Refusal::NoResultSlot) if the area has fewer places than there are
    /// references; all of it is zero then.
    ///
    /// ```
    /// use pozhdaghi::{sample, Image, NodeId, Refusal, Visible};
    /// let image = Image::check(&sample::BOND)?;
    /// let mut area = [NodeId(0); 4];
    /// assert_eq!(image.references(Visible::All, &mut area)?, [7, 8, 9].map(NodeId));
    /// let refused = image.references(Visible::All, &mut area[..2]);
    /// assert_eq!(refused, Err(Refusal::NoResultSlot));
    /// # Ok::<(), Refusal>(())
    /// ```
    pub fn references<'b>(
        self,
        visible: Visible,
        area: &'b mut [NodeId],
    ) -> Result<&'b [NodeId], Refusal> {
        let (image, visible) = (self.bytes(), visible.bytes());
        let mut told = EMPTY;
        // SAFETY: each pointer and length is that of a slice held here; a `NodeId` is laid
        // out as the word that it holds, and takes any.
        unsafe {
            link::pozhdaghi_references(
                image.as_ptr(),
                image.len(),
                visible.as_ptr(),
                visible.len(),
                area.as_mut_ptr().cast(),
                area.len(),
                told.as_mut_ptr(),
                told.len(),
            );
        }
        let count = answer::length(&told)?;
        Ok(area.get(..count).unwrap_or(&[]))
    }

    /// The edges that leave a node, ascending, which is the order in which searches try them,
    /// in the first places of the area, of which the rest is zero. As many places as the
    /// image has edges are always enough.
    ///
    /// # Errors
    ///
    /// [`UnknownNode`](Refusal::UnknownNode) if the node is unknown, removed or hidden;
    /// [`NoResultSlot`](Refusal::NoResultSlot) if the area has fewer places than there are
    /// edges; all of it is zero then.
    ///
    /// ```
    /// use pozhdaghi::{sample, EdgeId, Image, NodeId, Visible};
    /// let image = Image::check(&sample::BOND)?;
    /// let mut area = [EdgeId(0); 4];
    /// assert_eq!(image.outgoing(Visible::All, NodeId(3), &mut area)?, [2, 3, 4].map(EdgeId));
    /// assert_eq!(image.outgoing(Visible::All, NodeId(4), &mut area)?, []);
    /// # Ok::<(), pozhdaghi::Refusal>(())
    /// ```
    pub fn outgoing<'b>(
        self,
        visible: Visible,
        node: NodeId,
        area: &'b mut [EdgeId],
    ) -> Result<&'b [EdgeId], Refusal> {
        let (image, visible) = (self.bytes(), visible.bytes());
        let mut told = EMPTY;
        // SAFETY: each pointer and length is that of a slice held here; an `EdgeId` is laid
        // out as the word that it holds, and takes any.
        unsafe {
            link::pozhdaghi_outgoing(
                image.as_ptr(),
                image.len(),
                visible.as_ptr(),
                visible.len(),
                node.0,
                area.as_mut_ptr().cast(),
                area.len(),
                told.as_mut_ptr(),
                told.len(),
            );
        }
        let count = answer::length(&told)?;
        Ok(area.get(..count).unwrap_or(&[]))
    }
}
