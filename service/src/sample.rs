//! The bond of `docs/GUIDE.md`, to try calls on.
//!
//! Its terms are file 0: node 2 is the bond, 4, 5 and 6 are its coupon, sinking and call
//! payments. A desk is file 1: its references 7, 8 and 9 name these payments over the bond.

/// The bond as it comes in: 2 files, 11 nodes, 9 edges.
#[rustfmt::skip]
pub const BOND: [u8; 182] = [
    1, 0, 0, 0, 177, 0, 2, 0, 11, 0, 9,                          // version, length; counts
    1, 1, 1, 2,                                                  // 0 root, 1 jump
    8, 5, 0, 0, 0, 0, 0, 1, 1, 4, 3, 0, 0, 0,                    // 2 pop ACME31; 3 scope
    8, 5, 0, 0, 0, 0, 0, 2, 1, 8, 5, 0, 0, 0, 0, 0, 3, 1,        // 4 pop coupon; 5 pop sinking
    8, 5, 0, 0, 0, 0, 0, 4, 1,                                   // 6 pop call
    8, 4, 0, 1, 0, 0, 0, 2, 1, 8, 4, 0, 1, 0, 0, 0, 3, 1,        // 7 push coupon; 8 push sinking
    8, 4, 0, 1, 0, 0, 0, 4, 1, 8, 4, 0, 1, 0, 0, 0, 1, 0,        // 9 push call; 10 push ACME31
    9, 1, 0, 0, 0, 2, 0, 0, 0, 0, 9, 1, 0, 2, 0, 3, 0, 0, 0, 0,  // edges 0, 1
    9, 1, 0, 3, 0, 4, 0, 0, 0, 0, 9, 1, 0, 3, 0, 5, 0, 0, 0, 0,  // edges 2, 3
    9, 1, 0, 3, 0, 6, 0, 0, 0, 0, 9, 1, 0, 7, 0, 10, 0, 0, 0, 0, // edges 4, 5
    9, 1, 0, 8, 0, 10, 0, 0, 0, 0, 9, 1, 0, 9, 0, 10, 0, 0, 0, 0, // edges 6, 7
    9, 1, 0, 10, 0, 0, 0, 0, 0, 0,                               // edge 8
];

/// The bond with its terms amended. The call is given up: node 6 and edge 4 are removed. A
/// new coupon, node 11 over edge 9, goes before the old one. Every number of before means
/// what it meant, so that file 1 need not be replaced.
#[rustfmt::skip]
pub const AMENDED: [u8; 186] = [
    1, 0, 0, 0, 181, 0, 2, 0, 12, 0, 10,                         // version, length; counts
    1, 1, 1, 2,                                                  // 0 root, 1 jump
    8, 5, 0, 0, 0, 0, 0, 1, 1, 4, 3, 0, 0, 0,                    // 2 pop ACME31; 3 scope
    8, 5, 0, 0, 0, 0, 0, 2, 1, 8, 5, 0, 0, 0, 0, 0, 3, 1,        // 4 pop coupon; 5 pop sinking
    1, 0,                                                        // 6 removed
    8, 4, 0, 1, 0, 0, 0, 2, 1, 8, 4, 0, 1, 0, 0, 0, 3, 1,        // 7 push coupon; 8 push sinking
    8, 4, 0, 1, 0, 0, 0, 4, 1, 8, 4, 0, 1, 0, 0, 0, 1, 0,        // 9 push call; 10 push ACME31
    8, 5, 0, 0, 0, 0, 0, 2, 1,                                   // 11 pop coupon
    9, 1, 0, 0, 0, 2, 0, 0, 0, 0, 9, 1, 0, 2, 0, 3, 0, 0, 0, 0,  // edges 0, 1
    9, 1, 0, 3, 0, 4, 0, 0, 0, 0, 9, 1, 0, 3, 0, 5, 0, 0, 0, 0,  // edges 2, 3
    1, 0, 9, 1, 0, 7, 0, 10, 0, 0, 0, 0,                         // edge 4 removed; edge 5
    9, 1, 0, 8, 0, 10, 0, 0, 0, 0, 9, 1, 0, 9, 0, 10, 0, 0, 0, 0, // edges 6, 7
    9, 1, 0, 10, 0, 0, 0, 0, 0, 0, 9, 1, 0, 3, 0, 11, 0, 0, 0, 1, // edges 8, 9
];
