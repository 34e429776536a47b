//! The window over the expanded counts of the last searches.

use crate::answer;
use crate::image::EMPTY;
use crate::link;
use crate::{Refusal, WINDOW_WORDS};

/// What a [`Window`] reports of the counts in it; both are 0 where none was entered.
#[derive(Clone, Copy, Debug, Default, PartialEq, Eq)]
pub struct Trend {
    /// Their exact sum.
    pub sum: u64,
    /// The greatest of them.
    pub greatest: u64,
}

/// A window over the expanded counts of the last [`WINDOW_ENTRIES`](crate::WINDOW_ENTRIES)
/// searches, for the trend during the day. It runs without end and never needs clearing: the
/// count that is entered takes the place of the oldest.
///
/// Enter `expanded` of the [`Statistics`](crate::Statistics) after each search. A refused
/// search has none, and what is not entered does not count.
///
/// ```
/// use pozhdaghi::{sample, Image, NodeId, Request, Results, Trend, Visible, Window, Work};
/// let image = Image::check(&sample::BOND)?;
/// let (mut waiting, mut found) = ([0; Work::words(16)], [0; Results::words(16)]);
/// let (mut work, mut results) = (Work::lend(&mut waiting), Results::lend(&mut found));
/// let (request, mut window) = (Request::default(), Window::new());
/// let mut names = [NodeId(0); 16];
/// for &name in image.references(Visible::All, &mut names)? {
///     let told = image.direct(Visible::All, name, &request, &mut work, &mut results)?;
///     window.enter(told.statistics.expanded)?;
/// }
/// assert_eq!(window.report(), Trend { sum: 18, greatest: 6 });
/// # Ok::<(), pozhdaghi::Refusal>(())
/// ```
///
/// Only these calls write its words:
///
/// ```compile_fail,E0451
/// use pozhdaghi::{Window, WINDOW_WORDS};
/// let window = Window { words: [7; WINDOW_WORDS] };
/// ```
#[derive(Clone, Debug)]
pub struct Window {
    words: [u32; WINDOW_WORDS],
}

impl Window {
    /// A window that is empty: words of zero, as [`begin`](Self::begin) leaves them.
    #[must_use]
    pub const fn new() -> Self {
        Self {
            words: [0; WINDOW_WORDS],
        }
    }

    /// Begins the window again, empty.
    ///
    /// ```
    /// use pozhdaghi::{Trend, Window};
    /// let mut window = Window::new();
    /// window.enter(5)?;
    /// window.begin();
    /// assert_eq!(window.report(), Trend::default());
    /// # Ok::<(), pozhdaghi::Refusal>(())
    /// ```
    pub fn begin(&mut self) {
        // SAFETY: the pointer and the length are those of an array held here.
        unsafe {
            link::pozhdaghi_window_begin(self.words.as_mut_ptr(), self.words.len());
        }
    }

    /// Enters the expanded count of a search.
    ///
    /// # Errors
    ///
    /// [`TooGreat`](Refusal::TooGreat) above
    /// [`MOST_EXPANSIONS`](crate::MOST_EXPANSIONS), which no search expands; the window is
    /// not altered then.
    ///
    /// ```
    /// use pozhdaghi::{Refusal, Trend, Window, MOST_EXPANSIONS};
    /// let mut window = Window::new();
    /// window.enter(MOST_EXPANSIONS)?;
    /// window.enter(5)?;
    /// assert_eq!(window.enter(MOST_EXPANSIONS + 1), Err(Refusal::TooGreat));
    /// let (sum, greatest) = (MOST_EXPANSIONS + 5, MOST_EXPANSIONS);
    /// assert_eq!(window.report(), Trend { sum, greatest });
    /// # Ok::<(), Refusal>(())
    /// ```
    pub fn enter(&mut self, expanded: u64) -> Result<(), Refusal> {
        let mut told = EMPTY;
        // SAFETY: each pointer and length is that of an array held here.
        unsafe {
            link::pozhdaghi_window_enter(
                self.words.as_mut_ptr(),
                self.words.len(),
                expanded,
                told.as_mut_ptr(),
                told.len(),
            );
        }
        answer::done(&told)
    }

    /// The sum and the greatest of the last entries, or of all where there were fewer.
    ///
    /// ```
    /// use pozhdaghi::{Trend, Window, WINDOW_ENTRIES};
    /// let mut window = Window::new();
    /// window.enter(9)?;
    /// for _search in 0..WINDOW_ENTRIES {
    ///     window.enter(2)?;
    /// }
    /// assert_eq!(window.report(), Trend { sum: 2_048, greatest: 2 });
    /// # Ok::<(), pozhdaghi::Refusal>(())
    /// ```
    #[must_use]
    pub fn report(&self) -> Trend {
        let mut told = EMPTY;
        // SAFETY: each pointer and length is that of an array held here.
        unsafe {
            link::pozhdaghi_window_report(
                self.words.as_ptr(),
                self.words.len(),
                told.as_mut_ptr(),
                told.len(),
            );
        }
        let [sum, greatest, ..] = told;
        Trend { sum, greatest }
    }
}

impl Default for Window {
    fn default() -> Self {
        Self::new()
    }
}
