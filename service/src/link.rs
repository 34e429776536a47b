//! The functions of `libpozhdaghi.a`. A Rattle slice is passed as a pointer and
//! a length, as `extern "C"` passes two arguments.

use crate::answer::ANSWER;

unsafe extern "C" {
    pub fn pozhdaghi_check(image: *const u8, image_len: usize, answer: *mut u64, answer_len: usize);
    pub fn pozhdaghi_node(
        image: *const u8,
        image_len: usize,
        visible: *const u8,
        visible_len: usize,
        node: u32,
        answer: *mut u64,
        answer_len: usize,
    );
    pub fn pozhdaghi_edge(
        image: *const u8,
        image_len: usize,
        visible: *const u8,
        visible_len: usize,
        edge: u32,
        answer: *mut u64,
        answer_len: usize,
    );
    pub fn pozhdaghi_references(
        image: *const u8,
        image_len: usize,
        visible: *const u8,
        visible_len: usize,
        result: *mut u32,
        result_len: usize,
        answer: *mut u64,
        answer_len: usize,
    );
    pub fn pozhdaghi_outgoing(
        image: *const u8,
        image_len: usize,
        visible: *const u8,
        visible_len: usize,
        node: u32,
        result: *mut u32,
        result_len: usize,
        answer: *mut u64,
        answer_len: usize,
    );
    pub fn pozhdaghi_replay(
        image: *const u8,
        image_len: usize,
        reference: u32,
        edges: *const u32,
        edges_len: usize,
        path: *mut u32,
        path_len: usize,
        answer: *mut u64,
        answer_len: usize,
    );
    pub fn pozhdaghi_is_complete(
        image: *const u8,
        image_len: usize,
        reference: u32,
        edges: *const u32,
        edges_len: usize,
        answer: *mut u64,
        answer_len: usize,
    );
    pub fn pozhdaghi_shadows(
        image: *const u8,
        image_len: usize,
        left: u32,
        left_edges: *const u32,
        left_edges_len: usize,
        right: u32,
        right_edges: *const u32,
        right_edges_len: usize,
        answer: *mut u64,
        answer_len: usize,
    );
    pub fn pozhdaghi_fresh(
        image: *const u8,
        image_len: usize,
        words: *mut u32,
        words_len: usize,
        answer: *mut u64,
        answer_len: usize,
    );
    pub fn pozhdaghi_replace_file(
        image: *const u8,
        image_len: usize,
        file: u32,
        asked: *const u64,
        asked_len: usize,
        work: *mut u32,
        work_len: usize,
        words: *mut u32,
        words_len: usize,
        answer: *mut u64,
        answer_len: usize,
    );
    pub fn pozhdaghi_replace_aliases(
        image: *const u8,
        image_len: usize,
        asked: *const u64,
        asked_len: usize,
        work: *mut u32,
        work_len: usize,
        words: *mut u32,
        words_len: usize,
        answer: *mut u64,
        answer_len: usize,
    );
    pub fn pozhdaghi_convert(
        old: *const u32,
        old_len: usize,
        new: *mut u32,
        new_len: usize,
        answer: *mut u64,
        answer_len: usize,
    );
    pub fn pozhdaghi_compact(
        words: *mut u32,
        words_len: usize,
        list: *mut u32,
        list_len: usize,
        answer: *mut u64,
        answer_len: usize,
    );
    pub fn pozhdaghi_lookup(
        words: *const u32,
        words_len: usize,
        number: u32,
        answer: *mut u64,
        answer_len: usize,
    );
    pub fn pozhdaghi_direct(
        image: *const u8,
        image_len: usize,
        visible: *const u8,
        visible_len: usize,
        reference: u32,
        asked: *const u64,
        asked_len: usize,
        work: *mut u32,
        work_len: usize,
        result: *mut u32,
        result_len: usize,
        answer: *mut u64,
        answer_len: usize,
    );
    pub fn pozhdaghi_direct_recorded(
        image: *const u8,
        image_len: usize,
        visible: *const u8,
        visible_len: usize,
        reference: u32,
        asked: *const u64,
        asked_len: usize,
        work: *mut u32,
        work_len: usize,
        result: *mut u32,
        result_len: usize,
        answer: *mut u64,
        answer_len: usize,
    );
    pub fn pozhdaghi_find_name(
        image: *const u8,
        image_len: usize,
        visible: *const u8,
        visible_len: usize,
        node: u32,
        asked: *const u64,
        asked_len: usize,
        work: *mut u32,
        work_len: usize,
        result: *mut u32,
        result_len: usize,
        answer: *mut u64,
        answer_len: usize,
    );
    pub fn pozhdaghi_tally(
        image: *const u8,
        image_len: usize,
        visible: *const u8,
        visible_len: usize,
        reference: u32,
        work: *mut u32,
        work_len: usize,
        answer: *mut u64,
        answer_len: usize,
    );
    pub fn pozhdaghi_resolve_flow(
        image: *const u8,
        image_len: usize,
        visible: *const u8,
        visible_len: usize,
        rows: *const u8,
        rows_len: usize,
        isin: *const u8,
        isin_len: usize,
        tranche: u32,
        leg: u32,
        asked: *const u64,
        asked_len: usize,
        work: *mut u32,
        work_len: usize,
        result: *mut u32,
        result_len: usize,
        answer: *mut u64,
        answer_len: usize,
    );
    pub fn pozhdaghi_linear(
        image: *const u8,
        image_len: usize,
        visible: *const u8,
        visible_len: usize,
        reference: u32,
        asked: *const u64,
        asked_len: usize,
        result: *mut u32,
        result_len: usize,
        answer: *mut u64,
        answer_len: usize,
    );
    pub fn pozhdaghi_linear_recorded(
        image: *const u8,
        image_len: usize,
        visible: *const u8,
        visible_len: usize,
        reference: u32,
        asked: *const u64,
        asked_len: usize,
        result: *mut u32,
        result_len: usize,
        answer: *mut u64,
        answer_len: usize,
    );
    pub fn pozhdaghi_stitched(
        image: *const u8,
        image_len: usize,
        visible: *const u8,
        visible_len: usize,
        words: *const u32,
        words_len: usize,
        reference: u32,
        asked: *const u64,
        asked_len: usize,
        work: *mut u32,
        work_len: usize,
        result: *mut u32,
        result_len: usize,
        answer: *mut u64,
        answer_len: usize,
    );
    pub fn pozhdaghi_stitched_recorded(
        image: *const u8,
        image_len: usize,
        visible: *const u8,
        visible_len: usize,
        words: *const u32,
        words_len: usize,
        reference: u32,
        asked: *const u64,
        asked_len: usize,
        work: *mut u32,
        work_len: usize,
        result: *mut u32,
        result_len: usize,
        answer: *mut u64,
        answer_len: usize,
    );
    pub fn pozhdaghi_window_begin(words: *mut u32, words_len: usize);
    pub fn pozhdaghi_window_enter(
        words: *mut u32,
        words_len: usize,
        count: u64,
        answer: *mut u64,
        answer_len: usize,
    );
    pub fn pozhdaghi_window_report(
        words: *const u32,
        words_len: usize,
        answer: *mut u64,
        answer_len: usize,
    );
    pub fn pozhdaghi_widen(
        image: *const u8,
        image_len: usize,
        area: *mut u8,
        area_len: usize,
        answer: *mut u64,
        answer_len: usize,
    );
    pub fn pozhdaghi_narrow(
        image: *const u8,
        image_len: usize,
        area: *mut u8,
        area_len: usize,
        answer: *mut u64,
        answer_len: usize,
    );
}

/// Direct search, returned and recorded paths.
pub type Direct = unsafe extern "C" fn(
    image: *const u8,
    image_len: usize,
    visible: *const u8,
    visible_len: usize,
    reference: u32,
    asked: *const u64,
    asked_len: usize,
    work: *mut u32,
    work_len: usize,
    result: *mut u32,
    result_len: usize,
    answer: *mut u64,
    answer_len: usize,
);

/// Linear search has no work area.
pub type Linear = unsafe extern "C" fn(
    image: *const u8,
    image_len: usize,
    visible: *const u8,
    visible_len: usize,
    reference: u32,
    asked: *const u64,
    asked_len: usize,
    result: *mut u32,
    result_len: usize,
    answer: *mut u64,
    answer_len: usize,
);

/// Stitched search also reads the database words.
pub type Stitched = unsafe extern "C" fn(
    image: *const u8,
    image_len: usize,
    visible: *const u8,
    visible_len: usize,
    words: *const u32,
    words_len: usize,
    reference: u32,
    asked: *const u64,
    asked_len: usize,
    work: *mut u32,
    work_len: usize,
    result: *mut u32,
    result_len: usize,
    answer: *mut u64,
    answer_len: usize,
);

/// An image rewritten in the other version.
pub type Rewriting = unsafe extern "C" fn(
    image: *const u8,
    image_len: usize,
    area: *mut u8,
    area_len: usize,
    answer: *mut u64,
    answer_len: usize,
);

/// The area that every answer fits into.
pub type Answer = [u64; ANSWER];
