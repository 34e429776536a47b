//! A call answered by our static library. A slice is passed as pointer and length.

use crate::case::{Call, Case, Outcome};

#[rustfmt::skip]
unsafe extern "C" {
    fn pozhdaghi_check(image: *const u8, image_len: usize, answer: *mut u64, answer_len: usize);
    fn pozhdaghi_replay(image: *const u8, image_len: usize, reference: u32,
        edges: *const u32, edges_len: usize, path: *mut u32, path_len: usize,
        answer: *mut u64, answer_len: usize);
    fn pozhdaghi_is_complete(image: *const u8, image_len: usize, reference: u32,
        edges: *const u32, edges_len: usize, answer: *mut u64, answer_len: usize);
    fn pozhdaghi_shadows(image: *const u8, image_len: usize,
        left: u32, left_edges: *const u32, left_edges_len: usize,
        right: u32, right_edges: *const u32, right_edges_len: usize,
        answer: *mut u64, answer_len: usize);
    fn pozhdaghi_direct(image: *const u8, image_len: usize, visible: *const u8, visible_len: usize, reference: u32,
        asked: *const u64, asked_len: usize, work: *mut u32, work_len: usize,
        result: *mut u32, result_len: usize, answer: *mut u64, answer_len: usize);
    fn pozhdaghi_direct_recorded(image: *const u8, image_len: usize, visible: *const u8, visible_len: usize, reference: u32,
        asked: *const u64, asked_len: usize, work: *mut u32, work_len: usize,
        result: *mut u32, result_len: usize, answer: *mut u64, answer_len: usize);
    fn pozhdaghi_find_name(image: *const u8, image_len: usize, visible: *const u8, visible_len: usize, node: u32,
        asked: *const u64, asked_len: usize, work: *mut u32, work_len: usize,
        result: *mut u32, result_len: usize, answer: *mut u64, answer_len: usize);
    fn pozhdaghi_tally(image: *const u8, image_len: usize, visible: *const u8, visible_len: usize, reference: u32,
        work: *mut u32, work_len: usize, answer: *mut u64, answer_len: usize);
    fn pozhdaghi_resolve_flow(image: *const u8, image_len: usize, visible: *const u8, visible_len: usize,
        rows: *const u8, rows_len: usize, isin: *const u8, isin_len: usize, tranche: u32, leg: u32,
        asked: *const u64, asked_len: usize, work: *mut u32, work_len: usize,
        result: *mut u32, result_len: usize, answer: *mut u64, answer_len: usize);
    fn pozhdaghi_linear(image: *const u8, image_len: usize, visible: *const u8, visible_len: usize, reference: u32,
        asked: *const u64, asked_len: usize,
        result: *mut u32, result_len: usize, answer: *mut u64, answer_len: usize);
    fn pozhdaghi_linear_recorded(image: *const u8, image_len: usize, visible: *const u8, visible_len: usize, reference: u32,
        asked: *const u64, asked_len: usize,
        result: *mut u32, result_len: usize, answer: *mut u64, answer_len: usize);
    fn pozhdaghi_fresh(image: *const u8, image_len: usize, words: *mut u32, words_len: usize,
        answer: *mut u64, answer_len: usize);
    fn pozhdaghi_replace_file(image: *const u8, image_len: usize, file: u32,
        asked: *const u64, asked_len: usize, work: *mut u32, work_len: usize,
        words: *mut u32, words_len: usize, answer: *mut u64, answer_len: usize);
    fn pozhdaghi_replace_aliases(image: *const u8, image_len: usize,
        asked: *const u64, asked_len: usize, work: *mut u32, work_len: usize,
        words: *mut u32, words_len: usize, answer: *mut u64, answer_len: usize);
    fn pozhdaghi_convert(old: *const u32, old_len: usize, new: *mut u32, new_len: usize,
        answer: *mut u64, answer_len: usize);
    fn pozhdaghi_compact(words: *mut u32, words_len: usize, list: *mut u32, list_len: usize,
        answer: *mut u64, answer_len: usize);
    fn pozhdaghi_lookup(words: *const u32, words_len: usize, number: u32,
        answer: *mut u64, answer_len: usize);
    // No drawn call: a window has no image, and service/tests/window compares it.
    #[allow(dead_code)]
    fn pozhdaghi_window_begin(words: *mut u32, words_len: usize);
    #[allow(dead_code)]
    fn pozhdaghi_window_enter(words: *mut u32, words_len: usize, count: u64, answer: *mut u64, answer_len: usize);
    #[allow(dead_code)]
    fn pozhdaghi_window_report(words: *const u32, words_len: usize, answer: *mut u64, answer_len: usize);
    fn pozhdaghi_stitched(image: *const u8, image_len: usize, visible: *const u8, visible_len: usize, words: *const u32, words_len: usize,
        reference: u32, asked: *const u64, asked_len: usize, work: *mut u32, work_len: usize,
        result: *mut u32, result_len: usize, answer: *mut u64, answer_len: usize);
    fn pozhdaghi_stitched_recorded(image: *const u8, image_len: usize, visible: *const u8, visible_len: usize,
        words: *const u32, words_len: usize,
        reference: u32, asked: *const u64, asked_len: usize, work: *mut u32, work_len: usize,
        result: *mut u32, result_len: usize, answer: *mut u64, answer_len: usize);
    fn pozhdaghi_node(image: *const u8, image_len: usize, visible: *const u8, visible_len: usize, node: u32,
        answer: *mut u64, answer_len: usize);
    fn pozhdaghi_edge(image: *const u8, image_len: usize, visible: *const u8, visible_len: usize, edge: u32,
        answer: *mut u64, answer_len: usize);
    fn pozhdaghi_references(image: *const u8, image_len: usize, visible: *const u8, visible_len: usize,
        result: *mut u32, result_len: usize, answer: *mut u64, answer_len: usize);
    fn pozhdaghi_outgoing(image: *const u8, image_len: usize, visible: *const u8, visible_len: usize, node: u32,
        result: *mut u32, result_len: usize, answer: *mut u64, answer_len: usize);
    fn pozhdaghi_widen(image: *const u8, image_len: usize, area: *mut u8, area_len: usize,
        answer: *mut u64, answer_len: usize);
    fn pozhdaghi_narrow(image: *const u8, image_len: usize, area: *mut u8, area_len: usize,
        answer: *mut u64, answer_len: usize);
}

/// What an unwritten number of the answer would show.
const UNWRITTEN: u64 = 0xABAD_1DEA_ABAD_1DEA;

/// What the call left behind, as many numbers of the answer as were asked for.
pub fn run(case: &Case) -> Outcome {
    let mut outcome = Outcome {
        answer: vec![UNWRITTEN; case.answer_length],
        words: case.words.clone(),
        work: case.work.clone(),
        result: case.result.clone(),
        area: case.area.clone(),
    };
    call(case, &mut outcome);
    outcome
}

/// SAFETY of every call: each pointer and length come from one vector that lives
/// until the call has ended, and those that are written are lent nowhere else.
#[rustfmt::skip]
fn call(c: &Case, o: &mut Outcome) {
    let (image, seen, asked) = (c.image.as_ptr(), c.visible.as_ptr(), c.asked.as_ptr());
    let (n, seen_n, asked_n) = (c.image.len(), c.visible.len(), c.asked.len());
    let (answer, answer_n) = (o.answer.as_mut_ptr(), o.answer.len());
    let (words, work, result) = (o.words.as_mut_ptr(), o.work.as_mut_ptr(), o.result.as_mut_ptr());
    let (words_n, work_n, result_n) = (o.words.len(), o.work.len(), o.result.len());
    unsafe {
        match c.call {
            Call::Check => pozhdaghi_check(image, n, answer, answer_n),
            Call::Replay => pozhdaghi_replay(image, n, c.number, c.edges.as_ptr(), c.edges.len(),
                result, result_n, answer, answer_n),
            Call::IsComplete => pozhdaghi_is_complete(image, n, c.number,
                c.edges.as_ptr(), c.edges.len(), answer, answer_n),
            Call::Shadows => pozhdaghi_shadows(image, n, c.number, c.edges.as_ptr(), c.edges.len(),
                c.right_number, c.right_edges.as_ptr(), c.right_edges.len(), answer, answer_n),
            Call::Direct => pozhdaghi_direct(image, n, seen, seen_n, c.number, asked, asked_n,
                work, work_n, result, result_n, answer, answer_n),
            Call::DirectRecorded => pozhdaghi_direct_recorded(image, n, seen, seen_n, c.number, asked, asked_n,
                work, work_n, result, result_n, answer, answer_n),
            Call::FindName => pozhdaghi_find_name(image, n, seen, seen_n, c.number, asked, asked_n,
                work, work_n, result, result_n, answer, answer_n),
            Call::Tally => pozhdaghi_tally(image, n, seen, seen_n, c.number, work, work_n, answer, answer_n),
            Call::ResolveFlow => pozhdaghi_resolve_flow(image, n, seen, seen_n, c.rows.as_ptr(), c.rows.len(),
                c.isin.as_ptr(), c.isin.len(), c.tranche, c.leg, asked, asked_n,
                work, work_n, result, result_n, answer, answer_n),
            Call::Linear => pozhdaghi_linear(image, n, seen, seen_n, c.number, asked, asked_n,
                result, result_n, answer, answer_n),
            Call::LinearRecorded => pozhdaghi_linear_recorded(image, n, seen, seen_n, c.number, asked, asked_n,
                result, result_n, answer, answer_n),
            Call::Fresh => pozhdaghi_fresh(image, n, words, words_n, answer, answer_n),
            Call::ReplaceFile => pozhdaghi_replace_file(image, n, c.number, asked, asked_n,
                work, work_n, words, words_n, answer, answer_n),
            Call::ReplaceAliases => pozhdaghi_replace_aliases(image, n, asked, asked_n,
                work, work_n, words, words_n, answer, answer_n),
            Call::Convert => pozhdaghi_convert(words, words_n, result, result_n, answer, answer_n),
            Call::Compact => pozhdaghi_compact(words, words_n, result, result_n, answer, answer_n),
            Call::Lookup => pozhdaghi_lookup(words, words_n, c.number, answer, answer_n),
            Call::Stitched => pozhdaghi_stitched(image, n, seen, seen_n, words, words_n, c.number,
                asked, asked_n, work, work_n, result, result_n, answer, answer_n),
            Call::StitchedRecorded => pozhdaghi_stitched_recorded(image, n, seen, seen_n, words, words_n,
                c.number, asked, asked_n, work, work_n, result, result_n, answer, answer_n),
            Call::Node => pozhdaghi_node(image, n, seen, seen_n, c.number, answer, answer_n),
            Call::Edge => pozhdaghi_edge(image, n, seen, seen_n, c.number, answer, answer_n),
            Call::References => pozhdaghi_references(image, n, seen, seen_n, result, result_n, answer, answer_n),
            Call::Outgoing => pozhdaghi_outgoing(image, n, seen, seen_n, c.number,
                result, result_n, answer, answer_n),
            Call::Widen => pozhdaghi_widen(image, n, o.area.as_mut_ptr(), o.area.len(), answer, answer_n),
            Call::Narrow => pozhdaghi_narrow(image, n, o.area.as_mut_ptr(), o.area.len(), answer, answer_n),
        }
    }
}
