//! The compaction of a database, written a second time from document 02, order 7: the
//! live slots are taken out with their numbers, and the words put together anew.

use crate::case::{Call, Case, Outcome};
use crate::check::Refusal;
use crate::database::{FILES, NODES, OWNER, USED, is_sound, place, slot};
use crate::ours;

/// "Two words for each live slot": the old and the new number.
pub const PAIR: usize = 2;

/// The words without dead slots, and each live slot's old and new number.
pub struct Compacted {
    pub words: Vec<u32>,
    pub renumbered: Vec<[u32; PAIR]>,
}

/// "Gives 32, after 35, with nothing moved when the list is too short." Else it "drops
/// dead slots and renumbers live ones in their old order"; "freed slots become zero".
pub fn compact(words: &[u32], list: usize) -> Result<Compacted, Refusal> {
    if !is_sound(words) {
        return Err(vec![35]);
    }
    let used = words[USED] as usize;
    let live: Vec<usize> = (0..used)
        .filter(|&number| slot(words, number)[OWNER] != 0)
        .collect();
    if list < PAIR * live.len() {
        return Err(vec![32]);
    }
    let mut new = vec![live.len() as u32, words[NODES], words[FILES]];
    for &number in &live {
        new.extend(slot(words, number));
    }
    new.resize(place(used), 0);
    new.extend(&words[place(used)..]);
    let pairs = live.iter().zip(0..).map(|(&old, new)| [old as u32, new]);
    Ok(Compacted {
        words: new,
        renumbered: pairs.collect(),
    })
}

/// "Every stitched search gives the same paths, order and statistics before and after":
/// whether our own call leaves the same on the words that our own compaction makes, with
/// every word of both areas. None for other calls and for words that are 35.
pub fn is_kept(case: &Case, ours: &Outcome) -> Option<bool> {
    let is_stitched = matches!(case.call, Call::Stitched | Call::StitchedRecorded);
    if !is_stitched || !is_sound(&case.words) {
        return None;
    }
    let mut compaction = Case::new(Call::Compact, &[]);
    compaction.words = case.words.clone();
    compaction.result = vec![0; PAIR * case.words[USED] as usize];
    let mut after = case.clone();
    after.words = ours::run(&compaction).words;
    let left = ours::run(&after);
    let alike = left.answer == ours.answer && left.work == ours.work && left.result == ours.result;
    Some(alike && left.words == after.words)
}
