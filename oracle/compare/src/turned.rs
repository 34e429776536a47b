//! Both versions of an image side by side: "an image rewritten from 1 to 2 with its
//! symbols extended by zeros resolves with the same paths and statistics", and "each
//! rewrite undoes the other byte for byte". The rewritings are our own library's.

use crate::case::{Call, Case, Outcome};
use crate::graph::Version;
use crate::ours;

/// What an unwritten byte would show.
const UNWRITTEN: u8 = 0xAB;

/// The call that rewrites an image of this version.
pub fn rewriting_of(version: Version) -> Call {
    match version {
        Version::Narrow => Call::Widen,
        Version::Wide => Call::Narrow,
    }
}

/// What the call leaves behind when its image is rewritten first; none for an image
/// that is refused or has no other version.
pub fn run(case: &Case) -> Option<Outcome> {
    if case.call.is_rewriting() {
        return None;
    }
    let version = Version::of_byte(*case.image.first()?)?;
    // No record becomes twice as long.
    let image = rewritten(&case.image, version, 2 * case.image.len())?;
    Some(ours::run(&Case {
        image,
        ..case.clone()
    }))
}

/// The image in the other version, in an area of so many bytes; none if refused.
fn rewritten(image: &[u8], version: Version, room: usize) -> Option<Vec<u8>> {
    let mut asked = Case::new(rewriting_of(version), image);
    asked.area = vec![UNWRITTEN; room];
    let Outcome {
        answer, mut area, ..
    } = ours::run(&asked);
    match answer[..] {
        [0, length, ..] => {
            area.truncate(length as usize);
            Some(area)
        }
        _ => None,
    }
}

/// Whether the rewritten image, whose length the second implementation tells, is
/// rewritten to the given one. A refused rewriting has nothing to undo.
pub fn is_undone(case: &Case, told: &Outcome, ours: &Outcome) -> bool {
    let (0, Some(&length), Some(given)) = (
        told.number(),
        told.answer.get(1),
        case.image.first().and_then(|&byte| Version::of_byte(byte)),
    ) else {
        return true;
    };
    let image = &ours.area[..length as usize];
    rewritten(image, given.other(), case.image.len()).as_deref() == Some(&case.image[..])
}
