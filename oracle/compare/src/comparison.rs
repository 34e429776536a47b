//! A case put to all three, and where they differ.

use crate::agreement::Agreement;
use crate::case::{Call, Case, Outcome};
use crate::{agreement, compaction, given, neighbours, ours, second, turned};
use std::panic::{AssertUnwindSafe, catch_unwind, set_hook, take_hook};

/// What the three left behind; the given library only where it has the answer.
pub struct Compared {
    /// The number of the second implementation's answer, whole.
    pub number: u64,
    pub ours: Outcome,
    /// The same as the given library would have it.
    counted: Outcome,
    pub second: Outcome,
    /// None within where the given library panicked.
    pub given: Option<Option<Outcome>>,
    /// Ours on the image in the other version, if it has one.
    pub turned: Option<Outcome>,
    /// The image that a rewriting hands back is rewritten to the given one.
    pub is_undone: bool,
    /// Whether a stitched search records what direct search does, where it must; and
    /// which edges its database takes in.
    pub agreement: Option<Agreement>,
    /// Whether a stitched search answers as before when its database is compacted first.
    pub is_kept: Option<bool>,
    /// Whether a search leaves the same where everything that it hides is another.
    pub is_apart: Option<bool>,
}

impl Compared {
    pub fn differs(&self) -> bool {
        let from_given = self
            .given
            .as_ref()
            .is_some_and(|given| given.as_ref() != Some(&self.counted));
        let from_turned = self
            .turned
            .as_ref()
            .is_some_and(|turned| *turned != self.ours);
        let disagrees = self.agreement.is_some_and(|found| !found.holds);
        let is_lost = self.is_kept == Some(false) || self.is_apart == Some(false);
        let is_other = self.ours != self.second || from_given || from_turned;
        is_other || !self.is_undone || disagrees || is_lost
    }
}

/// None for a case that is not tried: 36.
pub fn compare(case: &Case) -> Option<Compared> {
    let whole = second::run(case);
    let number = if case.call == Call::Lookup {
        0
    } else {
        whole.number()
    };
    if number == 36 {
        return None;
    }
    let given = given::has(case, number).then(|| given_or_panic(case));
    let ours = ours::run(case);
    Some(Compared {
        number,
        counted: ours.without_waited(case.call),
        turned: turned::run(case),
        is_undone: !case.call.is_rewriting() || turned::is_undone(case, &whole, &ours),
        agreement: agreement::found(case, &whole, &ours),
        is_kept: compaction::is_kept(case, &ours),
        is_apart: neighbours::is_apart(case, &ours),
        ours,
        second: whole.cut(case),
        given,
    })
}

/// A panic of the given library is its answer; a report of it would only repeat that.
fn given_or_panic(case: &Case) -> Option<Outcome> {
    let hook = take_hook();
    set_hook(Box::new(|_| {}));
    let ran = catch_unwind(AssertUnwindSafe(|| given::run(case).cut(case)));
    set_hook(hook);
    ran.ok()
}
