//! What the calls answer, from the numbers that the library writes: 0 and the
//! values of a call that is not refused, or the refusal's number and values.

use crate::{Definitions, Flow, NodeId, Refusal, LENGTHS};

/// The longest answer but a tally's: 0, the number of paths, four counts, three flags, the
/// waiting figure, whether a cash flow has one definition, and that definition.
pub(crate) const ANSWER: usize = 12;

/// A tally's answer: 0 and a number for each length.
pub(crate) const TALLY: usize = 1 + LENGTHS;

/// What a search counted, and which limits it met.
#[derive(Clone, Copy, Debug, Default, PartialEq, Eq)]
pub struct Statistics {
    /// Paths that were expanded.
    pub expanded: u64,
    /// Complete paths that were met, copies and shadowed ones among them: as many result
    /// slots are enough for this search.
    pub complete: u64,
    /// Edges that could not be appended, as a symbol or a scope did not fit.
    pub rejected: u64,
    /// Paths that were cut as they ran in a circle.
    pub cycles: u64,
    /// The limit on length turned a path away.
    pub length_limited: bool,
    /// The limit on expanded paths ended the search.
    pub count_limited: bool,
    /// The limit on complete paths left one out.
    pub complete_limited: bool,
    /// How many paths ever waited together: with as many waiting slots the same
    /// search gives the same answer, with fewer it is [`Refusal::NoWaitingSlot`]. 0 of a
    /// linear search, in which nothing waits.
    pub waited: u64,
}

/// A search that is over.
#[derive(Clone, Copy, Debug, PartialEq, Eq)]
pub struct Resolution {
    /// How many paths stand in the result slots.
    pub paths: u64,
    /// What the search counted.
    pub statistics: Statistics,
}

/// What the computation of a file's partial paths, or of the alias set, counted, and
/// which limits it met.
#[derive(Clone, Copy, Debug, Default, PartialEq, Eq)]
pub struct PartialStatistics {
    /// Paths that were expanded.
    pub expanded: u64,
    /// Partial paths that were found, each of which took a record.
    pub found: u64,
    /// Paths that were cut as they ran in a circle.
    pub cycles: u64,
    /// The limit on length turned a path away.
    pub length_limited: bool,
    /// The limit on expanded paths ended the computation.
    pub count_limited: bool,
    /// As of a search: with as many waiting slots the answer is the same.
    pub waited: u64,
}

/// The values of an answer, unless it is a refusal.
pub(crate) fn values(answer: &[u64; ANSWER]) -> Result<[u64; ANSWER - 1], Refusal> {
    let &[number, first, second, ..] = answer;
    let &[_, ref values @ ..] = answer;
    match number {
        0 => Ok(*values),
        _ => Err(Refusal::from_numbers(number, [first, second])),
    }
}

/// Files, nodes and edges, each at most a few thousand.
pub(crate) fn counts(answer: &[u64; ANSWER]) -> Result<[u32; 3], Refusal> {
    let [files, nodes, edges, ..] = values(answer)?;
    Ok([files, nodes, edges].map(|count| count as u32))
}

pub(crate) fn judgement(answer: &[u64; ANSWER]) -> Result<bool, Refusal> {
    let [holds, ..] = values(answer)?;
    Ok(holds != 0)
}

pub(crate) fn done(answer: &[u64; ANSWER]) -> Result<(), Refusal> {
    values(answer).map(|_| ())
}

pub(crate) fn resolution(answer: &[u64; ANSWER]) -> Result<Resolution, Refusal> {
    let [paths, expanded, complete, rejected, cycles, length, count, kept, waited, ..] =
        values(answer)?;
    let statistics = Statistics {
        expanded,
        complete,
        rejected,
        cycles,
        length_limited: length != 0,
        count_limited: count != 0,
        complete_limited: kept != 0,
        waited,
    };
    Ok(Resolution { paths, statistics })
}

/// A cash flow: the resolution, then 0, 1 or 2 for no definition, one or several, and the one.
pub(crate) fn flow(answer: &[u64; ANSWER]) -> Result<Flow, Refusal> {
    let resolution = resolution(answer)?;
    let definitions = match answer {
        [.., 0, _] => Definitions::Nothing,
        [.., 1, node] => Definitions::One(NodeId(*node as u32)),
        _ => Definitions::Several,
    };
    Ok(Flow {
        definitions,
        resolution,
    })
}

/// The reference of a name, if there is one.
pub(crate) fn name(answer: &[u64; ANSWER]) -> Result<Option<NodeId>, Refusal> {
    let [is_found, reference, ..] = values(answer)?;
    Ok((is_found != 0).then_some(NodeId(reference as u32)))
}

/// The numbers of a tally.
pub(crate) fn tally(answer: &[u64; TALLY]) -> Result<[u64; LENGTHS], Refusal> {
    let &[number, ref numbers @ ..] = answer;
    match number {
        0 => Ok(*numbers),
        _ => Err(Refusal::from_numbers(number, [numbers[0], numbers[1]])),
    }
}

/// How many bytes a rewritten image has, how many records of a compacted database are live,
/// or how many numbers are listed: at most 65,536.
pub(crate) fn length(answer: &[u64; ANSWER]) -> Result<usize, Refusal> {
    let [length, ..] = values(answer)?;
    Ok(length as usize)
}

pub(crate) fn replacement(answer: &[u64; ANSWER]) -> Result<PartialStatistics, Refusal> {
    let [expanded, found, cycles, length, count, waited, ..] = values(answer)?;
    Ok(PartialStatistics {
        expanded,
        found,
        cycles,
        length_limited: length != 0,
        count_limited: count != 0,
        waited,
    })
}
