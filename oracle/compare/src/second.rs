//! A call answered by the second implementation of documents 01 and 02.

use crate::budget::{SLOT, Slots};
use crate::case::{Call, Case, Outcome};
use crate::check::{Refusal, check};
use crate::compaction::{PAIR, compact};
use crate::conversion::convert;
use crate::database::{check_database, fresh, lookup, partial_paths, replace};
use crate::desks;
use crate::directory;
use crate::graph::Version;
use crate::names::find_name;
use crate::partials::Owner;
use crate::path::replay;
use crate::readers;
use crate::rewriting;
use crate::search::{Found, direct, linear, stitched};
use crate::tally::tally;

/// What the call must leave behind, the answer whole.
pub fn run(case: &Case) -> Outcome {
    answered(case).unwrap_or_else(|refusal| Outcome::new(case, refusal))
}

fn answered(case: &Case) -> Result<Outcome, Refusal> {
    match case.call {
        Call::Check => checked(case),
        Call::Replay => replayed(case),
        Call::IsComplete => is_complete(case),
        Call::Shadows => shadows(case),
        Call::Direct
        | Call::DirectRecorded
        | Call::Linear
        | Call::LinearRecorded
        | Call::Stitched
        | Call::StitchedRecorded => searched(case),
        Call::FindName => named(case),
        Call::Tally => tallied(case),
        Call::ResolveFlow => resolved(case),
        Call::Fresh => created(case),
        Call::ReplaceFile => replaced(case, Owner::File(case.number)),
        Call::ReplaceAliases => replaced(case, Owner::Nobody),
        Call::Convert => converted(case),
        Call::Compact => compacted(case),
        Call::Lookup => Ok(looked_up(case)),
        Call::Node | Call::Edge | Call::References | Call::Outgoing => read(case),
        Call::Widen => rewritten(case, Version::Wide),
        Call::Narrow => rewritten(case, Version::Narrow),
    }
}

fn checked(case: &Case) -> Result<Outcome, Refusal> {
    let graph = check(&case.image)?;
    let counts = [graph.files, graph.nodes.len(), graph.edges.len()].map(|count| count as u64);
    Ok(Outcome::new(case, [&[0], &counts[..]].concat()))
}

/// "Answers the path (end, steps, both stacks), or the first refusal."
fn replayed(case: &Case) -> Result<Outcome, Refusal> {
    let graph = check(&case.image)?;
    let path = replay(&graph, case.number, &case.edges)?;
    let mut outcome = Outcome::new(case, vec![0]);
    outcome.put_replayed(&path.replayed());
    Ok(outcome)
}

fn is_complete(case: &Case) -> Result<Outcome, Refusal> {
    let graph = check(&case.image)?;
    let path = replay(&graph, case.number, &case.edges)?;
    Ok(Outcome::new(case, vec![0, path.is_complete(&graph).into()]))
}

/// "The left path before the right, under the same refusals."
fn shadows(case: &Case) -> Result<Outcome, Refusal> {
    let graph = check(&case.image)?;
    let left = replay(&graph, case.number, &case.edges)?;
    let right = replay(&graph, case.right_number, &case.right_edges)?;
    Ok(Outcome::new(case, vec![0, left.shadows(&right).into()]))
}

/// What a search finds in areas of so many slots.
pub fn found(case: &Case, slots: Slots) -> Result<Found, Refusal> {
    let graph = desks::seen_by(case)?;
    let asked = case.meaning();
    match case.call {
        Call::Linear | Call::LinearRecorded => linear(&graph, case.number, asked, slots.results),
        Call::Stitched | Call::StitchedRecorded => {
            // every slot, those of hidden files too
            check_database(&graph, &case.words)?;
            let paths = desks::seen_paths(partial_paths(&case.words), &case.visible);
            stitched(&graph, &paths, case.number, asked, slots)
        }
        _ => direct(&graph, case.number, asked, slots),
    }
}

/// The whole slots of both areas.
pub fn lent(case: &Case) -> Slots {
    Slots {
        waiting: case.work.len() / SLOT,
        results: case.result.len() / SLOT,
    }
}

fn searched(case: &Case) -> Result<Outcome, Refusal> {
    let found = found(case, lent(case))?;
    let paths = if case.call.is_recorded() {
        found.recorded.clone()
    } else {
        found.returned()
    };
    let told = [vec![0, paths.len() as u64], found.told()].concat();
    let mut outcome = Outcome::new(case, told);
    outcome.put_paths(&paths.into_iter().map(|path| path.edges).collect::<Vec<_>>());
    Ok(outcome)
}

/// "The path is put in the first result slot, all else zero."
fn named(case: &Case) -> Result<Outcome, Refusal> {
    let graph = desks::seen_by(case)?;
    let named = find_name(&graph, case.number, case.meaning().length, lent(case))?;
    let Some((reference, path)) = named.name else {
        return Ok(Outcome::new(case, vec![0, 0]));
    };
    let mut outcome = Outcome::new(case, vec![0, 1, reference.into()]);
    outcome.put_paths(&[path.edges]);
    Ok(outcome)
}

/// "64 numbers: for each length 0 to 63"; no area but the work area.
fn tallied(case: &Case) -> Result<Outcome, Refusal> {
    let graph = desks::seen_by(case)?;
    let numbers = tally(&graph, case.number, lent(case).waiting)?;
    Ok(Outcome::new(case, [vec![0], numbers].concat()))
}

/// "Finds the row, resolves directly": what that search gives, and where its paths end.
fn resolved(case: &Case) -> Result<Outcome, Refusal> {
    let graph = desks::seen_by(case)?;
    let reference = directory::reference(case)?;
    let found = direct(&graph, reference, case.meaning(), lent(case))?;
    let paths = found.returned();
    let ends = directory::definitions(&paths);
    let told = [vec![0, paths.len() as u64], found.told(), ends.to_vec()].concat();
    let mut outcome = Outcome::new(case, told);
    outcome.put_paths(&paths.into_iter().map(|path| path.edges).collect::<Vec<_>>());
    Ok(outcome)
}

/// What stands in the part of the image that the set shows.
fn read(case: &Case) -> Result<Outcome, Refusal> {
    let graph = desks::seen_by(case)?;
    let told = match case.call {
        Call::Node => readers::node(&graph, case.number)?,
        Call::Edge => readers::edge(&graph, case.number)?,
        Call::References => return listed(case, graph.references()),
        _ => return listed(case, readers::outgoing(&graph, case.number)?),
    };
    Ok(Outcome::new(case, [vec![0], told].concat()))
}

/// The numbers in the first words, zeros behind.
fn listed(case: &Case, numbers: Vec<u32>) -> Result<Outcome, Refusal> {
    let numbers = readers::fitting(numbers, case.result.len())?;
    let mut outcome = Outcome::new(case, vec![0, numbers.len() as u64]);
    outcome.result[..numbers.len()].copy_from_slice(&numbers);
    Ok(outcome)
}

fn created(case: &Case) -> Result<Outcome, Refusal> {
    let graph = check(&case.image)?;
    let mut outcome = Outcome::new(case, vec![0]);
    fresh(&graph, &mut outcome.words)?;
    Ok(outcome)
}

fn replaced(case: &Case, owner: Owner) -> Result<Outcome, Refusal> {
    let graph = check(&case.image)?;
    let mut outcome = Outcome::new(case, vec![0]);
    let waiting = case.work.len() / SLOT;
    let computed = replace(&graph, owner, case.meaning(), waiting, &mut outcome.words)?;
    outcome.answer.extend(computed.told());
    Ok(outcome)
}

/// "Bytes behind the rewritten image are zero."
fn rewritten(case: &Case, wanted: Version) -> Result<Outcome, Refusal> {
    let bytes = rewriting::rewritten(&case.image, wanted, case.area.len())?;
    let mut outcome = Outcome::new(case, vec![0, bytes.len() as u64]);
    outcome.area[..bytes.len()].copy_from_slice(&bytes);
    Ok(outcome)
}

/// "Words behind the used slots are zero, and any refusal leaves the written area" so.
fn converted(case: &Case) -> Result<Outcome, Refusal> {
    let new = convert(&case.words, case.result.len())?;
    let mut outcome = Outcome::new(case, vec![0]);
    outcome.result[..new.len()].copy_from_slice(&new);
    Ok(outcome)
}

/// "Unused list words become zero"; a refused call leaves the whole list so.
fn compacted(case: &Case) -> Result<Outcome, Refusal> {
    let done = compact(&case.words, case.result.len())?;
    let mut outcome = Outcome::new(case, vec![0, done.renumbered.len() as u64]);
    for (pair, place) in done
        .renumbered
        .iter()
        .zip(outcome.result.chunks_exact_mut(PAIR))
    {
        place.copy_from_slice(pair);
    }
    outcome.words = done.words;
    Ok(outcome)
}

fn looked_up(case: &Case) -> Outcome {
    let (place, length) = lookup(&case.words, case.number);
    Outcome::new(case, vec![place as u64, length as u64])
}
