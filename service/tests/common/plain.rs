//! The calls of the package over slices and bare numbers, as the tests draw them. Each lends
//! them in the package's types; an image is lent unchecked, so that each call is tried on
//! bytes that are none. What the package reads back from an area is held to the area's words.

use pozhdaghi::{
    Database, DatabaseMut, EdgeId, FileId, Former, Image, Moves, NodeId, PartialPathId,
    PartialStatistics, Refusal, Replayed, Request, Resolution, Results, Visible, Work, LENGTHS,
    PAIR_WORDS, SLOT_WORDS,
};

/// The files, nodes and edges of an accepted image.
#[derive(Clone, Copy, Debug, PartialEq, Eq)]
pub struct Counts {
    pub files: u32,
    pub nodes: u32,
    pub edges: u32,
}

pub fn check(image: &[u8]) -> Result<Counts, Refusal> {
    let image = Image::check(image)?;
    Ok(Counts {
        files: image.files(),
        nodes: image.nodes(),
        edges: image.edges(),
    })
}

fn edges(words: &[u32]) -> Vec<EdgeId> {
    words.iter().copied().map(EdgeId).collect()
}

pub fn replay(image: &[u8], reference: u32, list: &[u32]) -> Result<Replayed, Refusal> {
    Image::unchecked(image).replay(NodeId(reference), &edges(list))
}

pub fn is_complete(image: &[u8], reference: u32, list: &[u32]) -> Result<bool, Refusal> {
    Image::unchecked(image).is_complete(NodeId(reference), &edges(list))
}

pub fn shadows(
    image: &[u8],
    (left, left_edges): (u32, &[u32]),
    (right, right_edges): (u32, &[u32]),
) -> Result<bool, Refusal> {
    let (left_edges, right_edges) = (edges(left_edges), edges(right_edges));
    Image::unchecked(image).shadows((NodeId(left), &left_edges), (NodeId(right), &right_edges))
}

/// The paths in the words of a result area: the slots up to the first without edges.
pub fn paths(result: &[u32]) -> impl Iterator<Item = &[u32]> {
    let slots = result.chunks_exact(SLOT_WORDS);
    slots
        .take_while(|slot| slot[0] > 0)
        .map(|slot| &slot[1..1 + slot[0] as usize])
}

/// A search in a result area, and what the package hands back of it: as many paths as are
/// answered, those of the words, from both ends; none if it is refused.
fn searched(
    result: &mut [u32],
    search: impl FnOnce(&mut Results) -> Result<Resolution, Refusal>,
) -> Result<Resolution, Refusal> {
    let mut results = Results::lend(result);
    assert_eq!(results.paths().len(), 0);
    let told = search(&mut results);
    let count = told.map_or(0, |found| found.paths as usize);
    assert_eq!(results.paths().len(), count);
    let handed = listed(results.paths());
    let mut turned = listed(results.paths().rev());
    turned.reverse();
    let read: Vec<Vec<u32>> = paths(result).map(<[u32]>::to_vec).collect();
    assert_eq!((&handed, &turned), (&read, &read));
    told
}

fn listed<'a>(paths: impl Iterator<Item = pozhdaghi::Path<'a>>) -> Vec<Vec<u32>> {
    let numbers = |path: pozhdaghi::Path<'a>| path.into_iter().map(|edge| edge.0).collect();
    paths.map(numbers).collect()
}

pub fn direct(
    image: &[u8],
    visible: Visible,
    reference: u32,
    request: &Request,
    work: &mut [u32],
    result: &mut [u32],
) -> Result<Resolution, Refusal> {
    let (image, reference) = (Image::unchecked(image), NodeId(reference));
    searched(result, |results| {
        image.direct(visible, reference, request, &mut Work::lend(work), results)
    })
}

pub fn direct_recorded(
    image: &[u8],
    visible: Visible,
    reference: u32,
    request: &Request,
    work: &mut [u32],
    result: &mut [u32],
) -> Result<Resolution, Refusal> {
    let (image, reference) = (Image::unchecked(image), NodeId(reference));
    searched(result, |results| {
        image.direct_recorded(visible, reference, request, &mut Work::lend(work), results)
    })
}

pub fn tally(
    image: &[u8],
    visible: Visible,
    reference: u32,
    work: &mut [u32],
) -> Result<[u64; LENGTHS], Refusal> {
    let (image, reference) = (Image::unchecked(image), NodeId(reference));
    image.tally(visible, reference, &mut Work::lend(work))
}

pub fn linear(
    image: &[u8],
    visible: Visible,
    reference: u32,
    request: &Request,
    result: &mut [u32],
) -> Result<Resolution, Refusal> {
    let (image, reference) = (Image::unchecked(image), NodeId(reference));
    searched(result, |results| {
        image.linear(visible, reference, request, results)
    })
}

pub fn linear_recorded(
    image: &[u8],
    visible: Visible,
    reference: u32,
    request: &Request,
    result: &mut [u32],
) -> Result<Resolution, Refusal> {
    let (image, reference) = (Image::unchecked(image), NodeId(reference));
    searched(result, |results| {
        image.linear_recorded(visible, reference, request, results)
    })
}

pub fn stitched(
    image: &[u8],
    visible: Visible,
    words: &[u32],
    reference: u32,
    request: &Request,
    work: &mut [u32],
    result: &mut [u32],
) -> Result<Resolution, Refusal> {
    let (image, database) = (Image::unchecked(image), Database::lend(words));
    let (reference, mut work) = (NodeId(reference), Work::lend(work));
    searched(result, |results| {
        image.stitched(visible, database, reference, request, &mut work, results)
    })
}

pub fn stitched_recorded(
    image: &[u8],
    visible: Visible,
    words: &[u32],
    reference: u32,
    request: &Request,
    work: &mut [u32],
    result: &mut [u32],
) -> Result<Resolution, Refusal> {
    let (image, database) = (Image::unchecked(image), Database::lend(words));
    let (reference, mut work) = (NodeId(reference), Work::lend(work));
    searched(result, |results| {
        image.stitched_recorded(visible, database, reference, request, &mut work, results)
    })
}

pub fn find_name(
    image: &[u8],
    visible: Visible,
    node: u32,
    length: Option<u64>,
    work: &mut [u32],
    result: &mut [u32],
) -> Result<Option<u32>, Refusal> {
    let mut results = Results::lend(result);
    let mut work = Work::lend(work);
    let image = Image::unchecked(image);
    let name = image.find_name(visible, NodeId(node), length, &mut work, &mut results);
    let handed = listed(results.paths());
    assert_eq!(handed.len(), usize::from(matches!(name, Ok(Some(_)))));
    assert!(handed.iter().eq(paths(result)));
    name.map(|reference| reference.map(u32::from))
}

pub fn fresh(image: &[u8], words: &mut [u32]) -> Result<(), Refusal> {
    DatabaseMut::lend(words).fresh(Image::unchecked(image))
}

pub fn replace_file(
    image: &[u8],
    file: u32,
    request: &Request,
    work: &mut [u32],
    words: &mut [u32],
) -> Result<PartialStatistics, Refusal> {
    let (image, file, mut work) = (Image::unchecked(image), FileId(file), Work::lend(work));
    DatabaseMut::lend(words).replace_file(image, file, request, &mut work)
}

pub fn replace_aliases(
    image: &[u8],
    request: &Request,
    work: &mut [u32],
    words: &mut [u32],
) -> Result<PartialStatistics, Refusal> {
    let (image, mut work) = (Image::unchecked(image), Work::lend(work));
    DatabaseMut::lend(words).replace_aliases(image, request, &mut work)
}

pub fn convert(old: &[u32], new: &mut [u32]) -> Result<(), Refusal> {
    Former::lend(old).convert(&mut DatabaseMut::lend(new))
}

/// The pairs that the package hands back are those of the list, and each new number is found
/// under its old one.
pub fn compact(words: &mut [u32], list: &mut [u32]) -> Result<u32, Refusal> {
    let mut moves = Moves::lend(list);
    assert_eq!(moves.pairs().len(), 0);
    let live = DatabaseMut::lend(words).compact(&mut moves);
    assert_eq!(moves.pairs().len(), live.unwrap_or(0));
    let handed: Vec<[u32; 2]> = moves.pairs().map(|(old, new)| [old.0, new.0]).collect();
    if let Some((old, new)) = moves.pairs().last() {
        assert_eq!(moves.new_number(old), Some(new));
        assert_eq!(moves.new_number(PartialPathId(old.0 + 1)), None);
    }
    assert_eq!(handed.concat(), list[..PAIR_WORDS * handed.len()]);
    live.map(|live| live as u32)
}

/// The edges of a partial path, as a part of the words; empty if there is none.
pub fn lookup(words: &[u32], number: u32) -> &[u32] {
    let Some(path) = Database::lend(words).lookup(PartialPathId(number)) else {
        return &[];
    };
    let edges = path.edges();
    let place = edges.as_ptr() as usize - words.as_ptr() as usize;
    let from = place / size_of::<u32>();
    &words[from..from + edges.len()]
}

pub fn widen(image: &[u8], area: &mut [u8]) -> Result<usize, Refusal> {
    let wide = Image::unchecked(image).widen(area)?;
    Ok(wide.bytes().len())
}

pub fn narrow(image: &[u8], area: &mut [u8]) -> Result<usize, Refusal> {
    let narrow = Image::unchecked(image).narrow(area)?;
    Ok(narrow.bytes().len())
}
