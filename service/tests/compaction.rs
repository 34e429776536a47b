//! The compaction of document 02, order 7: dead slots dropped, live ones renumbered in
//! their old order. `wanted` is a second reading of the order; every list is lent dirty.

mod common;

use common::{
    database, definition, filed, graph_a, graph_c, image_of, is_zero, place, plain, reference,
    refusal, scope, slots, Drawn, Record, Slot, NOBODY,
};
use pozhdaghi::{
    Limits, Order, PartialStatistics, Refusal, Request, Resolution, Visible, ALIASES,
    DATABASE_HEAD, MOST_EDGES, PAIR_WORDS, RECORD_WORDS,
};
use std::collections::BTreeMap;

const MOST_RECORDS: usize = 4_096;
const SHORT_LIST: u64 = 32;
const FULL: u64 = 33;
const MALFORMED: u64 = 35;

/// The greatest edge count, as a word.
const MOST: u32 = MOST_EDGES as u32;

/// The number of live slots or that of the refusal, and every word lent.
#[derive(PartialEq, Debug)]
struct Left {
    answer: Result<u32, u64>,
    words: Vec<u32>,
    list: Vec<u32>,
}

/// The live slots with their numbers, every word of each; nothing where it is 35.
fn live_slots(words: &[u32]) -> Option<Vec<(u32, &[u32])>> {
    let &[used, nodes, files, ref lent @ ..] = words else {
        return None;
    };
    let lent = lent.chunks_exact(RECORD_WORDS).take(MOST_RECORDS);
    if used as usize > lent.len() {
        return None;
    }
    let mut live = Vec::new();
    for (number, slot) in (0..used).zip(lent) {
        let (owner, start, count) = (slot[0], slot[1], slot[3]);
        if owner == 0 {
            continue;
        }
        let is_known = owner <= files || owner == ALIASES;
        if !is_known || start >= nodes || count == 0 || count > MOST {
            return None;
        }
        live.push((number, slot));
    }
    Some(live)
}

/// What the call must leave behind with a list of this length.
fn wanted(words: &[u32], length: usize) -> Left {
    let refused = |number| Left {
        answer: Err(number),
        words: words.to_vec(),
        list: vec![0; length],
    };
    let Some(live) = live_slots(words) else {
        return refused(MALFORMED);
    };
    let pairs = live.iter().zip(0..).map(|(&(old, _), new)| [old, new]);
    let mut list: Vec<u32> = pairs.flatten().collect();
    if list.len() > length {
        return refused(SHORT_LIST);
    }
    list.resize(length, 0);
    let (count, behind) = (live.len() as u32, place(words[0] as usize));
    let mut new = vec![count, words[1], words[2]];
    for (_, slot) in live {
        new.extend(slot);
    }
    new.resize(behind, 0);
    new.extend(&words[behind..]);
    Left {
        answer: Ok(count),
        words: new,
        list,
    }
}

/// The call with a dirty list of so many words, held to the second reading.
fn compacted(words: &[u32], length: usize) -> Left {
    let (mut new, mut list) = (words.to_vec(), vec![0xA5A5_A5A5; length]);
    let answer = plain::compact(&mut new, &mut list).map_err(|refusal| {
        assert_eq!(refusal.values(), [0, 0]);
        refusal.number()
    });
    if answer.is_err() {
        assert!(new == words, "a refused call alters no word");
        assert!(is_zero(&list), "a refused call leaves the list zero");
    }
    let left = Left {
        answer,
        words: new,
        list,
    };
    assert_eq!(left.answer, wanted(words, length).answer);
    assert!(left == wanted(words, length), "other words");
    left
}

/// A compaction that is not refused, with a list for every used slot.
fn done(words: &[u32]) -> Left {
    let left = compacted(words, PAIR_WORDS * words[0] as usize);
    assert!(left.answer.is_ok());
    left
}

/// Lookups by the list: each new number has the edges that the old one had, and every
/// number that is in no pair has none.
fn numbers_follow(before: &[u32], left: &Left) {
    let live = left.answer.expect("not refused") as usize;
    let pairs = left.list[..PAIR_WORDS * live].chunks_exact(PAIR_WORDS);
    let olds: Vec<u32> = pairs.clone().map(|pair| pair[0]).collect();
    let news: Vec<u32> = pairs.map(|pair| pair[1]).collect();
    assert!(olds.is_sorted_by(|one, next| one < next));
    assert!(news.iter().copied().eq(0..live as u32));
    for (&old, &new) in olds.iter().zip(&news) {
        let edges = plain::lookup(&left.words, new);
        assert!(!edges.is_empty());
        assert_eq!(edges, plain::lookup(before, old));
    }
    for number in 0..before[0] + 2 {
        let was_live = olds.binary_search(&number).is_ok();
        assert_eq!(!plain::lookup(before, number).is_empty(), was_live);
        let is_live = number < live as u32;
        assert_eq!(!plain::lookup(&left.words, number).is_empty(), is_live);
    }
}

/// Two live slots of files and one of the alias set about two dead ones; rubbish in
/// dead slots and behind last edges, words behind the used slots.
#[test]
fn by_hand() {
    let longest: Vec<u32> = (1..=MOST).collect();
    let parts: [Slot; 5] = [
        None,
        Some((1, 2, 9, &[4, 0])),
        None,
        Some((NOBODY, 5, u32::MAX, &longest)),
        Some((0, 0, 0, &[3])),
    ];
    let mut words = database(6, 2, &parts, 7);
    words[place(0) + 1..place(1)].fill(u32::MAX);
    words[place(1) + 4 + 2..place(2)].fill(9);
    words[place(2) + 3] = 1;
    words[place(5)..].fill(8);
    words.extend([7; 30]);
    let left = compacted(&words, 9);
    let mut wanted = database(6, 2, &[parts[1], parts[3], parts[4]], 7);
    wanted[place(0) + 4 + 2..place(1)].fill(9);
    wanted[place(5)..].fill(8);
    wanted.extend([7; 30]);
    assert_eq!(left.answer, Ok(3));
    assert_eq!(left.words, wanted);
    assert_eq!(left.list, [1, 0, 3, 1, 4, 2, 0, 0, 0]);
    numbers_follow(&words, &left);
}

const OWNERS: [u32; 3] = [2, ALIASES, 1];

/// So many slots, those of the pattern dead; every word that holds nothing is rubbish,
/// and so many odd words stand behind.
fn patterned(used: usize, pattern: usize, behind: usize) -> Vec<u32> {
    let mut words = vec![used as u32, 9, 2];
    for number in 0..used {
        let (count, tag) = ((1 + 5 * number) as u32, 100 * number as u32);
        let is_dead = pattern >> number & 1 == 1;
        let owner = if is_dead { 0 } else { OWNERS[number % 3] };
        words.extend([owner, number as u32, tag, count]);
        words.extend((0..MOST).map(|edge| tag + edge + 1));
    }
    words.extend((0..behind as u32).map(|word| 7_000 + word));
    words
}

#[test]
fn every_pattern_of_dead_slots() {
    let mut calls = [0; 2];
    for used in 0..=6 {
        for pattern in 0..1 << used {
            for behind in [0, 5, RECORD_WORDS, 2 * RECORD_WORDS + 9] {
                let words = patterned(used, pattern, behind);
                for length in 0..=PAIR_WORDS * used + 3 {
                    let left = compacted(&words, length);
                    calls[usize::from(left.answer.is_err())] += 1;
                }
                let left = done(&words);
                numbers_follow(&words, &left);
                compacts_no_more(&left);
            }
        }
    }
    // 127 patterns, four lengths behind; lists of 0 to 3 words more than all need
    assert_eq!(calls, [4_600, 2_568]);
}

/// A compacted database is left as it is: every number stays.
fn compacts_no_more(left: &Left) {
    let again = done(&left.words);
    assert_eq!((again.answer, &again.words), (left.answer, &left.words));
    assert!(again.list.chunks_exact(PAIR_WORDS).all(|p| p[0] == p[1]));
}

/// Full, with nothing dead, all dead, and every capacity up to the most.
#[test]
fn full_and_empty() {
    for head in [
        [0, 0, 0],
        [0, 6, 1],
        [0, u32::MAX, 0],
        [0, 0, u32::MAX],
        [0, 1, ALIASES],
    ] {
        for length in [0, 1, 2, 70] {
            assert_eq!(compacted(&head, length).words, head);
        }
    }
    for used in [1, 2, 6] {
        let whole = compacted(&patterned(used, 0, 0), 2 * used);
        assert_eq!(whole.answer, Ok(used as u32));
        let none = compacted(&patterned(used, (1 << used) - 1, 3), 0);
        assert_eq!(none.answer, Ok(0));
    }
}

const SHORT: Slot = Some((0, 2, 3, &[5]));

/// The most slots that there are, and one or two more: those are words behind.
#[test]
fn most_slots() {
    let mut words = database(6, 1, &vec![SHORT; MOST_RECORDS + 2], MOST_RECORDS + 2);
    for (used, answer) in [
        (4_095, Ok(2_730)),
        (4_096, Ok(2_730)),
        (4_097, Err(MALFORMED)),
        (4_098, Err(MALFORMED)),
        (u32::MAX, Err(MALFORMED)),
    ] {
        for number in (0..MOST_RECORDS + 2).step_by(3) {
            words[place(number)] = 0;
        }
        words[0] = used;
        assert_eq!(compacted(&words, 2 * 2_730).answer, answer);
        let short = answer.and(Err(SHORT_LIST));
        assert_eq!(compacted(&words, 2 * 2_730 - 1).answer, short);
    }
    words[0] = 4_096;
    for dead in [0, MOST_RECORDS - 1] {
        let mut words = database(6, 1, &vec![SHORT; MOST_RECORDS], MOST_RECORDS);
        words[place(dead)] = 0;
        assert_eq!(compacted(&words, 2 * MOST_RECORDS).answer, Ok(4_095));
    }
}

/// Lists from no word to far too many, with 0 to 3 live slots.
#[test]
fn lists() {
    for live in 0..4 {
        let words = patterned(5, 0b11111 << live & 0b11111, 4);
        for length in [0, 1, 2, 3, 4, 5, 6, 7, 8, 9, 10, 500, 9_000] {
            let answer = compacted(&words, length).answer;
            let fits = length >= 2 * live;
            assert_eq!(
                answer,
                if fits {
                    Ok(live as u32)
                } else {
                    Err(SHORT_LIST)
                }
            );
        }
    }
}

/// Each demand of 35 about one word of a live slot among others; in a dead slot only the
/// first word is read. 35 comes before 32, whatever the list is.
#[test]
fn no_database() {
    let (files, nodes) = (2, 9);
    for (field, word, is_bad) in [
        (0, files, false),
        (0, files + 1, true),
        (0, ALIASES - 1, true),
        (0, ALIASES, false),
        (0, ALIASES + 1, true),
        (0, u32::MAX, true),
        (1, nodes - 1, false),
        (1, nodes, true),
        (1, u32::MAX, true),
        (2, u32::MAX, false),
        (3, 0, true),
        (3, 1, false),
        (3, MOST, false),
        (3, MOST + 1, true),
        (3, u32::MAX, true),
        (4, u32::MAX, false),
    ] {
        for number in [0, 2, 4] {
            let mut words = patterned(5, 0b01010, 3);
            words[place(number) + field] = word;
            for length in [0, 1, 5, 6, 7, 40] {
                let sound = if length < 6 { Err(SHORT_LIST) } else { Ok(3) };
                let answer = if is_bad { Err(MALFORMED) } else { sound };
                assert_eq!(compacted(&words, length).answer, answer);
            }
            words[place(number)] = 0;
            assert_eq!(compacted(&words, 4).answer, Ok(2));
        }
    }
}

/// Under three words, more slots used than there are, one word of the last one missing.
#[test]
fn too_few_words() {
    for length in 0..DATABASE_HEAD {
        for list in [0, 1, 9] {
            let left = compacted(&[0, 6, 1][..length], list);
            assert_eq!(left.answer, Err(MALFORMED));
        }
    }
    let mut words = patterned(3, 0b010, 0);
    for (used, answer) in [(2, Ok(1)), (3, Ok(2)), (4, Err(MALFORMED))] {
        words[0] = used;
        assert_eq!(compacted(&words, 4).answer, answer);
        let cut = answer.and_then(|live| if used == 3 { Err(MALFORMED) } else { Ok(live) });
        assert_eq!(compacted(&words[..words.len() - 1], 4).answer, cut);
    }
}

/// The alias set's slots are known whatever F is; a file's up to F.
#[test]
fn owners() {
    for files in [0, 1, 2, 256, 65_533, 65_534, 65_535, 65_536, u32::MAX] {
        let (next, after) = (files.saturating_add(1), files.saturating_add(2));
        for owner in [1, 65_534, 65_535, 65_536, files, next, after, u32::MAX] {
            let mut words = database(6, files, &[None, SHORT, None, SHORT], 5);
            words[place(1)] = owner;
            words[place(3)] = ALIASES;
            let live = 1 + u32::from(owner > 0);
            let is_known = owner <= files || owner == 65_535;
            let answer = if is_known { Ok(live) } else { Err(MALFORMED) };
            assert_eq!(compacted(&words, 4).answer, answer, "{owner} of {files}");
        }
    }
}

unsafe extern "C" {
    fn pozhdaghi_compact(
        words: *mut u32,
        words_len: usize,
        list: *mut u32,
        list_len: usize,
        answer: *mut u64,
        answer_len: usize,
    );
}

/// As many numbers of the answer as are asked for: 0 and the number of live slots, or
/// the refusal's; then zeros.
#[test]
fn answers_of_every_length() {
    for (files, room, told) in [
        (2, 4, [0, 2]),
        (2, 3, [SHORT_LIST, 0]),
        (0, 4, [MALFORMED, 0]),
    ] {
        let mut before = patterned(3, 0b010, 7);
        before[2] = files;
        for length in 0..14 {
            let (mut words, mut list) = (before.clone(), vec![9; room]);
            let mut answer = vec![u64::MAX; length + 1];
            // SAFETY: each pointer and length is that of a vector held here.
            unsafe {
                pozhdaghi_compact(
                    words.as_mut_ptr(),
                    words.len(),
                    list.as_mut_ptr(),
                    list.len(),
                    answer.as_mut_ptr(),
                    length,
                );
            }
            let mut wanted_answer = told.to_vec();
            wanted_answer.resize(length, 0);
            wanted_answer.push(u64::MAX);
            assert_eq!(answer, wanted_answer);
            let wanted = wanted(&before, room);
            assert_eq!((words, list), (wanted.words, wanted.list));
        }
    }
}

/// Words that might be taken for owners, counts or starts.
const RUBBISH: [u32; 8] = [0, 1, 2, 7, MOST, MOST + 1, ALIASES, u32::MAX];

/// Any slot: every third is dead; seldom one with a wrong word.
fn draw_slot(drawn: &mut Drawn, nodes: u32, files: u32, slot: &mut [u32]) {
    for word in slot.iter_mut() {
        *word = drawn.one_of(&RUBBISH);
    }
    if drawn.below(3) == 0 {
        slot[0] = 0;
        return;
    }
    slot[0] = drawn.one_of(&[ALIASES, ALIASES.min(files), 1.min(files), files]);
    slot[1] = drawn.one_of(&[0, nodes - 1]);
    slot[3] = drawn.one_of(&[1, 2, MOST - 1, MOST]);
    match drawn.below(60) {
        0 => slot[0] = files.wrapping_add(1),
        1 => slot[1] = nodes,
        2 => slot[3] = drawn.one_of(&[0, MOST + 1]),
        _ => {}
    }
}

fn draw_area(drawn: &mut Drawn) -> Vec<u32> {
    if drawn.below(30) == 0 {
        let length = drawn.below(5);
        return (0..length).map(|_| drawn.one_of(&[0, 0, 1, 6])).collect();
    }
    let (nodes, files) = drawn.one_of(&[(6, 2), (1, 0), (u32::MAX, 256), (6, u32::MAX)]);
    let lent = drawn.below(12) as usize;
    let used = match drawn.below(20) {
        0 => drawn.one_of(&[lent as u32 + 1, 4_097, u32::MAX]),
        1..8 => drawn.below(lent as u64 + 1) as u32,
        _ => lent as u32,
    };
    let mut words = vec![used, nodes, files];
    words.resize(place(lent), 0);
    for number in 0..lent {
        let slot = &mut words[place(number)..place(number + 1)];
        draw_slot(drawn, nodes, files, slot);
    }
    let behind = drawn.one_of(&[0, 0, 1, RECORD_WORDS - 1]);
    words.extend((0..behind).map(|_| drawn.one_of(&RUBBISH)));
    words
}

#[test]
fn drawn_areas() {
    let mut drawn = Drawn(7);
    let mut numbers: BTreeMap<u64, usize> = BTreeMap::new();
    for _ in 0..8_000 {
        let words = draw_area(&mut drawn);
        let live = live_slots(&words).map_or(4, |live| live.len());
        let lengths = [0, 1, 2 * live, 2 * live, 2 * live + 1, 2 * live + 40];
        let fewer = [(2 * live).saturating_sub(1), (2 * live).saturating_sub(2)];
        let length = drawn.one_of(&[&lengths[..], &fewer].concat());
        let left = compacted(&words, length);
        *numbers.entry(left.answer.err().unwrap_or(0)).or_default() += 1;
        if left.answer.is_ok() {
            numbers_follow(&words, &left);
        }
    }
    assert_eq!(numbers.len(), 3, "{numbers:?}");
    assert!(numbers.values().all(|&times| times > 900), "{numbers:?}");
}

/// A number that was handed out earlier lapses, and nothing tells so: 1 names what was
/// 2, and 2 is beyond use.
#[test]
fn old_numbers_lapse() {
    let words = database(6, 1, &[None, SHORT, Some((0, 2, 3, &[8, 9]))], 3);
    let left = done(&words);
    assert_eq!(left.list, [1, 0, 2, 1, 0, 0]);
    assert_eq!(plain::lookup(&words, 1), [5]);
    assert_eq!(plain::lookup(&left.words, 1), [8, 9]);
    assert!(plain::lookup(&left.words, 2).is_empty());
}

/// Two files about root: 0 refers, 1 defines, and an edge from root to root has none.
fn two_files() -> Vec<u8> {
    let of = |file: u8, mut record: Record| {
        record[2] = file;
        record
    };
    let nodes = [
        reference(7),
        of(1, scope(true)),
        of(1, definition(7)),
        of(1, definition(8)),
    ];
    let edges = [
        (2, 0, 0),
        (0, 0, 1),
        (0, 3, 0),
        (3, 4, 0),
        (3, 5, 0),
        (3, 3, 0),
    ];
    image_of(2, &nodes, &edges)
}

/// A file's partial paths, or the alias set, replaced.
fn replaced(
    image: &[u8],
    owner: Option<u32>,
    request: &Request,
    words: &mut [u32],
) -> Result<PartialStatistics, Refusal> {
    let mut work = slots(40);
    match owner {
        Some(file) => plain::replace_file(image, file, request, &mut work, words),
        None => plain::replace_aliases(image, request, &mut work, words),
    }
}

const OWNERS_OF_TWO: [Option<u32>; 3] = [Some(0), Some(1), None];

/// Both files and the alias set, one after another so often.
fn filed_often(image: &[u8], times: usize) -> Vec<u32> {
    let mut words = vec![7; place(80)];
    plain::fresh(image, &mut words).expect("not refused");
    for _ in 0..times {
        for owner in OWNERS_OF_TWO {
            replaced(image, owner, &Request::default(), &mut words).expect("not refused");
        }
    }
    words
}

fn request(order: Order, length: Option<u64>, paths: Option<u64>) -> Request {
    let limits = Limits {
        length,
        paths,
        ..Limits::default()
    };
    Request { order, limits }
}

type Found = (Result<Resolution, Refusal>, Vec<u32>, Vec<u32>);

/// Both stitched searches from every number, in both orders, with and without limits, in
/// areas of several sizes: answers and every word of both areas, refused ones too.
fn searches(image: &[u8], words: &[u32]) -> Vec<Found> {
    let mut found = Vec::new();
    for call in [plain::stitched, plain::stitched_recorded] {
        for reference in 0..8 {
            for request in [
                request(Order::BreadthFirst, None, None),
                request(Order::DepthFirst, None, None),
                request(Order::BreadthFirst, Some(2), None),
                request(Order::DepthFirst, None, Some(3)),
            ] {
                for (waiting, kept) in [(0, 0), (2, 64), (64, 0), (64, 1), (64, 64)] {
                    let (mut work, mut result) = (slots(waiting), slots(kept));
                    let told = call(
                        image,
                        Visible::All,
                        words,
                        reference,
                        &request,
                        &mut work,
                        &mut result,
                    );
                    found.push((told, work, result));
                }
            }
        }
    }
    found
}

/// What any words are answered is answered after their compaction, word for word.
fn searches_stay(image: &[u8], words: &[u32], numbers: &mut BTreeMap<u64, usize>) {
    let left = done(words);
    let (before, after) = (searches(image, words), searches(image, &left.words));
    assert!(before == after, "another answer");
    for (told, ..) in after {
        *numbers
            .entry(told.err().map_or(0, |r| r.number()))
            .or_default() += 1;
    }
}

/// Every pattern of dead slots in the databases of graphs A and C, and every 31st one in
/// that of two files.
#[test]
fn searches_of_every_pattern() {
    let (a, c, two) = (graph_a(), graph_c(), two_files());
    let mut numbers = BTreeMap::new();
    for (image, words, used, step) in [
        (&a, filed(&a), 5, 1),
        (&c, filed(&c), 3, 1),
        (&two, filed_often(&two, 1), 13, 31),
    ] {
        assert_eq!(words[0], used);
        for pattern in (0..1 << used).step_by(step) {
            let mut words = words.clone();
            for number in (0..used).filter(|&number| pattern >> number & 1 == 1) {
                words[place(number as usize)] = 0;
            }
            searches_stay(image, &words, &mut numbers);
        }
    }
    for number in [0, 10, 11, 31, 32] {
        assert!(numbers.get(&number) > Some(&500), "{numbers:?}");
    }
}

/// Slots that no replacement files: an unknown edge, one that does not go on, the graph
/// that the words have outgrown, an image that is refused.
#[test]
fn searches_that_are_refused() {
    let (image, mut numbers) = (two_files(), BTreeMap::new());
    let filed = filed_often(&image, 2);
    let live = live_slots(&filed).expect("a database");
    let first = live[0].0 as usize;
    for word in [9, u32::MAX, 3, 1] {
        let mut words = filed.clone();
        words[place(first) + 4] = word;
        searches_stay(&image, &words, &mut numbers);
    }
    for (at, more) in [(1, 7), (2, 3), (1, u32::MAX)] {
        let mut words = filed.clone();
        words[at] = more;
        searches_stay(&image, &words, &mut numbers);
    }
    searches_stay(&image[..20], &filed, &mut numbers);
    for number in [2, 12, 34] {
        assert!(numbers.contains_key(&number), "{numbers:?}");
    }
}

/// Directly after a compaction a replacement is 33 just when the live slots and the new
/// ones are more than there is room for, whatever was dead; else it is done.
#[test]
fn full_after_a_compaction() {
    let image = two_files();
    let filed = filed_often(&image, 2);
    let (mut drawn, mut counts) = (Drawn(33), [0; 2]);
    let requests = [None, Some(1), Some(2)].map(|l| request(Order::BreadthFirst, l, None));
    for _ in 0..600 {
        let used = filed[0] as usize;
        let capacity = used + drawn.below(4) as usize;
        let mut words = filed[..place(capacity) + drawn.below(67) as usize].to_vec();
        for number in 0..used {
            if drawn.below(8) == 0 {
                words[place(number)] = 0;
            }
        }
        if drawn.below(2) == 0 {
            words[..].copy_within(place(used / 2)..place(used), place(0));
        }
        let left = done(&words);
        let live = left.answer.expect("not refused") as usize;
        for (owner, request) in OWNERS_OF_TWO.iter().flat_map(|&o| requests.map(|r| (o, r))) {
            let mut roomy = left.words[..place(live)].to_vec();
            roomy.resize(place(live + 80), 0);
            let told = replaced(&image, owner, &request, &mut roomy).expect("there is room");
            let is_full = live + told.found as usize > capacity;
            let mut words = left.words.clone();
            let told = replaced(&image, owner, &request, &mut words).map(|told| told.found);
            assert_eq!(told.is_err(), is_full);
            assert!(!is_full || (told == Err(refusal(FULL, &[])) && words == left.words));
            counts[usize::from(is_full)] += 1;
        }
    }
    assert!(counts.iter().all(|&count| count > 500), "{counts:?}");
}

/// What the headline does not promise: slots that are being replaced count. The five
/// paths of A need ten slots to be filed again; with nine it is 33 however often the
/// words are compacted. To file none first, compact and file again does help.
#[test]
fn replaced_slots_count() {
    let (image, request) = (graph_a(), Request::default());
    let mut words = filed(&image);
    for (room, is_full) in [(9, true), (10, false)] {
        words.truncate(place(16));
        let mut words = words[..place(room)].to_vec();
        for _ in 0..3 {
            words = done(&words).words;
            let told = replaced(&image, Some(0), &request, &mut words.clone());
            assert_eq!(told.err(), is_full.then(|| refusal(FULL, &[])));
        }
    }
    words.truncate(place(9));
    let nothing = request_of_no_path();
    let told = replaced(&image, Some(0), &nothing, &mut words);
    assert_eq!(told.map(|told| told.found), Ok(0));
    let left = done(&words);
    assert_eq!(left.answer, Ok(0));
    words = left.words;
    let told = replaced(&image, Some(0), &request, &mut words);
    assert_eq!(told.map(|told| told.found), Ok(5));
}

fn request_of_no_path() -> Request {
    request(Order::BreadthFirst, None, Some(0))
}

/// The daily cycle in ten slots: from the third day on each replacement is 33, and done
/// after a compaction.
#[test]
fn daily_cycle() {
    let (image, request) = (graph_a(), Request::default());
    let mut words = vec![7; place(10)];
    plain::fresh(&image, &mut words).expect("not refused");
    let before = searches(&image, &filed(&image));
    for day in 0..30 {
        let told = replaced(&image, Some(0), &request, &mut words).map(|told| told.found);
        if day < 2 {
            assert_eq!(told, Ok(5));
            continue;
        }
        assert_eq!(told, Err(refusal(FULL, &[])));
        let left = done(&words);
        assert_eq!(left.answer, Ok(5));
        assert_eq!(
            left.list,
            [5, 0, 6, 1, 7, 2, 8, 3, 9, 4, 0, 0, 0, 0, 0, 0, 0, 0, 0, 0]
        );
        words = left.words;
        let told = replaced(&image, Some(0), &request, &mut words).map(|told| told.found);
        assert_eq!(told, Ok(5));
        assert!(searches(&image, &words) == before);
    }
}
