//! The converter of document 02, order 6: a database made when a path might have 127
//! edges, rewritten for the present bound. `wanted` is a second reading of the order;
//! every area is lent dirty.

mod common;

use common::{
    database, database_of, definition, filed, graph_a, graph_c, image_of, is_zero, place, plain,
    reference, refusal, scope, slots, Drawn, Record, Slot, NOBODY,
};
use pozhdaghi::{
    Refusal, Request, Resolution, Visible, ALIASES, DATABASE_HEAD, FORMER_RECORD_WORDS, MOST_EDGES,
    RECORD_WORDS,
};
use std::collections::BTreeMap;

const FORMER_EDGES: usize = 127;
const MOST_RECORDS: usize = 4_096;
const FULL: u64 = 33;
const MALFORMED: u64 = 35;
const TOO_LONG: u64 = 39;

/// A live path of an old area.
struct Live<'a> {
    owner: u32,
    start: u32,
    end: u32,
    edges: &'a [u32],
}

/// Where a slot of an old area begins.
fn former(number: usize) -> usize {
    DATABASE_HEAD + FORMER_RECORD_WORDS * number
}

/// Slots of a size that so many words hold.
fn capacity(words: usize, size: usize) -> usize {
    MOST_RECORDS.min(words.saturating_sub(DATABASE_HEAD) / size)
}

/// The used slots of an old area, none for a dead one; nothing where it is 35.
fn read(old: &[u32]) -> Option<Vec<Option<Live<'_>>>> {
    let &[used, nodes, files, ..] = old else {
        return None;
    };
    if used as usize > capacity(old.len(), FORMER_RECORD_WORDS) {
        return None;
    }
    let mut found = Vec::new();
    for number in 0..used as usize {
        let &[owner, start, end, count, ref edges @ ..] = &old[former(number)..former(number + 1)]
        else {
            return None;
        };
        if owner == 0 {
            found.push(None);
            continue;
        }
        let is_known = owner <= files || owner == ALIASES;
        let is_counted = count >= 1 && count as usize <= FORMER_EDGES;
        if !is_known || start >= nodes || !is_counted {
            return None;
        }
        found.push(Some(Live {
            owner,
            start,
            end,
            edges: &edges[..count as usize],
        }));
    }
    Some(found)
}

/// The number that the call must answer, and every word of a new area of this length.
fn wanted(old: &[u32], length: usize) -> (u64, Vec<u32>) {
    let zeros = vec![0; length];
    let Some(paths) = read(old) else {
        return (MALFORMED, zeros);
    };
    if length < DATABASE_HEAD || paths.len() > capacity(length, RECORD_WORDS) {
        return (FULL, zeros);
    }
    if paths
        .iter()
        .flatten()
        .any(|path| path.edges.len() > MOST_EDGES)
    {
        return (TOO_LONG, zeros);
    }
    let mut new = zeros;
    new[..DATABASE_HEAD].copy_from_slice(&old[..DATABASE_HEAD]);
    for (number, path) in paths.iter().enumerate() {
        if let Some(path) = path {
            let count = path.edges.len();
            let slot = &mut new[place(number)..place(number + 1)];
            slot[..4].copy_from_slice(&[path.owner, path.start, path.end, count as u32]);
            slot[4..4 + count].copy_from_slice(path.edges);
        }
    }
    (0, new)
}

/// The call in a dirty area of so many words, held to the second reading; the number
/// that it answers, and the area.
fn converted(old: &[u32], length: usize) -> (u64, Vec<u32>) {
    let before = old.to_vec();
    let mut new = vec![0xA5A5_A5A5; length];
    let number = match plain::convert(old, &mut new) {
        Ok(()) => 0,
        Err(refusal) => {
            assert_eq!(refusal.values(), [0, 0]);
            refusal.number()
        }
    };
    assert_eq!(old, before, "the old area is only read");
    assert!(number == 0 || is_zero(&new), "a refused call leaves zeros");
    assert_eq!(number, wanted(old, length).0);
    assert!(new == wanted(old, length).1, "other words");
    (number, new)
}

/// A live path of file 0.
const SHORT: Slot = Some((0, 2, 3, &[5]));

/// An old area of these slots and no words behind them.
fn former_database(nodes: u32, files: u32, slots: &[Slot]) -> Vec<u32> {
    database_of(FORMER_RECORD_WORDS, nodes, files, slots, slots.len())
}

/// Two live paths, of a file and of the alias set, about a dead slot; every word that
/// holds nothing is rubbish in the old area.
#[test]
fn by_hand() {
    let longest: Vec<u32> = (1..=MOST_EDGES as u32).collect();
    let parts: [Slot; 3] = [
        Some((0, 2, 9, &[4, 0])),
        None,
        Some((NOBODY, 5, u32::MAX, &longest)),
    ];
    let mut old = former_database(6, 1, &parts);
    old[former(0) + 4 + 2..former(1)].fill(9);
    old[former(1) + 1..former(2)].fill(u32::MAX);
    old[former(2) + 4 + MOST_EDGES..].fill(8);
    old.extend([7; 300]);
    for room in [3, 4, 9] {
        let wanted = database(6, 1, &parts, room);
        assert_eq!(converted(&old, wanted.len()), (0, wanted));
    }
}

/// The edge count of a live slot between others; in a dead one it is not read.
#[test]
fn edge_counts() {
    let numbers = [
        (0, MALFORMED),
        (1, 0),
        (MOST_EDGES - 1, 0),
        (MOST_EDGES, 0),
        (MOST_EDGES + 1, TOO_LONG),
        (FORMER_EDGES - 1, TOO_LONG),
        (FORMER_EDGES, TOO_LONG),
        (FORMER_EDGES + 1, MALFORMED),
        (u32::MAX as usize, MALFORMED),
    ];
    for owner in [1, 2, ALIASES] {
        for place in 0..3 {
            let mut old = former_database(6, 2, &[SHORT; 3]);
            for (count, number) in numbers {
                old[former(place)] = owner;
                old[former(place) + 3] = count as u32;
                assert_eq!(converted(&old, common::place(3)).0, number);
                old[former(place)] = 0;
                assert_eq!(converted(&old, common::place(3)).0, 0);
            }
        }
    }
}

/// The first word of a slot: 65,535, or a file below the stored F.
#[test]
fn owners() {
    for files in [0, 1, 2, 256, 65_533, 65_534, 65_535, 65_536, u32::MAX] {
        let (next, after) = (files.saturating_add(1), files.saturating_add(2));
        let old = former_database(6, files, &[SHORT]);
        for owner in [
            0,
            1,
            2,
            65_534,
            65_535,
            65_536,
            files,
            next,
            after,
            u32::MAX,
        ] {
            let mut old = old.clone();
            old[former(0)] = owner;
            let is_known = owner <= files || owner == 65_535;
            let number = if is_known { 0 } else { MALFORMED };
            assert_eq!(converted(&old, place(1)).0, number, "{owner} of {files}");
        }
    }
}

/// A start below the stored N; the end is any word.
#[test]
fn starts_and_ends() {
    for (nodes, start, number) in [
        (0, 0, MALFORMED),
        (1, 0, 0),
        (6, 5, 0),
        (6, 6, MALFORMED),
        (6, u32::MAX, MALFORMED),
        (u32::MAX, u32::MAX - 1, 0),
        (u32::MAX, u32::MAX, MALFORMED),
    ] {
        for end in [0, 6, u32::MAX] {
            let old = former_database(nodes, 1, &[Some((0, start, end, &[5]))]);
            assert_eq!(converted(&old, place(1)).0, number);
        }
    }
}

/// Areas of 0 to 3 words, one slot short, one word short, exact and larger.
#[test]
fn rooms() {
    for used in [0, 1, 2, 5] {
        let old = former_database(6, 1, &vec![SHORT; used]);
        let exact = place(used);
        let shorter = [exact - 1, exact.saturating_sub(RECORD_WORDS)];
        for length in [0, 1, 2].into_iter().chain(shorter) {
            if length < exact {
                assert_eq!(converted(&old, length).0, FULL);
            }
        }
        for behind in [0, 1, RECORD_WORDS - 1, RECORD_WORDS, 500] {
            let (number, new) = converted(&old, exact + behind);
            assert_eq!(number, 0);
            assert!(is_zero(&new[exact..]));
        }
    }
}

/// The first three words, which are kept; the numbers of files and nodes are any.
#[test]
fn leading_words() {
    for head in [
        [0, 0, 0],
        [0, 6, 1],
        [0, u32::MAX, 0],
        [0, 1, u32::MAX],
        [0, 65_535, 65_536],
    ] {
        assert_eq!(converted(&head, 3), (0, head.to_vec()));
        assert_eq!(converted(&head, 4), (0, [&head[..], &[0]].concat()));
    }
    for length in 0..3 {
        for room in [0, 3, 70] {
            assert_eq!(converted(&[0, 6, 1][..length], room).0, MALFORMED);
        }
    }
}

/// Slots used: more than there are, more than 4,096, and fewer than are lent.
#[test]
fn used_slots() {
    let mut old = former_database(6, 1, &[SHORT; 3]);
    for (used, number) in [
        (0, 0),
        (2, 0),
        (3, 0),
        (4, MALFORMED),
        (u32::MAX, MALFORMED),
    ] {
        old[0] = used;
        assert_eq!(converted(&old, place(4)).0, number);
        // one word fewer makes one whole slot fewer
        let number = if used == 3 { MALFORMED } else { number };
        assert_eq!(converted(&old[..old.len() - 1], place(4)).0, number);
    }
    // rubbish behind the used slots is not looked at, whatever it says
    old[0] = 2;
    old[former(2)..].fill(u32::MAX);
    assert_eq!(converted(&old, place(2)).0, 0);
    let mut many = former_database(6, 1, &vec![SHORT; MOST_RECORDS + 2]);
    for (used, number) in [
        (4_095, 0),
        (4_096, 0),
        (4_097, MALFORMED),
        (4_098, MALFORMED),
    ] {
        many[0] = used;
        assert_eq!(converted(&many, place(MOST_RECORDS + 2)).0, number);
    }
    many[0] = 4_096;
    assert_eq!(converted(&many, place(MOST_RECORDS) - 1).0, FULL);
    // the last one is the only long one
    many[former(MOST_RECORDS - 1) + 3] = MOST_EDGES as u32 + 1;
    assert_eq!(converted(&many, place(MOST_RECORDS)).0, TOO_LONG);
}

/// Each refusal with all that come behind it.
#[test]
fn refusals_in_their_order() {
    let long = vec![3; MOST_EDGES + 1];
    let mut old = former_database(6, 1, &[SHORT, Some((0, 2, 3, &long))]);
    assert_eq!(converted(&old, place(2)).0, TOO_LONG);
    for length in [0, 1, 2, 3, place(1), place(2) - 1] {
        assert_eq!(converted(&old, length).0, FULL);
    }
    // the slot in front of the long one, behind it and the long one itself are no slots
    for (at, word) in [
        (former(0), 2),
        (former(1), 2),
        (former(1) + 1, 6),
        (former(0) + 3, 0),
    ] {
        let before = std::mem::replace(&mut old[at], word);
        for length in [0, 3, place(1), place(2)] {
            assert_eq!(converted(&old, length).0, MALFORMED);
        }
        old[at] = before;
    }
}

unsafe extern "C" {
    fn pozhdaghi_convert(
        old: *const u32,
        old_len: usize,
        new: *mut u32,
        new_len: usize,
        answer: *mut u64,
        answer_len: usize,
    );
}

/// As many numbers of the answer as are asked for: the number, then zeros.
#[test]
fn answers_of_every_length() {
    let long = vec![3; MOST_EDGES + 1];
    let long: Slot = Some((0, 2, 3, &long));
    for (slot, files, room, number) in [
        (SHORT, 1, 1, 0),
        (SHORT, 0, 1, MALFORMED),
        (SHORT, 1, 0, FULL),
        (long, 1, 1, TOO_LONG),
    ] {
        let old = former_database(6, files, &[slot]);
        for length in 0..14 {
            let (mut new, mut answer) = (vec![9; place(room)], vec![u64::MAX; length + 1]);
            // SAFETY: each pointer and length is that of a vector held here.
            unsafe {
                pozhdaghi_convert(
                    old.as_ptr(),
                    old.len(),
                    new.as_mut_ptr(),
                    new.len(),
                    answer.as_mut_ptr(),
                    length,
                );
            }
            let mut told = vec![0; length + 1];
            told[0] = number;
            told[length] = u64::MAX;
            assert_eq!(answer, told);
            assert_eq!(new, wanted(&old, place(room)).1);
        }
    }
}

/// The bounds as words.
const MOST: u32 = MOST_EDGES as u32;
const FORMER: u32 = FORMER_EDGES as u32;

/// Words that might be taken for owners, counts or starts.
const RUBBISH: [u32; 8] = [0, 1, 7, MOST, MOST + 1, FORMER, ALIASES, u32::MAX];

/// The edge counts that are drawn for an area: within the bound, beyond it, none.
const COUNTS: [&[u32]; 5] = [
    &[1, 2, MOST - 1, MOST],
    &[1, MOST],
    &[1, 2, 3],
    &[2, MOST, MOST + 1, FORMER],
    &[0, 1, MOST, MOST + 1, FORMER, FORMER + 1],
];

/// Any slot of an old area: every third is dead; seldom one with a wrong word.
fn draw_slot(drawn: &mut Drawn, nodes: u32, files: u32, counts: &[u32], slot: &mut [u32]) {
    for word in slot.iter_mut() {
        *word = drawn.one_of(&RUBBISH);
    }
    if drawn.below(3) == 0 {
        slot[0] = 0;
        return;
    }
    let known = [ALIASES, ALIASES.min(files), 1.min(files), files];
    slot[0] = drawn.one_of(&known);
    slot[1] = drawn.one_of(&[0, nodes - 1]);
    slot[3] = drawn.one_of(counts);
    match drawn.below(60) {
        0 => slot[0] = files.wrapping_add(1),
        1 => slot[1] = nodes,
        2 => slot[3] = drawn.one_of(&[0, FORMER + 1]),
        _ => {}
    }
}

/// An old area with rubbish in dead slots, behind last edges and behind the slots.
fn draw_area(drawn: &mut Drawn) -> Vec<u32> {
    if drawn.below(30) == 0 {
        let length = drawn.below(5);
        return (0..length).map(|_| drawn.one_of(&[0, 0, 1, 6])).collect();
    }
    let (nodes, files) = drawn.one_of(&[(6, 2), (1, 0), (u32::MAX, 256), (6, u32::MAX)]);
    let lent = drawn.below(7) as usize;
    let used = match drawn.below(20) {
        0 => drawn.one_of(&[lent as u32 + 1, 4_097, u32::MAX]),
        1..8 => drawn.below(lent as u64 + 1) as u32,
        _ => lent as u32,
    };
    let mut old = vec![used, nodes, files];
    let counts = drawn.one_of(&COUNTS);
    old.resize(former(lent), 0);
    for number in 0..lent {
        let slot = &mut old[former(number)..former(number + 1)];
        draw_slot(drawn, nodes, files, counts, slot);
    }
    let behind = drawn.one_of(&[0, 0, 1, RECORD_WORDS, FORMER_RECORD_WORDS - 1]);
    old.extend((0..behind).map(|_| drawn.one_of(&RUBBISH)));
    old
}

/// Words for a new area: few, about what is needed, more.
fn draw_room(drawn: &mut Drawn, old: &[u32]) -> usize {
    let used = old.first().map_or(0, |&used| used.min(8) as usize);
    let (exact, few) = (place(used), drawn.below(4) as usize);
    drawn.one_of(&[
        exact,
        exact,
        exact + 1,
        exact + RECORD_WORDS,
        exact + 700,
        exact - 1,
        exact.saturating_sub(RECORD_WORDS),
        few,
    ])
}

#[test]
fn drawn_areas() {
    let mut drawn = Drawn(6);
    let mut numbers: BTreeMap<u64, usize> = BTreeMap::new();
    for _ in 0..6_000 {
        let old = draw_area(&mut drawn);
        let room = draw_room(&mut drawn, &old);
        let (number, new) = converted(&old, room);
        *numbers.entry(number).or_default() += 1;
        if number == 0 {
            keeps_numbers(&old, &new);
        }
    }
    assert_eq!(numbers.len(), 4, "{numbers:?}");
    assert!(numbers.values().all(|&times| times > 300), "{numbers:?}");
}

/// Every number has the edges that it had, by lookup.
fn keeps_numbers(old: &[u32], new: &[u32]) {
    let paths = read(old).expect("it was converted");
    for (number, path) in paths.iter().enumerate() {
        let edges = path.as_ref().map_or(&[][..], |path| path.edges);
        assert_eq!(plain::lookup(new, number as u32), edges);
    }
    assert!(plain::lookup(new, paths.len() as u32).is_empty());
}

/// The words as they were under the old bound, rubbish in every word that holds
/// nothing.
fn as_before(words: &[u32]) -> Vec<u32> {
    let used = words[0] as usize;
    let mut old = words[..DATABASE_HEAD].to_vec();
    for number in 0..used {
        let slot = &words[place(number)..place(number + 1)];
        let held = if slot[0] == 0 {
            1
        } else {
            4 + slot[3] as usize
        };
        old.extend(&slot[..held]);
        old.resize(former(number + 1), 0xBAD);
    }
    old.extend([0xBAD; 200]);
    old
}

type Found = (Result<Resolution, Refusal>, Vec<u32>);

fn stitched(image: &[u8], words: &[u32], reference: u32) -> [Found; 2] {
    let request = Request::default();
    let call = |search: fn(&[u8], Visible, &[u32], u32, &Request, &mut [u32], &mut [u32]) -> _| {
        let (mut work, mut result) = (slots(64), slots(64));
        let found = search(
            image,
            Visible::All,
            words,
            reference,
            &request,
            &mut work,
            &mut result,
        );
        (found, result)
    };
    [call(plain::stitched), call(plain::stitched_recorded)]
}

/// Two files about root: 0 refers, 1 defines, and an edge from root to root has none.
fn two_files() -> Vec<u8> {
    let of = |file: u8, mut record: Record| {
        record[2] = file;
        record
    };
    let nodes = [
        reference(7),
        of(1, scope(true)),
        of(1, definition(7)),
        of(1, definition(8)),
    ];
    let edges = [
        (2, 0, 0),
        (0, 0, 1),
        (0, 3, 0),
        (3, 4, 0),
        (3, 5, 0),
        (3, 3, 0),
    ];
    image_of(2, &nodes, &edges)
}

/// Both files and the alias set replaced, and file 0 once more, so that slots are dead.
fn filed_twice(image: &[u8]) -> Vec<u32> {
    let request = Request::default();
    let mut words = vec![7; place(60)];
    plain::fresh(image, &mut words).expect("not refused");
    for file in [0, 1, 0] {
        plain::replace_file(image, file, &request, &mut slots(40), &mut words)
            .expect("not refused");
    }
    plain::replace_aliases(image, &request, &mut slots(8), &mut words).expect("not refused");
    words
}

/// A converted database is the one that the calls make under the present bound, and
/// lookup, both stitched searches and a replacement go on with it.
#[test]
fn goes_on_as_before() {
    let (a, c, two) = (graph_a(), graph_c(), two_files());
    for (image, words) in [(&a, filed(&a)), (&c, filed(&c)), (&two, filed_twice(&two))] {
        let (number, new) = converted(&as_before(&words), words.len());
        assert_eq!((number, &new), (0, &words));
        for number in 0..words[0] + 2 {
            assert_eq!(plain::lookup(&new, number), plain::lookup(&words, number));
        }
        assert_eq!(stitched(image, &new, 2), stitched(image, &words, 2));
        let (mut one, mut other) = (new, words);
        for words in [&mut one, &mut other] {
            plain::replace_file(image, 0, &Request::default(), &mut slots(40), words)
                .expect("not refused");
        }
        assert_eq!(one, other);
    }
    let two_filed = converted(&as_before(&filed_twice(&two)), place(60)).1;
    let [_, (found, result)] = stitched(&two, &two_filed, 2);
    assert_eq!(found.map(|found| found.paths), Ok(4));
    // the slots of file 1 stand before that of the edge from root to root
    let wanted: [&[u32]; 4] = [&[0, 2, 3], &[0, 2, 5, 3], &[0, 1, 2, 3], &[0, 1, 2, 5, 3]];
    let found: Vec<&[u32]> = plain::paths(&result).collect();
    assert_eq!(found, wanted);
}

/// Why each area is converted exactly once: an old one passes for a database, of which
/// lookup finds the first path and takes the second for dead; an empty one that is
/// converted twice is the same again.
#[test]
fn nothing_tells_them_apart() {
    let old = former_database(6, 1, &[SHORT, SHORT]);
    assert_eq!(plain::lookup(&old, 0), [5]);
    assert!(plain::lookup(&old, 1).is_empty());
    let (_, new) = converted(&old, place(2));
    assert_eq!(plain::lookup(&new, 1), [5]);
    let empty = [0, 6, 1, 0];
    assert_eq!(converted(&empty, 4), (0, empty.to_vec()));
}

/// A path of 64 edges cannot be kept: its file has to be computed anew, or is 30.
#[test]
fn too_long_for_this_bound() {
    let row: Vec<u32> = (0..=MOST_EDGES as u32).collect();
    let old = former_database(90, 1, &[Some((0, 2, 66, &row))]);
    let mut new = vec![1; place(1)];
    assert_eq!(plain::convert(&old, &mut new), Err(refusal(39, &[])));
    assert!(is_zero(&new));
}
