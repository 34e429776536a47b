//! Document 02, order 9: how many lists of each length reach a complete path. Each line of
//! `list.txt` is a call and its answer, written by `oracle/tally.py`, where every list of
//! distinct edges is put to the path rules by itself; work areas have as many slots as are
//! needed, one fewer, and none. The last line is wrong, to show that a difference is found.
//! Beside each answer stand both identities: the number of length 0 is 0, and the sum is the
//! complete count of unlimited direct searches in both orders.

#[path = "../common/mod.rs"]
mod common;

use common::{is_zero, plain, slots};
use pozhdaghi::{Order, Refusal, Request, Visible, LENGTHS};

/// Slots of the areas of the searches beside a tally: more than any line of the list needs.
const ROOM: usize = 256;

struct Line<'a> {
    image: Vec<u8>,
    visible: Vec<u8>,
    reference: u32,
    waiting: usize,
    answer: &'a str,
}

fn line(text: &str) -> Line<'_> {
    let (request, answer) = text.split_once(" | ").expect("a call and its answer");
    let words: Vec<&str> = request.split(' ').collect();
    let [image, files, reference, waiting] = words[..] else {
        panic!("no call: {request}");
    };
    let byte = |at: usize| u8::from_str_radix(&image[at..at + 2], 16).expect("two digits");
    let files: Vec<usize> = files
        .split(',')
        .filter_map(|file| file.parse().ok())
        .collect();
    Line {
        image: (0..image.len()).step_by(2).map(byte).collect(),
        visible: (0..256)
            .map(|file| u8::from(files.contains(&file)))
            .collect(),
        reference: reference.parse().expect("a number"),
        waiting: waiting.parse().expect("a number"),
        answer,
    }
}

/// The numbers of an answer without the zeros at their end.
fn told(answer: Result<[u64; LENGTHS], Refusal>) -> String {
    let numbers = match answer {
        Ok(counts) => [&[0], &counts[..]].concat(),
        Err(refusal) => [&[refusal.number()], &refusal.values()[..]].concat(),
    };
    let used = numbers.iter().rposition(|&number| number > 0);
    let numbers: Vec<String> = numbers[..=used.unwrap_or(0)]
        .iter()
        .map(u64::to_string)
        .collect();
    numbers.join(" ")
}

/// The call, after which the work area is zero. Lent with no word 0, and some words more.
fn tallied(line: &Line) -> Result<[u64; LENGTHS], Refusal> {
    let mut work = slots(line.waiting);
    let visible = Visible::Files(&line.visible);
    let answer = plain::tally(&line.image, visible, line.reference, &mut work);
    assert!(is_zero(&work));
    answer
}

/// The complete count of an unlimited direct search in ample areas, or its refusal.
fn complete(line: &Line, order: Order) -> Result<u64, Refusal> {
    let (mut work, mut result) = (slots(ROOM), slots(ROOM));
    let request = Request {
        order,
        ..Request::default()
    };
    let visible = Visible::Files(&line.visible);
    let searched = plain::direct(
        &line.image,
        visible,
        line.reference,
        &request,
        &mut work,
        &mut result,
    );
    searched.map(|found| found.statistics.complete)
}

#[test]
fn each_line() {
    let texts = include_str!("list.txt")
        .lines()
        .filter(|text| !text.starts_with('#'));
    let differing: Vec<String> = texts
        .map(line)
        .filter(|line| told(tallied(line)) != line.answer)
        .map(|line| format!("{} slots: {}", line.waiting, line.answer))
        .collect();
    assert_eq!(differing, ["8 slots: 0 0 0 3"]);
}

#[test]
fn both_identities() {
    let (mut several, mut refused) = (0, 0);
    for text in include_str!("list.txt").lines().skip(1) {
        let line = line(text);
        match tallied(&line) {
            Ok(numbers) => {
                assert_eq!(numbers[0], 0);
                several += usize::from(numbers.iter().filter(|&&number| number > 0).count() > 1);
                let sum = numbers.iter().sum();
                for order in [Order::BreadthFirst, Order::DepthFirst] {
                    assert_eq!(complete(&line, order), Ok(sum));
                }
            }
            // met by the search in ample areas too, but for 31
            Err(refusal) => {
                refused += 1;
                let other = complete(&line, Order::DepthFirst);
                assert!(refusal == Refusal::NoWaitingSlot || other == Err(refusal));
            }
        }
    }
    assert!(several > 40 && refused > 200, "{several}, {refused}");
}

/// As many numbers as the answer area has, and zeros behind the last; the call for C.
#[test]
fn any_answer_area() {
    unsafe extern "C" {
        fn pozhdaghi_tally(
            image: *const u8,
            image_len: usize,
            visible: *const u8,
            visible_len: usize,
            reference: u32,
            work: *mut u32,
            work_len: usize,
            answer: *mut u64,
            answer_len: usize,
        );
    }
    let bytes = common::graph_b();
    let visible = [1u8];
    for length in [0, 1, 2, 3, 4, 64, 65, 66, 80] {
        let (mut work, mut answer) = (slots(8), vec![u64::MAX; length]);
        // SAFETY: each pointer and length is that of a slice held here.
        unsafe {
            pozhdaghi_tally(
                bytes.as_ptr(),
                bytes.len(),
                visible.as_ptr(),
                visible.len(),
                2,
                work.as_mut_ptr(),
                work.len(),
                answer.as_mut_ptr(),
                answer.len(),
            );
        }
        let wanted: Vec<u64> = (0..length).map(|at| if at == 3 { 4 } else { 0 }).collect();
        assert_eq!((answer, is_zero(&work)), (wanted, true));
    }
}
