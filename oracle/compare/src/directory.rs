//! A cash flow of a directory, written a second time from document 02, order 11, and drawn:
//! few keys, so that one is often there, and rows that are out of order at times.

use crate::case::Case;
use crate::check::Refusal;
use crate::path::Path;
use crate::random::Random;

const ROW: usize = 18;
const KEY: usize = 16;

/// ISINs in use, ascending.
const ISINS: [&[u8; 12]; 4] = [
    b"DE0001102440",
    b"GB00B16NNR78",
    b"US0378331005",
    b"US9128283K50",
];

/// "Letters become 10 to 35, digits are written out, and Luhn's rule is applied."
fn is_checked(isin: &[u8]) -> bool {
    let written = isin.iter().flat_map(|&byte| match byte {
        b'A'..=b'Z' => vec![(byte - b'A' + 10) / 10, (byte - b'A' + 10) % 10],
        _ => vec![byte - b'0'],
    });
    let digits: Vec<u8> = written.collect();
    let sum: u32 = digits
        .iter()
        .rev()
        .enumerate()
        .map(|(place, &digit)| u32::from(digit) * (1 + place as u32 % 2))
        .map(|doubled| doubled / 10 + doubled % 10)
        .sum();
    sum % 10 == 0
}

/// "Two capital letters, nine capitals or digits and a right check digit."
fn is_isin(isin: &[u8]) -> bool {
    isin.len() == 12
        && isin[..2].iter().all(u8::is_ascii_uppercase)
        && isin[2..11]
            .iter()
            .all(|byte| byte.is_ascii_uppercase() || byte.is_ascii_digit())
        && isin[11].is_ascii_digit()
        && is_checked(isin)
}

fn number(bytes: &[u8]) -> u32 {
    u32::from(bytes[0]) * 256 + u32::from(bytes[1])
}

/// The reference of the row that has the key; 41, 42, 43 "in this order and with nothing".
pub fn reference(case: &Case) -> Result<u32, Refusal> {
    if !is_isin(&case.isin) {
        return Err(vec![41]);
    }
    let rows: Vec<&[u8]> = case.rows.chunks(ROW).collect();
    let ascends = rows
        .windows(2)
        .all(|two| two[0][..KEY.min(two[0].len())] < two[1][..KEY.min(two[1].len())]);
    if !ascends || case.rows.len() % ROW != 0 {
        return Err(vec![42]);
    }
    rows.iter()
        .find(|row| {
            row[..12] == case.isin[..]
                && number(&row[12..14]) == case.tranche
                && number(&row[14..16]) == case.leg
        })
        .map(|row| number(&row[16..18]))
        .ok_or(vec![43])
}

/// "One definition, several, or none": 0, 1 or 2, and the one.
pub fn definitions(returned: &[Path]) -> [u64; 2] {
    let mut ends: Vec<u32> = returned.iter().map(|path| path.end).collect();
    ends.sort_unstable();
    ends.dedup();
    match ends[..] {
        [] => [0, 0],
        [end] => [1, end.into()],
        _ => [2, 0],
    }
}

/// A row for some keys in their order, the reference in each; at times two rows exchanged, one
/// doubled, or bytes behind the last.
fn draw_rows(random: &mut Random, reference: u32) -> Vec<u8> {
    let mut rows: Vec<[u8; ROW]> = Vec::new();
    for isin in ISINS {
        for place in 0..6u8 {
            if random.percent(60) {
                let end = [
                    0,
                    place / 3,
                    0,
                    place % 3,
                    (reference >> 8) as u8,
                    reference as u8,
                ];
                let mut row = [0; ROW];
                row[..12].copy_from_slice(isin);
                row[12..].copy_from_slice(&end);
                rows.push(row);
            }
        }
    }
    if !rows.is_empty() && random.percent(12) {
        let [left, right] = [random.below(rows.len()), random.below(rows.len())];
        rows.swap(left, right);
    }
    if !rows.is_empty() && random.percent(6) {
        let at = random.below(rows.len());
        rows.insert(at, rows[at]);
    }
    let mut bytes = rows.concat();
    if random.percent(8) {
        bytes.resize(bytes.len() + 1 + random.below(ROW - 1), 255);
    }
    bytes
}

/// The rows and the key of a case whose reference is drawn.
pub fn draw(random: &mut Random, case: &mut Case) {
    case.rows = draw_rows(random, case.number);
    case.isin = random.one_of(&ISINS).to_vec();
    [case.tranche, case.leg] = [random.below(2) as u32, random.below(3) as u32];
    match random.below(40) {
        0 => case.isin[random.below(12)] ^= 1 << random.below(7),
        1 => case.isin.truncate(random.below(12)),
        2 => case.isin.push(b'0'),
        3 => case.tranche += 65_536,
        4 => case.leg += 65_536,
        _ => {}
    }
}
