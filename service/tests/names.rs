//! Each call makes the exported call of its own name. What they answer shows it of
//! all but one pair: each path that a linear search records begins with the one
//! before it, so none shadows another, and the returned paths are the recorded
//! ones. And the refusals have the names and texts that the package for C has.

use pozhdaghi::Refusal;

/// What stands in front of the names of a file's functions in the exported calls.
const CALLS: [(&str, &str); 6] = [
    ("", include_str!("../src/image.rs")),
    ("", include_str!("../src/readers.rs")),
    ("", include_str!("../src/searches.rs")),
    ("", include_str!("../src/database.rs")),
    ("", include_str!("../src/directory.rs")),
    ("window_", include_str!("../src/window.rs")),
];
const LINK: &str = include_str!("../src/link.rs");
const REFUSALS_FOR_C: &str = include_str!("../../c/refusals.c");

const PUBLIC: &str = "\n    pub fn ";

/// The names behind a prefix, wherever it stands.
fn names<'a>(text: &'a str, prefix: &'a str) -> impl Iterator<Item = &'a str> {
    let is_other = |letter: char| !letter.is_ascii_lowercase() && letter != '_';
    text.split(prefix)
        .skip(1)
        .filter_map(move |rest| rest.split(is_other).next())
}

/// Each public function that makes an exported call makes the one of its name.
#[test]
fn calls_are_named_alike() {
    for (prefix, text) in CALLS {
        for (call, body) in names(text, PUBLIC).zip(text.split(PUBLIC).skip(1)) {
            let made: Vec<&str> = names(body, "link::pozhdaghi_").collect();
            let own = [format!("{prefix}{call}")];
            assert!(made.is_empty() || made == own, "{call} makes {made:?}");
        }
    }
}

#[test]
fn every_exported_call_has_one() {
    let made = CALLS
        .iter()
        .flat_map(|(_, text)| names(text, "link::pozhdaghi_"));
    let mut made: Vec<&str> = made.collect();
    let mut exported: Vec<&str> = names(LINK, "pub fn pozhdaghi_").collect();
    made.sort_unstable();
    exported.sort_unstable();
    assert_eq!(made, exported);
}

/// Whatever number and values an answer has, they are found in the refusal again.
#[test]
fn every_number_is_taken() {
    let values = [0, 1, 7, u64::from(u32::MAX), 1 << 32, u64::MAX];
    let numbers = (0..=64).chain([65_535, 1 << 32, u64::MAX]);
    for number in numbers {
        for first in values {
            for second in values {
                let refusal = Refusal::from_numbers(number, [first, second]);
                assert_eq!(refusal.number(), number);
                assert_eq!(refusal.values(), [first, second]);
                assert!(refusal.to_string().starts_with(&number.to_string()));
            }
        }
    }
}

/// A number is known here just where the package for C has a name for it, and the line
/// there has the same name and text.
#[test]
fn names_and_texts_are_those_for_c() {
    for number in 1..=64 {
        let refusal = Refusal::from_numbers(number, [0, 0]);
        let is_unknown = matches!(refusal, Refusal::Unknown { .. });
        assert_eq!(is_unknown, refusal.name() == "unknown");
        let line = REFUSALS_FOR_C
            .lines()
            .find(|line| line.contains(&format!(", \"{}\", ", refusal.name())));
        let line = line.expect("a line for every name");
        let has_text = line.contains(&format!("\"{}\"", refusal.advice()));
        let is_shared = line.contains("NO_PATH") && (14..=18).contains(&number);
        assert!(has_text || is_shared, "{line}");
    }
    let known = (1..=64).map(|number| Refusal::from_numbers(number, [0, 0]));
    let known = known.filter(|refusal| !matches!(refusal, Refusal::Unknown { .. }));
    assert_eq!(
        known.count() + 1,
        REFUSALS_FOR_C.matches("    {POZHDAGHI_").count()
    );
    let no_path = Refusal::from_numbers(14, [0, 0]).advice();
    assert!(REFUSALS_FOR_C.contains(&format!("NO_PATH[] = \"{no_path}\"")));
}

/// Number, name, the values by what they are, and what to do.
#[test]
fn texts() {
    for (number, values, text) in [
        (2, [0, 0], "2 Length: the image is cut, "),
        (4, [15, 0], "4 Record, offset 15: a record has a wrong kind"),
        (10, [7, 0], "10 UnknownNode, node 7: no live, visible node"),
        (12, [4, 0], "12 UnknownEdge, edge 4: no live, visible edge"),
        (
            13,
            [2, 3],
            "13 IncorrectSource, path at node 2, edge from node 3: the edge",
        ),
        (21, [9, 0], "21 UnknownFile, file 9: the image has no file"),
        (33, [0, 0], "33 Full: compact and replace again; "),
        (99, [1, 2], "99 unknown, 1 2: no refusal has this number"),
    ] {
        let shown = Refusal::from_numbers(number, values).to_string();
        assert!(shown.starts_with(text), "{shown}");
    }
}
