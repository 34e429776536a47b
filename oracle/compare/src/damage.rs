//! Images with something wrong: bytes changed, cut or added, counts changed.

use crate::graph::{Edge, Graph, Node, with_head};
use crate::random::Random;

/// Bytes before the first record: version, length, three counts.
const FIRST_RECORD: usize = 11;

/// The two that are read, and others.
const VERSIONS: [u8; 6] = [1, 1, 2, 2, 0, 3];

/// Sizes about the bounds of both versions.
const ABOUT_BOUNDS: [(usize, usize); 2] = [(63_490, 63_510), (65_530, 65_542)];

/// The graph's bytes with some damage, which now and then changes nothing that matters.
pub fn damaged(random: &mut Random, graph: &Graph) -> Vec<u8> {
    let mut image = graph.image();
    match random.below(8) {
        0 => cut_or_grow(random, &mut image),
        1 => change_head(random, &mut image),
        2 => change_count_byte(random, &mut image),
        3 | 4 => return wrong_names(random, graph).image(),
        5 => insert_or_drop(random, &mut image),
        _ => {}
    }
    for _ in 0..random.below(3) {
        change_byte(random, &mut image);
    }
    image
}

/// Any bytes at all, of a length that the head may match.
pub fn noise(random: &mut Random) -> Vec<u8> {
    if random.percent(8) {
        return about_bounds(random);
    }
    let length = random.below(40);
    let mut image: Vec<u8> = (0..length).map(|_| random.word() as u8 % 12).collect();
    if image.len() > 4 && random.percent(70) {
        image = with_head(*random.one_of(&VERSIONS), &image[5..]);
    }
    image
}

/// As many bytes as an image of either version may just have, or just not; of
/// what is in them the counts are refused first.
pub fn about_bounds(random: &mut Random) -> Vec<u8> {
    let (first, last) = *random.one_of(&ABOUT_BOUNDS);
    let body = vec![0; random.within(first, last) - 5];
    with_head(*random.one_of(&VERSIONS), &body)
}

fn set_length(image: &mut [u8]) {
    let length = (image.len() - 5) as u32;
    image[1..5].copy_from_slice(&length.to_be_bytes());
}

/// Behind a length that fits again, or with the old one.
fn cut_or_grow(random: &mut Random, image: &mut Vec<u8>) {
    if random.percent(60) {
        image.truncate(random.below(image.len()));
    } else {
        let added = random.within(1, 4);
        image.extend(random.rubbish(added).iter().map(|&word| word as u8));
    }
    if image.len() > 5 && random.percent(70) {
        set_length(image);
    }
}

fn change_head(random: &mut Random, image: &mut [u8]) {
    let counts: [u16; 12] = [0, 1, 2, 3, 255, 256, 257, 2_047, 2_048, 2_049, 4_096, 4_097];
    let count = *random.one_of(&counts);
    match random.below(5) {
        0 => image[0] = *random.one_of(&[0, 1, 2, 3, 255]),
        1 => image[random.within(1, 4)] ^= 1 << random.below(8),
        place => {
            let at = 1 + 2 * place;
            image[at..at + 2].copy_from_slice(&count.to_be_bytes());
        }
    }
}

/// Where the records begin, by their own counts.
fn places(image: &[u8]) -> Vec<usize> {
    let mut places = Vec::new();
    let mut at = FIRST_RECORD;
    while at < image.len() {
        places.push(at);
        at += 1 + usize::from(image[at]);
    }
    places
}

/// The count of a record one too low or high, or any; its length may be made to fit.
fn change_count_byte(random: &mut Random, image: &mut Vec<u8>) {
    let at = *random.one_of(&places(image));
    let count = image[at];
    image[at] = *random.one_of(&[0, 1, count.wrapping_sub(1), count + 1, 255]);
    if image[at] == count + 1 && random.percent(60) {
        image.insert(at + 1 + usize::from(count), 0);
        set_length(image);
    }
}

fn insert_or_drop(random: &mut Random, image: &mut Vec<u8>) {
    let at = random.within(FIRST_RECORD, image.len() - 1);
    if random.percent(50) {
        image.remove(at);
    } else {
        image.insert(at, random.below(12) as u8);
    }
    set_length(image);
}

fn change_byte(random: &mut Random, image: &mut [u8]) {
    if image.is_empty() {
        return;
    }
    let at = random.below(image.len());
    image[at] = match random.below(3) {
        0 => random.word() as u8,
        1 => image[at].wrapping_add(1),
        _ => random.below(10) as u8,
    };
}

/// Records that are well formed but name what they must not: 5, or 4 for a file.
fn wrong_names(random: &mut Random, graph: &Graph) -> Graph {
    let mut graph = graph.clone();
    for _ in 0..random.within(1, 2) {
        let bound = graph.nodes.len() as u32;
        let any = *random.one_of(&[0, 1, 2, bound - 1, bound, u32::from(u16::MAX)]);
        let number = random.below(graph.nodes.len());
        match random.below(4) {
            0 => graph.nodes[number] = Node::Removed,
            1 => {
                let file = random.below(graph.files + 1) as u32;
                graph.nodes[number] = Node::PushScoped {
                    file,
                    symbol: 7,
                    scope: any,
                    flag: true,
                };
            }
            2 => graph.files = graph.files.saturating_sub(1),
            _ => {
                let source = random.below(graph.nodes.len()) as u32;
                let place = random.below(graph.edges.len() + 1);
                graph.edges.insert(
                    place,
                    Some(Edge {
                        source,
                        target: any,
                        precedence: 0,
                    }),
                );
            }
        }
    }
    graph
}
