//! Damage to well-made segments: to the tree of their boxes, or to their bytes.

use super::case::Case;
use super::tree::{self, Content, Node, Told};
use crate::rng::Rng;

/// The boxes that a reader looks for.
const KNOWN: [&[u8; 4]; 5] = [b"moof", b"traf", b"tfhd", b"tfdt", b"trun"];

/// The same question of a damaged segment.
pub(super) fn damage(rng: &mut Rng, case: &Case, nodes: &[Node]) -> Case {
    let mut nodes = nodes.to_vec();
    let by_bytes = rng.percent(25);
    if !by_bytes {
        for _ in 0..rng.pick(&[1, 1, 1, 1, 2, 3]) {
            to_tree(rng, &mut nodes);
        }
    }
    let mut bytes = tree::bytes(&nodes);
    if by_bytes || rng.percent(5) {
        to_bytes(rng, &mut bytes);
    }
    Case {
        bytes,
        ..case.clone()
    }
}

/// Some parent's boxes, mostly those of a track fragment.
fn some_boxes<'n>(rng: &mut Rng, nodes: &'n mut Vec<Node>) -> &'n mut Vec<Node> {
    let parents: Vec<usize> = (0..nodes.len())
        .filter(|&place| nodes[place].is_parent())
        .collect();
    if parents.is_empty() || rng.percent(15) {
        return nodes;
    }
    let place = rng.pick(&parents);
    let Content::Boxes(boxes) = &mut nodes[place].content else {
        unreachable!("a parent holds boxes");
    };
    some_boxes(rng, boxes)
}

fn some_place(rng: &mut Rng, length: usize) -> usize {
    rng.between(0, length as i64) as usize
}

fn to_tree(rng: &mut Rng, nodes: &mut Vec<Node>) {
    let boxes = some_boxes(rng, nodes);
    if boxes.is_empty() || rng.percent(10) {
        boxes.push(intruder(rng));
        return;
    }
    let place = some_place(rng, boxes.len() - 1);
    match rng.between(1, 12) {
        1 => drop(boxes.remove(place)),
        2 => {
            let (to, double) = (some_place(rng, boxes.len()), boxes[place].clone());
            boxes.insert(to, double);
        }
        3 => {
            let node = boxes.remove(place);
            boxes.insert(some_place(rng, boxes.len()), node);
        }
        4 => {
            let node = boxes.remove(place);
            some_boxes(rng, nodes).push(node);
        }
        5 => boxes[place].kind = *rng.pick(&KNOWN),
        6..=8 => boxes[place].told = told(rng),
        9 => lengthen_or_cut(rng, &mut boxes[place]),
        _ => change_field(rng, &mut boxes[place]),
    }
}

/// What is not expected where it stands: stray bytes, an empty box, a known one without sense.
fn intruder(rng: &mut Rng) -> Node {
    let length = rng.between(1, 7) as usize;
    match rng.between(1, 4) {
        1..=2 => Node::bare((0..length).map(|_| rng.pick(&[0, 0, 8, 0xff])).collect()),
        3 => Node::new(rng.pick(&KNOWN), Vec::new()),
        _ => Node::full(rng.pick(&KNOWN), 0, 0, &[1]),
    }
}

/// A size that is not the right one, or the right one in 64 bits.
fn told(rng: &mut Rng) -> Told {
    let off = rng.pick(&[-1, 1, -4, 4, 8, -8, 0]);
    match rng.between(1, 8) {
        1..=2 => Told::Size(off),
        3..=4 => Told::Large(off),
        5 => Told::As(rng.between(0, 9) as u32),
        6 => Told::As(rng.pick(&[16, u32::MAX, 1 << 31, 0x1_0000])),
        7 => Told::LargeAs(rng.between(0, 17) as u64),
        _ => Told::LargeAs(rng.pick(&[u64::MAX, 1 << 63, 1 << 32, (1 << 32) + 16, u64::MAX - 15])),
    }
}

/// A box that ends early or late, with the size that it then has.
fn lengthen_or_cut(rng: &mut Rng, node: &mut Node) {
    let by = rng.pick(&[1, 1, 2, 3, 4, 4, 8, 12, 100]);
    match &mut node.content {
        Content::Bytes(bytes) if rng.percent(70) => bytes.truncate(bytes.len().saturating_sub(by)),
        Content::Bytes(bytes) => bytes.resize(bytes.len() + by, 0),
        Content::Boxes(boxes) => boxes.clear(),
    }
}

/// Version, flags, and the word after them (an ID, a decode time or a count).
fn change_field(rng: &mut Rng, node: &mut Node) {
    let Content::Bytes(bytes) = &mut node.content else {
        return;
    };
    let number = rng.pick(&[0, 1, 2, 3, 5, 0xffff, 1 << 31, u32::MAX]);
    match rng.between(1, 4) {
        1 => {
            if let Some(version) = bytes.first_mut() {
                *version = rng.pick(&[0, 1, 1, 2, 255]);
            }
        }
        2 => {
            let (place, bit) = (rng.between(1, 3) as usize, rng.between(0, 7));
            if let Some(flags) = bytes.get_mut(place) {
                *flags ^= 1 << bit;
            }
        }
        3 => overwrite(bytes, 4, &number.to_be_bytes()),
        _ => {
            let place = 4 * some_place(rng, bytes.len() / 4);
            overwrite(bytes, place, &number.to_be_bytes());
        }
    }
}

fn overwrite(bytes: &mut [u8], place: usize, by: &[u8]) {
    if let Some(part) = bytes.get_mut(place..place + by.len()) {
        part.copy_from_slice(by);
    }
}

fn to_bytes(rng: &mut Rng, bytes: &mut Vec<u8>) {
    let place = some_place(rng, bytes.len().saturating_sub(1));
    match rng.between(1, 6) {
        1..=2 => bytes.truncate(place),
        3 if !bytes.is_empty() => drop(bytes.remove(place)),
        4 => bytes.insert(place, rng.next() as u8),
        5 => {
            let number = rng.pick(&[0, 1, 7, 8, 16, u32::MAX]);
            overwrite(bytes, place, &number.to_be_bytes());
        }
        _ => {
            for _ in 0..rng.pick(&[1, 1, 2, 4]) {
                let place = some_place(rng, bytes.len().saturating_sub(1));
                if let Some(byte) = bytes.get_mut(place) {
                    *byte ^= 1 << rng.between(0, 7);
                }
            }
        }
    }
}
