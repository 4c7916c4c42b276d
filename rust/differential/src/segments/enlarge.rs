//! Segments that a link makes trouble with: movie fragments around the largest that is taken, more
//! than one of them, boxes longer than a lump, and sizes that stop the framing.

use super::tree::{self, Content, Node, Told};
use crate::rng::Rng;

/// The bytes of a box's size and type.
const HEADER: usize = 8;

/// Bytes of a movie fragment box, of which 65,536 are the most.
const FRAGMENTS: [usize; 8] = [
    65_535, 65_536, 65_536, 65_536, 65_537, 65_537, 65_544, 70_000,
];

/// Sizes of movie fragments that are not there, and too large.
const BEYOND: [u64; 6] = [65_537, 65_537, 65_552, 1 << 31, u32::MAX as u64, 1 << 20];

/// Such sizes that 32 bits do not hold, but for the first.
const FAR_BEYOND: [u64; 5] = [65_537, 1 << 32, (1 << 32) + 100, 1 << 63, u64::MAX];

/// Boxes that are passed over.
const OTHERS: [&[u8; 4]; 5] = [b"mdat", b"mdat", b"free", b"uuid", b"MOOF"];

/// Changes a few of a segment's boxes.
pub(super) fn enlarge(rng: &mut Rng, nodes: &mut Vec<Node>) {
    for _ in 0..rng.pick(&[1, 1, 1, 2, 3]) {
        match rng.between(1, 12) {
            1..=4 => fill_fragment(rng, nodes),
            5..=6 => insert(rng, nodes, another_fragment),
            7..=8 => insert(rng, nodes, |rng, _| long_box(rng)),
            9 => insert(rng, nodes, |rng, _| large_fragment(rng)),
            10 => insert(rng, nodes, |rng, _| stop(rng)),
            _ => {
                let place = rng.between(0, nodes.len() as i64 - 1) as usize;
                nodes[place].told = Told::Large(0);
            }
        }
    }
}

fn insert(rng: &mut Rng, nodes: &mut Vec<Node>, make: impl Fn(&mut Rng, &[Node]) -> Node) {
    let node = make(rng, nodes);
    let place = rng.between(0, nodes.len() as i64) as usize;
    nodes.insert(place, node);
}

/// Puts a box into a movie fragment, anywhere among its own, that makes it as large as is wanted.
fn fill_fragment(rng: &mut Rng, nodes: &mut [Node]) {
    let wanted = match rng.percent(70) {
        true => rng.pick(&FRAGMENTS),
        false => rng.between(500, 66_000) as usize,
    };
    let Some(moof) = nodes.iter_mut().find(|node| node.kind == *b"moof") else {
        return;
    };
    let present = tree::bytes(std::slice::from_ref(moof)).len();
    let missing = wanted.checked_sub(present + HEADER);
    if let (Content::Boxes(boxes), Some(length)) = (&mut moof.content, missing) {
        let place = rng.between(0, boxes.len() as i64) as usize;
        boxes.insert(place, Node::new(b"free", vec![0; length]));
    }
}

/// A copy of the movie fragment, or one without boxes.
fn another_fragment(rng: &mut Rng, nodes: &[Node]) -> Node {
    let first = nodes.iter().find(|node| node.kind == *b"moof");
    match first.filter(|_| rng.percent(50)) {
        Some(node) => node.clone(),
        None => Node::parent(b"moof", Vec::new()),
    }
}

/// A box of which a lump has a part only, or that announces so many bytes more than it has that 32 bits
/// do not show them.
fn long_box(rng: &mut Rng) -> Node {
    let length = rng.pick(&[10, 1_000, 65_528, 65_536, 70_000, 140_000]);
    let node = Node::new(rng.pick(&OTHERS), vec![0; length]);
    let more = Told::LargeAs((1 << 32) + 16 + length as u64);
    let told = rng.pick(&[Told::Size(0), Told::Size(0), Told::Large(0), more]);
    Node { told, ..node }
}

/// A movie fragment's header with a size that is too large, and little after it.
fn large_fragment(rng: &mut Rng) -> Node {
    let told = match rng.percent(50) {
        true => Told::As(rng.pick(&BEYOND) as u32),
        false => Told::LargeAs(rng.pick(&FAR_BEYOND)),
    };
    let length = rng.between(0, 40) as usize;
    let node = Node::new(b"moof", vec![0; length]);
    Node { told, ..node }
}

/// A box whose size does not hold its own header.
fn stop(rng: &mut Rng) -> Node {
    let told = match rng.between(1, 3) {
        1 => Told::As(0),
        2 => Told::As(rng.between(2, 7) as u32),
        _ => Told::LargeAs(rng.between(0, 15) as u64),
    };
    let kind = rng.pick(&[b"moof", b"mdat", b"free"]);
    let node = Node::new(kind, Vec::new());
    Node { told, ..node }
}
