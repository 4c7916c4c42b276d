//! A segment as a tree of boxes, which damage can be done to before it becomes bytes.

/// A box, or what stands in the place of one.
#[derive(Clone, Debug)]
pub(crate) struct Node {
    pub(crate) kind: [u8; 4],
    pub(crate) told: Told,
    pub(crate) content: Content,
}

/// How a box tells its size.
#[derive(Clone, Copy, Debug)]
pub(crate) enum Told {
    /// In 32 bits, and so much off the right one.
    Size(i64),
    /// In 64 bits, and so much off the right one.
    Large(i64),
    /// In 32 bits, with this number.
    As(u32),
    /// In 64 bits, with this number.
    LargeAs(u64),
    /// Not at all: it is bare bytes.
    Bare,
}

/// What a box holds.
#[derive(Clone, Debug)]
pub(crate) enum Content {
    /// Other boxes.
    Boxes(Vec<Node>),
    /// Fields.
    Bytes(Vec<u8>),
}

impl Node {
    /// A box of fields.
    pub(crate) fn new(kind: &[u8; 4], bytes: Vec<u8>) -> Self {
        Self::with(kind, Content::Bytes(bytes))
    }

    /// A box of boxes.
    pub(crate) fn parent(kind: &[u8; 4], boxes: Vec<Node>) -> Self {
        Self::with(kind, Content::Boxes(boxes))
    }

    fn with(kind: &[u8; 4], content: Content) -> Self {
        Self {
            kind: *kind,
            told: Told::Size(0),
            content,
        }
    }

    /// A box of words, the first of them its version and flags.
    pub(crate) fn full(kind: &[u8; 4], version: u8, flags: u32, words: &[u32]) -> Self {
        let head = u32::from(version) << 24 | flags;
        let words = [head].into_iter().chain(words.iter().copied());
        Self::new(kind, words.flat_map(u32::to_be_bytes).collect())
    }

    /// Bytes that are no box.
    pub(crate) fn bare(bytes: Vec<u8>) -> Self {
        Self {
            told: Told::Bare,
            ..Self::new(b"    ", bytes)
        }
    }

    /// Whether it holds boxes.
    pub(crate) fn is_parent(&self) -> bool {
        matches!(self.content, Content::Boxes(_))
    }

    fn write(&self, bytes: &mut Vec<u8>) {
        let start = bytes.len();
        let header = match self.told {
            Told::Bare => 0,
            Told::Size(_) | Told::As(_) => 8,
            Told::Large(_) | Told::LargeAs(_) => 16,
        };
        bytes.resize(start + header, 0);
        match &self.content {
            Content::Boxes(boxes) => boxes.iter().for_each(|node| node.write(bytes)),
            Content::Bytes(fields) => bytes.extend(fields),
        }
        let size = (bytes.len() - start) as i64;
        let (small, large) = match self.told {
            Told::Bare => return,
            Told::Size(off) => ((size + off) as u32, None),
            Told::As(number) => (number, None),
            Told::Large(off) => (1, Some((size + off) as u64)),
            Told::LargeAs(number) => (1, Some(number)),
        };
        bytes[start..start + 4].copy_from_slice(&small.to_be_bytes());
        bytes[start + 4..start + 8].copy_from_slice(&self.kind);
        if let Some(large) = large {
            bytes[start + 8..start + 16].copy_from_slice(&large.to_be_bytes());
        }
    }
}

/// The bytes of some boxes.
pub(crate) fn bytes(nodes: &[Node]) -> Vec<u8> {
    let mut bytes = Vec::new();
    nodes.iter().for_each(|node| node.write(&mut bytes));
    bytes
}
