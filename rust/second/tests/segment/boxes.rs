//! Boxes by hand.

/// A box with a 32-bit size.
pub fn boxed(kind: &[u8; 4], body: &[u8]) -> Vec<u8> {
    let size = 8 + body.len() as u32;
    [&size.to_be_bytes(), &kind[..], body].concat()
}

/// A box with a 64-bit size.
pub fn large(kind: &[u8; 4], body: &[u8]) -> Vec<u8> {
    let size = 16 + body.len() as u64;
    [&1_u32.to_be_bytes(), &kind[..], &size.to_be_bytes(), body].concat()
}

/// Numbers of 32 bits.
pub fn words(words: &[u32]) -> Vec<u8> {
    words.iter().flat_map(|word| word.to_be_bytes()).collect()
}

/// A box with version and flags.
pub fn full(kind: &[u8; 4], version: u8, flags: u32, fields: &[u32]) -> Vec<u8> {
    let head = u32::from(version) << 24 | flags;
    boxed(kind, &[words(&[head]), words(fields)].concat())
}

/// A track fragment's header: the ID, and what the flags announce.
pub fn tfhd(flags: u32, fields: &[u32]) -> Vec<u8> {
    full(b"tfhd", 0, flags, fields)
}

/// A decode time of 32 bits.
pub fn tfdt(time: u32) -> Vec<u8> {
    full(b"tfdt", 0, 0, &[time])
}

/// A run: the count of samples, and what the flags announce.
pub fn run(version: u8, flags: u32, fields: &[u32]) -> Vec<u8> {
    full(b"trun", version, flags, fields)
}

/// A track fragment.
pub fn traf(boxes: &[Vec<u8>]) -> Vec<u8> {
    boxed(b"traf", &boxes.concat())
}

/// A segment that is one movie fragment.
pub fn fragment(boxes: &[Vec<u8>]) -> Vec<u8> {
    boxed(b"moof", &boxes.concat())
}
