//! What an answer tells: its fate lines, and how far a batch came.

/// The fate lines of an answer.
pub(crate) fn fates(answer: &str) -> impl Iterator<Item = (u32, u32)> + '_ {
    let (_, lines) = answer.split_once("fates ").unwrap_or_default();
    lines.split(' ').filter_map(|line| {
        let (number, cause) = line.strip_prefix('(')?.strip_suffix(')')?.split_once(',')?;
        Some((number.parse().ok()?, cause.parse().ok()?))
    })
}

/// How many frames a batch accepted, and the number of the refusal that stopped it, 0 for none.
pub(crate) fn batch(answer: &str) -> Option<(usize, u32)> {
    let mut words = answer.strip_prefix("ok batch ")?.split(' ');
    Some((words.next()?.parse().ok()?, words.next()?.parse().ok()?))
}
