//! Counts of what a comparison has reached, with the least that each has to be.

/// What is counted, how often it was there, and how often it has to be.
pub(crate) type Count = (String, u64, u64);

/// The count of whatever was there least often.
pub(crate) fn rarest(counts: &[u64]) -> u64 {
    counts.iter().copied().min().unwrap_or(0)
}

/// The counts that are below their least. The least ones are for so many, and
/// in proportion for what was made.
pub(crate) fn short(counts: Vec<Count>, made: u64, least_are_for: u64) -> Vec<String> {
    let short = counts.into_iter().filter_map(|(name, count, least)| {
        let least = least * made / least_are_for;
        (count < least).then(|| format!("{name}: {count}, and {least} is the least"))
    });
    short.collect()
}
