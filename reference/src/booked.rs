//! What the Rust does not say of a record or of its close: the exit queue's pair, counted, and which of the four finality tests last set
//! the checkpoint, from the old checkpoints and the new bits. judge::booked has the amounts, by the Rust's own deltas.
use crate::record::{at, of, Finality, Settings, FAR};

/// The largest exit epoch below FAR and how many have exactly it; zeros where nobody has one.
pub fn queue(registry: &[u64]) -> [u64; 2] {
    let exits: Vec<u64> = registry.chunks_exact(10).map(|v| v[of::EXIT]).filter(|&epoch| epoch != FAR).collect();
    let last = exits.iter().copied().max().unwrap_or(0);
    [last, exits.iter().filter(|&&epoch| epoch == last).count() as u64]
}

/// The bits that each test wants, of which of the two old checkpoints, and how many epochs back it must be.
const TESTS: [(&[u64], bool, u64); 4] =
    [(&[1, 2, 3], false, 3), (&[1, 2], false, 2), (&[0, 1, 2], true, 2), (&[0, 1], true, 1)];

/// 1 to 4, or 0; none up to epoch 1, which justification leaves as it is.
pub fn test(s: &Settings, old: &Finality, new: &Finality) -> u64 {
    let epoch = old.slot / s[at::SLOTS_PER_EPOCH];
    let passes = |&(_, (wanted, current, back)): &(u64, (&[u64], bool, u64))| {
        let checkpoint = if current { &old.current } else { &old.previous };
        epoch > 1 && wanted.iter().all(|i| new.bits >> i & 1 == 1) && checkpoint.epoch + back == epoch
    };
    (1..).zip(TESTS).filter(passes).last().map_or(0, |(number, _)| number)
}
