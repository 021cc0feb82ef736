//! Records with more validators waiting than a churn limit around 64 lets in, where the library finds the queue's cut by another way
//! on either side. The reference's own records are too small for it.
use reference::{
    generate::{self, Kind},
    random::Random,
    record::{at, of, Record, FAR},
};

/// One record in so many.
pub const ONE_IN: u64 = 100;

/// A record of crowded queues, its validators again and again, three in four of them waiting.
pub fn record(rng: &mut Random) -> Record {
    let mut r = generate::record(Kind::Queues, rng.next());
    let n = 60 + rng.index(140);
    r.registry = r.registry.iter().copied().cycle().take(10 * n).collect();
    r.settings[at::MIN_CHURN] = 56 + rng.below(20);
    let finalized = r.finality.finalized.epoch;
    let span = 1 + rng.below(20);
    for v in r.registry.chunks_exact_mut(10) {
        if !rng.once_in(4) {
            let since = finalized.wrapping_add(1 + rng.below(2)).wrapping_sub(rng.below(span));
            (v[of::ELIGIBILITY], v[of::ACTIVATION]) = (since, FAR);
        }
    }
    r
}
