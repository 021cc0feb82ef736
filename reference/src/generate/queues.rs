//! Crowded queues, and long leaks.
use super::{assemble, edges::move_validator, epoch_of, finality, registry, tiny, with_pair};
use crate::{
    random::Random,
    record::{at, of, Record, FAR, MAINNET, SMALL},
};

/// Many to eject and to activate, exit epochs up to 2^64 - 2, delays of 0 and a little.
pub fn queues(rng: &mut Random) -> Record {
    let base = if rng.once_in(2) { tiny(rng) } else { MAINNET };
    let mut s = with_pair(rng, base);
    s[at::MIN_CHURN] = rng.below(4);
    s[at::CHURN_QUOTIENT] = 1 + rng.below(8);
    s[at::DELAY] = rng.pick(&[0, 0, 1, 2, 256]);
    s[at::LOOKAHEAD] = rng.below(5);
    let epoch = 2 + rng.below(40);
    let f = finality(rng, &s, epoch, 0);
    let e = epoch_of(&s, &f);
    let first = e + 1 + s[at::LOOKAHEAD];
    // where the exit queue ends
    let last = rng.pick(&[first, first + 1, first + 5, FAR - 1, FAR - 2, FAR - 3, FAR - 1 - s[at::DELAY]]);
    let n = 2 + rng.below(24);
    let mut registry = registry(rng, &s, e, n);
    for v in registry.chunks_exact_mut(10) {
        match rng.below(5) {
            // active, and to be ejected
            0 | 1 => {
                v[of::EFFECTIVE] = s[at::EJECTION] - rng.below(2).min(s[at::EJECTION]);
                (v[of::ACTIVATION], v[of::EXIT], v[of::WITHDRAWABLE]) = (0, FAR, FAR);
                v[of::ELIGIBILITY] = rng.pick(&[0, e, FAR]);
            }
            // leaving
            2 => {
                v[of::EXIT] = last.wrapping_sub(rng.below(3));
                v[of::WITHDRAWABLE] = rng.pick(&[FAR, v[of::EXIT], e + s[at::L] / 2]);
            }
            // waiting
            3 => {
                v[of::ACTIVATION] = FAR;
                v[of::ELIGIBILITY] = f.finalized.epoch.wrapping_add(rng.below(4)).wrapping_sub(2);
                if rng.once_in(3) {
                    v[of::EXIT] = FAR;
                }
            }
            // to be queued
            _ => {
                v[of::EFFECTIVE] = s[at::MAX_EFFECTIVE];
                (v[of::ELIGIBILITY], v[of::ACTIVATION]) = (FAR, rng.pick(&[FAR, FAR, 0]));
            }
        }
    }
    let mut r = assemble(rng, s, f, registry);
    for _ in 0..rng.below(3) {
        move_validator(rng, &mut r);
    }
    r
}

/// Finality far behind, scores and biases that bring the inactivity products near 64 bits.
pub fn leaks(rng: &mut Random) -> Record {
    let base = if rng.once_in(3) { tiny(rng) } else { MAINNET };
    let mut s = with_pair(rng, base);
    if rng.once_in(3) {
        s[at::BIAS] = 1 + rng.any_size() % (SMALL - 1);
    }
    if rng.once_in(3) {
        s[at::PENALTY_QUOTIENT] = 1 + rng.any_size() % (SMALL - 1);
    }
    if rng.once_in(3) {
        s[at::RECOVERY] = rng.any_size() % SMALL;
    }
    let epoch = 10 + rng.below(5000);
    let delay = rng.pick(&[s[at::LEAK_AFTER], s[at::LEAK_AFTER] + 1, 100, 5000]);
    let f = finality(rng, &s, epoch, delay);
    let e = epoch_of(&s, &f);
    let n = 1 + rng.below(10);
    let mut registry = registry(rng, &s, e, n);
    for v in registry.chunks_exact_mut(10) {
        let top = FAR / v[of::EFFECTIVE].max(1);
        v[of::SCORE] = match rng.below(6) {
            0 => top.wrapping_add(rng.below(3)).wrapping_sub(1),
            1 => rng.below(top.max(1)),
            2 if rng.once_in(4) => FAR - rng.below(s[at::BIAS].saturating_mul(2).max(2)),
            _ => rng.below(1 << 30),
        };
        if rng.once_in(2) {
            v[of::PREVIOUS] = rng.below(8);
        }
    }
    assemble(rng, s, f, registry)
}
