//! Which totals were raised to one increment, counted from the record: the Rust raises a total and does not say so.
use crate::record::{at, of, Settings};

/// 1 where the plain sum of those that are picked, in 128 bits, is below one increment.
fn below(s: &Settings, registry: &[u64], picked: impl Fn(&[u64]) -> bool) -> u64 {
    let sum: u128 = registry.chunks_exact(10).filter(|v| picked(v)).map(|v| u128::from(v[of::EFFECTIVE])).sum();
    u64::from(sum < u128::from(s[at::INCREMENT]))
}

fn is_active(v: &[u64], epoch: u64) -> bool {
    v[of::ACTIVATION] <= epoch && epoch < v[of::EXIT]
}

/// Of those active in the current epoch.
pub fn active(s: &Settings, slot: u64, registry: &[u64]) -> u64 {
    below(s, registry, |v| is_active(v, slot / s[at::SLOTS_PER_EPOCH]))
}

/// Of those that participate by a flag in an epoch, the previous or the current one.
pub fn participating(s: &Settings, slot: u64, registry: &[u64], flag: u64, epoch: u64) -> u64 {
    let flags = if epoch == slot / s[at::SLOTS_PER_EPOCH] { of::CURRENT } else { of::PREVIOUS };
    below(s, registry, |v| is_active(v, epoch) && v[of::SLASHED] == 0 && v[flags] >> flag & 1 == 1)
}

/// Active, previous and current target; none up to epoch 1.
pub fn totals(s: &Settings, slot: u64, registry: &[u64]) -> [u64; 3] {
    let epoch = slot / s[at::SLOTS_PER_EPOCH];
    if epoch <= 1 {
        return [0; 3];
    }
    let target = |epoch| participating(s, slot, registry, 1, epoch);
    [active(s, slot, registry), target(epoch - 1), target(epoch)]
}
