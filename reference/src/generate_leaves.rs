//! Questions to the leaves, drawn from a record: its validators, flags, epochs and slots, and their neighbours.
use crate::{
    calls::{Case, Leaf, Lent, Number},
    random::Random,
    record::{at, Finality, Record, FAR, SMALL},
};

/// A question to one leaf. About one in eight has something wrong.
pub fn case(rng: &mut Random, leaf: Leaf, r: &Record) -> Case {
    let shape = leaf.shape();
    let mut c = Case {
        leaf,
        settings: if shape.settings { r.settings } else { [0; 19] },
        roots: if shape.roots { r.roots.clone() } else { Vec::new() },
        finality: if shape.finality { r.finality } else { Finality::default() },
        numbers: Vec::new(),
        registry: match shape.lent {
            Lent::Nothing => Vec::new(),
            Lent::Entry => entry(rng, r),
            Lent::Registry => r.registry.clone(),
        },
    };
    if leaf == Leaf::WeighJustificationAndFinalization {
        c.numbers = totals(rng, r);
    } else {
        c.numbers = shape.numbers.iter().map(|&kind| number(rng, kind, r)).collect();
    }
    if rng.once_in(16) {
        spoil(rng, &mut c);
    }
    c
}

fn entry(rng: &mut Random, r: &Record) -> Vec<u64> {
    match r.validators() {
        0 => vec![0; 10],
        n => {
            let i = rng.index(n);
            r.registry[10 * i..10 * i + 10].to_vec()
        }
    }
}

fn edge(rng: &mut Random) -> u64 {
    match rng.below(3) {
        0 => rng.any_size(),
        _ => rng.pick(&[0, 1, 2, SMALL - 1, SMALL, 1 << 63, FAR - 1, FAR]),
    }
}

fn number(rng: &mut Random, kind: Number, r: &Record) -> u64 {
    let slot = r.finality.slot;
    let slots = r.settings[at::SLOTS_PER_EPOCH];
    let epoch = slot.checked_div(slots).unwrap_or(0);
    let near = |rng: &mut Random, x: u64| x.wrapping_add(rng.below(5)).wrapping_sub(2);
    match kind {
        Number::Flags => rng.below(256),
        Number::AnyFlagIndex => rng.pick(&[0, 1, 2, 3, 4, 5, 6, 7, 7, 8, 9, 255, 1 << 32, FAR]),
        Number::FlagIndex => match rng.below(12) {
            0 => rng.pick(&[3, 4, 7, 8, 1 << 32, FAR]),
            _ => rng.below(3),
        },
        Number::Index => match rng.below(10) {
            0 => rng.pick(&[r.validators() as u64, r.validators() as u64 + 1, FAR]),
            _ => rng.below((r.validators() as u64).max(1)),
        },
        Number::StateSlot => match rng.below(16) {
            0 => edge(rng),
            1 => rng.pick(&[0, slots, SMALL - 1]),
            _ => slot,
        },
        Number::FinalizedEpoch => match rng.below(8) {
            0 => edge(rng),
            1 => near(rng, epoch),
            2 => epoch.saturating_sub(1).wrapping_sub(r.settings[at::LEAK_AFTER]).wrapping_sub(rng.below(2)),
            _ => r.finality.finalized.epoch,
        },
        Number::ParticipationEpoch => match rng.below(10) {
            0 => near(rng, epoch),
            1 => edge(rng),
            n => epoch.saturating_sub(n % 2),
        },
        Number::Total => match rng.below(4) {
            0 => edge(rng),
            1 => rng.below(1000) * rng.below(1000),
            _ => r.settings[at::INCREMENT].saturating_mul(1 + rng.below(100)),
        },
        Number::Slot => {
            let s = r.settings[at::S];
            let back = rng.pick(&[1, 1, 2, s, s.wrapping_sub(1), s.wrapping_add(1), slots, slot % slots.max(1), 0]);
            match rng.below(8) {
                0 => edge(rng),
                _ => slot.wrapping_sub(back),
            }
        }
        Number::Epoch => match rng.below(6) {
            0 => edge(rng),
            1 => FAR.checked_div(slots).unwrap_or(0).wrapping_add(rng.below(3)),
            2 => FAR - 1 - r.settings[at::LOOKAHEAD].wrapping_add(rng.below(3)).wrapping_sub(1).min(FAR - 1),
            _ => epoch.saturating_sub(rng.below(4)),
        },
        Number::Amount => match rng.below(5) {
            0 => edge(rng),
            1 => {
                // perfect squares and their neighbours
                let x = rng.any_size() & u64::from(u32::MAX);
                near(rng, x * x)
            }
            2 => {
                // what a balance still holds, up and down
                let e = entry(rng, r);
                let left = if rng.once_in(2) { e[6] } else { FAR - e[6] };
                near(rng, left)
            }
            _ => rng.below(100_000_000_000),
        },
    }
}

/// Total, previous and current target: around two thirds, around the overflow of the products, or anything.
fn totals(rng: &mut Random, r: &Record) -> Vec<u64> {
    let total = match rng.below(5) {
        0 => edge(rng),
        1 => (1 << 63) - 2 + rng.below(4),
        2 => rng.below(50),
        _ => r.settings[at::INCREMENT].saturating_mul(1 + rng.below(64)),
    };
    let target = |rng: &mut Random| match rng.below(6) {
        0 => edge(rng),
        1 => FAR / 3 - 1 + rng.below(3),
        2 => 0,
        3 => total,
        _ => ((u128::from(total) * 2).div_ceil(3) as u64).wrapping_add(rng.below(3)).wrapping_sub(1),
    };
    let previous = target(rng);
    vec![total, previous, target(rng)]
}

/// A part of the wrong length, or a number out of its range.
fn spoil(rng: &mut Random, c: &mut Case) {
    let shape = c.leaf.shape();
    let large = rng.pick(&[SMALL, SMALL + 1, 1 << 63, FAR]);
    match rng.below(6) {
        0 if shape.settings => c.settings[rng.index(19)] = rng.pick(&[0, large]),
        1 if shape.settings => c.settings[rng.pick(&[at::S, at::L])] = rng.pick(&[0, 65536, 65537, large]),
        2 if shape.roots => match rng.below(2) {
            0 => c.roots.push(0),
            _ => c.roots.truncate(c.roots.len().saturating_sub(1)),
        },
        3 if shape.finality => match rng.below(5) {
            0 => c.finality.slot = large,
            1 => c.finality.bits = 16,
            2 => c.finality.previous.epoch = large,
            3 => c.finality.current.epoch = large,
            _ => c.finality.finalized.epoch = large,
        },
        4 if shape.lent != Lent::Nothing => match rng.below(3) {
            0 => c.registry.push(0),
            1 => drop(c.registry.pop()),
            _ => c.registry.clear(),
        },
        _ if !c.registry.is_empty() => {
            let place = 10 * rng.index(c.registry.len().div_ceil(10)) + rng.pick(&[1, 7, 8]);
            if let Some(n) = c.registry.get_mut(place) {
                *n = rng.pick(&[2, 256, large]);
            }
        }
        _ => (),
    }
}
