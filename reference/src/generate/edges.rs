//! Numbers at the edges of ranges, tests and 64 bits.
use super::{assemble, damage::damage, edge, epoch_of, finality, registry, roots, slot_in, tiny, with_pair};
use crate::{
    random::Random,
    record::{at, of, Finality, Record, Settings, FAR, MAINNET, SMALL},
    refusals::DIVISORS,
};

/// Epochs at the edges of the tests that read them.
fn epoch_edge(rng: &mut Random, r: &Record) -> u64 {
    let s = &r.settings;
    let e = epoch_of(s, &r.finality);
    let near = [
        e,
        e.wrapping_sub(1),
        e + 1,
        e + 1 + s[at::LOOKAHEAD],
        e + s[at::L] / 2,
        r.finality.finalized.epoch,
        r.finality.previous.epoch,
        FAR,
        FAR,
        FAR - 1,
        0,
    ];
    match rng.below(4) {
        0 => edge(rng),
        1 => rng.pick(&near),
        _ => rng.pick(&near).wrapping_add(rng.below(3)).wrapping_sub(1),
    }
}

fn amount_edge(rng: &mut Random, r: &Record, effective: u64) -> u64 {
    let s = &r.settings;
    let step = s[at::INCREMENT] / s[at::HYSTERESIS_QUOTIENT].max(1);
    let near = [
        effective,
        effective.wrapping_sub(step.wrapping_mul(s[at::DOWNWARD])),
        effective.wrapping_add(step.wrapping_mul(s[at::UPWARD])),
        s[at::EJECTION],
        s[at::MAX_EFFECTIVE],
        s[at::INCREMENT],
        0,
    ];
    match rng.below(5) {
        0 => edge(rng),
        _ => rng.pick(&near).wrapping_add(rng.below(3)).wrapping_sub(1),
    }
}

/// One number of a validator moved to an edge.
pub fn move_validator(rng: &mut Random, r: &mut Record) {
    let n = r.validators();
    if n == 0 {
        return;
    }
    let i = rng.index(n);
    let place = rng.index(10);
    let effective = r.registry[10 * i];
    r.registry[10 * i + place] = match place {
        of::EFFECTIVE | of::BALANCE => amount_edge(rng, r, effective),
        of::SLASHED => rng.below(2),
        of::PREVIOUS | of::CURRENT => rng.pick(&[0, 1, 2, 3, 4, 5, 6, 7, 8, 254, 255]),
        of::SCORE => match rng.below(4) {
            0 => edge(rng),
            1 => r.settings[at::RECOVERY].wrapping_add(rng.below(3)).wrapping_sub(1),
            2 => rng.below(3),
            _ => FAR.wrapping_sub(r.settings[at::BIAS]).wrapping_add(rng.below(3)).wrapping_sub(1),
        },
        _ => epoch_edge(rng, r),
    };
}

/// One setting moved to an edge within its range; S and L stay.
fn move_setting(rng: &mut Random, s: &mut Settings) {
    let k = loop {
        let k = rng.index(19);
        if k != at::S && k != at::L {
            break k;
        }
    };
    s[k] = match rng.below(4) {
        0 => 1,
        1 => SMALL - 1 - rng.below(2),
        2 => rng.any_size() % SMALL,
        _ => rng.below(3),
    };
    if s[k] == 0 && DIVISORS.contains(&k) {
        s[k] = 1;
    }
}

/// Slot, bits or a checkpoint moved to an edge within its range.
fn move_finality(rng: &mut Random, r: &mut Record) {
    let e = epoch_of(&r.settings, &r.finality);
    let near =
        [e, e.saturating_sub(1), e.saturating_sub(2), e.saturating_sub(3), e.saturating_sub(4), e + 1, 0, SMALL - 1];
    let epoch = rng.pick(&near).min(SMALL - 1);
    let slots = r.settings[at::SLOTS_PER_EPOCH].clamp(1, SMALL);
    match rng.below(6) {
        0 => {
            r.finality.slot =
                rng.pick(&[0, 1, slots, 2 * slots, 2 * slots + 1, 3 * slots - 1, SMALL - 1, SMALL - 2]).min(SMALL - 1)
        }
        1 => r.finality.bits = rng.below(16),
        2 => r.finality.previous.epoch = epoch,
        3 => r.finality.current.epoch = epoch,
        4 => r.finality.finalized.epoch = epoch,
        _ => r.finality.slot = slot_in(rng, &r.settings, e),
    }
}

pub fn boundary(rng: &mut Random) -> Record {
    let base = if rng.once_in(2) { tiny(rng) } else { MAINNET };
    let mut s = with_pair(rng, base);
    for _ in 0..rng.pick(&[0, 0, 1, 1, 2, 4]) {
        move_setting(rng, &mut s);
    }
    let (f, registry) = edges_around(rng, &s, &[0, 1, 1, 2, 2, 3, 4, 5, 6, 8]);
    let mut r = assemble(rng, s, f, registry);
    moved(rng, &mut r);
    if rng.once_in(4) {
        let i = rng.index(r.slashings.len());
        r.slashings[i] = edge(rng);
    }
    match rng.below(24) {
        0 | 1 => heavy(rng, &mut r),
        2 => products(rng, &mut r),
        _ => (),
    }
    r
}

/// A small record at these settings, good or bad, for questions to the leaves: no slashings, and at most 16 roots.
pub fn around(rng: &mut Random, s: Settings) -> Record {
    let (finality, registry) = edges_around(rng, &s, &[0, 1, 2, 3, 4]);
    let mut r = Record { settings: s, finality, registry, roots: roots(rng, s[at::S].min(16)), slashings: Vec::new() };
    moved(rng, &mut r);
    if rng.once_in(8) {
        heavy(rng, &mut r);
    }
    if rng.once_in(16) {
        damage(rng, &mut r);
    }
    r
}

fn edges_around(rng: &mut Random, s: &Settings, counts: &[u64]) -> (Finality, Vec<u64>) {
    let slots = s[at::SLOTS_PER_EPOCH].max(1);
    let epoch = rng.pick(&[0, 1, 2, 3, 4, 5, 100, s[at::L].min(SMALL), (SMALL - 1) / slots]);
    let leak = s[at::LEAK_AFTER].min(SMALL);
    let delay = rng.pick(&[0, 0, 1, leak, leak + 1]);
    let f = finality(rng, s, epoch, delay);
    let n = rng.pick(counts);
    (f, registry(rng, s, epoch_of(s, &f), n))
}

fn moved(rng: &mut Random, r: &mut Record) {
    for _ in 0..rng.pick(&[1, 2, 3, 4, 8, 16]) {
        move_validator(rng, r);
    }
    for _ in 0..rng.pick(&[0, 0, 1, 2]) {
        move_finality(rng, r);
    }
}

/// Effective balances whose sums lie around the numbers at which three times a target, twice a total or the sum itself
/// leaves 64 bits. In half of them the previous target is a third of 2^64 and the current one a little more.
fn heavy(rng: &mut Random, r: &mut Record) {
    let thirds = rng.once_in(2);
    let first =
        if thirds { FAR / 3 - rng.below(2) } else { rng.pick(&[FAR / 3, FAR / 2, FAR / 9 * 2]) - 2 + rng.below(5) };
    for (i, v) in r.registry.chunks_exact_mut(10).enumerate() {
        v[of::EFFECTIVE] = match i {
            0 => first,
            _ if thirds => rng.below(3),
            _ => rng.pick(&[0, 1, 2, FAR / 9, FAR / 6, FAR / 100, FAR / 3 * 2]),
        };
        if thirds || rng.once_in(2) {
            (v[of::SLASHED], v[of::ACTIVATION], v[of::EXIT]) = (0, 0, FAR);
        }
        (v[of::PREVIOUS], v[of::CURRENT]) = match (thirds, i) {
            (true, 0) => (7, 7),
            (true, _) => (0, 7),
            _ => (rng.pick(&[7, 7, 2, 0]), rng.pick(&[7, 7, 2, 0])),
        };
    }
}

/// A base reward around the numbers at which it, or its product with a weight, leaves 64 bits: increment 1, one large validator
/// of x * x, and a factor of about 2^64 / (x * weight). In half of them a long leak, where less is evaluated.
fn products(rng: &mut Random, r: &mut Record) {
    let x = 1 << (14 + rng.below(16));
    let weight = rng.pick(&[1, 14, 14, 26, 64]);
    r.settings[at::INCREMENT] = 1;
    r.settings[at::BASE_REWARD_FACTOR] = (FAR / weight / x).min(SMALL - 1) + rng.below(3) - 1;
    r.settings[at::BASE_REWARD_FACTOR] = r.settings[at::BASE_REWARD_FACTOR].min(SMALL - 1);
    if rng.once_in(2) {
        r.settings[at::LEAK_AFTER] = 0;
        r.finality.finalized.epoch = 0;
    }
    for (i, v) in r.registry.chunks_exact_mut(10).enumerate() {
        v[of::EFFECTIVE] = if i == 0 { x * x } else { rng.below(2) };
        if i == 0 && !rng.once_in(4) {
            (v[of::SLASHED], v[of::ACTIVATION], v[of::EXIT]) = (0, 0, FAR);
        }
        v[of::PREVIOUS] = rng.pick(&[0, 1, 2, 3, 3, 3, 4, 7]);
        v[of::SCORE] = rng.below(3);
    }
}
