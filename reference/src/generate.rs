//! Records of five kinds, each a function of a seed. Here what they share, and the pools.
mod damage;
mod edges;
mod queues;

pub use damage::damaged_file;
pub use edges::around;

use crate::{
    judge::PAIRS,
    random::Random,
    record::{at, Checkpoint, Finality, Record, Settings, FAR, MAINNET, SMALL},
};

#[derive(Debug, Clone, Copy, PartialEq, Eq)]
pub enum Kind {
    /// pools as they are met
    Pool,
    /// numbers at the edges of ranges and tests
    Boundary,
    /// crowded activation and exit queues
    Queues,
    /// long leaks with large scores
    Leaks,
    /// records and files with something wrong
    Damaged,
}

pub const KINDS: [Kind; 5] = [Kind::Pool, Kind::Boundary, Kind::Queues, Kind::Leaks, Kind::Damaged];

impl Kind {
    pub fn name(self) -> &'static str {
        match self {
            Kind::Pool => "pool",
            Kind::Boundary => "boundary",
            Kind::Queues => "queues",
            Kind::Leaks => "leaks",
            Kind::Damaged => "damaged",
        }
    }
}

/// The seed of the i-th record of a run.
pub fn seed_of(seed: u64, i: u64) -> u64 {
    Random::new(seed ^ i.wrapping_mul(0x2545_f491_4f6c_dd1d)).next()
}

pub fn record(kind: Kind, seed: u64) -> Record {
    let rng = &mut Random::new(seed);
    match kind {
        Kind::Pool => pool(rng),
        Kind::Boundary => edges::boundary(rng),
        Kind::Queues => queues::queues(rng),
        Kind::Leaks => queues::leaks(rng),
        Kind::Damaged => damage::damaged(rng),
    }
}

/// The edges that document 01's ranges and 64 bits have.
const EDGES: [u64; 12] = [0, 1, 2, 255, 256, SMALL - 1, SMALL, 1 << 63, FAR - 2, FAR - 1, FAR, u32::MAX as u64];

fn edge(rng: &mut Random) -> u64 {
    match rng.below(4) {
        0 => rng.any_size(),
        1 => rng.pick(&EDGES).wrapping_add(rng.below(5)).wrapping_sub(2),
        _ => rng.pick(&EDGES),
    }
}

/// Small pairs mostly; the large ones cost time and show little more.
fn pair(rng: &mut Random) -> (u64, u64) {
    let small: Vec<_> = PAIRS.iter().copied().filter(|&(s, l)| s <= 64 && l <= 64).collect();
    match rng.below(3000) {
        0 => (65536, 65536),
        1 => (1, 65536),
        2 => (65536, 1),
        3..=12 => (8192, 8192),
        _ => rng.pick(&small),
    }
}

fn roots(rng: &mut Random, s: u64) -> Vec<u8> {
    let mut bytes = Vec::with_capacity(32 * s as usize);
    for _ in 0..4 * s {
        bytes.extend_from_slice(&rng.next().to_le_bytes());
    }
    bytes
}

fn root(rng: &mut Random) -> [u8; 32] {
    roots(rng, 1).try_into().expect("32 bytes")
}

/// With a pair, and mostly with epochs short enough for the roots of the last two to be there.
fn with_pair(rng: &mut Random, mut s: Settings) -> Settings {
    (s[at::S], s[at::L]) = pair(rng);
    if !rng.once_in(4) {
        s[at::SLOTS_PER_EPOCH] = 2 + rng.below((s[at::S] / 2).clamp(1, 32));
    }
    s
}

/// Settings of small numbers, all different in kind from mainnet's.
pub fn tiny(rng: &mut Random) -> Settings {
    let mut s = MAINNET;
    s[at::SLOTS_PER_EPOCH] = 1 + rng.below(8);
    s[at::INCREMENT] = 1 + rng.below(10);
    s[at::MAX_EFFECTIVE] = s[at::INCREMENT] * rng.below(33);
    s[at::HYSTERESIS_QUOTIENT] = 1 + rng.below(5);
    s[at::DOWNWARD] = rng.below(4);
    s[at::UPWARD] = rng.below(6);
    s[at::BASE_REWARD_FACTOR] = rng.below(100);
    s[at::LEAK_AFTER] = rng.below(6);
    s[at::BIAS] = 1 + rng.below(6);
    s[at::RECOVERY] = rng.below(20);
    s[at::PENALTY_QUOTIENT] = 1 + rng.below(100);
    s[at::MULTIPLIER] = rng.below(5);
    s[at::LOOKAHEAD] = rng.below(6);
    s[at::DELAY] = rng.below(300);
    s[at::EJECTION] = s[at::MAX_EFFECTIVE] / 2;
    s[at::MIN_CHURN] = rng.below(5);
    s[at::CHURN_QUOTIENT] = 1 + rng.below(6);
    s
}

/// A slot whose epoch's first slot is behind it by little, so that small S find roots often.
fn slot_in(rng: &mut Random, s: &Settings, epoch: u64) -> u64 {
    let slots = s[at::SLOTS_PER_EPOCH].max(1);
    let first = epoch.saturating_mul(slots).min(SMALL - 1);
    let within = if rng.once_in(8) { 0 } else { 1 + rng.below(slots.min(1 << 20)) };
    (first + within.min(slots - 1)).min(SMALL - 1)
}

/// Checkpoints at or a little below the epoch, as justification and finality leave them.
fn checkpoints(rng: &mut Random, epoch: u64, delay: u64) -> (Checkpoint, Checkpoint, Checkpoint) {
    let current = epoch.saturating_sub(1 + rng.below(3) + delay);
    let previous = current.saturating_sub(rng.below(3));
    let finalized = previous.saturating_sub(rng.below(3));
    let mut at = |epoch| Checkpoint { epoch, root: root(rng) };
    (at(previous), at(current), at(finalized))
}

fn finality(rng: &mut Random, s: &Settings, epoch: u64, delay: u64) -> Finality {
    let (previous, current, finalized) = checkpoints(rng, epoch, delay);
    Finality { slot: slot_in(rng, s, epoch), bits: rng.below(16), previous, current, finalized }
}

fn epoch_of(s: &Settings, f: &Finality) -> u64 {
    f.slot.checked_div(s[at::SLOTS_PER_EPOCH]).unwrap_or(0)
}

fn slashings(rng: &mut Random, l: u64, amount: u64) -> Vec<u64> {
    let mut v = vec![0; l as usize];
    for _ in 0..rng.below(4) {
        let i = rng.index(v.len());
        v[i] = amount.saturating_mul(rng.below(4));
    }
    v
}

/// A validator in one of the states that a pool has. Amounts are in the settings' increments.
fn validator(rng: &mut Random, s: &Settings, epoch: u64) -> [u64; 10] {
    let most = (s[at::MAX_EFFECTIVE] / s[at::INCREMENT].max(1)).max(1);
    let effective = s[at::INCREMENT].saturating_mul(if rng.once_in(3) { rng.below(most + 1) } else { most });
    let drift = rng.below(s[at::INCREMENT].saturating_mul(2).max(1));
    let balance = if rng.once_in(2) { effective.saturating_add(drift) } else { effective.saturating_sub(drift) };
    let past = epoch - rng.below(epoch.min(50) + 1);
    let soon = epoch + 1 + rng.below(8);
    let due = epoch + s[at::L] / 2;
    // eligibility, activation, exit, withdrawable, slashed
    let [eligibility, activation, exit, withdrawable, slashed] = match rng.below(12) {
        0 => [FAR, FAR, FAR, FAR, 0],
        1 => [past, FAR, FAR, FAR, 0],
        2 => [past, soon, FAR, FAR, 0],
        3 => [past, past, soon, soon + 256, 0],
        4 => [past, past, past, soon, 0],
        5 => [past, past, past, past, 0],
        6 => [past, past, soon, due, 1],
        7 => [past, past, past, due, 1],
        _ => [past.saturating_sub(1), past, FAR, FAR, 0],
    };
    let flags = |rng: &mut Random| if rng.once_in(3) { rng.below(256) } else { 7 };
    let score = if rng.once_in(2) { 0 } else { rng.below(200) };
    [effective, slashed, eligibility, activation, exit, withdrawable, balance, flags(rng), flags(rng), score]
}

fn count(rng: &mut Random) -> u64 {
    match rng.below(40) {
        0 => 0,
        1 => 60 + rng.below(100),
        2..=6 => 10 + rng.below(30),
        7..=12 => 1,
        _ => 2 + rng.below(9),
    }
}

fn registry(rng: &mut Random, s: &Settings, epoch: u64, n: u64) -> Vec<u64> {
    (0..n).flat_map(|_| validator(rng, s, epoch)).collect()
}

fn assemble(rng: &mut Random, s: Settings, finality: Finality, registry: Vec<u64>) -> Record {
    let amount = s[at::MAX_EFFECTIVE];
    Record { settings: s, finality, registry, roots: roots(rng, s[at::S]), slashings: slashings(rng, s[at::L], amount) }
}

fn pool(rng: &mut Random) -> Record {
    let mut s = with_pair(rng, MAINNET);
    if rng.once_in(2) {
        s[at::MIN_CHURN] = rng.below(5);
        s[at::CHURN_QUOTIENT] = 1 + rng.below(8);
    }
    let epoch = match rng.below(6) {
        0 => rng.below(4),
        1 => 2 + rng.below(10),
        _ => 100 + rng.below(400_000),
    };
    let delay = if rng.once_in(4) { rng.below(12) } else { 0 };
    let f = finality(rng, &s, epoch, delay);
    let n = count(rng);
    let registry = registry(rng, &s, epoch_of(&s, &f), n);
    assemble(rng, s, f, registry)
}
