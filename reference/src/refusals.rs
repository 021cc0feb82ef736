//! Refusals 6, 1, 2 and 3, written from document 01, "What is returned": tested before the Rust is asked. 0 where all pass.
use crate::{
    calls::{Call, Case, Lent, Number, Operation, ReadOutcome},
    record::{at, number_at, of, parts_of, Finality, Record, Settings, SMALL},
};

/// Six settings divide.
pub const DIVISORS: [usize; 6] =
    [at::SLOTS_PER_EPOCH, at::INCREMENT, at::HYSTERESIS_QUOTIENT, at::BIAS, at::PENALTY_QUOTIENT, at::CHURN_QUOTIENT];

fn vectors_in_range(s: &Settings) -> bool {
    [s[at::S], s[at::L]].iter().all(|n| (1..=65536).contains(n))
}

fn settings_good(s: &Settings) -> bool {
    DIVISORS.iter().all(|&k| s[k] > 0) && s.iter().all(|&n| n < SMALL)
}

fn registry_length_good(registry: &[u64]) -> bool {
    registry.chunks_exact(10).remainder().is_empty() && registry.len() <= 10 * (1 << 24)
}

fn entry_good(entry: &[u64]) -> bool {
    entry[of::SLASHED] < 2 && entry[of::PREVIOUS] < 256 && entry[of::CURRENT] < 256
}

fn registry_good(registry: &[u64]) -> bool {
    registry.chunks_exact(10).all(entry_good)
}

fn finality_good(f: &Finality) -> bool {
    let epochs = [f.previous.epoch, f.current.epoch, f.finalized.epoch];
    f.slot < SMALL && f.bits < 16 && epochs.iter().all(|&e| e < SMALL)
}

/// The number of the first of the tests 1, 2, 3 that fails. They are asked lazily: a later one may not make sense where an
/// earlier one fails.
fn first(tests: [&dyn Fn() -> bool; 3]) -> u64 {
    tests.iter().position(|passes| !passes()).map_or(0, |i| i as u64 + 1)
}

/// An operation tests what it is lent.
pub fn operation(c: &Call, operation: Operation) -> u64 {
    use Operation::*;
    let r = &c.record;
    let lent_settings = operation != ParticipationFlags;
    let lent_roots = matches!(operation, Justification | Close);
    let lent_registry = operation != SlashingsReset;
    let lent_slashings = matches!(operation, Slashings | SlashingsReset | Close);
    let lent_finality = matches!(operation, Justification | Close);
    let lent_slot = !matches!(operation, EffectiveBalances | ParticipationFlags);
    let lent_finalized = matches!(operation, Inactivity | Rewards | Registry);
    first([
        &|| {
            (!lent_settings || vectors_in_range(&r.settings))
                && (!lent_roots || r.roots.len() as u64 == 32 * r.settings[at::S])
                && (!lent_registry || registry_length_good(&r.registry))
                && (!lent_slashings || r.slashings.len() as u64 == r.settings[at::L])
                && (!operation.writes_registry() || c.closing_registry.len() == r.registry.len())
                && (!operation.writes_slashings() || c.closing_slashings.len() == r.slashings.len())
        },
        &|| !lent_settings || settings_good(&r.settings),
        &|| {
            (!lent_finality || finality_good(&r.finality))
                && (!lent_slot || r.finality.slot < SMALL)
                && (!lent_finalized || r.finality.finalized.epoch < SMALL)
                && (!lent_registry || registry_good(&r.registry))
        },
    ])
}

/// A leaf tests exactly the lent numbers that have a stated range.
pub fn leaf(c: &Case) -> u64 {
    let shape = c.leaf.shape();
    let numbers = || shape.numbers.iter().copied().zip(c.numbers.iter().copied());
    first([
        &|| {
            (!shape.settings || vectors_in_range(&c.settings))
                && (!shape.roots || c.roots.len() as u64 == 32 * c.settings[at::S])
                && match shape.lent {
                    Lent::Nothing => true,
                    Lent::Entry => c.registry.len() == 10,
                    Lent::Registry => registry_length_good(&c.registry),
                }
                && numbers().all(|(kind, n)| argument_good(c, kind, n))
        },
        &|| !shape.settings || settings_good(&c.settings),
        &|| {
            (!shape.finality || finality_good(&c.finality))
                && numbers().all(|(kind, n)| !matches!(kind, Number::StateSlot | Number::FinalizedEpoch) || n < SMALL)
                && registry_good(&c.registry)
        },
    ])
}

/// "A leaf handed a validator number of N or more, a flag index over 2 (over 7 for has_flag and add_flag), a participation
/// epoch that is neither previous nor current, or a total of 0 to divide by answers 1."
fn argument_good(c: &Case, kind: Number, n: u64) -> bool {
    match kind {
        Number::AnyFlagIndex => n <= 7,
        Number::FlagIndex => n <= 2,
        Number::Index => n < (c.registry.len() / 10) as u64,
        Number::Total => n != 0,
        Number::ParticipationEpoch => participation_epoch_good(c, n),
        _ => true,
    }
}

/// The state's slot is the first number of a leaf that takes a participation epoch.
pub fn participation_epoch_good(c: &Case, epoch: u64) -> bool {
    let slots = c.settings[at::SLOTS_PER_EPOCH];
    if slots == 0 {
        return true;
    }
    let current = c.numbers[0] / slots;
    epoch == current || epoch == current.saturating_sub(1)
}

/// Reading a file into buffers of these lengths: 6, then 1, 2, 3, and where it stopped.
pub fn read(bytes: &[u8], registry: usize, slashings: usize) -> ReadOutcome {
    let stop = |refusal, position: usize| ReadOutcome { refusal, position: position as u64, record: None };
    if bytes.len() < 80 {
        return stop(6, 0);
    }
    if !header_good(bytes) {
        return stop(6, 80);
    }
    let word = |i: usize| number_at(bytes, 8 * i);
    let (n, s, l) = (word(2), word(3), word(4));
    let in_range = n <= 1 << 24 && (1..=65536).contains(&s) && (1..=65536).contains(&l);
    let settings: Settings = std::array::from_fn(|i| word(10 + i));
    let alike = settings[at::S] == s && settings[at::L] == l;
    if !(in_range && alike && registry as u64 == 10 * n && slashings as u64 == l) {
        return stop(1, 232);
    }
    if !settings_good(&settings) {
        return stop(2, 232);
    }
    let record = parts_of(bytes);
    if !finality_good(&record.finality) {
        return stop(3, 368);
    }
    if let Some(at) = first_bad(&record) {
        return stop(3, at);
    }
    ReadOutcome { refusal: 0, position: bytes.len() as u64, record: Some(record) }
}

/// The first bad number of the first bad entry.
fn first_bad(r: &Record) -> Option<usize> {
    let top = |place| match place {
        of::SLASHED => 1,
        of::PREVIOUS | of::CURRENT => 255,
        _ => u64::MAX,
    };
    r.registry.iter().enumerate().find(|&(i, &x)| x > top(i % 10)).map(|(i, _)| 368 + 8 * i)
}

/// Version, length, counts and offsets, of at least 80 bytes. No sum may wrap, whatever the counts.
pub fn header_good(bytes: &[u8]) -> bool {
    let word = |i: usize| number_at(bytes, 8 * i);
    let roots_at = word(2).checked_mul(80).and_then(|x| x.checked_add(368));
    let slashings_at = word(3).checked_mul(32).and_then(|x| x.checked_add(roots_at?));
    let length = word(4).checked_mul(8).and_then(|x| x.checked_add(slashings_at?));
    word(0) == 1
        && Some(word(1)) == length
        && length == Some(bytes.len() as u64)
        && [word(5), word(6), word(7)] == [80, 232, 368]
        && Some(word(8)) == roots_at
        && Some(word(9)) == slashings_at
}
