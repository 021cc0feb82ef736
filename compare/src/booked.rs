//! What the close and the registry step answer besides the Rust's record: the exit queue's pair, the amounts by rule and the finalizing
//! test. The amounts are the Rust's own deltas, cut (judge::booked); pair and test are counted from the record.
use crate::rules::{self, Rules};
use reference::{
    booked,
    calls::{Call, Operation, Outcome},
    judge,
    random::Random,
    record::{at, Record},
};

pub type Queue = [u64; 2];

/// What is lent besides: a pair, now and then not that of the registry, and amounts of any contents, now and then of another length.
pub struct Given {
    pub queue: Queue,
    pub amounts: Vec<u64>,
    /// The entries of the store before and behind that of the record's rules; see `store`.
    neighbours: [bool; 3],
    start: u64,
}

/// The numbers of a store and how many entries are in use. The entry for the record's epoch has the record's rules; those before and behind
/// it, where there are any, differ in a number that no test asks about, and what lies beyond the count is no entry at all.
pub fn store(given: &Given, r: &Record, rules: Rules) -> (Vec<u64>, u64) {
    let slots = r.settings[at::SLOTS_PER_EPOCH];
    let epoch = r.finality.slot.checked_div(slots).unwrap_or(0);
    let start = given.start % epoch.saturating_add(1);
    let entry = |start: u64, more: u64| {
        let mut settings = r.settings;
        settings[at::LEAK_AFTER] ^= more;
        [&[start, rules.fork], &settings[..], &rules.pair].concat()
    };
    let [before, behind, beyond] = given.neighbours;
    let mut numbers = Vec::new();
    if before && start > 0 {
        numbers.extend(entry(start - 1, 1));
    }
    numbers.extend(entry(start, 0));
    if behind && epoch < u64::MAX {
        numbers.extend(entry(epoch + 1, 1));
    }
    let count = numbers.len() as u64 / 23;
    if beyond {
        numbers.extend([0; 23]);
    }
    (numbers, count)
}

/// A pair for a registry, now and then another one.
pub fn queue(rng: &mut Random, registry: &[u64]) -> Queue {
    let [last, number] = booked::queue(registry);
    match rng.below(60) {
        0 => [last.wrapping_add(1), number],
        1 => [last, number.wrapping_add(rng.pick(&[1, u64::MAX]))],
        2 => [rng.any_size(), rng.below(4)],
        3 => [0, 0],
        _ => [last, number],
    }
}

pub fn given(rng: &mut Random, record: &Record) -> Given {
    let right = 9 * record.validators();
    let length = if rng.once_in(50) { (right + rng.index(3)).saturating_sub(1) } else { right };
    let first = rng.next();
    let neighbours = [rng.once_in(2), rng.once_in(2), rng.once_in(4)];
    let start = rng.next();
    let queue = queue(rng, &record.registry);
    Given { queue, amounts: (0..length as u64).map(|i| first.wrapping_add(i)).collect(), neighbours, start }
}

/// What comes back and what the lent buffers hold afterwards.
#[derive(Debug, Clone, PartialEq, Eq)]
pub struct Told {
    pub outcome: Outcome,
    pub queue: Queue,
    pub test: u64,
    pub amounts: Vec<u64>,
}

/// By what the Rust answers: a list of another length is 1, a pair that is not the registry's 8, tested after 3; both write nothing.
pub fn called_for(c: &Call, given: &Given, operation: Operation, rules: Rules, rust: Outcome) -> Told {
    let r = &c.record;
    let lent_queue = matches!(operation, Operation::Close | Operation::Registry);
    let misshapen = operation == Operation::Close && given.amounts.len() != 9 * r.validators();
    let wrong = lent_queue && given.queue != booked::queue(&r.registry);
    let mut told = Told { outcome: rust, queue: given.queue, test: 0, amounts: given.amounts.clone() };
    let refusal = match told.outcome.refusal {
        _ if misshapen => 1,
        number @ 1..=3 => number,
        _ if wrong => 8,
        number => number,
    };
    if refusal != told.outcome.refusal {
        told.outcome = Outcome {
            refusal,
            finality: r.finality,
            raised: [0; 3],
            registry: c.closing_registry.clone(),
            slashings: c.closing_slashings.clone(),
        };
    }
    if operation == Operation::Close && (refusal == 4 || refusal == 5) {
        told.amounts.fill(0);
    }
    if refusal != 0 {
        return told;
    }
    if lent_queue {
        told.queue = booked::queue(&told.outcome.registry);
    }
    if matches!(operation, Operation::Close | Operation::Justification) {
        told.test = booked::test(&r.settings, &r.finality, &told.outcome.finality);
    }
    if operation == Operation::Close {
        let under = Record { settings: rules::settings(&r.settings, rules), ..r.clone() };
        told.amounts = judge::booked(&under).expect("the close is accepted");
    }
    told
}
