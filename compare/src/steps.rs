//! The library's close and steps on a call of the reference, with its closing buffers in the middle of watched memory.
use crate::{
    booked::{self, Given, Told},
    convert, library,
    rules::Rules,
};
use reference::{
    calls::{Call, Operation, Outcome},
    random::Random,
    record::{at, of, Record},
};

const MARGIN: usize = 32;

/// A lent buffer with numbers on both sides that must stay as they are.
pub struct Watched(Vec<u64>);

impl Watched {
    pub fn around(middle: &[u64]) -> Self {
        let edge = (0..MARGIN as u64).map(|i| !i);
        Watched(edge.clone().chain(middle.iter().copied()).chain(edge).collect())
    }

    pub fn lent(&mut self) -> &mut [u64] {
        let end = self.0.len() - MARGIN;
        &mut self.0[MARGIN..end]
    }

    pub fn after(mut self) -> Vec<u64> {
        let middle = self.lent().to_vec();
        assert!(self.0 == Watched::around(&middle).0, "the library wrote outside of a lent buffer");
        middle
    }
}

/// Closing buffers of the opening's lengths, or now and then of another, in which no two numbers are alike.
pub fn call(rng: &mut Random, record: &Record) -> Call {
    let mut filled = |n: usize| {
        let n = if rng.once_in(50) { (n + rng.index(3)).saturating_sub(1) } else { n };
        let first = rng.next();
        (0..n as u64).map(|i| first.wrapping_add(i.wrapping_mul(0x9e37_79b9_7f4a_7c15))).collect()
    };
    Call {
        closing_registry: filled(record.registry.len()),
        closing_slashings: filled(record.slashings.len()),
        record: record.clone(),
    }
}

pub fn told(c: &Call, given: &Given, operation: Operation, rules: Rules) -> Told {
    let r = &c.record;
    let (s, f, opening) = (&r.settings, &r.finality, &r.registry);
    let (slot, finalized) = (f.slot, f.finalized.epoch);
    let mut registry = Watched::around(&c.closing_registry);
    let mut slashings = Watched::around(&c.closing_slashings);
    let mut amounts = Watched::around(&given.amounts);
    let closing = registry.lent();
    let alone = |refusal| (refusal, *f, [0; 3], given.queue, 0);
    let (refusal, finality, raised, queue, test) = match operation {
        Operation::Close => {
            let (store, count) = booked::store(given, r, rules);
            let (slashed, booked) = (slashings.lent(), amounts.lent());
            let by = (&store[..], count);
            library::close(by, f, given.queue, opening, &r.slashings, &r.roots, closing, slashed, booked)
        }
        Operation::Justification => {
            let (refusal, finality, raised, test) = library::justification(s, f, &r.roots, opening);
            (refusal, finality, raised, given.queue, test)
        }
        Operation::Inactivity => alone(library::inactivity(s, slot, finalized, opening, closing)),
        Operation::Rewards => alone(library::rewards(s, rules, slot, finalized, opening, closing)),
        Operation::Registry => {
            let (refusal, queue) = library::registry(None, s, slot, finalized, given.queue, opening, closing);
            (refusal, *f, [0; 3], queue, 0)
        }
        Operation::Slashings => alone(library::slashings(s, rules, slot, &r.slashings, opening, closing)),
        Operation::EffectiveBalances => alone(library::effective_balances(s, opening, closing)),
        Operation::SlashingsReset => alone(library::slashings_reset(s, slot, &r.slashings, slashings.lent())),
        Operation::ParticipationFlags => alone(library::participation_flags(opening, closing)),
    };
    let outcome = Outcome { refusal, finality, raised, registry: registry.after(), slashings: slashings.after() };
    Told { outcome, queue, test, amounts: amounts.after() }
}

/// A limit of activations that is no smaller than the churn limit, so that Deneb's step is the Rust's, which knows no such limit.
pub fn roomy_limit(rng: &mut Random, r: &Record) -> u64 {
    let (s, slot) = (&r.settings, r.finality.slot);
    let epoch = slot.checked_div(s[at::SLOTS_PER_EPOCH]).unwrap_or(0);
    let active = r.registry.chunks_exact(10).filter(|v| v[of::ACTIVATION] <= epoch && epoch < v[of::EXIT]).count();
    let churn = (active as u64).checked_div(s[at::CHURN_QUOTIENT]).unwrap_or(0).max(s[at::MIN_CHURN]);
    let most = (1 << 48) - 1;
    rng.pick(&[churn, churn.saturating_add(1), most]).min(most)
}

/// The close or the registry step by Deneb's rules.
pub fn deneb_told(c: &Call, given: &Given, operation: Operation, rules: Rules, limit: u64) -> Told {
    let (r, f) = (&c.record, &c.record.finality);
    let by = convert::deneb(&r.settings, rules.pair, limit);
    let mut registry = Watched::around(&c.closing_registry);
    let mut slashings = Watched::around(&c.closing_slashings);
    let mut amounts = Watched::around(&given.amounts);
    let closing = registry.lent();
    let (refusal, finality, raised, queue, test) = if operation == Operation::Close {
        let (slashed, booked) = (slashings.lent(), amounts.lent());
        library::deneb_close(by, f, given.queue, &r.registry, &r.slashings, &r.roots, closing, slashed, booked)
    } else {
        let (refusal, queue) =
            library::deneb_registry(by, f.slot, f.finalized.epoch, given.queue, &r.registry, closing);
        (refusal, *f, [0; 3], queue, 0)
    };
    let outcome = Outcome { refusal, finality, raised, registry: registry.after(), slashings: slashings.after() };
    Told { outcome, queue, test, amounts: amounts.after() }
}

/// The stops that are tried: every one of a small record and the one behind them all, a few of a large one.
pub fn stops(rng: &mut Random, record: &Record) -> Vec<u64> {
    let n = record.registry.len() / 10;
    match n {
        0..=40 => (0..=n as u64 + 1).collect(),
        _ => [rng.index(n), rng.index(n), n, n + 1].map(|stop| stop as u64).to_vec(),
    }
}

/// The registry step with a stop, by what is called for of the step: its activation epochs below the stop, the opening's from it up. Exits
/// are those of the step, and so is the pair.
pub fn stopped_called_for(c: &Call, given: &Given, step: &Told, stop: u64) -> (u64, [u64; 2], Vec<u64>) {
    let opening = &c.record.registry;
    if stop as usize > opening.len() / 10 {
        return (1, given.queue, c.closing_registry.clone());
    }
    let mut registry = step.outcome.registry.clone();
    if step.outcome.refusal == 0 {
        for i in (10 * stop as usize..registry.len()).step_by(10) {
            registry[i + of::ACTIVATION] = opening[i + of::ACTIVATION];
        }
    }
    (step.outcome.refusal, step.queue, registry)
}

pub fn stopped(c: &Call, given: &Given, stop: u64) -> (u64, [u64; 2], Vec<u64>) {
    let (s, f) = (&c.record.settings, &c.record.finality);
    let mut registry = Watched::around(&c.closing_registry);
    let opening = &c.record.registry;
    let (refusal, queue) =
        library::registry(Some(stop), s, f.slot, f.finalized.epoch, given.queue, opening, registry.lent());
    (refusal, queue, registry.after())
}
