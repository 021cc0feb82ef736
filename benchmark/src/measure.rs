//! One row: a scenario at a size. The four are measured in turn, round by round, so that what disturbs one disturbs all.
use crate::{convert, plain, record::Record, scenarios::Scenario, types};
use altair_close::Refusal;
use std::{
    hint::black_box,
    time::{Duration, Instant},
};

/// A size is left out where it is foreseen that one close takes longer.
const LONGEST: Duration = Duration::from_secs(40);
/// Rounds go on for so long, within these numbers of them.
const ENOUGH: Duration = Duration::from_secs(8);
const ROUNDS: (usize, usize) = (9, 301);

/// Median and least, in milliseconds.
#[derive(Clone, Copy)]
pub struct Time {
    pub median: f64,
    pub least: f64,
}

#[derive(Clone)]
pub struct Row {
    pub scenario: Scenario,
    pub validators: usize,
    pub copy: Option<Time>,
    pub close: Option<Time>,
    pub plain: Option<Time>,
    pub reference: Option<Time>,
}

/// Whether a function that took this long at a tenth or a quarter of the size may be run, were it quadratic.
fn foreseen(before: Option<Time>, growth: f64) -> bool {
    before.is_none_or(|t| t.least * growth * growth < LONGEST.as_secs_f64() * 1e3)
}

pub fn time(mut all: Vec<Duration>) -> Time {
    all.sort();
    let ms = |d: Duration| d.as_secs_f64() * 1e3;
    Time { median: ms(all[all.len() / 2]), least: ms(all[0]) }
}

pub fn row(scenario: Scenario, validators: usize, before: Option<&Row>) -> Row {
    let growth = before.map_or(1.0, |b| validators as f64 / b.validators as f64);
    let mut row = Row { scenario, validators, copy: None, close: None, plain: None, reference: None };
    // one left out stays out at larger sizes
    let left_out = before.is_some_and(|b| b.close.is_none());
    if left_out || !foreseen(before.and_then(|b| b.close), growth) {
        return row;
    }
    let r = scenario.record(validators);
    let mut buffers = Buffers::new(&r);
    // the others refuse nothing, or by a panic
    let refused = buffers.checked(&r, scenario.refusal());
    let (mut copies, mut closes, mut plains) = (Vec::new(), Vec::new(), Vec::new());
    let start = Instant::now();
    while closes.len() < ROUNDS.0 || (closes.len() < ROUNDS.1 && start.elapsed() < ENOUGH) {
        copies.push(buffers.copy(&r));
        closes.push(buffers.close(&r, scenario.refusal()));
        if !refused {
            plains.push(buffers.plain(&r));
        }
        if closes.len() >= 3 && start.elapsed() > 3 * ENOUGH {
            break;
        }
    }
    (row.copy, row.close) = (Some(time(copies)), Some(time(closes)));
    if refused {
        return row;
    }
    row.plain = Some(time(plains));
    let reference_out = before.is_some_and(|b| b.reference.is_none());
    if cfg!(judged) && !reference_out && foreseen(before.and_then(|b| b.reference), growth) {
        row.reference = buffers.reference(&r);
    }
    row
}

pub struct Buffers {
    settings: types::Settings,
    finality: types::Finality,
    queue: types::ExitQueue,
    registry: Vec<u64>,
    slashings: Vec<u64>,
    amounts: Vec<types::Amounts>,
}

impl Buffers {
    pub fn new(r: &Record) -> Self {
        let booked = types::Amounts { slashing_taken: 1, ..types::Amounts::default() };
        Buffers {
            // the record carries it, so that no close looks for it
            queue: altair_close::exit_queue(&r.registry).unwrap_or_default(),
            amounts: vec![booked; r.registry.len() / 10],
            settings: convert::settings(&r.settings),
            finality: convert::finality(&r.finality),
            registry: vec![1; r.registry.len()],
            slashings: vec![1; r.slashings.len()],
        }
    }

    fn copy(&mut self, r: &Record) -> Duration {
        let start = Instant::now();
        self.registry.copy_from_slice(black_box(&r.registry));
        black_box(&mut self.registry);
        start.elapsed()
    }

    fn close(&mut self, r: &Record, refusal: Option<Refusal>) -> Duration {
        let start = Instant::now();
        let closed = self.closed(r);
        let spent = start.elapsed();
        assert_eq!(closed.err(), refusal, "the library's answer");
        spent
    }

    pub fn closed(&mut self, r: &Record) -> Result<types::Finality, Refusal> {
        let (registry, slashings) = (&mut self.registry[..], &mut self.slashings[..]);
        let (s, f, queue) = (&self.settings, &self.finality, Some(&self.queue));
        altair_close::close(s, f, queue, &r.registry, &r.slashings, &r.roots, registry, slashings, &mut self.amounts)
            .map(|closed| closed.finality)
    }

    fn plain(&mut self, r: &Record) -> Duration {
        let start = Instant::now();
        black_box(plain::close(black_box(r), &mut self.registry, &mut self.slashings, &mut self.amounts));
        start.elapsed()
    }

    /// The library's close and the plain one give the same: finality, registry, slashings and amounts. Or it is refused as foreseen, and the
    /// opening is there.
    fn checked(&mut self, r: &Record, refusal: Option<Refusal>) -> bool {
        let closed = self.closed(r);
        let mut other = Buffers::new(r);
        if refusal.is_some() {
            assert_eq!(closed.err(), refusal, "the library's answer");
            other.registry.copy_from_slice(&r.registry);
            other.slashings.copy_from_slice(&r.slashings);
            other.amounts.fill(types::Amounts::default());
        } else {
            let finality = plain::close(r, &mut other.registry, &mut other.slashings, &mut other.amounts);
            assert!(closed == Ok(convert::finality(&finality)), "finality is not the same");
        }
        assert!(self.registry == other.registry, "the closing registry is not the same");
        assert!(self.slashings == other.slashings, "the closing slashings are not the same");
        assert!(self.amounts == other.amounts, "the amounts are not the same");
        refusal.is_some()
    }

    /// The Rust's close, whose result must be the library's.
    #[cfg(judged)]
    fn reference(&mut self, r: &Record) -> Option<Time> {
        let finality = convert::plain(&self.closed(r).expect("it was closed before"));
        let mut all = Vec::new();
        let start = Instant::now();
        while all.is_empty() || (all.len() < ROUNDS.0 && start.elapsed() < ENOUGH) {
            let (after, spent) = reference::judge::timed(r);
            let (f, registry, slashings) = after.expect("the Rust closes what the library closes");
            let same = (f, &registry, &slashings) == (finality, &self.registry, &self.slashings);
            assert!(same, "the Rust's closing record is not the library's");
            all.push(spent);
        }
        Some(time(all))
    }

    #[cfg(not(judged))]
    fn reference(&mut self, _: &Record) -> Option<Time> {
        None
    }
}
