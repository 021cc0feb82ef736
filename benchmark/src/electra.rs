//! An Electra close with deposits and consolidations beside altair_close, in turn on the same registry.
use crate::{
    convert,
    measure::{time, Time},
    record::Record,
    scenarios::Scenario,
    stack,
};
use altair_close::validator::{BALANCE, EFFECTIVE_BALANCE, EXIT_EPOCH, LENGTH, SLASHED, WITHDRAWABLE_EPOCH};
use altair_close::{
    close, electra_close, exit_queue, Amounts, Bellatrix, DepositNumbers, Electra, ElectraAmounts, ElectraClosed,
    ElectraRules, ExitChurn, Finality, Refusal, Rules, FAR_FUTURE_EPOCH as FAR,
};
use std::{hint::black_box, time::Instant};

const ROUNDS: usize = 31;
const DEPOSITS: usize = 16;
const CONSOLIDATIONS: usize = 10;
/// 03, F-3: at most so many times.
pub const MOST: f64 = 1.3;
const ETH: u64 = 1_000_000_000;

pub struct Row {
    pub scenario: Scenario,
    pub validators: usize,
    pub altair: Time,
    pub electra: Time,
}

pub fn rows(validators: usize) -> [Row; 3] {
    [Scenario::Calm, Scenario::Leak, Scenario::Queue].map(|scenario| row(scenario, validators))
}

/// All that an Electra close is lent of a record: sources that have left here and there, and deposits, half of them for new keys.
pub struct Lent {
    rules: ElectraRules,
    finality: Finality,
    validators: usize,
    registry: Vec<u64>,
    compounding: Vec<u64>,
    slashings: Vec<u64>,
    roots: Vec<u8>,
    deposits: Vec<u64>,
    consolidations: Vec<u64>,
    closing: (Vec<u64>, Vec<u64>, Vec<u64>, Vec<u64>, Vec<u64>, Vec<ElectraAmounts>, Vec<u64>),
}

impl Lent {
    pub fn new(r: &Record) -> Lent {
        let (settings, mut registry) = (convert::settings(&r.settings), r.registry.clone());
        let validators = registry.len() / LENGTH;
        let (spread, pairs) = (|i: usize| i * validators / CONSOLIDATIONS, CONSOLIDATIONS.min(validators / 2));
        for at in (0..pairs).map(|i| LENGTH * spread(i)) {
            (registry[at + SLASHED], registry[at + EXIT_EPOCH], registry[at + WITHDRAWABLE_EPOCH]) = (0, 1, 2);
        }
        let consolidations: Vec<_> = (0..pairs).flat_map(|i| [spread(i) as u64, spread(i) as u64 + 1]).collect();
        // every other one for a new key, else for one that does not leave; altogether no more than mainnet's smallest churn limit
        let leaves =
            |i: usize| registry[LENGTH * i + EXIT_EPOCH] != FAR || registry[LENGTH * i + EFFECTIVE_BALANCE] <= 16 * ETH;
        let known = |i: usize| (i * validators / DEPOSITS..validators).find(|&i| !leaves(i)).unwrap_or(validators);
        let key = |i: usize| if i % 2 == 0 { known(i) } else { validators + i };
        let deposits: Vec<_> =
            (0..DEPOSITS).flat_map(|i| [key(i) as u64, (i % 4 == 1) as u64, 8 * ETH, 0, 1]).collect();
        let most = validators + DEPOSITS;
        Lent {
            rules: ElectraRules { settings, bellatrix: Bellatrix::MAINNET, electra: Electra::MAINNET },
            finality: convert::finality(&r.finality),
            validators,
            compounding: (0..validators).map(|i| (i % 10 == 0) as u64).collect(),
            slashings: r.slashings.clone(),
            roots: r.roots.clone(),
            closing: (
                vec![1; LENGTH * most],
                vec![1; most],
                vec![1; r.slashings.len()],
                vec![1; deposits.len()],
                vec![1; consolidations.len()],
                vec![ElectraAmounts::default(); most],
                vec![1; DEPOSITS],
            ),
            registry,
            deposits,
            consolidations,
        }
    }

    pub fn close(&mut self) -> Result<ElectraClosed, Refusal> {
        let (registry, compounding, slashings, deposits, consolidations, amounts, places) = &mut self.closing;
        electra_close(
            &self.rules,
            &self.finality,
            &ExitChurn::default(),
            &DepositNumbers::default(),
            &self.registry,
            &self.compounding,
            &self.slashings,
            &self.roots,
            &self.deposits,
            &self.consolidations,
            registry,
            compounding,
            slashings,
            deposits,
            consolidations,
            amounts,
            places,
        )
    }
}

fn row(scenario: Scenario, validators: usize) -> Row {
    let mut lent = Lent::new(&scenario.record(validators));
    let queue = exit_queue(&lent.registry).expect("a good registry");
    let rules = Rules { settings: lent.rules.settings, fork: Rules::BELLATRIX, bellatrix: Bellatrix::MAINNET };
    let mut one = (vec![1; lent.registry.len()], vec![1; lent.slashings.len()], vec![Amounts::default(); validators]);
    let (mut before, mut after) = (Vec::new(), Vec::new());
    for _ in 0..ROUNDS {
        let (registry, slashings, amounts) = &mut one;
        let start = Instant::now();
        let closed = close(
            &rules,
            &lent.finality,
            Some(&queue),
            &lent.registry,
            &lent.slashings,
            &lent.roots,
            registry,
            slashings,
            amounts,
        );
        before.push(start.elapsed());
        assert!(black_box(closed).is_ok(), "altair_close refuses");
        let start = Instant::now();
        let closed = lent.close();
        after.push(start.elapsed());
        let closed = black_box(closed).expect("accepted");
        let counts = (closed.validators as usize, closed.deposits, closed.consolidations);
        assert_eq!(counts, (validators + DEPOSITS / 2, 0, 0), "all deposits and consolidations are worked off");
    }
    for (i, booked) in lent.closing.5[..validators + DEPOSITS / 2].iter().enumerate() {
        let opening = lent.registry.get(LENGTH * i + BALANCE).copied().unwrap_or(0);
        assert_eq!(i128::from(opening) + booked.net(), i128::from(lent.closing.0[LENGTH * i + BALANCE]), "they add up");
    }
    Row { scenario, validators: lent.validators, altair: time(before), electra: time(after) }
}

/// A close of a thousand validators with a queue of 2^20 deposits, all worked off: each of another new key, all of one new key, and all of one
/// validator's; in nanoseconds a deposit.
fn long_queues() -> String {
    const LONG: u64 = 1 << 20;
    let mut said = Vec::new();
    for (name, key) in [("each of another new key", 0), ("all of one new key", 1), ("all of one validator's", 2)] {
        let mut lent = Lent::new(&Scenario::Calm.record(1_000));
        let n = lent.validators as u64;
        let stays = (0..n).find(|&i| lent.registry[LENGTH * i as usize + EXIT_EPOCH] == FAR).expect("one that stays");
        lent.rules.electra.max_pending_deposits_per_epoch = LONG;
        lent.deposits = (0..LONG).flat_map(|i| [[n + i, n, stays][key], 0, 1, 0, 1]).collect();
        let most = (n + LONG) as usize;
        lent.closing.0 = vec![1; LENGTH * most];
        lent.closing.1 = vec![1; most];
        lent.closing.3 = vec![1; lent.deposits.len()];
        lent.closing.5 = vec![ElectraAmounts::default(); most];
        lent.closing.6 = vec![1; LONG as usize];
        let times = (0..5).map(|_| {
            let start = Instant::now();
            let closed = black_box(lent.close()).expect("accepted");
            let took = start.elapsed();
            assert_eq!((closed.deposits, closed.validators), (0, n + [LONG, 1, 0][key]));
            took
        });
        let took = time(times.collect());
        said.push(format!("{name} {:.1} ({:.1})", took.median * 1e6 / LONG as f64, took.least * 1e6 / LONG as f64));
    }
    format!("A queue of 2^20 deposits, ns a deposit: {}.\n", said.join("; "))
}

/// In words, a line each.
pub fn text(rows: &[Row]) -> String {
    let ms = |t: &Time| format!("{:.1} ms ({:.1})", t.median, t.least);
    let line = |row: &Row| {
        format!(
            "An Electra close of {} validators, {}, with {DEPOSITS} deposits and {CONSOLIDATIONS} consolidations: {}; altair_close on the same \
             registry {}: {:.2} ({:.2}) times, where {MOST} is the most.\n",
            row.validators,
            row.scenario.name(),
            ms(&row.electra),
            ms(&row.altair),
            row.electra.median / row.altair.median,
            row.electra.least / row.altair.least
        )
    };
    let stack = format!("Stack of an Electra close: at most {} bytes.\n", stack::deepest_of_electra());
    rows.iter().map(line).chain([long_queues(), stack]).collect::<Vec<_>>().join("\n")
}
