//! A Deneb close beside the same close under Bellatrix, in turn on the same record: one path, with one number more.
use crate::{
    convert,
    measure::{time, Time},
    scenarios::Scenario,
};
use altair_close::{close, deneb_close, exit_queue, Amounts, Bellatrix, DenebRules, Rules};
use std::{hint::black_box, time::Instant};

const ROUNDS: usize = 31;
/// No smaller than the churn limit of any of these records, so that both closes give the same.
const LIMIT: u64 = 1_000;

pub struct Row {
    pub validators: usize,
    pub bellatrix: Time,
    pub deneb: Time,
}

pub fn row(validators: usize) -> Row {
    let r = Scenario::Queue.record(validators);
    let (settings, finality) = (convert::settings(&r.settings), convert::finality(&r.finality));
    let queue = exit_queue(&r.registry).expect("a good registry");
    let rules = Rules { settings, fork: Rules::BELLATRIX, bellatrix: Bellatrix::MAINNET };
    let later = DenebRules { settings, bellatrix: Bellatrix::MAINNET, max_per_epoch_activation_churn_limit: LIMIT };
    let mut buffers =
        [(); 2].map(|()| (vec![1; r.registry.len()], vec![1; r.slashings.len()], vec![Amounts::default(); validators]));
    let (mut before, mut after) = (Vec::new(), Vec::new());
    for _ in 0..ROUNDS {
        let [one, other] = &mut buffers;
        let start = Instant::now();
        let closed = close(
            &rules,
            &finality,
            Some(&queue),
            &r.registry,
            &r.slashings,
            &r.roots,
            &mut one.0,
            &mut one.1,
            &mut one.2,
        );
        before.push(start.elapsed());
        let start = Instant::now();
        let by_deneb = deneb_close(
            &later,
            &finality,
            Some(&queue),
            &r.registry,
            &r.slashings,
            &r.roots,
            &mut other.0,
            &mut other.1,
            &mut other.2,
        );
        after.push(start.elapsed());
        assert!(black_box(closed) == by_deneb && closed.is_ok(), "the answers are not the same");
        assert!(one == other, "what is written is not the same");
    }
    Row { validators, bellatrix: time(before), deneb: time(after) }
}

/// In words.
pub fn text(row: &Row) -> String {
    let ms = |t: &Time| format!("{:.1} ms ({:.1})", t.median, t.least);
    format!(
        "A Deneb close of {} validators, queue: {}; the same close under Bellatrix {}: {:.2} ({:.2}) times.\n",
        row.validators,
        ms(&row.deneb),
        ms(&row.bellatrix),
        row.deneb.median / row.bellatrix.median,
        row.deneb.least / row.bellatrix.least
    )
}
