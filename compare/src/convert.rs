//! The reference's plain numbers as bindings/rust has them, and back.
use crate::{record, types};

/// The nineteen numbers, in the same order.
pub fn settings(s: &record::Settings) -> types::Settings {
    // Settings is repr(C), nineteen u64
    unsafe { std::mem::transmute(*s) }
}

fn bellatrix(pair: [u64; 2]) -> types::Bellatrix {
    let [inactivity_penalty_quotient_bellatrix, proportional_slashing_multiplier_bellatrix] = pair;
    types::Bellatrix { inactivity_penalty_quotient_bellatrix, proportional_slashing_multiplier_bellatrix }
}

pub fn rules(s: &record::Settings, fork: u64, pair: [u64; 2]) -> types::Rules {
    types::Rules { settings: settings(s), fork, bellatrix: bellatrix(pair) }
}

pub fn deneb(s: &record::Settings, pair: [u64; 2], max_per_epoch_activation_churn_limit: u64) -> types::DenebRules {
    types::DenebRules { settings: settings(s), bellatrix: bellatrix(pair), max_per_epoch_activation_churn_limit }
}

pub fn queue([last_epoch, number]: [u64; 2]) -> types::ExitQueue {
    types::ExitQueue { last_epoch, number }
}

pub fn numbers(s: &types::Settings) -> record::Settings {
    unsafe { std::mem::transmute(*s) }
}

pub fn finality(f: &record::Finality) -> types::Finality {
    let checkpoint = |c: &record::Checkpoint| types::Checkpoint { epoch: c.epoch, root: c.root };
    types::Finality {
        slot: f.slot,
        justification_bits: f.bits,
        previous_justified_checkpoint: checkpoint(&f.previous),
        current_justified_checkpoint: checkpoint(&f.current),
        finalized_checkpoint: checkpoint(&f.finalized),
    }
}

pub fn plain(f: &types::Finality) -> record::Finality {
    let checkpoint = |c: &types::Checkpoint| record::Checkpoint { epoch: c.epoch, root: c.root };
    record::Finality {
        slot: f.slot,
        bits: f.justification_bits,
        previous: checkpoint(&f.previous_justified_checkpoint),
        current: checkpoint(&f.current_justified_checkpoint),
        finalized: checkpoint(&f.finalized_checkpoint),
    }
}
