//! Document 01, "Figures to meet", asked of the Rust itself.
use crate::{
    calls::{Call, Case, Leaf, Operation, Outcome},
    judge,
    record::{at, of, Checkpoint, Finality, Record, Settings, FAR, MAINNET},
};

const ETH: u64 = 1_000_000_000;

fn validator(effective: u64, balance: u64, flags: u64, score: u64) -> [u64; 10] {
    [effective, 0, 0, 0, FAR, FAR, balance, flags, flags, score]
}

fn full(flags: u64) -> [u64; 10] {
    validator(32 * ETH, 32 * ETH, flags, 0)
}

fn checkpoint(epoch: u64) -> Checkpoint {
    Checkpoint { epoch, root: [0; 32] }
}

/// Slot 127 is the last of epoch 3, and epoch 2 is finalized: no leak.
const FINALITY: Finality = Finality {
    slot: 127,
    bits: 0,
    previous: Checkpoint { epoch: 2, root: [0; 32] },
    current: Checkpoint { epoch: 2, root: [0; 32] },
    finalized: Checkpoint { epoch: 2, root: [0; 32] },
};

fn record(validators: &[[u64; 10]]) -> Record {
    Record {
        settings: MAINNET,
        finality: FINALITY,
        registry: validators.concat(),
        roots: vec![0; 32 * 8192],
        slashings: vec![0; 8192],
    }
}

fn run(record: &Record, operation: Operation) -> Outcome {
    let call = Call {
        closing_registry: vec![0; record.registry.len()],
        closing_slashings: vec![0; record.slashings.len()],
        record: record.clone(),
    };
    judge::outcome(&call, operation)
}

fn ask(leaf: Leaf, settings: &Settings, numbers: &[u64], registry: &[u64]) -> Result<Vec<u64>, u64> {
    let roots = if leaf.shape().roots { vec![7; 32 * settings[at::S] as usize] } else { Vec::new() };
    let case = Case {
        leaf,
        settings: *settings,
        roots,
        finality: FINALITY,
        numbers: numbers.to_vec(),
        registry: registry.to_vec(),
    };
    let answer = judge::answer(&case);
    if answer.refusal == 0 {
        Ok(answer.words)
    } else {
        Err(answer.refusal)
    }
}

/// A number of the first validator after an operation.
fn first(record: &Record, operation: Operation, place: usize) -> u64 {
    run(record, operation).registry[place]
}

/// The record of 01's listing: slots_per_epoch 8, S and L 64, slot 31, bits 3, epochs 1, 2, 1, validator 4 without flags.
pub fn example() -> Record {
    let mut settings = MAINNET;
    (settings[at::SLOTS_PER_EPOCH], settings[at::S], settings[at::L]) = (8, 64, 64);
    let finality =
        Finality { slot: 31, bits: 3, previous: checkpoint(1), current: checkpoint(2), finalized: checkpoint(1) };
    let registry = [full(7), full(7), full(7), full(7), full(0)].concat();
    Record { settings, finality, registry, roots: vec![0; 32 * 64], slashings: vec![0; 64] }
}

const LISTING: &str = "\
epoch 3 justified 3 finalized 2 bits 7 charged 5 0 0 0
0 32000000000 32003456000 32000000000 0 3456000
1 32000000000 32003456000 32000000000 0 3456000
2 32000000000 32003456000 32000000000 0 3456000
3 32000000000 32003456000 32000000000 0 3456000
4 32000000000 31996800000 32000000000 0 -3200000
";

/// The close in the words of 01's listing program, with 02's net change and raised totals; only `refused 7` where one does not fit.
pub fn listing(record: &Record) -> String {
    let out = run(record, Operation::Close);
    if out.refusal != 0 {
        return format!("refused {}\n", out.refusal);
    }
    let charged = ask(Leaf::Charged, &record.settings, &[record.finality.slot], &record.registry).map_or(0, |w| w[0]);
    let (f, epoch) = (&out.finality, record.finality.slot / record.settings[at::SLOTS_PER_EPOCH]);
    let [active, previous, current] = out.raised;
    let mut text = format!(
        "epoch {epoch} justified {} finalized {} bits {} charged {charged} {active} {previous} {current}\n",
        f.current.epoch, f.finalized.epoch, f.bits
    );
    for (i, (before, after)) in record.registry.chunks(10).zip(out.registry.chunks(10)).enumerate() {
        let (opening, closing) = (before[of::BALANCE], after[of::BALANCE]);
        let Ok(change) = i64::try_from(i128::from(closing) - i128::from(opening)) else {
            return "refused 7\n".to_string();
        };
        text += &format!("{i} {opening} {closing} {} {} {change}\n", after[of::EFFECTIVE], after[of::SCORE]);
    }
    text
}

/// Each figure and whether the Rust meets it.
pub fn all() -> Vec<(&'static str, bool)> {
    let m = &MAINNET;
    let five = |one: u64, rest: u64| [full(one), full(rest), full(rest), full(rest), full(rest)].concat();
    let delta = |one, flag, registry: &[u64]| ask(Leaf::GetFlagIndexDeltas, m, &[127, 2, flag, one], registry);
    let poor = record(&[validator(32 * ETH, 1_000_000, 4, 0), full(4), full(4), full(4), full(0)]);
    let mut due = full(0);
    (due[of::SLASHED], due[of::EXIT], due[of::WITHDRAWABLE]) = (1, 4, 3 + 4096);
    let mut slashed = record(&[due, full(7), full(7), full(7), full(7)]);
    slashed.slashings[0] = 32 * ETH;
    let effective = |effective, balance| {
        first(&record(&[validator(effective, balance, 0, 0)]), Operation::EffectiveBalances, of::EFFECTIVE)
    };
    let justified =
        |target| ask(Leaf::WeighJustificationAndFinalization, m, &[3 * ETH, target, 0], &[]).map(|w| w[1] & 2);
    let root = |state_slot, slot| ask(Leaf::GetBlockRootAtSlot, m, &[state_slot, slot], &[]);
    let churn = |n| ask(Leaf::GetValidatorChurnLimit, m, &[127], &full(7).repeat(n));
    let nobody = run(&record(&[]), Operation::Justification);
    let mut first_slot = record(&[full(7); 5]);
    first_slot.finality.slot = 96;
    vec![
        ("root of 160 x 10^9", ask(Leaf::IntegerSqrt, m, &[160 * ETH], &[]) == Ok(vec![400_000])),
        ("base reward per increment", ask(Leaf::GetBaseRewardPerIncrement, m, &[160 * ETH], &[]) == Ok(vec![160_000])),
        ("base reward", ask(Leaf::GetBaseReward, m, &[160 * ETH], &full(7)) == Ok(vec![5_120_000])),
        ("five hit target", delta(0, 1, &five(2, 2)) == Ok(vec![2_080_000, 0])),
        ("four hit target", delta(1, 1, &five(0, 2)) == Ok(vec![1_664_000, 0])),
        ("missed target", delta(0, 1, &five(0, 2)) == Ok(vec![0, 2_080_000])),
        ("missed head", delta(0, 2, &five(0, 2)) == Ok(vec![0, 0])),
        ("rewards are not netted", first(&poor, Operation::Rewards, of::BALANCE) == 896_000),
        (
            "inactivity penalty",
            ask(Leaf::GetInactivityPenaltyDeltas, m, &[127], &validator(32 * ETH, 32 * ETH, 0, 100))
                == Ok(vec![0, 15_894]),
        ),
        ("score 10", first(&record(&[validator(32 * ETH, 32 * ETH, 2, 10)]), Operation::Inactivity, of::SCORE) == 0),
        ("slashing penalty", first(&slashed, Operation::Slashings, of::BALANCE) == 20 * ETH),
        ("balance 31750000000", effective(32 * ETH, 31_750_000_000) == 32 * ETH),
        ("balance 31749999999", effective(32 * ETH, 31_749_999_999) == 31 * ETH),
        ("balance 32250000000", effective(31 * ETH, 32_250_000_000) == 31 * ETH),
        ("balance 32250000001", effective(31 * ETH, 32_250_000_001) == 32 * ETH),
        ("target 2000000000 justifies", justified(2 * ETH) == Ok(2)),
        ("target 1999999999 does not", justified(2 * ETH - 1) == Ok(0)),
        ("slot 0 at state slot 8192", root(8192, 0).is_ok()),
        ("slot 0 at state slot 8193", root(8193, 0) == Err(4)),
        ("slot equal to state slot", root(8193, 8193) == Err(4)),
        ("churn of 262143", churn(262_143) == Ok(vec![4])),
        ("churn of 327680", churn(327_680) == Ok(vec![5])),
        (
            "no validators justify both",
            nobody.refusal == 0 && nobody.finality.bits == 3 && nobody.finality.current.epoch == 3,
        ),
        ("first slot of an epoch", run(&first_slot, Operation::Close).refusal == 4),
        ("the listing", listing(&example()) == LISTING),
    ]
}
