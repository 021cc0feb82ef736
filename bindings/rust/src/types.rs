//! What goes in and comes back by value.
// Written by bindings/generate from crates/exports and bindings/words.

/// The number of this interface. version() answers the number of the library that was linked.
pub const VERSION: u64 = 5;

/// 2^64 - 1, which means none: the activation epoch of one that is not activated, the exit epoch of one that does not
/// leave.
pub const FAR_FUTURE_EPOCH: u64 = u64::MAX;

/// The limits: the most validators, the largest S and L, and what settings, slots and checkpoint epochs are below.
pub const MOST_VALIDATORS: u64 = 1 << 24;

pub const LONGEST_VECTOR: u64 = 65536;

pub const NUMBER_LIMIT: u64 = 1 << 48;

/// A validator is ten numbers of the registry; validator i has those from VALIDATOR_LENGTH * i on.
pub mod validator {
    pub const EFFECTIVE_BALANCE: usize = 0;
    pub const SLASHED: usize = 1;
    pub const ACTIVATION_ELIGIBILITY_EPOCH: usize = 2;
    pub const ACTIVATION_EPOCH: usize = 3;
    pub const EXIT_EPOCH: usize = 4;
    pub const WITHDRAWABLE_EPOCH: usize = 5;
    pub const BALANCE: usize = 6;
    pub const PREVIOUS_EPOCH_PARTICIPATION: usize = 7;
    pub const CURRENT_EPOCH_PARTICIPATION: usize = 8;
    pub const INACTIVITY_SCORE: usize = 9;
    pub const LENGTH: usize = 10;

    /// One that is active from epoch 0, with this balance and effective balance, no flags and score 0.
    ///
    /// ```
    /// use altair_close::{is_active_validator, validator};
    /// assert_eq!(is_active_validator(&validator::new(32_000_000_000), 0), Ok(true));
    /// ```
    pub fn new(balance: u64) -> [u64; LENGTH] {
        let far = super::FAR_FUTURE_EPOCH;
        [balance, 0, 0, 0, far, far, balance, 0, 0, 0]
    }
}

/// How many numbers each has.
pub const AMOUNTS_LENGTH: usize = 9;

/// What a close books of a validator is nine numbers of the amounts; validator i has those from AMOUNTS_LENGTH * i on.
/// A reward was added, then what is taken, as far as there was balance: for source, target, head and inactivity, whose
/// reward is 0, and at the end by slashing. Opening balance plus rewards less what was taken is the closing balance.
#[repr(C)]
#[derive(Clone, Copy, Debug, Default, PartialEq, Eq)]
pub struct Amounts {
    pub source_reward: u64,
    pub source_taken: u64,
    pub target_reward: u64,
    pub target_taken: u64,
    pub head_reward: u64,
    pub head_taken: u64,
    pub inactivity_reward: u64,
    pub inactivity_taken: u64,
    pub slashing_taken: u64,
}

/// How many numbers each has.
pub const ENTRY_LENGTH: usize = 23;

/// A validator's mark: which of its two target flags are unknown.
pub mod mark {
    pub const BOTH_KNOWN: u64 = 0;
    pub const PREVIOUS_UNKNOWN: u64 = 1;
    pub const CURRENT_UNKNOWN: u64 = 2;
    pub const BOTH_UNKNOWN: u64 = 3;
}

/// How many numbers each has.
pub const ELECTRA_AMOUNTS_LENGTH: usize = 12;

/// What an Electra close books of a validator is twelve numbers of its amounts; validator i has those from
/// ELECTRA_AMOUNTS_LENGTH * i on: the nine of enum amount, what deposits added, and what consolidations took to another
/// and brought from another. Opening balance, 0 of one that a deposit made, plus rewards, deposited and consolidated_in
/// less what was taken and consolidated_out is the closing balance.
#[repr(C)]
#[derive(Clone, Copy, Debug, Default, PartialEq, Eq)]
pub struct ElectraAmounts {
    pub source_reward: u64,
    pub source_taken: u64,
    pub target_reward: u64,
    pub target_taken: u64,
    pub head_reward: u64,
    pub head_taken: u64,
    pub inactivity_reward: u64,
    pub inactivity_taken: u64,
    pub slashing_taken: u64,
    pub deposited: u64,
    pub consolidated_out: u64,
    pub consolidated_in: u64,
}

/// How many numbers each has.
pub const DEPOSIT_LENGTH: usize = 5;

/// How many numbers each has.
pub const CONSOLIDATION_LENGTH: usize = 2;

/// The nineteen settings of a network.
#[repr(C)]
#[derive(Clone, Copy, Debug, PartialEq, Eq)]
pub struct Settings {
    pub slots_per_epoch: u64,
    pub slots_per_historical_root: u64,
    pub epochs_per_slashings_vector: u64,
    pub effective_balance_increment: u64,
    pub max_effective_balance: u64,
    pub hysteresis_quotient: u64,
    pub hysteresis_downward_multiplier: u64,
    pub hysteresis_upward_multiplier: u64,
    pub base_reward_factor: u64,
    pub min_epochs_to_inactivity_penalty: u64,
    pub inactivity_score_bias: u64,
    pub inactivity_score_recovery_rate: u64,
    pub inactivity_penalty_quotient_altair: u64,
    pub proportional_slashing_multiplier_altair: u64,
    pub max_seed_lookahead: u64,
    pub min_validator_withdrawability_delay: u64,
    pub ejection_balance: u64,
    pub min_per_epoch_churn_limit: u64,
    pub churn_limit_quotient: u64,
}

impl Settings {
    /// Its numbers, in their order.
    pub const fn numbers(&self) -> [u64; 19] {
        [
            self.slots_per_epoch,
            self.slots_per_historical_root,
            self.epochs_per_slashings_vector,
            self.effective_balance_increment,
            self.max_effective_balance,
            self.hysteresis_quotient,
            self.hysteresis_downward_multiplier,
            self.hysteresis_upward_multiplier,
            self.base_reward_factor,
            self.min_epochs_to_inactivity_penalty,
            self.inactivity_score_bias,
            self.inactivity_score_recovery_rate,
            self.inactivity_penalty_quotient_altair,
            self.proportional_slashing_multiplier_altair,
            self.max_seed_lookahead,
            self.min_validator_withdrawability_delay,
            self.ejection_balance,
            self.min_per_epoch_churn_limit,
            self.churn_limit_quotient,
        ]
    }

    /// The one that has these numbers.
    pub const fn of(numbers: [u64; 19]) -> Settings {
        let [
            slots_per_epoch,
            slots_per_historical_root,
            epochs_per_slashings_vector,
            effective_balance_increment,
            max_effective_balance,
            hysteresis_quotient,
            hysteresis_downward_multiplier,
            hysteresis_upward_multiplier,
            base_reward_factor,
            min_epochs_to_inactivity_penalty,
            inactivity_score_bias,
            inactivity_score_recovery_rate,
            inactivity_penalty_quotient_altair,
            proportional_slashing_multiplier_altair,
            max_seed_lookahead,
            min_validator_withdrawability_delay,
            ejection_balance,
            min_per_epoch_churn_limit,
            churn_limit_quotient,
        ] = numbers;
        Settings {
            slots_per_epoch,
            slots_per_historical_root,
            epochs_per_slashings_vector,
            effective_balance_increment,
            max_effective_balance,
            hysteresis_quotient,
            hysteresis_downward_multiplier,
            hysteresis_upward_multiplier,
            base_reward_factor,
            min_epochs_to_inactivity_penalty,
            inactivity_score_bias,
            inactivity_score_recovery_rate,
            inactivity_penalty_quotient_altair,
            proportional_slashing_multiplier_altair,
            max_seed_lookahead,
            min_validator_withdrawability_delay,
            ejection_balance,
            min_per_epoch_churn_limit,
            churn_limit_quotient,
        }
    }
}

impl Settings {
    /// Those of mainnet, and the public test preset minimal.
    pub const MAINNET: Settings = Settings {
        slots_per_epoch: 32,
        slots_per_historical_root: 8_192,
        epochs_per_slashings_vector: 8_192,
        effective_balance_increment: 1_000_000_000,
        max_effective_balance: 32_000_000_000,
        hysteresis_quotient: 4,
        hysteresis_downward_multiplier: 1,
        hysteresis_upward_multiplier: 5,
        base_reward_factor: 64,
        min_epochs_to_inactivity_penalty: 4,
        inactivity_score_bias: 4,
        inactivity_score_recovery_rate: 16,
        inactivity_penalty_quotient_altair: 50_331_648,
        proportional_slashing_multiplier_altair: 2,
        max_seed_lookahead: 4,
        min_validator_withdrawability_delay: 256,
        ejection_balance: 16_000_000_000,
        min_per_epoch_churn_limit: 4,
        churn_limit_quotient: 65_536,
    };
    /// Those of mainnet, and the public test preset minimal.
    pub const MINIMAL: Settings = Settings {
        slots_per_epoch: 8,
        slots_per_historical_root: 64,
        epochs_per_slashings_vector: 64,
        effective_balance_increment: 1_000_000_000,
        max_effective_balance: 32_000_000_000,
        hysteresis_quotient: 4,
        hysteresis_downward_multiplier: 1,
        hysteresis_upward_multiplier: 5,
        base_reward_factor: 64,
        min_epochs_to_inactivity_penalty: 4,
        inactivity_score_bias: 4,
        inactivity_score_recovery_rate: 16,
        inactivity_penalty_quotient_altair: 50_331_648,
        proportional_slashing_multiplier_altair: 2,
        max_seed_lookahead: 4,
        min_validator_withdrawability_delay: 256,
        ejection_balance: 16_000_000_000,
        min_per_epoch_churn_limit: 2,
        churn_limit_quotient: 32,
    };
}

/// The two numbers that Bellatrix uses in place of inactivity_penalty_quotient_altair and
/// proportional_slashing_multiplier_altair.
#[repr(C)]
#[derive(Clone, Copy, Debug, Default, PartialEq, Eq)]
pub struct Bellatrix {
    pub inactivity_penalty_quotient_bellatrix: u64,
    pub proportional_slashing_multiplier_bellatrix: u64,
}

impl Bellatrix {
    /// Its numbers, in their order.
    pub const fn numbers(&self) -> [u64; 2] {
        [self.inactivity_penalty_quotient_bellatrix, self.proportional_slashing_multiplier_bellatrix]
    }

    /// The one that has these numbers.
    pub const fn of(numbers: [u64; 2]) -> Bellatrix {
        let [inactivity_penalty_quotient_bellatrix, proportional_slashing_multiplier_bellatrix] = numbers;
        Bellatrix { inactivity_penalty_quotient_bellatrix, proportional_slashing_multiplier_bellatrix }
    }
}

impl Bellatrix {
    /// Mainnet's pair, which minimal has too.
    pub const MAINNET: Bellatrix = Bellatrix {
        inactivity_penalty_quotient_bellatrix: 16_777_216,
        proportional_slashing_multiplier_bellatrix: 3,
    };
}

/// What a close goes by: settings, fork and pair. Under fork 0 the pair is not read and may be anything; under fork 1
/// it stands in the place of the Altair two, which are tested all the same. under_altair and under_bellatrix make one;
/// in Rust and Python settings alone are those of Altair.
#[repr(C)]
#[derive(Clone, Copy, Debug, PartialEq, Eq)]
pub struct Rules {
    pub settings: Settings,
    pub fork: u64,
    pub bellatrix: Bellatrix,
}

/// A network's clock. Seconds are those of Unix time; genesis_time is the first second of slot 0.
#[repr(C)]
#[derive(Clone, Copy, Debug, PartialEq, Eq)]
pub struct Clock {
    pub genesis_time: u64,
    pub seconds_per_slot: u64,
    pub slots_per_epoch: u64,
}

impl Clock {
    /// Its numbers, in their order.
    pub const fn numbers(&self) -> [u64; 3] {
        [self.genesis_time, self.seconds_per_slot, self.slots_per_epoch]
    }

    /// The one that has these numbers.
    pub const fn of(numbers: [u64; 3]) -> Clock {
        let [genesis_time, seconds_per_slot, slots_per_epoch] = numbers;
        Clock { genesis_time, seconds_per_slot, slots_per_epoch }
    }
}

impl Clock {
    /// Mainnet's clock.
    pub const MAINNET: Clock = Clock { genesis_time: 1_606_824_023, seconds_per_slot: 12, slots_per_epoch: 32 };
}

/// An epoch and the root of its first block, any 32 bytes.
#[repr(C)]
#[derive(Clone, Copy, Debug, Default, PartialEq, Eq)]
pub struct Checkpoint {
    pub epoch: u64,
    pub root: [u8; 32],
}

/// Slot, bits and the three checkpoints. Bit i of justification_bits counts 2^i; bit 0 is the current epoch's.
#[repr(C)]
#[derive(Clone, Copy, Debug, Default, PartialEq, Eq)]
pub struct Finality {
    pub slot: u64,
    pub justification_bits: u64,
    pub previous_justified_checkpoint: Checkpoint,
    pub current_justified_checkpoint: Checkpoint,
    pub finalized_checkpoint: Checkpoint,
}

/// The exit queue's pair of a registry: the largest exit epoch below FAR, or 0 where there is none, and how many
/// validators have exactly it. exit_queue works it out and a record carries it on; in Rust and Python none in its place
/// has it worked out.
#[repr(C)]
#[derive(Clone, Copy, Debug, Default, PartialEq, Eq)]
pub struct ExitQueue {
    pub last_epoch: u64,
    pub number: u64,
}

impl ExitQueue {
    /// Its numbers, in their order.
    pub const fn numbers(&self) -> [u64; 2] {
        [self.last_epoch, self.number]
    }

    /// The one that has these numbers.
    pub const fn of(numbers: [u64; 2]) -> ExitQueue {
        let [last_epoch, number] = numbers;
        ExitQueue { last_epoch, number }
    }
}

/// Which totals were raised to one increment, since their plain sum was below it: of the active, and of those that hit
/// the target of the previous and of the current epoch. None up to epoch 1 and on refusal.
#[repr(C)]
#[derive(Clone, Copy, Debug, Default, PartialEq, Eq)]
pub struct RaisedNumbers {
    pub active: u64,
    pub previous: u64,
    pub current: u64,
}

impl RaisedNumbers {
    /// Its numbers, in their order.
    pub const fn numbers(&self) -> [u64; 3] {
        [self.active, self.previous, self.current]
    }

    /// The one that has these numbers.
    pub const fn of(numbers: [u64; 3]) -> RaisedNumbers {
        let [active, previous, current] = numbers;
        RaisedNumbers { active, previous, current }
    }
}

/// Which totals were raised to one increment, since their plain sum was below it: of the active, and of those that hit
/// the target of the previous and of the current epoch. None up to epoch 1 and on refusal.
#[derive(Clone, Copy, Debug, Default, PartialEq, Eq)]
pub struct Raised {
    pub active: bool,
    pub previous: bool,
    pub current: bool,
}

impl RaisedNumbers {
    pub(crate) fn given(self) -> Raised {
        Raised { active: self.active == 1, previous: self.previous == 1, current: self.current == 1 }
    }
}

/// The finality after the call, which totals were raised, and which of the four finality tests, 1 to 4 in their order,
/// last set the finalized checkpoint, or 0. Or the refusal, the finality that was handed in, and zeros.
#[derive(Clone, Copy, Debug, PartialEq, Eq)]
pub struct Justified {
    pub finality: Finality,
    pub raised: Raised,
    pub test: u64,
}

/// The finality after the close, the exit queue's pair after it, which totals were raised, and which of the four
/// finality tests, 1 to 4 in their order, last set the finalized checkpoint, or 0. Beside a refusal finality and pair
/// are those that were handed in.
#[repr(C)]
#[derive(Clone, Copy, Debug, Default, PartialEq, Eq)]
pub struct Answer {
    pub refusal: u64,
    pub finality: Finality,
    pub queue: ExitQueue,
    pub raised: RaisedNumbers,
    pub test: u64,
}

/// The finality after the close, the exit queue's pair after it, which totals were raised, and which of the four
/// finality tests, 1 to 4 in their order, last set the finalized checkpoint, or 0. Beside a refusal finality and pair
/// are those that were handed in.
#[derive(Clone, Copy, Debug, PartialEq, Eq)]
pub struct Closed {
    pub finality: Finality,
    pub queue: ExitQueue,
    pub raised: Raised,
    pub test: u64,
}

/// A close between its calls, which the caller hands in and takes back. done is how many of its nine calls are done,
/// and 9 once it has ended, refused or not; answer is what the whole close answers, as far as it has come; orders is
/// how many exit orders are in the list. Where done is 0 nothing else is read: zeros begin one.
#[repr(C)]
#[derive(Clone, Copy, Debug, Default, PartialEq, Eq)]
pub struct Running {
    pub done: u64,
    pub answer: Answer,
    pub orders: u64,
}

/// Whether a validator waits for activation, how many are ahead of it, and how many further closes it takes at most;
/// zeros where it does not wait.
#[derive(Clone, Copy, Debug, PartialEq, Eq)]
pub struct Wait {
    pub waits: bool,
    pub ahead: u64,
    pub closes: u64,
}

/// A total balance, and whether its plain sum was below one increment, so that the total was raised to it.
#[derive(Clone, Copy, Debug, PartialEq, Eq)]
pub struct Total {
    pub balance: u64,
    pub raised: bool,
}

/// What one validator gains and loses by one rule.
#[derive(Clone, Copy, Debug, PartialEq, Eq)]
pub struct Deltas {
    pub reward: u64,
    pub penalty: u64,
}

/// The numbers of a listing's first line.
#[derive(Clone, Copy, Debug, PartialEq, Eq)]
pub struct Head {
    pub epoch: u64,
    pub justified_epoch: u64,
    pub finalized_epoch: u64,
    pub justification_bits: u64,
    pub charged: u64,
    pub raised: Raised,
}

/// The numbers of one validator's line: effective balance and score are those after the close, net_change is closing
/// minus opening balance.
#[derive(Clone, Copy, Debug, PartialEq, Eq)]
pub struct Line {
    pub index: u64,
    pub opening_balance: u64,
    pub closing_balance: u64,
    pub effective_balance: u64,
    pub inactivity_score: u64,
    pub net_change: i64,
}

/// What a Deneb call goes by: the nineteen settings, the Bellatrix pair, which stands in the place of the Altair two,
/// and how many may be activated in an epoch at most. That number is below 2^48, else 2, and may be 0: then nobody is
/// activated.
#[repr(C)]
#[derive(Clone, Copy, Debug, PartialEq, Eq)]
pub struct DenebRules {
    pub settings: Settings,
    pub bellatrix: Bellatrix,
    pub max_per_epoch_activation_churn_limit: u64,
}

impl DenebRules {
    /// Those of mainnet, and of the public test preset minimal.
    pub const MAINNET: DenebRules = DenebRules {
        settings: Settings::MAINNET,
        bellatrix: Bellatrix::MAINNET,
        max_per_epoch_activation_churn_limit: 8,
    };
    /// Those of mainnet, and of the public test preset minimal.
    pub const MINIMAL: DenebRules = DenebRules {
        settings: Settings::MINIMAL,
        bellatrix: Bellatrix::MAINNET,
        max_per_epoch_activation_churn_limit: 4,
    };
}

/// The five numbers that Electra adds to the settings of a network.
#[repr(C)]
#[derive(Clone, Copy, Debug, PartialEq, Eq)]
pub struct Electra {
    pub min_activation_balance: u64,
    pub max_effective_balance_electra: u64,
    pub min_per_epoch_churn_limit_electra: u64,
    pub max_per_epoch_activation_exit_churn_limit: u64,
    pub max_pending_deposits_per_epoch: u64,
}

impl Electra {
    /// Its numbers, in their order.
    pub const fn numbers(&self) -> [u64; 5] {
        [
            self.min_activation_balance,
            self.max_effective_balance_electra,
            self.min_per_epoch_churn_limit_electra,
            self.max_per_epoch_activation_exit_churn_limit,
            self.max_pending_deposits_per_epoch,
        ]
    }

    /// The one that has these numbers.
    pub const fn of(numbers: [u64; 5]) -> Electra {
        let [
            min_activation_balance,
            max_effective_balance_electra,
            min_per_epoch_churn_limit_electra,
            max_per_epoch_activation_exit_churn_limit,
            max_pending_deposits_per_epoch,
        ] = numbers;
        Electra {
            min_activation_balance,
            max_effective_balance_electra,
            min_per_epoch_churn_limit_electra,
            max_per_epoch_activation_exit_churn_limit,
            max_pending_deposits_per_epoch,
        }
    }
}

impl Electra {
    /// Those of mainnet, and of the public test preset minimal.
    pub const MAINNET: Electra = Electra {
        min_activation_balance: 32_000_000_000,
        max_effective_balance_electra: 2_048_000_000_000,
        min_per_epoch_churn_limit_electra: 128_000_000_000,
        max_per_epoch_activation_exit_churn_limit: 256_000_000_000,
        max_pending_deposits_per_epoch: 16,
    };
    /// Those of mainnet, and of the public test preset minimal.
    pub const MINIMAL: Electra = Electra {
        min_activation_balance: 32_000_000_000,
        max_effective_balance_electra: 2_048_000_000_000,
        min_per_epoch_churn_limit_electra: 64_000_000_000,
        max_per_epoch_activation_exit_churn_limit: 128_000_000_000,
        max_pending_deposits_per_epoch: 16,
    };
}

/// What an Electra call goes by: the nineteen settings, the Bellatrix pair and Electra's five. Of the nineteen
/// max_effective_balance, min_per_epoch_churn_limit and the Altair two are not read; they are tested all the same.
/// min_per_epoch_churn_limit_electra is at least the increment and max_per_epoch_activation_exit_churn_limit not 0, so
/// that a churn limit is never 0: 2 otherwise.
#[repr(C)]
#[derive(Clone, Copy, Debug, PartialEq, Eq)]
pub struct ElectraRules {
    pub settings: Settings,
    pub bellatrix: Bellatrix,
    pub electra: Electra,
}

/// The record's two numbers of the exit queue: what may still leave at the earliest exit epoch, in Gwei, and that
/// epoch. Any numbers.
#[repr(C)]
#[derive(Clone, Copy, Debug, Default, PartialEq, Eq)]
pub struct ExitChurn {
    pub exit_balance_to_consume: u64,
    pub earliest_exit_epoch: u64,
}

impl ExitChurn {
    /// Its numbers, in their order.
    pub const fn numbers(&self) -> [u64; 2] {
        [self.exit_balance_to_consume, self.earliest_exit_epoch]
    }

    /// The one that has these numbers.
    pub const fn of(numbers: [u64; 2]) -> ExitChurn {
        let [exit_balance_to_consume, earliest_exit_epoch] = numbers;
        ExitChurn { exit_balance_to_consume, earliest_exit_epoch }
    }
}

/// What the record holds of the deposits' queue by value: what the last close left to be processed, in Gwei, and how
/// far the bridge's deposits have come. Any numbers; the two indices are only read.
#[repr(C)]
#[derive(Clone, Copy, Debug, Default, PartialEq, Eq)]
pub struct DepositNumbers {
    pub deposit_balance_to_consume: u64,
    pub eth1_deposit_index: u64,
    pub deposit_requests_start_index: u64,
}

impl DepositNumbers {
    /// Its numbers, in their order.
    pub const fn numbers(&self) -> [u64; 3] {
        [self.deposit_balance_to_consume, self.eth1_deposit_index, self.deposit_requests_start_index]
    }

    /// The one that has these numbers.
    pub const fn of(numbers: [u64; 3]) -> DepositNumbers {
        let [deposit_balance_to_consume, eth1_deposit_index, deposit_requests_start_index] = numbers;
        DepositNumbers { deposit_balance_to_consume, eth1_deposit_index, deposit_requests_start_index }
    }
}

/// What the next close may process more, how many validators there are now, and how many deposits are left in the
/// queue. Or the refusal and what the opening has.
#[derive(Clone, Copy, Debug, PartialEq, Eq)]
pub struct Deposited {
    pub deposit_balance_to_consume: u64,
    pub validators: u64,
    pub deposits: u64,
}

/// The finality after the close, which totals were raised, and which of the four finality tests, 1 to 4 in their order,
/// last set the finalized checkpoint, or 0; how many validators there are, how many deposits and consolidations are
/// left, what the next close may process of deposits more, in Gwei, and the two numbers of the exit queue. Beside a
/// refusal they are the opening's, none raised and test 0.
#[derive(Clone, Copy, Debug, PartialEq, Eq)]
pub struct ElectraClosed {
    pub finality: Finality,
    pub raised: Raised,
    pub test: u64,
    pub validators: u64,
    pub deposits: u64,
    pub consolidations: u64,
    pub deposit_balance_to_consume: u64,
    pub churn: ExitChurn,
}
