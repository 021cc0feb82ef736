//! The library's functions as bindings/c/altair.h declares them: a slice is a pointer and a length in elements.
// Written by bindings/generate from crates/exports and bindings/words.

use crate::fault::{Answered, RawFault};
use crate::types::{
    Answer, Bellatrix, Checkpoint, Clock, Closed, Deltas, DenebRules, DepositNumbers, Deposited, Electra, ElectraClosed,
    ElectraRules, ExitChurn, ExitQueue, Finality, Head, Justified, Line, RaisedNumbers, Rules, Running, Settings, Total,
    Wait,
};

#[repr(C)]
#[derive(Clone, Copy)]
pub struct RulesAnswer {
    pub refusal: u64,
    pub rules: Rules,
}

impl Answered for RulesAnswer {
    type Given = Rules;

    fn refusal(&self) -> u64 {
        self.refusal
    }

    fn given(self) -> Rules {
        self.rules
    }
}

#[repr(C)]
#[derive(Clone, Copy)]
pub struct CountAnswer {
    pub refusal: u64,
    pub count: u64,
}

impl Answered for CountAnswer {
    type Given = u64;

    fn refusal(&self) -> u64 {
        self.refusal
    }

    fn given(self) -> u64 {
        self.count
    }
}

#[repr(C)]
#[derive(Clone, Copy)]
pub struct QueueAnswer {
    pub refusal: u64,
    pub queue: ExitQueue,
}

impl Answered for QueueAnswer {
    type Given = ExitQueue;

    fn refusal(&self) -> u64 {
        self.refusal
    }

    fn given(self) -> ExitQueue {
        self.queue
    }
}

#[repr(C)]
#[derive(Clone, Copy)]
pub struct FinalityAnswer {
    pub refusal: u64,
    pub finality: Finality,
}

impl Answered for FinalityAnswer {
    type Given = Finality;

    fn refusal(&self) -> u64 {
        self.refusal
    }

    fn given(self) -> Finality {
        self.finality
    }
}

#[repr(C)]
#[derive(Clone, Copy)]
pub struct JustificationAnswer {
    pub refusal: u64,
    pub finality: Finality,
    pub raised: RaisedNumbers,
    pub test: u64,
}

impl Answered for JustificationAnswer {
    type Given = Justified;

    fn refusal(&self) -> u64 {
        self.refusal
    }

    fn given(self) -> Justified {
        Justified { finality: self.finality, raised: self.raised.given(), test: self.test }
    }
}

impl Answered for Answer {
    type Given = Closed;

    fn refusal(&self) -> u64 {
        self.refusal
    }

    fn given(self) -> Closed {
        Closed { finality: self.finality, queue: self.queue, raised: self.raised.given(), test: self.test }
    }
}

#[repr(C)]
#[derive(Clone, Copy)]
pub struct RunningAnswer {
    pub refusal: u64,
    pub ended: u64,
    pub running: Running,
}

impl Answered for RunningAnswer {
    type Given = RunningAnswer;

    fn refusal(&self) -> u64 {
        self.refusal
    }

    fn given(self) -> RunningAnswer {
        self
    }
}

#[repr(C)]
#[derive(Clone, Copy)]
pub struct WaitAnswer {
    pub refusal: u64,
    pub waits: u64,
    pub ahead: u64,
    pub closes: u64,
}

impl Answered for WaitAnswer {
    type Given = Wait;

    fn refusal(&self) -> u64 {
        self.refusal
    }

    fn given(self) -> Wait {
        Wait { waits: self.waits == 1, ahead: self.ahead, closes: self.closes }
    }
}

#[repr(C)]
#[derive(Clone, Copy)]
pub struct TotalAnswer {
    pub refusal: u64,
    pub balance: u64,
    pub raised: u64,
}

impl Answered for TotalAnswer {
    type Given = Total;

    fn refusal(&self) -> u64 {
        self.refusal
    }

    fn given(self) -> Total {
        Total { balance: self.balance, raised: self.raised == 1 }
    }
}

#[repr(C)]
#[derive(Clone, Copy)]
pub struct NumberAnswer {
    pub refusal: u64,
    pub value: u64,
}

impl Answered for NumberAnswer {
    type Given = u64;

    fn refusal(&self) -> u64 {
        self.refusal
    }

    fn given(self) -> u64 {
        self.value
    }
}

#[repr(C)]
#[derive(Clone, Copy)]
pub struct TruthAnswer {
    pub refusal: u64,
    pub value: u64,
}

impl Answered for TruthAnswer {
    type Given = bool;

    fn refusal(&self) -> u64 {
        self.refusal
    }

    fn given(self) -> bool {
        self.value == 1
    }
}

#[repr(C)]
#[derive(Clone, Copy)]
pub struct DeltasAnswer {
    pub refusal: u64,
    pub reward: u64,
    pub penalty: u64,
}

impl Answered for DeltasAnswer {
    type Given = Deltas;

    fn refusal(&self) -> u64 {
        self.refusal
    }

    fn given(self) -> Deltas {
        Deltas { reward: self.reward, penalty: self.penalty }
    }
}

#[repr(C)]
#[derive(Clone, Copy)]
pub struct ChangeAnswer {
    pub refusal: u64,
    pub value: i64,
}

impl Answered for ChangeAnswer {
    type Given = i64;

    fn refusal(&self) -> u64 {
        self.refusal
    }

    fn given(self) -> i64 {
        self.value
    }
}

#[repr(C)]
#[derive(Clone, Copy)]
pub struct RootAnswer {
    pub refusal: u64,
    pub root: [u8; 32],
}

impl Answered for RootAnswer {
    type Given = [u8; 32];

    fn refusal(&self) -> u64 {
        self.refusal
    }

    fn given(self) -> [u8; 32] {
        self.root
    }
}

#[repr(C)]
#[derive(Clone, Copy)]
pub struct HeaderAnswer {
    pub refusal: u64,
    pub validators: u64,
    pub roots: u64,
    pub slashings: u64,
}

impl Answered for HeaderAnswer {
    type Given = HeaderAnswer;

    fn refusal(&self) -> u64 {
        self.refusal
    }

    fn given(self) -> HeaderAnswer {
        self
    }
}

#[repr(C)]
#[derive(Clone, Copy)]
pub struct ReadAnswer {
    pub refusal: u64,
    pub position: u64,
    pub settings: Settings,
    pub finality: Finality,
    pub queue: ExitQueue,
}

impl Answered for ReadAnswer {
    type Given = ReadAnswer;

    fn refusal(&self) -> u64 {
        self.refusal
    }

    fn given(self) -> ReadAnswer {
        self
    }
}

#[repr(C)]
#[derive(Clone, Copy)]
pub struct HeadAnswer {
    pub refusal: u64,
    pub epoch: u64,
    pub justified_epoch: u64,
    pub finalized_epoch: u64,
    pub justification_bits: u64,
    pub charged: u64,
    pub raised: RaisedNumbers,
}

impl Answered for HeadAnswer {
    type Given = Head;

    fn refusal(&self) -> u64 {
        self.refusal
    }

    fn given(self) -> Head {
        Head {
            epoch: self.epoch,
            justified_epoch: self.justified_epoch,
            finalized_epoch: self.finalized_epoch,
            justification_bits: self.justification_bits,
            charged: self.charged,
            raised: self.raised.given(),
        }
    }
}

#[repr(C)]
#[derive(Clone, Copy)]
pub struct LineAnswer {
    pub refusal: u64,
    pub index: u64,
    pub opening_balance: u64,
    pub closing_balance: u64,
    pub effective_balance: u64,
    pub inactivity_score: u64,
    pub net_change: i64,
}

impl Answered for LineAnswer {
    type Given = Line;

    fn refusal(&self) -> u64 {
        self.refusal
    }

    fn given(self) -> Line {
        Line {
            index: self.index,
            opening_balance: self.opening_balance,
            closing_balance: self.closing_balance,
            effective_balance: self.effective_balance,
            inactivity_score: self.inactivity_score,
            net_change: self.net_change,
        }
    }
}

#[repr(C)]
#[derive(Clone, Copy)]
pub struct VotesAnswer {
    pub refusal: u64,
    pub count: u64,
    pub finalized_epochs: [u64; 3],
    pub previous_target: u64,
    pub current_target: u64,
}

#[repr(C)]
#[derive(Clone, Copy)]
pub struct ExitChurnAnswer {
    pub refusal: u64,
    pub churn: ExitChurn,
}

impl Answered for ExitChurnAnswer {
    type Given = ExitChurn;

    fn refusal(&self) -> u64 {
        self.refusal
    }

    fn given(self) -> ExitChurn {
        self.churn
    }
}

#[repr(C)]
#[derive(Clone, Copy)]
pub struct DepositsAnswer {
    pub refusal: u64,
    pub deposit_balance_to_consume: u64,
    pub validators: u64,
    pub deposits: u64,
}

impl Answered for DepositsAnswer {
    type Given = Deposited;

    fn refusal(&self) -> u64 {
        self.refusal
    }

    fn given(self) -> Deposited {
        Deposited {
            deposit_balance_to_consume: self.deposit_balance_to_consume,
            validators: self.validators,
            deposits: self.deposits,
        }
    }
}

#[repr(C)]
#[derive(Clone, Copy)]
pub struct ConsolidationsAnswer {
    pub refusal: u64,
    pub consolidations: u64,
}

impl Answered for ConsolidationsAnswer {
    type Given = u64;

    fn refusal(&self) -> u64 {
        self.refusal
    }

    fn given(self) -> u64 {
        self.consolidations
    }
}

#[repr(C)]
#[derive(Clone, Copy)]
pub struct ElectraAnswer {
    pub refusal: u64,
    pub finality: Finality,
    pub raised: RaisedNumbers,
    pub test: u64,
    pub validators: u64,
    pub deposits: u64,
    pub consolidations: u64,
    pub deposit_balance_to_consume: u64,
    pub churn: ExitChurn,
}

impl Answered for ElectraAnswer {
    type Given = ElectraClosed;

    fn refusal(&self) -> u64 {
        self.refusal
    }

    fn given(self) -> ElectraClosed {
        ElectraClosed {
            finality: self.finality,
            raised: self.raised.given(),
            test: self.test,
            validators: self.validators,
            deposits: self.deposits,
            consolidations: self.consolidations,
            deposit_balance_to_consume: self.deposit_balance_to_consume,
            churn: self.churn,
        }
    }
}

// the sizes that the header has
const _: () = {
    assert!(size_of::<Settings>() == 152);
    assert!(size_of::<Bellatrix>() == 16);
    assert!(size_of::<Rules>() == 176);
    assert!(size_of::<RulesAnswer>() == 184);
    assert!(size_of::<CountAnswer>() == 16);
    assert!(size_of::<Clock>() == 24);
    assert!(size_of::<Checkpoint>() == 40);
    assert!(size_of::<Finality>() == 136);
    assert!(size_of::<ExitQueue>() == 16);
    assert!(size_of::<QueueAnswer>() == 24);
    assert!(size_of::<FinalityAnswer>() == 144);
    assert!(size_of::<RaisedNumbers>() == 24);
    assert!(size_of::<JustificationAnswer>() == 176);
    assert!(size_of::<Answer>() == 192);
    assert!(size_of::<Running>() == 208);
    assert!(size_of::<RunningAnswer>() == 224);
    assert!(size_of::<WaitAnswer>() == 32);
    assert!(size_of::<TotalAnswer>() == 24);
    assert!(size_of::<NumberAnswer>() == 16);
    assert!(size_of::<TruthAnswer>() == 16);
    assert!(size_of::<DeltasAnswer>() == 24);
    assert!(size_of::<ChangeAnswer>() == 16);
    assert!(size_of::<RootAnswer>() == 40);
    assert!(size_of::<HeaderAnswer>() == 32);
    assert!(size_of::<ReadAnswer>() == 320);
    assert!(size_of::<HeadAnswer>() == 72);
    assert!(size_of::<LineAnswer>() == 56);
    assert!(size_of::<VotesAnswer>() == 56);
    assert!(size_of::<DenebRules>() == 176);
    assert!(size_of::<Electra>() == 40);
    assert!(size_of::<ElectraRules>() == 208);
    assert!(size_of::<ExitChurn>() == 16);
    assert!(size_of::<ExitChurnAnswer>() == 24);
    assert!(size_of::<DepositNumbers>() == 24);
    assert!(size_of::<DepositsAnswer>() == 32);
    assert!(size_of::<ConsolidationsAnswer>() == 16);
    assert!(size_of::<ElectraAnswer>() == 224);
};

extern "C" {
    pub fn altair_version() -> u64;
    // The close
    pub fn altair_close(
        store: *const u64,
        store_length: usize,
        count: u64,
        finality: Finality,
        queue: ExitQueue,
        registry: *const u64,
        registry_length: usize,
        slashings: *const u64,
        slashings_length: usize,
        roots: *const u8,
        roots_length: usize,
        closing_registry: *mut u64,
        closing_registry_length: usize,
        closing_slashings: *mut u64,
        closing_slashings_length: usize,
        amounts: *mut u64,
        amounts_length: usize,
    ) -> Answer;
    pub fn altair_read_rules(store: *const u64, store_length: usize, count: u64, epoch: u64) -> RulesAnswer;
    pub fn altair_add_rules(store: *mut u64, store_length: usize, count: u64, start: u64, rules: Rules) -> CountAnswer;
    pub fn altair_charged(
        settings: Settings,
        state_slot: u64,
        registry: *const u64,
        registry_length: usize,
    ) -> NumberAnswer;
    pub fn altair_activation_wait(
        settings: Settings,
        finalized_epoch: u64,
        registry: *const u64,
        registry_length: usize,
        index: u64,
    ) -> WaitAnswer;
    // The listing of a close
    pub fn altair_listing_head(
        settings: Settings,
        state_slot: u64,
        closing: Finality,
        opening: *const u64,
        opening_length: usize,
    ) -> HeadAnswer;
    pub fn altair_listing_line(
        opening: *const u64,
        opening_length: usize,
        closing: *const u64,
        closing_length: usize,
        index: u64,
    ) -> LineAnswer;
    pub fn altair_net_change(opening: u64, closing: u64) -> ChangeAnswer;
    // A record file
    pub fn altair_read_header(file: *const u8, file_length: usize) -> HeaderAnswer;
    pub fn altair_read_file(
        file: *const u8,
        file_length: usize,
        registry: *mut u64,
        registry_length: usize,
        slashings: *mut u64,
        slashings_length: usize,
    ) -> ReadAnswer;
    pub fn altair_write_file(
        settings: Settings,
        finality: Finality,
        queue: ExitQueue,
        registry: *const u64,
        registry_length: usize,
        roots: *const u8,
        roots_length: usize,
        slashings: *const u64,
        slashings_length: usize,
        file: *mut u8,
        file_length: usize,
    ) -> u64;
    // A shelf of records
    pub fn altair_close_shelf(
        files: *const u8,
        files_length: usize,
        lengths: *const u64,
        lengths_length: usize,
        closing: *mut u8,
        closing_length: usize,
        opening_numbers: *mut u64,
        opening_numbers_length: usize,
        closing_numbers: *mut u64,
        closing_numbers_length: usize,
        answers: *mut u64,
        answers_length: usize,
        fork: u64,
        bellatrix: Bellatrix,
    ) -> u64;
    // A close by steps, and exit orders meanwhile
    pub fn altair_close_step(
        number: u64,
        running: Running,
        store: *const u64,
        store_length: usize,
        count: u64,
        finality: Finality,
        queue: ExitQueue,
        registry: *const u64,
        registry_length: usize,
        slashings: *const u64,
        slashings_length: usize,
        roots: *const u8,
        roots_length: usize,
        closing_registry: *mut u64,
        closing_registry_length: usize,
        closing_slashings: *mut u64,
        closing_slashings_length: usize,
        amounts: *mut u64,
        amounts_length: usize,
    ) -> RunningAnswer;
    pub fn altair_take_order(
        running: Running,
        validator: u64,
        start: u64,
        orders: *mut u64,
        orders_length: usize,
    ) -> RunningAnswer;
    pub fn altair_carry_out(
        store: *const u64,
        store_length: usize,
        count: u64,
        shard_committee_period: u64,
        running: Running,
        closing_registry: *mut u64,
        closing_registry_length: usize,
        orders: *const u64,
        orders_length: usize,
        answers: *mut u64,
        answers_length: usize,
    ) -> RunningAnswer;
    // The eight steps, in the order of the close
    pub fn altair_process_justification_and_finalization(
        settings: Settings,
        roots: *const u8,
        roots_length: usize,
        finality: Finality,
        registry: *const u64,
        registry_length: usize,
    ) -> JustificationAnswer;
    pub fn altair_process_inactivity_updates(
        settings: Settings,
        state_slot: u64,
        finalized_epoch: u64,
        opening: *const u64,
        opening_length: usize,
        closing: *mut u64,
        closing_length: usize,
    ) -> u64;
    pub fn altair_process_rewards_and_penalties(
        rules: Rules,
        state_slot: u64,
        finalized_epoch: u64,
        opening: *const u64,
        opening_length: usize,
        closing: *mut u64,
        closing_length: usize,
    ) -> u64;
    pub fn altair_process_registry_updates(
        settings: Settings,
        state_slot: u64,
        finalized_epoch: u64,
        queue: ExitQueue,
        opening: *const u64,
        opening_length: usize,
        closing: *mut u64,
        closing_length: usize,
    ) -> QueueAnswer;
    pub fn altair_process_registry_updates_to(
        stop: u64,
        settings: Settings,
        state_slot: u64,
        finalized_epoch: u64,
        queue: ExitQueue,
        opening: *const u64,
        opening_length: usize,
        closing: *mut u64,
        closing_length: usize,
    ) -> QueueAnswer;
    pub fn altair_process_slashings(
        rules: Rules,
        state_slot: u64,
        slashings: *const u64,
        slashings_length: usize,
        opening: *const u64,
        opening_length: usize,
        closing: *mut u64,
        closing_length: usize,
    ) -> u64;
    pub fn altair_process_effective_balance_updates(
        settings: Settings,
        opening: *const u64,
        opening_length: usize,
        closing: *mut u64,
        closing_length: usize,
    ) -> u64;
    pub fn altair_process_slashings_reset(
        settings: Settings,
        state_slot: u64,
        opening: *const u64,
        opening_length: usize,
        closing: *mut u64,
        closing_length: usize,
    ) -> u64;
    pub fn altair_process_participation_flag_updates(
        opening: *const u64,
        opening_length: usize,
        closing: *mut u64,
        closing_length: usize,
    ) -> u64;
    // Slots and epochs
    pub fn altair_integer_sqrt(n: u64) -> u64;
    pub fn altair_compute_epoch_at_slot(settings: Settings, slot: u64) -> NumberAnswer;
    pub fn altair_compute_start_slot_at_epoch(settings: Settings, epoch: u64) -> NumberAnswer;
    pub fn altair_compute_activation_exit_epoch(settings: Settings, epoch: u64) -> NumberAnswer;
    pub fn altair_get_current_epoch(settings: Settings, state_slot: u64) -> NumberAnswer;
    pub fn altair_get_previous_epoch(settings: Settings, state_slot: u64) -> NumberAnswer;
    // Opening hours: slots and epochs by the wall clock
    pub fn altair_slot_at_time(clock: Clock, second: u64) -> NumberAnswer;
    pub fn altair_epoch_at_time(clock: Clock, second: u64) -> NumberAnswer;
    pub fn altair_is_in_closing_window(clock: Clock, second: u64) -> TruthAnswer;
    pub fn altair_first_second_of_slot(clock: Clock, slot: u64) -> NumberAnswer;
    pub fn altair_last_second_of_slot(clock: Clock, slot: u64) -> NumberAnswer;
    pub fn altair_first_second_of_epoch(clock: Clock, epoch: u64) -> NumberAnswer;
    pub fn altair_last_second_of_epoch(clock: Clock, epoch: u64) -> NumberAnswer;
    // One validator: `validator` has ten numbers
    pub fn altair_is_active_validator(validator: *const u64, validator_length: usize, epoch: u64) -> TruthAnswer;
    pub fn altair_is_eligible_for_activation_queue(
        settings: Settings,
        validator: *const u64,
        validator_length: usize,
    ) -> TruthAnswer;
    pub fn altair_is_eligible_for_activation(
        finalized_epoch: u64,
        validator: *const u64,
        validator_length: usize,
    ) -> TruthAnswer;
    pub fn altair_is_eligible(
        settings: Settings,
        state_slot: u64,
        validator: *const u64,
        validator_length: usize,
    ) -> TruthAnswer;
    pub fn altair_increase_balance(validator: *mut u64, validator_length: usize, delta: u64) -> u64;
    pub fn altair_decrease_balance(validator: *mut u64, validator_length: usize, delta: u64) -> u64;
    pub fn altair_has_flag(flags: u8, flag_index: u64) -> TruthAnswer;
    pub fn altair_add_flag(flags: u8, flag_index: u64) -> NumberAnswer;
    pub fn altair_is_unslashed_participating(
        settings: Settings,
        state_slot: u64,
        flag_index: u64,
        epoch: u64,
        validator: *const u64,
        validator_length: usize,
    ) -> TruthAnswer;
    // Block roots
    pub fn altair_get_block_root_at_slot(
        settings: Settings,
        roots: *const u8,
        roots_length: usize,
        state_slot: u64,
        slot: u64,
    ) -> RootAnswer;
    pub fn altair_get_block_root(
        settings: Settings,
        roots: *const u8,
        roots_length: usize,
        state_slot: u64,
        epoch: u64,
    ) -> RootAnswer;
    // The registry
    pub fn altair_get_total_active_balance(
        settings: Settings,
        state_slot: u64,
        registry: *const u64,
        registry_length: usize,
    ) -> TotalAnswer;
    pub fn altair_get_participating_balance(
        settings: Settings,
        state_slot: u64,
        flag_index: u64,
        epoch: u64,
        registry: *const u64,
        registry_length: usize,
    ) -> TotalAnswer;
    pub fn altair_get_validator_churn_limit(
        settings: Settings,
        state_slot: u64,
        registry: *const u64,
        registry_length: usize,
    ) -> NumberAnswer;
    pub fn altair_exit_queue(registry: *const u64, registry_length: usize) -> QueueAnswer;
    pub fn altair_initiate_validator_exit(
        settings: Settings,
        state_slot: u64,
        index: u64,
        queue: ExitQueue,
        registry: *mut u64,
        registry_length: usize,
    ) -> QueueAnswer;
    // Rewards
    pub fn altair_get_base_reward_per_increment(settings: Settings, total: u64) -> NumberAnswer;
    pub fn altair_get_base_reward(
        settings: Settings,
        total: u64,
        validator: *const u64,
        validator_length: usize,
    ) -> NumberAnswer;
    pub fn altair_get_flag_index_deltas(
        settings: Settings,
        state_slot: u64,
        finalized_epoch: u64,
        flag_index: u64,
        index: u64,
        registry: *const u64,
        registry_length: usize,
    ) -> DeltasAnswer;
    pub fn altair_get_inactivity_penalty_deltas(
        rules: Rules,
        state_slot: u64,
        validator: *const u64,
        validator_length: usize,
    ) -> DeltasAnswer;
    // Finality
    pub fn altair_get_finality_delay(settings: Settings, state_slot: u64, finalized_epoch: u64) -> NumberAnswer;
    pub fn altair_is_in_inactivity_leak(settings: Settings, state_slot: u64, finalized_epoch: u64) -> TruthAnswer;
    pub fn altair_weigh_justification_and_finalization(
        settings: Settings,
        roots: *const u8,
        roots_length: usize,
        finality: Finality,
        total: u64,
        previous: u64,
        current: u64,
    ) -> FinalityAnswer;
    // Votes not yet counted
    pub fn altair_unknown_votes(
        settings: Settings,
        roots: *const u8,
        roots_length: usize,
        finality: Finality,
        registry: *const u64,
        registry_length: usize,
        marks: *const u64,
        marks_length: usize,
    ) -> VotesAnswer;
    // Deneb's registry step and close
    pub fn deneb_process_registry_updates(
        rules: DenebRules,
        state_slot: u64,
        finalized_epoch: u64,
        queue: ExitQueue,
        opening: *const u64,
        opening_length: usize,
        closing: *mut u64,
        closing_length: usize,
    ) -> QueueAnswer;
    pub fn deneb_close(
        rules: DenebRules,
        finality: Finality,
        queue: ExitQueue,
        registry: *const u64,
        registry_length: usize,
        slashings: *const u64,
        slashings_length: usize,
        roots: *const u8,
        roots_length: usize,
        closing_registry: *mut u64,
        closing_registry_length: usize,
        closing_slashings: *mut u64,
        closing_slashings_length: usize,
        amounts: *mut u64,
        amounts_length: usize,
    ) -> Answer;
    // Electra's close
    pub fn electra_close(
        rules: ElectraRules,
        finality: Finality,
        churn: ExitChurn,
        numbers: DepositNumbers,
        registry: *const u64,
        registry_length: usize,
        compounding: *const u64,
        compounding_length: usize,
        slashings: *const u64,
        slashings_length: usize,
        roots: *const u8,
        roots_length: usize,
        deposits: *const u64,
        deposits_length: usize,
        consolidations: *const u64,
        consolidations_length: usize,
        closing_registry: *mut u64,
        closing_registry_length: usize,
        closing_compounding: *mut u64,
        closing_compounding_length: usize,
        closing_slashings: *mut u64,
        closing_slashings_length: usize,
        closing_deposits: *mut u64,
        closing_deposits_length: usize,
        closing_consolidations: *mut u64,
        closing_consolidations_length: usize,
        amounts: *mut u64,
        amounts_length: usize,
        places: *mut u64,
        places_length: usize,
    ) -> ElectraAnswer;
    // Electra's steps
    pub fn electra_process_registry_updates(
        rules: ElectraRules,
        state_slot: u64,
        finalized_epoch: u64,
        churn: ExitChurn,
        opening: *const u64,
        opening_length: usize,
        closing: *mut u64,
        closing_length: usize,
    ) -> ExitChurnAnswer;
    pub fn electra_process_slashings(
        rules: ElectraRules,
        state_slot: u64,
        slashings: *const u64,
        slashings_length: usize,
        opening: *const u64,
        opening_length: usize,
        closing: *mut u64,
        closing_length: usize,
    ) -> u64;
    pub fn electra_process_pending_deposits(
        rules: ElectraRules,
        state_slot: u64,
        finalized_epoch: u64,
        numbers: DepositNumbers,
        registry: *const u64,
        registry_length: usize,
        compounding: *const u64,
        compounding_length: usize,
        deposits: *const u64,
        deposits_length: usize,
        closing_registry: *mut u64,
        closing_registry_length: usize,
        closing_compounding: *mut u64,
        closing_compounding_length: usize,
        closing_deposits: *mut u64,
        closing_deposits_length: usize,
        places: *mut u64,
        places_length: usize,
    ) -> DepositsAnswer;
    pub fn electra_process_pending_consolidations(
        rules: ElectraRules,
        state_slot: u64,
        registry: *const u64,
        registry_length: usize,
        consolidations: *const u64,
        consolidations_length: usize,
        closing_registry: *mut u64,
        closing_registry_length: usize,
        closing_consolidations: *mut u64,
        closing_consolidations_length: usize,
    ) -> ConsolidationsAnswer;
    pub fn electra_process_effective_balance_updates(
        rules: ElectraRules,
        compounding: *const u64,
        compounding_length: usize,
        opening: *const u64,
        opening_length: usize,
        closing: *mut u64,
        closing_length: usize,
    ) -> u64;
    // Electra's helpers
    pub fn electra_get_balance_churn_limit(
        rules: ElectraRules,
        state_slot: u64,
        registry: *const u64,
        registry_length: usize,
    ) -> NumberAnswer;
    pub fn electra_get_activation_exit_churn_limit(
        rules: ElectraRules,
        state_slot: u64,
        registry: *const u64,
        registry_length: usize,
    ) -> NumberAnswer;
    pub fn electra_get_max_effective_balance(rules: ElectraRules, compounding: u64) -> NumberAnswer;
    pub fn electra_compute_exit_epoch_and_update_churn(
        rules: ElectraRules,
        state_slot: u64,
        churn: ExitChurn,
        exit_balance: u64,
        registry: *const u64,
        registry_length: usize,
    ) -> ExitChurnAnswer;
    pub fn electra_initiate_validator_exit(
        rules: ElectraRules,
        state_slot: u64,
        index: u64,
        churn: ExitChurn,
        registry: *mut u64,
        registry_length: usize,
    ) -> ExitChurnAnswer;
    // why a call was refused with 1: plain C
    pub fn altair_why_close(
        store: *const u64,
        store_length: usize,
        count: u64,
        finality: Finality,
        queue: ExitQueue,
        registry: *const u64,
        registry_length: usize,
        slashings: *const u64,
        slashings_length: usize,
        roots: *const u8,
        roots_length: usize,
        closing_registry: *mut u64,
        closing_registry_length: usize,
        closing_slashings: *mut u64,
        closing_slashings_length: usize,
        amounts: *mut u64,
        amounts_length: usize,
    ) -> RawFault;
    pub fn altair_why_read_rules(store: *const u64, store_length: usize, count: u64, epoch: u64) -> RawFault;
    pub fn altair_why_add_rules(store: *mut u64, store_length: usize, count: u64, start: u64, rules: Rules) -> RawFault;
    pub fn altair_why_charged(
        settings: Settings,
        state_slot: u64,
        registry: *const u64,
        registry_length: usize,
    ) -> RawFault;
    pub fn altair_why_activation_wait(
        settings: Settings,
        finalized_epoch: u64,
        registry: *const u64,
        registry_length: usize,
        index: u64,
    ) -> RawFault;
    pub fn altair_why_listing_head(
        settings: Settings,
        state_slot: u64,
        closing: Finality,
        opening: *const u64,
        opening_length: usize,
    ) -> RawFault;
    pub fn altair_why_listing_line(
        opening: *const u64,
        opening_length: usize,
        closing: *const u64,
        closing_length: usize,
        index: u64,
    ) -> RawFault;
    pub fn altair_why_read_file(
        file: *const u8,
        file_length: usize,
        registry: *mut u64,
        registry_length: usize,
        slashings: *mut u64,
        slashings_length: usize,
    ) -> RawFault;
    pub fn altair_why_write_file(
        settings: Settings,
        finality: Finality,
        queue: ExitQueue,
        registry: *const u64,
        registry_length: usize,
        roots: *const u8,
        roots_length: usize,
        slashings: *const u64,
        slashings_length: usize,
        file: *mut u8,
        file_length: usize,
    ) -> RawFault;
    pub fn altair_why_close_shelf(
        files: *const u8,
        files_length: usize,
        lengths: *const u64,
        lengths_length: usize,
        closing: *mut u8,
        closing_length: usize,
        opening_numbers: *mut u64,
        opening_numbers_length: usize,
        closing_numbers: *mut u64,
        closing_numbers_length: usize,
        answers: *mut u64,
        answers_length: usize,
        fork: u64,
        bellatrix: Bellatrix,
    ) -> RawFault;
    pub fn altair_why_close_step(
        number: u64,
        running: Running,
        store: *const u64,
        store_length: usize,
        count: u64,
        finality: Finality,
        queue: ExitQueue,
        registry: *const u64,
        registry_length: usize,
        slashings: *const u64,
        slashings_length: usize,
        roots: *const u8,
        roots_length: usize,
        closing_registry: *mut u64,
        closing_registry_length: usize,
        closing_slashings: *mut u64,
        closing_slashings_length: usize,
        amounts: *mut u64,
        amounts_length: usize,
    ) -> RawFault;
    pub fn altair_why_take_order(
        running: Running,
        validator: u64,
        start: u64,
        orders: *mut u64,
        orders_length: usize,
    ) -> RawFault;
    pub fn altair_why_carry_out(
        store: *const u64,
        store_length: usize,
        count: u64,
        shard_committee_period: u64,
        running: Running,
        closing_registry: *mut u64,
        closing_registry_length: usize,
        orders: *const u64,
        orders_length: usize,
        answers: *mut u64,
        answers_length: usize,
    ) -> RawFault;
    pub fn altair_why_process_justification_and_finalization(
        settings: Settings,
        roots: *const u8,
        roots_length: usize,
        finality: Finality,
        registry: *const u64,
        registry_length: usize,
    ) -> RawFault;
    pub fn altair_why_process_inactivity_updates(
        settings: Settings,
        state_slot: u64,
        finalized_epoch: u64,
        opening: *const u64,
        opening_length: usize,
        closing: *mut u64,
        closing_length: usize,
    ) -> RawFault;
    pub fn altair_why_process_rewards_and_penalties(
        rules: Rules,
        state_slot: u64,
        finalized_epoch: u64,
        opening: *const u64,
        opening_length: usize,
        closing: *mut u64,
        closing_length: usize,
    ) -> RawFault;
    pub fn altair_why_process_registry_updates(
        settings: Settings,
        state_slot: u64,
        finalized_epoch: u64,
        queue: ExitQueue,
        opening: *const u64,
        opening_length: usize,
        closing: *mut u64,
        closing_length: usize,
    ) -> RawFault;
    pub fn altair_why_process_registry_updates_to(
        stop: u64,
        settings: Settings,
        state_slot: u64,
        finalized_epoch: u64,
        queue: ExitQueue,
        opening: *const u64,
        opening_length: usize,
        closing: *mut u64,
        closing_length: usize,
    ) -> RawFault;
    pub fn altair_why_process_slashings(
        rules: Rules,
        state_slot: u64,
        slashings: *const u64,
        slashings_length: usize,
        opening: *const u64,
        opening_length: usize,
        closing: *mut u64,
        closing_length: usize,
    ) -> RawFault;
    pub fn altair_why_process_effective_balance_updates(
        settings: Settings,
        opening: *const u64,
        opening_length: usize,
        closing: *mut u64,
        closing_length: usize,
    ) -> RawFault;
    pub fn altair_why_process_slashings_reset(
        settings: Settings,
        state_slot: u64,
        opening: *const u64,
        opening_length: usize,
        closing: *mut u64,
        closing_length: usize,
    ) -> RawFault;
    pub fn altair_why_process_participation_flag_updates(
        opening: *const u64,
        opening_length: usize,
        closing: *mut u64,
        closing_length: usize,
    ) -> RawFault;
    pub fn altair_why_compute_epoch_at_slot(settings: Settings, slot: u64) -> RawFault;
    pub fn altair_why_compute_start_slot_at_epoch(settings: Settings, epoch: u64) -> RawFault;
    pub fn altair_why_compute_activation_exit_epoch(settings: Settings, epoch: u64) -> RawFault;
    pub fn altair_why_get_current_epoch(settings: Settings, state_slot: u64) -> RawFault;
    pub fn altair_why_get_previous_epoch(settings: Settings, state_slot: u64) -> RawFault;
    pub fn altair_why_is_active_validator(validator: *const u64, validator_length: usize, epoch: u64) -> RawFault;
    pub fn altair_why_is_eligible_for_activation_queue(
        settings: Settings,
        validator: *const u64,
        validator_length: usize,
    ) -> RawFault;
    pub fn altair_why_is_eligible_for_activation(
        finalized_epoch: u64,
        validator: *const u64,
        validator_length: usize,
    ) -> RawFault;
    pub fn altair_why_is_eligible(
        settings: Settings,
        state_slot: u64,
        validator: *const u64,
        validator_length: usize,
    ) -> RawFault;
    pub fn altair_why_increase_balance(validator: *mut u64, validator_length: usize, delta: u64) -> RawFault;
    pub fn altair_why_decrease_balance(validator: *mut u64, validator_length: usize, delta: u64) -> RawFault;
    pub fn altair_why_has_flag(flags: u8, flag_index: u64) -> RawFault;
    pub fn altair_why_add_flag(flags: u8, flag_index: u64) -> RawFault;
    pub fn altair_why_is_unslashed_participating(
        settings: Settings,
        state_slot: u64,
        flag_index: u64,
        epoch: u64,
        validator: *const u64,
        validator_length: usize,
    ) -> RawFault;
    pub fn altair_why_get_block_root_at_slot(
        settings: Settings,
        roots: *const u8,
        roots_length: usize,
        state_slot: u64,
        slot: u64,
    ) -> RawFault;
    pub fn altair_why_get_block_root(
        settings: Settings,
        roots: *const u8,
        roots_length: usize,
        state_slot: u64,
        epoch: u64,
    ) -> RawFault;
    pub fn altair_why_get_total_active_balance(
        settings: Settings,
        state_slot: u64,
        registry: *const u64,
        registry_length: usize,
    ) -> RawFault;
    pub fn altair_why_get_participating_balance(
        settings: Settings,
        state_slot: u64,
        flag_index: u64,
        epoch: u64,
        registry: *const u64,
        registry_length: usize,
    ) -> RawFault;
    pub fn altair_why_get_validator_churn_limit(
        settings: Settings,
        state_slot: u64,
        registry: *const u64,
        registry_length: usize,
    ) -> RawFault;
    pub fn altair_why_exit_queue(registry: *const u64, registry_length: usize) -> RawFault;
    pub fn altair_why_initiate_validator_exit(
        settings: Settings,
        state_slot: u64,
        index: u64,
        queue: ExitQueue,
        registry: *mut u64,
        registry_length: usize,
    ) -> RawFault;
    pub fn altair_why_get_base_reward_per_increment(settings: Settings, total: u64) -> RawFault;
    pub fn altair_why_get_base_reward(
        settings: Settings,
        total: u64,
        validator: *const u64,
        validator_length: usize,
    ) -> RawFault;
    pub fn altair_why_get_flag_index_deltas(
        settings: Settings,
        state_slot: u64,
        finalized_epoch: u64,
        flag_index: u64,
        index: u64,
        registry: *const u64,
        registry_length: usize,
    ) -> RawFault;
    pub fn altair_why_get_inactivity_penalty_deltas(
        rules: Rules,
        state_slot: u64,
        validator: *const u64,
        validator_length: usize,
    ) -> RawFault;
    pub fn altair_why_get_finality_delay(settings: Settings, state_slot: u64, finalized_epoch: u64) -> RawFault;
    pub fn altair_why_is_in_inactivity_leak(settings: Settings, state_slot: u64, finalized_epoch: u64) -> RawFault;
    pub fn altair_why_weigh_justification_and_finalization(
        settings: Settings,
        roots: *const u8,
        roots_length: usize,
        finality: Finality,
        total: u64,
        previous: u64,
        current: u64,
    ) -> RawFault;
    pub fn altair_why_unknown_votes(
        settings: Settings,
        roots: *const u8,
        roots_length: usize,
        finality: Finality,
        registry: *const u64,
        registry_length: usize,
        marks: *const u64,
        marks_length: usize,
    ) -> RawFault;
    pub fn altair_why_deneb_process_registry_updates(
        rules: DenebRules,
        state_slot: u64,
        finalized_epoch: u64,
        queue: ExitQueue,
        opening: *const u64,
        opening_length: usize,
        closing: *mut u64,
        closing_length: usize,
    ) -> RawFault;
    pub fn altair_why_deneb_close(
        rules: DenebRules,
        finality: Finality,
        queue: ExitQueue,
        registry: *const u64,
        registry_length: usize,
        slashings: *const u64,
        slashings_length: usize,
        roots: *const u8,
        roots_length: usize,
        closing_registry: *mut u64,
        closing_registry_length: usize,
        closing_slashings: *mut u64,
        closing_slashings_length: usize,
        amounts: *mut u64,
        amounts_length: usize,
    ) -> RawFault;
    pub fn altair_why_electra_close(
        rules: ElectraRules,
        finality: Finality,
        churn: ExitChurn,
        numbers: DepositNumbers,
        registry: *const u64,
        registry_length: usize,
        compounding: *const u64,
        compounding_length: usize,
        slashings: *const u64,
        slashings_length: usize,
        roots: *const u8,
        roots_length: usize,
        deposits: *const u64,
        deposits_length: usize,
        consolidations: *const u64,
        consolidations_length: usize,
        closing_registry: *mut u64,
        closing_registry_length: usize,
        closing_compounding: *mut u64,
        closing_compounding_length: usize,
        closing_slashings: *mut u64,
        closing_slashings_length: usize,
        closing_deposits: *mut u64,
        closing_deposits_length: usize,
        closing_consolidations: *mut u64,
        closing_consolidations_length: usize,
        amounts: *mut u64,
        amounts_length: usize,
        places: *mut u64,
        places_length: usize,
    ) -> RawFault;
    pub fn altair_why_electra_process_registry_updates(
        rules: ElectraRules,
        state_slot: u64,
        finalized_epoch: u64,
        churn: ExitChurn,
        opening: *const u64,
        opening_length: usize,
        closing: *mut u64,
        closing_length: usize,
    ) -> RawFault;
    pub fn altair_why_electra_process_slashings(
        rules: ElectraRules,
        state_slot: u64,
        slashings: *const u64,
        slashings_length: usize,
        opening: *const u64,
        opening_length: usize,
        closing: *mut u64,
        closing_length: usize,
    ) -> RawFault;
    pub fn altair_why_electra_process_pending_deposits(
        rules: ElectraRules,
        state_slot: u64,
        finalized_epoch: u64,
        numbers: DepositNumbers,
        registry: *const u64,
        registry_length: usize,
        compounding: *const u64,
        compounding_length: usize,
        deposits: *const u64,
        deposits_length: usize,
        closing_registry: *mut u64,
        closing_registry_length: usize,
        closing_compounding: *mut u64,
        closing_compounding_length: usize,
        closing_deposits: *mut u64,
        closing_deposits_length: usize,
        places: *mut u64,
        places_length: usize,
    ) -> RawFault;
    pub fn altair_why_electra_process_pending_consolidations(
        rules: ElectraRules,
        state_slot: u64,
        registry: *const u64,
        registry_length: usize,
        consolidations: *const u64,
        consolidations_length: usize,
        closing_registry: *mut u64,
        closing_registry_length: usize,
        closing_consolidations: *mut u64,
        closing_consolidations_length: usize,
    ) -> RawFault;
    pub fn altair_why_electra_process_effective_balance_updates(
        rules: ElectraRules,
        compounding: *const u64,
        compounding_length: usize,
        opening: *const u64,
        opening_length: usize,
        closing: *mut u64,
        closing_length: usize,
    ) -> RawFault;
    pub fn altair_why_electra_get_balance_churn_limit(
        rules: ElectraRules,
        state_slot: u64,
        registry: *const u64,
        registry_length: usize,
    ) -> RawFault;
    pub fn altair_why_electra_get_activation_exit_churn_limit(
        rules: ElectraRules,
        state_slot: u64,
        registry: *const u64,
        registry_length: usize,
    ) -> RawFault;
    pub fn altair_why_electra_get_max_effective_balance(rules: ElectraRules, compounding: u64) -> RawFault;
    pub fn altair_why_electra_compute_exit_epoch_and_update_churn(
        rules: ElectraRules,
        state_slot: u64,
        churn: ExitChurn,
        exit_balance: u64,
        registry: *const u64,
        registry_length: usize,
    ) -> RawFault;
    pub fn altair_why_electra_initiate_validator_exit(
        rules: ElectraRules,
        state_slot: u64,
        index: u64,
        churn: ExitChurn,
        registry: *mut u64,
        registry_length: usize,
    ) -> RawFault;
}
