/* Written by bindings/generate from crates/exports and bindings/words. */
/* The Altair epoch close: every function of libaltair, for x86-64.
 *
 *     cc -o mine mine.c $(pkg-config --cflags --libs altair)        after `make install`
 *     cc -o mine -I bindings/c mine.c target/altair/libaltair.a     after `make`, in the repository
 *
 * Each function is proved to give what its definition says, for every input: nothing traps, nothing is kept between calls, and
 * nothing but the named buffers is written. Only the last section, "In C", is plain C and tested instead.
 *
 * What the caller sees to, since no proof can:
 *   A pointer points to as many elements as the length behind it says. With length 0 it may be NULL.
 *   A pointer to numbers is aligned to 8 bytes, as uint64_t is. Bytes may stand anywhere.
 *   A buffer that is written overlaps no other buffer of the call; buffers that are read may overlap. Where one that is written
 *   does overlap, nothing is promised of the answer or of any buffer. The calls altair_checked_.. refuse that with 1.
 *   No other thread writes a call's buffers while it runs, nor reads those that it writes.
 * Calls share nothing and allocate nothing: any number of threads may call at once, each with its buffers.
 *
 * An answer's `refusal` is 0, or the number of the first test that failed. They are tested in this order, and a call tests only
 * what it is lent; of an exit order 9, 10 and 5 are tested once the call's own tests, 1, 2, 13, 3 and 8, have passed, and stand in the list
 * of answers. N is the number of validators, S is slots_per_historical_root, L is epochs_per_slashings_vector.
 *   15  seconds_per_slot is 0
 *   6  a record file's header is not as it must be: docs/RECORD_FILE.md
 *   1  a length, a vector's size or an index is not the one called for:
 *        a registry of 10 * N numbers, N at most 2^24; one validator of 10 numbers; S and L each 1 to 65536;
 *        roots of 32 * S bytes; slashings of L numbers; a closing buffer as long as its opening; amounts of 9 * N numbers;
 *        marks of N numbers; a file to be written of ALTAIR_FILE_LENGTH bytes; a file's N, S and L in these ranges, S and L like its settings;
 *        a validator's index below N; a flag index of 0 to 2 (0 to 7 for has_flag and add_flag);
 *        a participation epoch that is the previous or the current one; a total to divide by that is not 0;
 *        a fork that is 0 or 1; a store of 23 numbers an entry, at least as many entries as are in use, whose starts rise strictly and
 *        whose slots_per_epoch, S and L are all the same; room for an entry that is added
 *   2  a setting is 0 where it divides, or 2^48 or more:
 *        slots_per_epoch, effective_balance_increment, hysteresis_quotient,
 *        inactivity_score_bias, inactivity_penalty_quotient_altair and churn_limit_quotient may not be 0; under fork 1, and only
 *        there, the same of the Bellatrix pair, whose quotient may not be 0; of a store it is asked of every entry in use
 *   11  the list of exit orders is full
 *   9  an exit order's validator is unknown, not active or leaving already
 *   10  an exit order's start is ahead, or its validator has not been active for long enough
 *   12  a new entry's start is not above that of the last entry
 *   13  the store has no entry for the epoch
 *   14  a second is before genesis
 *   3  a slot, epoch, bit field or flag of the record is out of range:
 *        the state's slot and the checkpoints' epochs are below
 *        2^48, justification_bits is 0 to 15, slashed 0 or 1, each of the two flags 0 to 255, a mark 0 to 3; all else is any 64-bit number
 *   8  the exit queue's pair is not that of the registry
 *   4  a block root is wanted that the record does not keep: at slot s, where s >= state's slot or state's slot > s + S
 *   5  a sum, product or difference that is evaluated leaves 64 bits
 *   7  a net change, closing minus opening balance, does not fit signed 64 bits
 * Where it is not 0, the values beside it are zeros, unless a line below says otherwise.
 */

#ifndef ALTAIR_H
#define ALTAIR_H

#include <stddef.h>
#include <stdint.h>

#ifdef __cplusplus
extern "C" {
#endif

/* The number of this interface. altair_version() answers the number of the library that was linked. */
#define ALTAIR_VERSION 5

/* 2^64 - 1, which means none: the activation epoch of one that is not activated, the exit epoch of one that does not
 * leave. */
#define ALTAIR_FAR_FUTURE_EPOCH UINT64_MAX

/* The limits: the most validators, the largest S and L, and what settings, slots and checkpoint epochs are below. */
#define ALTAIR_MOST_VALIDATORS (UINT64_C(1) << 24)
#define ALTAIR_LONGEST_VECTOR UINT64_C(65536)
#define ALTAIR_NUMBER_LIMIT (UINT64_C(1) << 48)

enum altair_refusal {
    ALTAIR_ACCEPTED = 0,
    ALTAIR_BAD_SHAPE = 1,
    ALTAIR_BAD_SETTINGS = 2,
    ALTAIR_BAD_RECORD = 3,
    ALTAIR_NO_ROOT = 4,
    ALTAIR_OVERFLOW = 5,
    ALTAIR_BAD_FILE = 6,
    ALTAIR_SIGNED_OVERFLOW = 7,
    ALTAIR_WRONG_QUEUE = 8,
    ALTAIR_NO_EXIT = 9,
    ALTAIR_TOO_EARLY = 10,
    ALTAIR_FULL_LIST = 11,
    ALTAIR_LATE_START = 12,
    ALTAIR_NO_ENTRY = 13,
    ALTAIR_BEFORE_GENESIS = 14,
    ALTAIR_NO_SECONDS = 15
};

/* A validator is ten numbers of the registry; validator i has those from VALIDATOR_LENGTH * i on. */
enum altair_validator {
    ALTAIR_EFFECTIVE_BALANCE = 0,
    ALTAIR_SLASHED = 1,
    ALTAIR_ACTIVATION_ELIGIBILITY_EPOCH = 2,
    ALTAIR_ACTIVATION_EPOCH = 3,
    ALTAIR_EXIT_EPOCH = 4,
    ALTAIR_WITHDRAWABLE_EPOCH = 5,
    ALTAIR_BALANCE = 6,
    ALTAIR_PREVIOUS_EPOCH_PARTICIPATION = 7,
    ALTAIR_CURRENT_EPOCH_PARTICIPATION = 8,
    ALTAIR_INACTIVITY_SCORE = 9,
    ALTAIR_VALIDATOR_LENGTH = 10
};

/* What a close books of a validator is nine numbers of the amounts; validator i has those from AMOUNTS_LENGTH * i on.
 * A reward was added, then what is taken, as far as there was balance: for source, target, head and inactivity, whose
 * reward is 0, and at the end by slashing. Opening balance plus rewards less what was taken is the closing balance. */
enum altair_amount {
    ALTAIR_SOURCE_REWARD = 0,
    ALTAIR_SOURCE_TAKEN = 1,
    ALTAIR_TARGET_REWARD = 2,
    ALTAIR_TARGET_TAKEN = 3,
    ALTAIR_HEAD_REWARD = 4,
    ALTAIR_HEAD_TAKEN = 5,
    ALTAIR_INACTIVITY_REWARD = 6,
    ALTAIR_INACTIVITY_TAKEN = 7,
    ALTAIR_SLASHING_TAKEN = 8,
    ALTAIR_AMOUNTS_LENGTH = 9
};

/* Whose rules a close goes by. */
enum altair_fork {
    ALTAIR_FORK_ALTAIR = 0,
    ALTAIR_FORK_BELLATRIX = 1
};

/* Settings by starting epoch. A store is an array of entries of 23 numbers, lent with the count of those in use:
 * starting epoch, fork, the nineteen settings and the pair. A read or a close, whole or by steps, goes by the last
 * entry whose start is not above its epoch. Entries beyond the count are not looked at. altair_put_entry writes one,
 * altair_add_rules adds one behind those in use. */
enum altair_entry {
    ALTAIR_ENTRY_START = 0,
    ALTAIR_ENTRY_FORK = 1,
    ALTAIR_ENTRY_SETTINGS = 2,
    ALTAIR_ENTRY_BELLATRIX = 21,
    ALTAIR_ENTRY_LENGTH = 23
};

/* In how many fillings of the unknown flags a target's two-thirds test passes. */
enum altair_passes {
    ALTAIR_PASSES_IN_NONE = 0,
    ALTAIR_PASSES_IN_SOME = 1,
    ALTAIR_PASSES_IN_ALL = 2
};

/* A validator's mark: which of its two target flags are unknown. */
enum altair_mark {
    ALTAIR_BOTH_KNOWN = 0,
    ALTAIR_PREVIOUS_UNKNOWN = 1,
    ALTAIR_CURRENT_UNKNOWN = 2,
    ALTAIR_BOTH_UNKNOWN = 3
};

/* What an Electra close books of a validator is twelve numbers of its amounts; validator i has those from
 * ELECTRA_AMOUNTS_LENGTH * i on: the nine of enum altair_amount, what deposits added, and what consolidations took to
 * another and brought from another. Opening balance, 0 of one that a deposit made, plus rewards, deposited and
 * consolidated_in less what was taken and consolidated_out is the closing balance. */
enum altair_electra_amount {
    ALTAIR_DEPOSITED = 9,
    ALTAIR_CONSOLIDATED_OUT = 10,
    ALTAIR_CONSOLIDATED_IN = 11,
    ALTAIR_ELECTRA_AMOUNTS_LENGTH = 12
};

/* A deposit of the queue is five numbers: its key, 1 where its credentials begin with 0x02, its amount in Gwei, its
 * slot, and 1 where its signature is valid. Deposit i has those from DEPOSIT_LENGTH * i on. */
enum altair_deposit {
    ALTAIR_DEPOSIT_PUBKEY = 0,
    ALTAIR_DEPOSIT_COMPOUNDING = 1,
    ALTAIR_DEPOSIT_AMOUNT = 2,
    ALTAIR_DEPOSIT_SLOT = 3,
    ALTAIR_DEPOSIT_VALID = 4,
    ALTAIR_DEPOSIT_LENGTH = 5
};

/* A consolidation of the queue is two validators' numbers; consolidation i has those from CONSOLIDATION_LENGTH * i
 * on. */
enum altair_consolidation {
    ALTAIR_CONSOLIDATION_SOURCE = 0,
    ALTAIR_CONSOLIDATION_TARGET = 1,
    ALTAIR_CONSOLIDATION_LENGTH = 2
};

/* The nineteen settings of a network. */
typedef struct altair_settings {
    uint64_t slots_per_epoch;
    uint64_t slots_per_historical_root;
    uint64_t epochs_per_slashings_vector;
    uint64_t effective_balance_increment;
    uint64_t max_effective_balance;
    uint64_t hysteresis_quotient;
    uint64_t hysteresis_downward_multiplier;
    uint64_t hysteresis_upward_multiplier;
    uint64_t base_reward_factor;
    uint64_t min_epochs_to_inactivity_penalty;
    uint64_t inactivity_score_bias;
    uint64_t inactivity_score_recovery_rate;
    uint64_t inactivity_penalty_quotient_altair;
    uint64_t proportional_slashing_multiplier_altair;
    uint64_t max_seed_lookahead;
    uint64_t min_validator_withdrawability_delay;
    uint64_t ejection_balance;
    uint64_t min_per_epoch_churn_limit;
    uint64_t churn_limit_quotient;
} altair_settings;

/* Those of mainnet, and the public test preset minimal. In braces. */
#define ALTAIR_MAINNET { 32, 8192, 8192, 1000000000, 32000000000, 4, 1, 5, 64, 4, 4, 16, 50331648, 2, 4, 256, 16000000000, 4, 65536 }
#define ALTAIR_MINIMAL { 8, 64, 64, 1000000000, 32000000000, 4, 1, 5, 64, 4, 4, 16, 50331648, 2, 4, 256, 16000000000, 2, 32 }

/* The two numbers that Bellatrix uses in place of inactivity_penalty_quotient_altair and
 * proportional_slashing_multiplier_altair. */
typedef struct altair_bellatrix {
    uint64_t inactivity_penalty_quotient_bellatrix;
    uint64_t proportional_slashing_multiplier_bellatrix;
} altair_bellatrix;

/* Mainnet's pair, which minimal has too. In braces. */
#define ALTAIR_MAINNET_BELLATRIX { 16777216, 3 }

/* What a close goes by: settings, fork and pair. Under fork 0 the pair is not read and may be anything; under fork 1
 * it stands in the place of the Altair two, which are tested all the same. altair_under_altair and
 * altair_under_bellatrix make one; in Rust and Python settings alone are those of Altair. */
typedef struct altair_rules {
    altair_settings settings;
    uint64_t fork;
    altair_bellatrix bellatrix;
} altair_rules;

/* The rules that were read, or the refusal and zeros. */
typedef struct altair_rules_answer {
    uint64_t refusal;
    altair_rules rules;
} altair_rules_answer;

/* How many entries are in use after the call, or the refusal and the count that was handed in. */
typedef struct altair_count_answer {
    uint64_t refusal;
    uint64_t count;
} altair_count_answer;

/* A network's clock. Seconds are those of Unix time; genesis_time is the first second of slot 0. */
typedef struct altair_clock {
    uint64_t genesis_time;
    uint64_t seconds_per_slot;
    uint64_t slots_per_epoch;
} altair_clock;

/* Mainnet's clock. In braces. */
#define ALTAIR_MAINNET_CLOCK { 1606824023, 12, 32 }

/* An epoch and the root of its first block, any 32 bytes. */
typedef struct altair_checkpoint {
    uint64_t epoch;
    uint8_t root[32];
} altair_checkpoint;

/* Slot, bits and the three checkpoints. Bit i of justification_bits counts 2^i; bit 0 is the current epoch's. */
typedef struct altair_finality {
    uint64_t slot;
    uint64_t justification_bits;
    altair_checkpoint previous_justified_checkpoint;
    altair_checkpoint current_justified_checkpoint;
    altair_checkpoint finalized_checkpoint;
} altair_finality;

/* The exit queue's pair of a registry: the largest exit epoch below FAR, or 0 where there is none, and how many
 * validators have exactly it. altair_exit_queue works it out and a record carries it on; in Rust and Python none in
 * its place has it worked out. */
typedef struct altair_queue {
    uint64_t last_epoch;
    uint64_t number;
} altair_queue;

/* The pair after the call, or the refusal and the pair that was handed in. */
typedef struct altair_queue_answer {
    uint64_t refusal;
    altair_queue queue;
} altair_queue_answer;

/* The finality after the call, or the refusal and the finality that was handed in. */
typedef struct altair_finality_answer {
    uint64_t refusal;
    altair_finality finality;
} altair_finality_answer;

/* Which totals were raised to one increment, since their plain sum was below it: of the active, and of those that hit
 * the target of the previous and of the current epoch. None up to epoch 1 and on refusal. */
typedef struct altair_raised {
    uint64_t active;
    uint64_t previous;
    uint64_t current;
} altair_raised;

/* The finality after the call, which totals were raised, and which of the four finality tests, 1 to 4 in their order,
 * last set the finalized checkpoint, or 0. Or the refusal, the finality that was handed in, and zeros. */
typedef struct altair_justification_answer {
    uint64_t refusal;
    altair_finality finality;
    altair_raised raised;
    uint64_t test;
} altair_justification_answer;

/* The finality after the close, the exit queue's pair after it, which totals were raised, and which of the four
 * finality tests, 1 to 4 in their order, last set the finalized checkpoint, or 0. Beside a refusal finality and pair
 * are those that were handed in. */
typedef struct altair_full_answer {
    uint64_t refusal;
    altair_finality finality;
    altair_queue queue;
    altair_raised raised;
    uint64_t test;
} altair_full_answer;

/* A close between its calls, which the caller hands in and takes back. done is how many of its nine calls are done,
 * and 9 once it has ended, refused or not; answer is what the whole close answers, as far as it has come; orders is
 * how many exit orders are in the list. Where done is 0 nothing else is read: zeros begin one. */
typedef struct altair_running {
    uint64_t done;
    altair_full_answer answer;
    uint64_t orders;
} altair_running;

/* 0 or the refusal's number; 1 where the close had ended before the call, and then nothing was tested and nothing
 * changed, else 0; and the close as it is now. */
typedef struct altair_running_answer {
    uint64_t refusal;
    uint64_t ended;
    altair_running running;
} altair_running_answer;

/* Whether a validator waits for activation, how many are ahead of it, and how many further closes it takes at most;
 * zeros where it does not wait. */
typedef struct altair_wait_answer {
    uint64_t refusal;
    uint64_t waits;
    uint64_t ahead;
    uint64_t closes;
} altair_wait_answer;

/* A total balance, and whether its plain sum was below one increment, so that the total was raised to it. */
typedef struct altair_total_answer {
    uint64_t refusal;
    uint64_t balance;
    uint64_t raised;
} altair_total_answer;

/* A number. */
typedef struct altair_number_answer {
    uint64_t refusal;
    uint64_t value;
} altair_number_answer;

/* 1 for true and 0 for false. */
typedef struct altair_truth_answer {
    uint64_t refusal;
    uint64_t value;
} altair_truth_answer;

/* What one validator gains and loses by one rule. */
typedef struct altair_deltas_answer {
    uint64_t refusal;
    uint64_t reward;
    uint64_t penalty;
} altair_deltas_answer;

/* A signed number. */
typedef struct altair_change_answer {
    uint64_t refusal;
    int64_t value;
} altair_change_answer;

/* A root. */
typedef struct altair_root_answer {
    uint64_t refusal;
    uint8_t root[32];
} altair_root_answer;

/* How much a record file holds. Its first byte is its version, 1 or 2; version 1 has no room for the exit queue's
 * pair. Its roots are the 32 * roots bytes from ALTAIR_ROOTS_AT(file[0], validators) on; version 2 is written, and is
 * ALTAIR_FILE_LENGTH bytes long. */
typedef struct altair_header {
    uint64_t refusal;
    uint64_t validators;
    uint64_t roots;
    uint64_t slashings;
} altair_header;

#define ALTAIR_ROOTS_AT(version, validators) (352 + 16 * (version) + 80 * (validators))
#define ALTAIR_FILE_LENGTH(validators, roots, slashings) (384 + 80 * (validators) + 32 * (roots) + 8 * (slashings))

/* position is where reading stopped: the file's length where it was accepted. queue is the file's pair, of version 1
 * worked out. */
typedef struct altair_read_answer {
    uint64_t refusal;
    uint64_t position;
    altair_settings settings;
    altair_finality finality;
    altair_queue queue;
} altair_read_answer;

/* The numbers of a listing's first line. */
typedef struct altair_head {
    uint64_t refusal;
    uint64_t epoch;
    uint64_t justified_epoch;
    uint64_t finalized_epoch;
    uint64_t justification_bits;
    uint64_t charged;
    altair_raised raised;
} altair_head;

/* The numbers of one validator's line: effective balance and score are those after the close, net_change is closing
 * minus opening balance. */
typedef struct altair_line {
    uint64_t refusal;
    uint64_t index;
    uint64_t opening_balance;
    uint64_t closing_balance;
    uint64_t effective_balance;
    uint64_t inactivity_score;
    int64_t net_change;
} altair_line;

/* What votes not yet counted can come to. The first `count` of finalized_epochs, at most three, rise, and zeros stand
 * behind them. previous_target and current_target are of enum passes. */
typedef struct altair_votes_answer {
    uint64_t refusal;
    uint64_t count;
    uint64_t finalized_epochs[3];
    uint64_t previous_target;
    uint64_t current_target;
} altair_votes_answer;

/* What a Deneb call goes by: the nineteen settings, the Bellatrix pair, which stands in the place of the Altair two,
 * and how many may be activated in an epoch at most. That number is below 2^48, else 2, and may be 0: then nobody is
 * activated. */
typedef struct altair_deneb_rules {
    altair_settings settings;
    altair_bellatrix bellatrix;
    uint64_t max_per_epoch_activation_churn_limit;
} altair_deneb_rules;

/* Those of mainnet, and of the public test preset minimal. In braces. */
#define ALTAIR_MAINNET_DENEB { ALTAIR_MAINNET, ALTAIR_MAINNET_BELLATRIX, 8 }
#define ALTAIR_MINIMAL_DENEB { ALTAIR_MINIMAL, ALTAIR_MAINNET_BELLATRIX, 4 }

/* The five numbers that Electra adds to the settings of a network. */
typedef struct altair_electra {
    uint64_t min_activation_balance;
    uint64_t max_effective_balance_electra;
    uint64_t min_per_epoch_churn_limit_electra;
    uint64_t max_per_epoch_activation_exit_churn_limit;
    uint64_t max_pending_deposits_per_epoch;
} altair_electra;

/* Those of mainnet, and of the public test preset minimal. In braces. */
#define ALTAIR_MAINNET_ELECTRA { 32000000000, 2048000000000, 128000000000, 256000000000, 16 }
#define ALTAIR_MINIMAL_ELECTRA { 32000000000, 2048000000000, 64000000000, 128000000000, 16 }

/* What an Electra call goes by: the nineteen settings, the Bellatrix pair and Electra's five. Of the nineteen
 * max_effective_balance, min_per_epoch_churn_limit and the Altair two are not read; they are tested all the same.
 * min_per_epoch_churn_limit_electra is at least the increment and max_per_epoch_activation_exit_churn_limit not 0, so
 * that a churn limit is never 0: 2 otherwise. */
typedef struct altair_electra_rules {
    altair_settings settings;
    altair_bellatrix bellatrix;
    altair_electra electra;
} altair_electra_rules;

/* The record's two numbers of the exit queue: what may still leave at the earliest exit epoch, in Gwei, and that
 * epoch. Any numbers. */
typedef struct altair_exit_churn {
    uint64_t exit_balance_to_consume;
    uint64_t earliest_exit_epoch;
} altair_exit_churn;

/* The two numbers of the exit queue after the call, or the refusal and the two that were handed in. */
typedef struct altair_exit_churn_answer {
    uint64_t refusal;
    altair_exit_churn churn;
} altair_exit_churn_answer;

/* What the record holds of the deposits' queue by value: what the last close left to be processed, in Gwei, and how
 * far the bridge's deposits have come. Any numbers; the two indices are only read. */
typedef struct altair_deposit_numbers {
    uint64_t deposit_balance_to_consume;
    uint64_t eth1_deposit_index;
    uint64_t deposit_requests_start_index;
} altair_deposit_numbers;

/* What the next close may process more, how many validators there are now, and how many deposits are left in the
 * queue. Or the refusal and what the opening has. */
typedef struct altair_deposits_answer {
    uint64_t refusal;
    uint64_t deposit_balance_to_consume;
    uint64_t validators;
    uint64_t deposits;
} altair_deposits_answer;

/* How many consolidations are left in the queue, or the refusal and how many were lent. */
typedef struct altair_consolidations_answer {
    uint64_t refusal;
    uint64_t consolidations;
} altair_consolidations_answer;

/* The finality after the close, which totals were raised, and which of the four finality tests, 1 to 4 in their
 * order, last set the finalized checkpoint, or 0; how many validators there are, how many deposits and consolidations
 * are left, what the next close may process of deposits more, in Gwei, and the two numbers of the exit queue. Beside
 * a refusal they are the opening's, none raised and test 0. */
typedef struct altair_electra_answer {
    uint64_t refusal;
    altair_finality finality;
    altair_raised raised;
    uint64_t test;
    uint64_t validators;
    uint64_t deposits;
    uint64_t consolidations;
    uint64_t deposit_balance_to_consume;
    altair_exit_churn churn;
} altair_electra_answer;

/* The number of the interface of the library that was linked: ALTAIR_VERSION of its header. It refuses nothing. */
uint64_t altair_version(void);

/* -- The close --------------------------------------------------------------------------------------------------- */

/* Closes by the last of the store's `count` entries whose start is not above the record's epoch: the closed record's
 * finality and pair, which totals were raised and which test finalized. Closing buffers hold the closed record and
 * amounts what each rule gave and took (enum altair_amount). With a store of no entry lengths that a setting calls
 * for are not tested. Refused with 1, 2, 13, 3, 8, 4 or 5. After 1, 2, 13, 3 and 8 the buffers hold what they held
 * before; after 4 and 5 closing buffers hold the opening's numbers, and amounts zeros. Beside a refusal finality and
 * pair are those handed in. */
altair_full_answer altair_close(const uint64_t *store, size_t store_length, uint64_t count, altair_finality finality,
                                altair_queue queue, const uint64_t *registry, size_t registry_length,
                                const uint64_t *slashings, size_t slashings_length, const uint8_t *roots,
                                size_t roots_length, uint64_t *closing_registry, size_t closing_registry_length,
                                uint64_t *closing_slashings, size_t closing_slashings_length, uint64_t *amounts,
                                size_t amounts_length);

/* The rules of the last of the store's `count` entries whose start is not above the epoch. Refused with 1, 2 or 13. */
altair_rules_answer altair_read_rules(const uint64_t *store, size_t store_length, uint64_t count, uint64_t epoch);

/* The count with one more: the store holds the new entry behind the `count` in use, and else what it held. Reading an
 * epoch below the start gives what it gave before. Refused with 1, 2 or 12. After a refusal store is as it was. */
altair_count_answer altair_add_rules(uint64_t *store, size_t store_length, uint64_t count, uint64_t start,
                                     altair_rules rules);

/* How many validators of the opening registry are charged: active in the previous epoch, or slashed with the previous
 * epoch + 1 below the withdrawable epoch; nobody at epoch 0. Refused with 1, 2 or 3. */
altair_number_answer altair_charged(altair_settings settings, uint64_t state_slot, const uint64_t *registry,
                                    size_t registry_length);

/* Whether validator `index` waits for activation: its eligibility epoch is at most the finalized epoch and it has no
 * activation epoch. If it does, how many wait ahead of it, k: with a smaller eligibility epoch, or the same one and a
 * smaller number; and closes, floor(k / m) + 1 with min_per_epoch_churn_limit as m: once so many further closes are
 * accepted, whole or by steps, each of a later epoch, it has its activation epoch. closes is 0 where m is, since then
 * no number of closes will do. Refused with 1, 2 or 3. */
altair_wait_answer altair_activation_wait(altair_settings settings, uint64_t finalized_epoch,
                                          const uint64_t *registry, size_t registry_length, uint64_t index);

/* -- The listing of a close -------------------------------------------------------------------------------------- */

/* The numbers of the first line, of the opening's slot and registry and the closing finality. `settings` are those
 * that the close went by: of a close by a store the settings of its entry for the epoch, which altair_read_rules
 * reads, and not the record's own. Refused with 1, 2 or 3. */
altair_head altair_listing_head(altair_settings settings, uint64_t state_slot, altair_finality closing,
                                const uint64_t *opening, size_t opening_length);

/* The numbers of validator `index`'s line, from the opening and the closing registry; 3 is asked of its own numbers
 * in either, and of no other's. A listing is only `refused 7` where one of its lines is: ask for all of them before
 * the first is printed. The close itself is not refused. Refused with 1, 3 or 7. */
altair_line altair_listing_line(const uint64_t *opening, size_t opening_length, const uint64_t *closing,
                                size_t closing_length, uint64_t index);

/* Closing minus opening of any two balances, from -2^63 to 2^63 - 1. Refused with 7. */
altair_change_answer altair_net_change(uint64_t opening, uint64_t closing);

/* -- A record file ----------------------------------------------------------------------------------------------- */

/* How many validators, roots and slashings the file holds. Refused with 6. */
altair_header altair_read_header(const uint8_t *file, size_t file_length);

/* Settings, finality, pair and where reading stopped. Registry and slashings hold the file's numbers; registry has
 * ten numbers a validator of the header. Refused with 6, 1, 2, 3 or 8. After a refusal registry and slashings are as
 * they were. */
altair_read_answer altair_read_file(const uint8_t *file, size_t file_length, uint64_t *registry,
                                    size_t registry_length, uint64_t *slashings, size_t slashings_length);

/* The record's file, of version 2: `file` is ALTAIR_FILE_LENGTH bytes long. Refused with 1, 2, 3 or 8. After a
 * refusal file is as it was. */
uint64_t altair_write_file(altair_settings settings, altair_finality finality, altair_queue queue,
                           const uint64_t *registry, size_t registry_length, const uint8_t *roots,
                           size_t roots_length, const uint64_t *slashings, size_t slashings_length, uint8_t *file,
                           size_t file_length);

/* -- A shelf of records ------------------------------------------------------------------------------------------ */

/* Closes record files that stand one behind another in `files`, of these lengths, each as if it were alone; under one
 * fork, with its pair. answers holds 0 for each file that was closed, or 6, 1, 2, 3, 8, 4 or 5; only files of version
 * 2 are taken, and 1 and 2 are also those of fork and pair. closing holds in a file's place the closed record's file;
 * after 4 and 5 the file's own bytes, after another refusal what it held before. The working lists opening_numbers
 * and closing_numbers hold anything. As a whole it is refused where the lengths do not add up to the bytes, closing
 * has another length than files, a working list has fewer bytes than the longest file, or there are not as many
 * answers as lengths. Refused with 1. After a refusal nothing is written. */
uint64_t altair_close_shelf(const uint8_t *files, size_t files_length, const uint64_t *lengths, size_t lengths_length,
                            uint8_t *closing, size_t closing_length, uint64_t *opening_numbers,
                            size_t opening_numbers_length, uint64_t *closing_numbers, size_t closing_numbers_length,
                            uint64_t *answers, size_t answers_length, uint64_t fork, altair_bellatrix bellatrix);

/* -- A close by steps, and exit orders meanwhile ----------------------------------------------------------------- */

/* Between the calls of one close nobody else changes what it was lent or handed back. Eight calls of
 * altair_close_step, 1 to 8 in their order, leave what altair_close leaves, amounts too, whatever orders come between
 * them. Every call is lent the store, and reads it for the epoch of the record that it finds: the opening at the
 * first, and then the record so far. */

/* Runs step `number`: refused with 1 for a call out of turn. The first call makes every test of the whole close and,
 * refused, ends it. In a later one 1, 2, 13, 3 and 8 turn away that call alone, which may be made again; it tests the
 * record so far, and not the opening's contents again. 4 and 5 end the close. Closing buffers hold the record so far,
 * and amounts what was booked so far; they are lent again at the next call. Refused with 1, 2, 13, 3, 8, 4 or 5.
 * After 4 and 5 closing buffers hold the opening's numbers, and amounts zeros; after another refusal all is as
 * before. */
altair_running_answer altair_close_step(uint64_t number, altair_running running, const uint64_t *store,
                                        size_t store_length, uint64_t count, altair_finality finality,
                                        altair_queue queue, const uint64_t *registry, size_t registry_length,
                                        const uint64_t *slashings, size_t slashings_length, const uint8_t *roots,
                                        size_t roots_length, uint64_t *closing_registry,
                                        size_t closing_registry_length, uint64_t *closing_slashings,
                                        size_t closing_slashings_length, uint64_t *amounts, size_t amounts_length);

/* Takes an exit order, a validator's number and a starting epoch, after the first step and before the end. orders has
 * two numbers an order, and the new one stands behind those in the list. Refused with 1 or 11. After a refusal orders
 * is as it was. */
altair_running_answer altair_take_order(altair_running running, uint64_t validator, uint64_t start, uint64_t *orders,
                                        size_t orders_length);

/* The ninth call, after the eight: tries the orders in order of arrival, each on the record as it then stands, as
 * phase0's voluntary exits without the signature, and ends the close. answers has a number an order that there is
 * room for. 2 is also for a shard_committee_period of 2^48 or more; mainnet's is 256. Refused, the call may be made
 * again. closing_registry holds the record with the exits, answers 0, 9, 10 or 5 for each order that was tried and
 * else what it held. Refused with 1, 2, 13, 3 or 8. After a refusal closing_registry and answers are as they were. */
altair_running_answer altair_carry_out(const uint64_t *store, size_t store_length, uint64_t count,
                                       uint64_t shard_committee_period, altair_running running,
                                       uint64_t *closing_registry, size_t closing_registry_length,
                                       const uint64_t *orders, size_t orders_length, uint64_t *answers,
                                       size_t answers_length);

/* -- The eight steps, in the order of the close ------------------------------------------------------------------ */

/* The finality after justification, which totals were raised and which test finalized. Refused with 1, 2, 3, 4 or 5. */
altair_justification_answer altair_process_justification_and_finalization(altair_settings settings,
                                                                          const uint8_t *roots, size_t roots_length,
                                                                          altair_finality finality,
                                                                          const uint64_t *registry,
                                                                          size_t registry_length);

/* closing holds the registry with the new inactivity scores. Refused with 1, 2, 3 or 5. After 1, 2 or 3 closing is as
 * it was, after 5 it holds the opening's numbers. */
uint64_t altair_process_inactivity_updates(altair_settings settings, uint64_t state_slot, uint64_t finalized_epoch,
                                           const uint64_t *opening, size_t opening_length, uint64_t *closing,
                                           size_t closing_length);

/* closing holds the registry with the new balances. Refused with 1, 2, 3 or 5. After 1, 2 or 3 closing is as it was,
 * after 5 it holds the opening's numbers. */
uint64_t altair_process_rewards_and_penalties(altair_rules rules, uint64_t state_slot, uint64_t finalized_epoch,
                                              const uint64_t *opening, size_t opening_length, uint64_t *closing,
                                              size_t closing_length);

/* closing holds the registry after queueing, ejecting and activating; answered is the pair after the step, which
 * counts the ejections. Refused with 1, 2, 3, 8 or 5. After 1, 2, 3 or 8 closing is as it was, after 5 it holds the
 * opening's numbers. */
altair_queue_answer altair_process_registry_updates(altair_settings settings, uint64_t state_slot,
                                                    uint64_t finalized_epoch, altair_queue queue,
                                                    const uint64_t *opening, size_t opening_length, uint64_t *closing,
                                                    size_t closing_length);

/* closing holds the registry after the registry step with a stop, a validator's number or N: from it up the opening's
 * activation epochs stay, all else is as without one; answered is the pair after the step. 1 is also for a stop above
 * N. Refused with 1, 2, 3, 8 or 5. After 1, 2, 3 or 8 closing is as it was, after 5 it holds the opening's numbers. */
altair_queue_answer altair_process_registry_updates_to(uint64_t stop, altair_settings settings, uint64_t state_slot,
                                                       uint64_t finalized_epoch, altair_queue queue,
                                                       const uint64_t *opening, size_t opening_length,
                                                       uint64_t *closing, size_t closing_length);

/* closing holds the registry less the slashing penalties. Refused with 1, 2, 3 or 5. After 1, 2 or 3 closing is as it
 * was, after 5 it holds the opening's numbers. */
uint64_t altair_process_slashings(altair_rules rules, uint64_t state_slot, const uint64_t *slashings,
                                  size_t slashings_length, const uint64_t *opening, size_t opening_length,
                                  uint64_t *closing, size_t closing_length);

/* closing holds the registry with the new effective balances. Refused with 1, 2, 3 or 5. After 1, 2 or 3 closing is
 * as it was, after 5 it holds the opening's numbers. */
uint64_t altair_process_effective_balance_updates(altair_settings settings, const uint64_t *opening,
                                                  size_t opening_length, uint64_t *closing, size_t closing_length);

/* The slashings with the next epoch's place 0: opening and closing are slashings. Refused with 1, 2 or 3. After a
 * refusal closing is as it was. */
uint64_t altair_process_slashings_reset(altair_settings settings, uint64_t state_slot, const uint64_t *opening,
                                        size_t opening_length, uint64_t *closing, size_t closing_length);

/* closing holds the registry with current flags as previous ones and none current. Refused with 1 or 3. After a
 * refusal closing is as it was. */
uint64_t altair_process_participation_flag_updates(const uint64_t *opening, size_t opening_length, uint64_t *closing,
                                                   size_t closing_length);

/* -- Slots and epochs -------------------------------------------------------------------------------------------- */

/* The largest number whose square is at most n. It refuses nothing. */
uint64_t altair_integer_sqrt(uint64_t n);

/* slot / slots_per_epoch. Refused with 1 or 2. */
altair_number_answer altair_compute_epoch_at_slot(altair_settings settings, uint64_t slot);

/* epoch * slots_per_epoch. Refused with 1, 2 or 5. */
altair_number_answer altair_compute_start_slot_at_epoch(altair_settings settings, uint64_t epoch);

/* epoch + 1 + max_seed_lookahead. Refused with 1, 2 or 5. */
altair_number_answer altair_compute_activation_exit_epoch(altair_settings settings, uint64_t epoch);

/* The epoch of the state's slot. Refused with 1, 2 or 3. */
altair_number_answer altair_get_current_epoch(altair_settings settings, uint64_t state_slot);

/* The epoch before the state's, 0 at epoch 0. Refused with 1, 2 or 3. */
altair_number_answer altair_get_previous_epoch(altair_settings settings, uint64_t state_slot);

/* -- Opening hours: slots and epochs by the wall clock ----------------------------------------------------------- */

/* Each is given any 64-bit numbers and tests 15, then 2 (slots_per_epoch alone), then 14. The second of a slot or
 * epoch is 5 where it is above 2^64 - 1, and only there. From a slot or epoch to its seconds and back is that slot or
 * epoch. */

/* The slot of the second. Refused with 15, 2 or 14. */
altair_number_answer altair_slot_at_time(altair_clock clock, uint64_t second);

/* The epoch of the second. Refused with 15, 2 or 14. */
altair_number_answer altair_epoch_at_time(altair_clock clock, uint64_t second);

/* Whether the second is in the closing window, the last slot of its epoch. Refused with 15, 2 or 14. */
altair_truth_answer altair_is_in_closing_window(altair_clock clock, uint64_t second);

/* The first second of the slot. Refused with 15, 2 or 5. */
altair_number_answer altair_first_second_of_slot(altair_clock clock, uint64_t slot);

/* The last second of the slot. Refused with 15, 2 or 5. */
altair_number_answer altair_last_second_of_slot(altair_clock clock, uint64_t slot);

/* The first second of the epoch. Refused with 15, 2 or 5. */
altair_number_answer altair_first_second_of_epoch(altair_clock clock, uint64_t epoch);

/* The last second of the epoch. Refused with 15, 2 or 5. */
altair_number_answer altair_last_second_of_epoch(altair_clock clock, uint64_t epoch);

/* -- One validator: `validator` has ten numbers ------------------------------------------------------------------ */

/* Whether the validator is active in the epoch. Refused with 1 or 3. */
altair_truth_answer altair_is_active_validator(const uint64_t *validator, size_t validator_length, uint64_t epoch);

/* Whether it may join the activation queue. Refused with 1, 2 or 3. */
altair_truth_answer altair_is_eligible_for_activation_queue(altair_settings settings, const uint64_t *validator,
                                                            size_t validator_length);

/* Whether it waits in the queue for activation. Refused with 1 or 3. */
altair_truth_answer altair_is_eligible_for_activation(uint64_t finalized_epoch, const uint64_t *validator,
                                                      size_t validator_length);

/* Whether it earns and pays: active in the previous epoch, or slashed and withdrawable only later. Refused with 1, 2
 * or 3. */
altair_truth_answer altair_is_eligible(altair_settings settings, uint64_t state_slot, const uint64_t *validator,
                                       size_t validator_length);

/* validator holds the ten numbers with delta more on the balance. Refused with 1, 3 or 5. After a refusal validator
 * is as it was. */
uint64_t altair_increase_balance(uint64_t *validator, size_t validator_length, uint64_t delta);

/* validator holds the ten numbers with delta less on the balance, not below 0. Refused with 1 or 3. After a refusal
 * validator is as it was. */
uint64_t altair_decrease_balance(uint64_t *validator, size_t validator_length, uint64_t delta);

/* Whether flag flag_index (0 source, 1 target, 2 head, up to 7) is in flags. Refused with 1. */
altair_truth_answer altair_has_flag(uint8_t flags, uint64_t flag_index);

/* The flags with flag flag_index (up to 7) in them. Refused with 1. */
altair_number_answer altair_add_flag(uint8_t flags, uint64_t flag_index);

/* Whether it is unslashed, active and has the flag (0 to 2) in the epoch, the previous or the current one. Refused
 * with 1, 2 or 3. */
altair_truth_answer altair_is_unslashed_participating(altair_settings settings, uint64_t state_slot,
                                                      uint64_t flag_index, uint64_t epoch, const uint64_t *validator,
                                                      size_t validator_length);

/* -- Block roots ------------------------------------------------------------------------------------------------- */

/* The root at the slot; roots has 32 bytes a root. Refused with 1, 2, 3 or 4. */
altair_root_answer altair_get_block_root_at_slot(altair_settings settings, const uint8_t *roots, size_t roots_length,
                                                 uint64_t state_slot, uint64_t slot);

/* The root at the epoch's first slot; roots has 32 bytes a root. Refused with 1, 2, 3, 4 or 5. */
altair_root_answer altair_get_block_root(altair_settings settings, const uint8_t *roots, size_t roots_length,
                                         uint64_t state_slot, uint64_t epoch);

/* -- The registry ------------------------------------------------------------------------------------------------ */

/* The effective balance of all that are active, at least one increment, and whether it was raised to it. Refused with
 * 1, 2, 3 or 5. */
altair_total_answer altair_get_total_active_balance(altair_settings settings, uint64_t state_slot,
                                                    const uint64_t *registry, size_t registry_length);

/* The effective balance of the unslashed participants of a flag (0 to 2) in the previous or current epoch, and
 * whether it was raised. Refused with 1, 2, 3 or 5. */
altair_total_answer altair_get_participating_balance(altair_settings settings, uint64_t state_slot,
                                                     uint64_t flag_index, uint64_t epoch, const uint64_t *registry,
                                                     size_t registry_length);

/* How many may enter or leave in an epoch. Refused with 1, 2 or 3. */
altair_number_answer altair_get_validator_churn_limit(altair_settings settings, uint64_t state_slot,
                                                      const uint64_t *registry, size_t registry_length);

/* The exit queue's pair of the registry; zeros beside a refusal. Refused with 1 or 3. */
altair_queue_answer altair_exit_queue(const uint64_t *registry, size_t registry_length);

/* The registry with an exit and a withdrawable epoch for validator `index`; answered is the pair afterwards. A
 * validator whose exit epoch is not FAR keeps it. Else it leaves at current epoch + 1 + max_seed_lookahead or at the
 * pair's last epoch, whichever is later; one epoch more where as many as the churn limit leave then. It is
 * withdrawable min_validator_withdrawability_delay later; with delay 0 both can come out as FAR, which counts for
 * nothing in the pair. Refused with 1, 2, 3, 8 or 5. After a refusal registry is as it was. */
altair_queue_answer altair_initiate_validator_exit(altair_settings settings, uint64_t state_slot, uint64_t index,
                                                   altair_queue queue, uint64_t *registry, size_t registry_length);

/* -- Rewards ----------------------------------------------------------------------------------------------------- */

/* The base reward per increment at a total active balance. Refused with 1, 2 or 5. */
altair_number_answer altair_get_base_reward_per_increment(altair_settings settings, uint64_t total);

/* The validator's base reward at a total active balance. Refused with 1, 2, 3 or 5. */
altair_number_answer altair_get_base_reward(altair_settings settings, uint64_t total, const uint64_t *validator,
                                            size_t validator_length);

/* What validator `index` gains and loses by a flag (0 to 2). Refused with 1, 2, 3 or 5. */
altair_deltas_answer altair_get_flag_index_deltas(altair_settings settings, uint64_t state_slot,
                                                  uint64_t finalized_epoch, uint64_t flag_index, uint64_t index,
                                                  const uint64_t *registry, size_t registry_length);

/* What the validator loses by its score; the reward is 0. Refused with 1, 2, 3 or 5. */
altair_deltas_answer altair_get_inactivity_penalty_deltas(altair_rules rules, uint64_t state_slot,
                                                          const uint64_t *validator, size_t validator_length);

/* -- Finality ---------------------------------------------------------------------------------------------------- */

/* Previous epoch less finalized epoch. Refused with 1, 2, 3 or 5. */
altair_number_answer altair_get_finality_delay(altair_settings settings, uint64_t state_slot,
                                               uint64_t finalized_epoch);

/* Whether previous epoch less finalized epoch is above min_epochs_to_inactivity_penalty. Refused with 1, 2, 3 or 5. */
altair_truth_answer altair_is_in_inactivity_leak(altair_settings settings, uint64_t state_slot,
                                                 uint64_t finalized_epoch);

/* The finality from three totals: of all that are active, and of those that hit the previous and the current target.
 * Refused with 1, 2, 3, 4 or 5. */
altair_finality_answer altair_weigh_justification_and_finalization(altair_settings settings, const uint8_t *roots,
                                                                   size_t roots_length, altair_finality finality,
                                                                   uint64_t total, uint64_t previous,
                                                                   uint64_t current);

/* -- Votes not yet counted --------------------------------------------------------------------------------------- */

/* Each finalized epoch that justification gives for some filling of the unknown target flags, and no other, and for
 * either target epoch whether its two-thirds test passes in all, some or no fillings. marks has one of enum mark a
 * validator; a flag that it calls unknown counts for nothing, whatever is stored. 3 is also for a mark over 3; 4
 * where either target's root cannot be looked up, wanted or not, and that before 5, which is given where some filling
 * overflows. Up to epoch 1 the finalized epoch alone is listed, both tests pass in none, and neither 4 nor 5 is
 * given. Refused with 1, 2, 3, 4 or 5. */
altair_votes_answer altair_unknown_votes(altair_settings settings, const uint8_t *roots, size_t roots_length,
                                         altair_finality finality, const uint64_t *registry, size_t registry_length,
                                         const uint64_t *marks, size_t marks_length);

/* -- Deneb's registry step and close ----------------------------------------------------------------------------- */

/* closing holds the registry after queueing, ejecting and activating, and the pair after the step. As many are
 * activated as the smaller of the churn limit and max_per_epoch_activation_churn_limit says; ejections go by the
 * churn limit. Refused with 1, 2, 3, 8 or 5. After 1, 2, 3 or 8 closing is as it was, after 5 it holds the opening's
 * numbers. */
altair_queue_answer deneb_process_registry_updates(altair_deneb_rules rules, uint64_t state_slot,
                                                   uint64_t finalized_epoch, altair_queue queue,
                                                   const uint64_t *opening, size_t opening_length, uint64_t *closing,
                                                   size_t closing_length);

/* Closes by Deneb's rules: the closed record's finality and pair, which totals were raised and which test finalized.
 * Closing buffers hold the closed record and amounts what each rule gave and took (enum altair_amount). There is no
 * store: the rules are those of the record's epoch. closing_registry holds the registry. closing_slashings holds the
 * slashings. Refused with 1, 2, 3, 8, 4 or 5. After 1, 2, 3 or 8 closing_registry, closing_slashings and amounts are
 * as they were, after 4 or 5 closing buffers hold the opening's numbers, and amounts zeros. */
altair_full_answer deneb_close(altair_deneb_rules rules, altair_finality finality, altair_queue queue,
                               const uint64_t *registry, size_t registry_length, const uint64_t *slashings,
                               size_t slashings_length, const uint8_t *roots, size_t roots_length,
                               uint64_t *closing_registry, size_t closing_registry_length,
                               uint64_t *closing_slashings, size_t closing_slashings_length, uint64_t *amounts,
                               size_t amounts_length);

/* -- Electra's close --------------------------------------------------------------------------------------------- */

/* Closes an epoch of Electra or Fulu: the closed record's finality, which totals were raised and which test
 * finalized, how many validators there are then, how many deposits and consolidations are left, and the queues' three
 * numbers. compounding, deposits, consolidations and places are those of electra_process_pending_deposits and
 * electra_process_pending_consolidations. Closing buffers hold the closed record and amounts what each rule gave and
 * took, twelve numbers a validator (enum altair_electra_amount), at their front; what stands behind it stays. A
 * deposit that is left has its five numbers, its key in the opening's numbering; validators that deposits made stand
 * behind those of the opening, in the order of their first valid deposits. Lengths: closing_registry 10 * (N + D),
 * closing_compounding N + D, amounts 12 * (N + D). Refused with 1, 2, 3, 4 or 5. After 1, 2 and 3 all buffers hold
 * what they held; after 4 and 5 closing buffers hold the opening's numbers at their front and amounts 12 * N zeros,
 * and behind them what they held. places may hold anything. Beside a refusal the answer has what was handed in: the
 * finality, the counts and the queues' numbers. */
altair_electra_answer electra_close(altair_electra_rules rules, altair_finality finality, altair_exit_churn churn,
                                    altair_deposit_numbers numbers, const uint64_t *registry, size_t registry_length,
                                    const uint64_t *compounding, size_t compounding_length, const uint64_t *slashings,
                                    size_t slashings_length, const uint8_t *roots, size_t roots_length,
                                    const uint64_t *deposits, size_t deposits_length, const uint64_t *consolidations,
                                    size_t consolidations_length, uint64_t *closing_registry,
                                    size_t closing_registry_length, uint64_t *closing_compounding,
                                    size_t closing_compounding_length, uint64_t *closing_slashings,
                                    size_t closing_slashings_length, uint64_t *closing_deposits,
                                    size_t closing_deposits_length, uint64_t *closing_consolidations,
                                    size_t closing_consolidations_length, uint64_t *amounts, size_t amounts_length,
                                    uint64_t *places, size_t places_length);

/* -- Electra's steps --------------------------------------------------------------------------------------------- */

/* closing holds the registry after one loop in register order: who is queued, who is ejected by balance, and who is
 * activated, of which there is no limit; answered are the exit queue's two numbers after the step. Refused with 1, 2,
 * 3 or 5. After 1, 2 or 3 closing is as it was, after 5 it holds the opening's numbers. */
altair_exit_churn_answer electra_process_registry_updates(altair_electra_rules rules, uint64_t state_slot,
                                                          uint64_t finalized_epoch, altair_exit_churn churn,
                                                          const uint64_t *opening, size_t opening_length,
                                                          uint64_t *closing, size_t closing_length);

/* closing holds the registry less the slashing penalties, which go by whole increments. Refused with 1, 2, 3 or 5.
 * After 1, 2 or 3 closing is as it was, after 5 it holds the opening's numbers. */
uint64_t electra_process_slashings(altair_electra_rules rules, uint64_t state_slot, const uint64_t *slashings,
                                   size_t slashings_length, const uint64_t *opening, size_t opening_length,
                                   uint64_t *closing, size_t closing_length);

/* The queue of deposits worked off, as far as the finalized slot, the churn limit and max_pending_deposits_per_epoch
 * let it. compounding has a number a validator, 1 where its credentials begin with 0x02 and else 0; deposits five
 * numbers each, in the queue's order: key, compounding, amount, slot, and 1 where the signature is valid, which the
 * caller has found out. A key below N is that validator's, from N on one that no validator has, the same number for
 * the same key; it is below N + D, where D deposits are lent. At the front of the closing buffers stand the
 * validators with the new ones, their credentials, and the queue: the rest, and behind it those postponed; what
 * stands behind them stays. places is a list of D numbers to work in: it may hold anything, and holds anything
 * afterwards. Lengths: closing_registry 10 * (N + D), closing_compounding N + D. Refused with 1, 2, 3 or 5. After 1,
 * 2 or 3 closing_registry, closing_compounding and closing_deposits are as they were, after 5 they hold the opening's
 * numbers at their front, and behind them what they held. */
altair_deposits_answer electra_process_pending_deposits(altair_electra_rules rules, uint64_t state_slot,
                                                        uint64_t finalized_epoch, altair_deposit_numbers numbers,
                                                        const uint64_t *registry, size_t registry_length,
                                                        const uint64_t *compounding, size_t compounding_length,
                                                        const uint64_t *deposits, size_t deposits_length,
                                                        uint64_t *closing_registry, size_t closing_registry_length,
                                                        uint64_t *closing_compounding,
                                                        size_t closing_compounding_length, uint64_t *closing_deposits,
                                                        size_t closing_deposits_length, uint64_t *places,
                                                        size_t places_length);

/* The queue of consolidations worked off: two numbers each, source and target, which are validators' numbers. A
 * slashed source is passed over, one that is not yet withdrawable in the next epoch stops; of another the smaller of
 * balance and effective balance goes to the target. What is left stands at the front of closing_consolidations, and
 * what stands behind it stays. closing_registry holds the registry. Refused with 1, 2, 3 or 5. After 1, 2 or 3
 * closing_registry and closing_consolidations are as they were, after 5 they hold the opening's numbers. */
altair_consolidations_answer electra_process_pending_consolidations(altair_electra_rules rules, uint64_t state_slot,
                                                                    const uint64_t *registry, size_t registry_length,
                                                                    const uint64_t *consolidations,
                                                                    size_t consolidations_length,
                                                                    uint64_t *closing_registry,
                                                                    size_t closing_registry_length,
                                                                    uint64_t *closing_consolidations,
                                                                    size_t closing_consolidations_length);

/* closing holds the registry with the new effective balances: at most max_effective_balance_electra of a validator
 * whose compounding is 1, and min_activation_balance of another. Refused with 1, 2, 3 or 5. After 1, 2 or 3 closing
 * is as it was, after 5 it holds the opening's numbers. */
uint64_t electra_process_effective_balance_updates(altair_electra_rules rules, const uint64_t *compounding,
                                                   size_t compounding_length, const uint64_t *opening,
                                                   size_t opening_length, uint64_t *closing, size_t closing_length);

/* -- Electra's helpers ------------------------------------------------------------------------------------------- */

/* How much balance may enter or leave in an epoch, in Gwei: a whole number of increments. Refused with 1, 2, 3 or 5. */
altair_number_answer electra_get_balance_churn_limit(altair_electra_rules rules, uint64_t state_slot,
                                                     const uint64_t *registry, size_t registry_length);

/* The smaller of electra_get_balance_churn_limit and max_per_epoch_activation_exit_churn_limit, in Gwei. Refused with
 * 1, 2, 3 or 5. */
altair_number_answer electra_get_activation_exit_churn_limit(altair_electra_rules rules, uint64_t state_slot,
                                                             const uint64_t *registry, size_t registry_length);

/* The largest effective balance of a validator whose compounding is 1, or 0, in Gwei. Refused with 1, 2 or 3. */
altair_number_answer electra_get_max_effective_balance(altair_electra_rules rules, uint64_t compounding);

/* The exit queue's two numbers once a balance leaves: the earliest exit epoch is the epoch at which it does. What
 * does not fit goes to further epochs, a churn limit each. Refused with 1, 2, 3 or 5. */
altair_exit_churn_answer electra_compute_exit_epoch_and_update_churn(altair_electra_rules rules, uint64_t state_slot,
                                                                     altair_exit_churn churn, uint64_t exit_balance,
                                                                     const uint64_t *registry,
                                                                     size_t registry_length);

/* The registry with an exit and a withdrawable epoch for validator `index`, by its effective balance; answered are
 * the exit queue's two numbers afterwards. A validator whose exit epoch is not FAR keeps it. Refused with 1, 2, 3 or
 * 5. After a refusal registry is as it was. */
altair_exit_churn_answer electra_initiate_validator_exit(altair_electra_rules rules, uint64_t state_slot,
                                                         uint64_t index, altair_exit_churn churn, uint64_t *registry,
                                                         size_t registry_length);

/* -- In C: not proved, but tested ------------------------------------------------------------------------------ */

/* Answers a line of words for a refusal's number, also for 0 and for numbers that are none. It is never NULL. */
const char *altair_refusal_text(uint64_t number);

/* Answers the settings of the preset "mainnet" or "minimal", or NULL. */
const altair_settings *altair_preset(const char *name);

/* Answer the rules of Altair, with a pair of zeros, and of Bellatrix, with this pair.
 * There are no buffers. */
altair_rules altair_under_altair(altair_settings settings);

altair_rules altair_under_bellatrix(altair_settings settings, altair_bellatrix bellatrix);

/* Writes the 23 numbers of an entry, tested by nobody: with start 0 a store of one entry, by which every epoch is closed. */
void altair_put_entry(uint64_t *entry, uint64_t start, altair_rules rules);

/* The calls above that write one buffer beside others, refused with 1 before any other test where a buffer that is
 * written overlaps another, or one that is not empty is NULL, not aligned or beyond the address space. Nothing is
 * then written: the finality, the pair and the close so far handed in come back, and of a file zeros. Else each is
 * the function that it is named after. */
altair_full_answer altair_checked_close(const uint64_t *store, size_t store_length, uint64_t count,
                                        altair_finality finality, altair_queue queue, const uint64_t *registry,
                                        size_t registry_length, const uint64_t *slashings, size_t slashings_length,
                                        const uint8_t *roots, size_t roots_length, uint64_t *closing_registry,
                                        size_t closing_registry_length, uint64_t *closing_slashings,
                                        size_t closing_slashings_length, uint64_t *amounts, size_t amounts_length);

altair_read_answer altair_checked_read_file(const uint8_t *file, size_t file_length, uint64_t *registry,
                                            size_t registry_length, uint64_t *slashings, size_t slashings_length);

uint64_t altair_checked_write_file(altair_settings settings, altair_finality finality, altair_queue queue,
                                   const uint64_t *registry, size_t registry_length, const uint8_t *roots,
                                   size_t roots_length, const uint64_t *slashings, size_t slashings_length,
                                   uint8_t *file, size_t file_length);

uint64_t altair_checked_close_shelf(const uint8_t *files, size_t files_length, const uint64_t *lengths,
                                    size_t lengths_length, uint8_t *closing, size_t closing_length,
                                    uint64_t *opening_numbers, size_t opening_numbers_length,
                                    uint64_t *closing_numbers, size_t closing_numbers_length, uint64_t *answers,
                                    size_t answers_length, uint64_t fork, altair_bellatrix bellatrix);

altair_running_answer altair_checked_close_step(uint64_t number, altair_running running, const uint64_t *store,
                                                size_t store_length, uint64_t count, altair_finality finality,
                                                altair_queue queue, const uint64_t *registry, size_t registry_length,
                                                const uint64_t *slashings, size_t slashings_length,
                                                const uint8_t *roots, size_t roots_length, uint64_t *closing_registry,
                                                size_t closing_registry_length, uint64_t *closing_slashings,
                                                size_t closing_slashings_length, uint64_t *amounts,
                                                size_t amounts_length);

altair_running_answer altair_checked_carry_out(const uint64_t *store, size_t store_length, uint64_t count,
                                               uint64_t shard_committee_period, altair_running running,
                                               uint64_t *closing_registry, size_t closing_registry_length,
                                               const uint64_t *orders, size_t orders_length, uint64_t *answers,
                                               size_t answers_length);

uint64_t altair_checked_process_inactivity_updates(altair_settings settings, uint64_t state_slot,
                                                   uint64_t finalized_epoch, const uint64_t *opening,
                                                   size_t opening_length, uint64_t *closing, size_t closing_length);

uint64_t altair_checked_process_rewards_and_penalties(altair_rules rules, uint64_t state_slot,
                                                      uint64_t finalized_epoch, const uint64_t *opening,
                                                      size_t opening_length, uint64_t *closing,
                                                      size_t closing_length);

altair_queue_answer altair_checked_process_registry_updates(altair_settings settings, uint64_t state_slot,
                                                            uint64_t finalized_epoch, altair_queue queue,
                                                            const uint64_t *opening, size_t opening_length,
                                                            uint64_t *closing, size_t closing_length);

altair_queue_answer altair_checked_process_registry_updates_to(uint64_t stop, altair_settings settings,
                                                               uint64_t state_slot, uint64_t finalized_epoch,
                                                               altair_queue queue, const uint64_t *opening,
                                                               size_t opening_length, uint64_t *closing,
                                                               size_t closing_length);

uint64_t altair_checked_process_slashings(altair_rules rules, uint64_t state_slot, const uint64_t *slashings,
                                          size_t slashings_length, const uint64_t *opening, size_t opening_length,
                                          uint64_t *closing, size_t closing_length);

uint64_t altair_checked_process_effective_balance_updates(altair_settings settings, const uint64_t *opening,
                                                          size_t opening_length, uint64_t *closing,
                                                          size_t closing_length);

uint64_t altair_checked_process_slashings_reset(altair_settings settings, uint64_t state_slot,
                                                const uint64_t *opening, size_t opening_length, uint64_t *closing,
                                                size_t closing_length);

uint64_t altair_checked_process_participation_flag_updates(const uint64_t *opening, size_t opening_length,
                                                           uint64_t *closing, size_t closing_length);

altair_queue_answer altair_checked_deneb_process_registry_updates(altair_deneb_rules rules, uint64_t state_slot,
                                                                  uint64_t finalized_epoch, altair_queue queue,
                                                                  const uint64_t *opening, size_t opening_length,
                                                                  uint64_t *closing, size_t closing_length);

altair_full_answer altair_checked_deneb_close(altair_deneb_rules rules, altair_finality finality, altair_queue queue,
                                              const uint64_t *registry, size_t registry_length,
                                              const uint64_t *slashings, size_t slashings_length,
                                              const uint8_t *roots, size_t roots_length, uint64_t *closing_registry,
                                              size_t closing_registry_length, uint64_t *closing_slashings,
                                              size_t closing_slashings_length, uint64_t *amounts,
                                              size_t amounts_length);

altair_electra_answer altair_checked_electra_close(altair_electra_rules rules, altair_finality finality,
                                                   altair_exit_churn churn, altair_deposit_numbers numbers,
                                                   const uint64_t *registry, size_t registry_length,
                                                   const uint64_t *compounding, size_t compounding_length,
                                                   const uint64_t *slashings, size_t slashings_length,
                                                   const uint8_t *roots, size_t roots_length,
                                                   const uint64_t *deposits, size_t deposits_length,
                                                   const uint64_t *consolidations, size_t consolidations_length,
                                                   uint64_t *closing_registry, size_t closing_registry_length,
                                                   uint64_t *closing_compounding, size_t closing_compounding_length,
                                                   uint64_t *closing_slashings, size_t closing_slashings_length,
                                                   uint64_t *closing_deposits, size_t closing_deposits_length,
                                                   uint64_t *closing_consolidations,
                                                   size_t closing_consolidations_length, uint64_t *amounts,
                                                   size_t amounts_length, uint64_t *places, size_t places_length);

altair_exit_churn_answer altair_checked_electra_process_registry_updates(altair_electra_rules rules,
                                                                         uint64_t state_slot,
                                                                         uint64_t finalized_epoch,
                                                                         altair_exit_churn churn,
                                                                         const uint64_t *opening,
                                                                         size_t opening_length, uint64_t *closing,
                                                                         size_t closing_length);

uint64_t altair_checked_electra_process_slashings(altair_electra_rules rules, uint64_t state_slot,
                                                  const uint64_t *slashings, size_t slashings_length,
                                                  const uint64_t *opening, size_t opening_length, uint64_t *closing,
                                                  size_t closing_length);

altair_deposits_answer altair_checked_electra_process_pending_deposits(altair_electra_rules rules,
                                                                       uint64_t state_slot, uint64_t finalized_epoch,
                                                                       altair_deposit_numbers numbers,
                                                                       const uint64_t *registry,
                                                                       size_t registry_length,
                                                                       const uint64_t *compounding,
                                                                       size_t compounding_length,
                                                                       const uint64_t *deposits,
                                                                       size_t deposits_length,
                                                                       uint64_t *closing_registry,
                                                                       size_t closing_registry_length,
                                                                       uint64_t *closing_compounding,
                                                                       size_t closing_compounding_length,
                                                                       uint64_t *closing_deposits,
                                                                       size_t closing_deposits_length,
                                                                       uint64_t *places, size_t places_length);

altair_consolidations_answer altair_checked_electra_process_pending_consolidations(altair_electra_rules rules,
                                                                                   uint64_t state_slot,
                                                                                   const uint64_t *registry,
                                                                                   size_t registry_length,
                                                                                   const uint64_t *consolidations,
                                                                                   size_t consolidations_length,
                                                                                   uint64_t *closing_registry,
                                                                                   size_t closing_registry_length,
                                                                                   uint64_t *closing_consolidations,
                                                                                   size_t closing_consolidations_length);

uint64_t altair_checked_electra_process_effective_balance_updates(altair_electra_rules rules,
                                                                  const uint64_t *compounding,
                                                                  size_t compounding_length, const uint64_t *opening,
                                                                  size_t opening_length, uint64_t *closing,
                                                                  size_t closing_length);

/* What was wrong where a call was refused with 1: from the same arguments, the name of the one at fault, the number
 * or length called for, and words for it; of a call that is not refused with 1 the name is NULL. Buffers are only
 * read, and where they stand is not looked at: a checked call that is refused with 1 where nothing is named was lent
 * buffers that overlap or that cannot be lent. */
typedef struct altair_fault {
    const char *argument;
    const char *wanted;
    uint64_t number;
} altair_fault;

altair_fault altair_why_close(const uint64_t *store, size_t store_length, uint64_t count, altair_finality finality,
                              altair_queue queue, const uint64_t *registry, size_t registry_length,
                              const uint64_t *slashings, size_t slashings_length, const uint8_t *roots,
                              size_t roots_length, uint64_t *closing_registry, size_t closing_registry_length,
                              uint64_t *closing_slashings, size_t closing_slashings_length, uint64_t *amounts,
                              size_t amounts_length);

altair_fault altair_why_read_rules(const uint64_t *store, size_t store_length, uint64_t count, uint64_t epoch);

altair_fault altair_why_add_rules(uint64_t *store, size_t store_length, uint64_t count, uint64_t start,
                                  altair_rules rules);

altair_fault altair_why_charged(altair_settings settings, uint64_t state_slot, const uint64_t *registry,
                                size_t registry_length);

altair_fault altair_why_activation_wait(altair_settings settings, uint64_t finalized_epoch, const uint64_t *registry,
                                        size_t registry_length, uint64_t index);

altair_fault altair_why_listing_head(altair_settings settings, uint64_t state_slot, altair_finality closing,
                                     const uint64_t *opening, size_t opening_length);

altair_fault altair_why_listing_line(const uint64_t *opening, size_t opening_length, const uint64_t *closing,
                                     size_t closing_length, uint64_t index);

altair_fault altair_why_read_file(const uint8_t *file, size_t file_length, uint64_t *registry, size_t registry_length,
                                  uint64_t *slashings, size_t slashings_length);

altair_fault altair_why_write_file(altair_settings settings, altair_finality finality, altair_queue queue,
                                   const uint64_t *registry, size_t registry_length, const uint8_t *roots,
                                   size_t roots_length, const uint64_t *slashings, size_t slashings_length,
                                   uint8_t *file, size_t file_length);

altair_fault altair_why_close_shelf(const uint8_t *files, size_t files_length, const uint64_t *lengths,
                                    size_t lengths_length, uint8_t *closing, size_t closing_length,
                                    uint64_t *opening_numbers, size_t opening_numbers_length,
                                    uint64_t *closing_numbers, size_t closing_numbers_length, uint64_t *answers,
                                    size_t answers_length, uint64_t fork, altair_bellatrix bellatrix);

altair_fault altair_why_close_step(uint64_t number, altair_running running, const uint64_t *store,
                                   size_t store_length, uint64_t count, altair_finality finality, altair_queue queue,
                                   const uint64_t *registry, size_t registry_length, const uint64_t *slashings,
                                   size_t slashings_length, const uint8_t *roots, size_t roots_length,
                                   uint64_t *closing_registry, size_t closing_registry_length,
                                   uint64_t *closing_slashings, size_t closing_slashings_length, uint64_t *amounts,
                                   size_t amounts_length);

altair_fault altair_why_take_order(altair_running running, uint64_t validator, uint64_t start, uint64_t *orders,
                                   size_t orders_length);

altair_fault altair_why_carry_out(const uint64_t *store, size_t store_length, uint64_t count,
                                  uint64_t shard_committee_period, altair_running running, uint64_t *closing_registry,
                                  size_t closing_registry_length, const uint64_t *orders, size_t orders_length,
                                  uint64_t *answers, size_t answers_length);

altair_fault altair_why_process_justification_and_finalization(altair_settings settings, const uint8_t *roots,
                                                               size_t roots_length, altair_finality finality,
                                                               const uint64_t *registry, size_t registry_length);

altair_fault altair_why_process_inactivity_updates(altair_settings settings, uint64_t state_slot,
                                                   uint64_t finalized_epoch, const uint64_t *opening,
                                                   size_t opening_length, uint64_t *closing, size_t closing_length);

altair_fault altair_why_process_rewards_and_penalties(altair_rules rules, uint64_t state_slot,
                                                      uint64_t finalized_epoch, const uint64_t *opening,
                                                      size_t opening_length, uint64_t *closing,
                                                      size_t closing_length);

altair_fault altair_why_process_registry_updates(altair_settings settings, uint64_t state_slot,
                                                 uint64_t finalized_epoch, altair_queue queue,
                                                 const uint64_t *opening, size_t opening_length, uint64_t *closing,
                                                 size_t closing_length);

altair_fault altair_why_process_registry_updates_to(uint64_t stop, altair_settings settings, uint64_t state_slot,
                                                    uint64_t finalized_epoch, altair_queue queue,
                                                    const uint64_t *opening, size_t opening_length, uint64_t *closing,
                                                    size_t closing_length);

altair_fault altair_why_process_slashings(altair_rules rules, uint64_t state_slot, const uint64_t *slashings,
                                          size_t slashings_length, const uint64_t *opening, size_t opening_length,
                                          uint64_t *closing, size_t closing_length);

altair_fault altair_why_process_effective_balance_updates(altair_settings settings, const uint64_t *opening,
                                                          size_t opening_length, uint64_t *closing,
                                                          size_t closing_length);

altair_fault altair_why_process_slashings_reset(altair_settings settings, uint64_t state_slot,
                                                const uint64_t *opening, size_t opening_length, uint64_t *closing,
                                                size_t closing_length);

altair_fault altair_why_process_participation_flag_updates(const uint64_t *opening, size_t opening_length,
                                                           uint64_t *closing, size_t closing_length);

altair_fault altair_why_compute_epoch_at_slot(altair_settings settings, uint64_t slot);

altair_fault altair_why_compute_start_slot_at_epoch(altair_settings settings, uint64_t epoch);

altair_fault altair_why_compute_activation_exit_epoch(altair_settings settings, uint64_t epoch);

altair_fault altair_why_get_current_epoch(altair_settings settings, uint64_t state_slot);

altair_fault altair_why_get_previous_epoch(altair_settings settings, uint64_t state_slot);

altair_fault altair_why_is_active_validator(const uint64_t *validator, size_t validator_length, uint64_t epoch);

altair_fault altair_why_is_eligible_for_activation_queue(altair_settings settings, const uint64_t *validator,
                                                         size_t validator_length);

altair_fault altair_why_is_eligible_for_activation(uint64_t finalized_epoch, const uint64_t *validator,
                                                   size_t validator_length);

altair_fault altair_why_is_eligible(altair_settings settings, uint64_t state_slot, const uint64_t *validator,
                                    size_t validator_length);

altair_fault altair_why_increase_balance(uint64_t *validator, size_t validator_length, uint64_t delta);

altair_fault altair_why_decrease_balance(uint64_t *validator, size_t validator_length, uint64_t delta);

altair_fault altair_why_has_flag(uint8_t flags, uint64_t flag_index);

altair_fault altair_why_add_flag(uint8_t flags, uint64_t flag_index);

altair_fault altair_why_is_unslashed_participating(altair_settings settings, uint64_t state_slot, uint64_t flag_index,
                                                   uint64_t epoch, const uint64_t *validator,
                                                   size_t validator_length);

altair_fault altair_why_get_block_root_at_slot(altair_settings settings, const uint8_t *roots, size_t roots_length,
                                               uint64_t state_slot, uint64_t slot);

altair_fault altair_why_get_block_root(altair_settings settings, const uint8_t *roots, size_t roots_length,
                                       uint64_t state_slot, uint64_t epoch);

altair_fault altair_why_get_total_active_balance(altair_settings settings, uint64_t state_slot,
                                                 const uint64_t *registry, size_t registry_length);

altair_fault altair_why_get_participating_balance(altair_settings settings, uint64_t state_slot, uint64_t flag_index,
                                                  uint64_t epoch, const uint64_t *registry, size_t registry_length);

altair_fault altair_why_get_validator_churn_limit(altair_settings settings, uint64_t state_slot,
                                                  const uint64_t *registry, size_t registry_length);

altair_fault altair_why_exit_queue(const uint64_t *registry, size_t registry_length);

altair_fault altair_why_initiate_validator_exit(altair_settings settings, uint64_t state_slot, uint64_t index,
                                                altair_queue queue, uint64_t *registry, size_t registry_length);

altair_fault altair_why_get_base_reward_per_increment(altair_settings settings, uint64_t total);

altair_fault altair_why_get_base_reward(altair_settings settings, uint64_t total, const uint64_t *validator,
                                        size_t validator_length);

altair_fault altair_why_get_flag_index_deltas(altair_settings settings, uint64_t state_slot, uint64_t finalized_epoch,
                                              uint64_t flag_index, uint64_t index, const uint64_t *registry,
                                              size_t registry_length);

altair_fault altair_why_get_inactivity_penalty_deltas(altair_rules rules, uint64_t state_slot,
                                                      const uint64_t *validator, size_t validator_length);

altair_fault altair_why_get_finality_delay(altair_settings settings, uint64_t state_slot, uint64_t finalized_epoch);

altair_fault altair_why_is_in_inactivity_leak(altair_settings settings, uint64_t state_slot,
                                              uint64_t finalized_epoch);

altair_fault altair_why_weigh_justification_and_finalization(altair_settings settings, const uint8_t *roots,
                                                             size_t roots_length, altair_finality finality,
                                                             uint64_t total, uint64_t previous, uint64_t current);

altair_fault altair_why_unknown_votes(altair_settings settings, const uint8_t *roots, size_t roots_length,
                                      altair_finality finality, const uint64_t *registry, size_t registry_length,
                                      const uint64_t *marks, size_t marks_length);

altair_fault altair_why_deneb_process_registry_updates(altair_deneb_rules rules, uint64_t state_slot,
                                                       uint64_t finalized_epoch, altair_queue queue,
                                                       const uint64_t *opening, size_t opening_length,
                                                       uint64_t *closing, size_t closing_length);

altair_fault altair_why_deneb_close(altair_deneb_rules rules, altair_finality finality, altair_queue queue,
                                    const uint64_t *registry, size_t registry_length, const uint64_t *slashings,
                                    size_t slashings_length, const uint8_t *roots, size_t roots_length,
                                    uint64_t *closing_registry, size_t closing_registry_length,
                                    uint64_t *closing_slashings, size_t closing_slashings_length, uint64_t *amounts,
                                    size_t amounts_length);

altair_fault altair_why_electra_close(altair_electra_rules rules, altair_finality finality, altair_exit_churn churn,
                                      altair_deposit_numbers numbers, const uint64_t *registry,
                                      size_t registry_length, const uint64_t *compounding, size_t compounding_length,
                                      const uint64_t *slashings, size_t slashings_length, const uint8_t *roots,
                                      size_t roots_length, const uint64_t *deposits, size_t deposits_length,
                                      const uint64_t *consolidations, size_t consolidations_length,
                                      uint64_t *closing_registry, size_t closing_registry_length,
                                      uint64_t *closing_compounding, size_t closing_compounding_length,
                                      uint64_t *closing_slashings, size_t closing_slashings_length,
                                      uint64_t *closing_deposits, size_t closing_deposits_length,
                                      uint64_t *closing_consolidations, size_t closing_consolidations_length,
                                      uint64_t *amounts, size_t amounts_length, uint64_t *places,
                                      size_t places_length);

altair_fault altair_why_electra_process_registry_updates(altair_electra_rules rules, uint64_t state_slot,
                                                         uint64_t finalized_epoch, altair_exit_churn churn,
                                                         const uint64_t *opening, size_t opening_length,
                                                         uint64_t *closing, size_t closing_length);

altair_fault altair_why_electra_process_slashings(altair_electra_rules rules, uint64_t state_slot,
                                                  const uint64_t *slashings, size_t slashings_length,
                                                  const uint64_t *opening, size_t opening_length, uint64_t *closing,
                                                  size_t closing_length);

altair_fault altair_why_electra_process_pending_deposits(altair_electra_rules rules, uint64_t state_slot,
                                                         uint64_t finalized_epoch, altair_deposit_numbers numbers,
                                                         const uint64_t *registry, size_t registry_length,
                                                         const uint64_t *compounding, size_t compounding_length,
                                                         const uint64_t *deposits, size_t deposits_length,
                                                         uint64_t *closing_registry, size_t closing_registry_length,
                                                         uint64_t *closing_compounding,
                                                         size_t closing_compounding_length,
                                                         uint64_t *closing_deposits, size_t closing_deposits_length,
                                                         uint64_t *places, size_t places_length);

altair_fault altair_why_electra_process_pending_consolidations(altair_electra_rules rules, uint64_t state_slot,
                                                               const uint64_t *registry, size_t registry_length,
                                                               const uint64_t *consolidations,
                                                               size_t consolidations_length,
                                                               uint64_t *closing_registry,
                                                               size_t closing_registry_length,
                                                               uint64_t *closing_consolidations,
                                                               size_t closing_consolidations_length);

altair_fault altair_why_electra_process_effective_balance_updates(altair_electra_rules rules,
                                                                  const uint64_t *compounding,
                                                                  size_t compounding_length, const uint64_t *opening,
                                                                  size_t opening_length, uint64_t *closing,
                                                                  size_t closing_length);

altair_fault altair_why_electra_get_balance_churn_limit(altair_electra_rules rules, uint64_t state_slot,
                                                        const uint64_t *registry, size_t registry_length);

altair_fault altair_why_electra_get_activation_exit_churn_limit(altair_electra_rules rules, uint64_t state_slot,
                                                                const uint64_t *registry, size_t registry_length);

altair_fault altair_why_electra_get_max_effective_balance(altair_electra_rules rules, uint64_t compounding);

altair_fault altair_why_electra_compute_exit_epoch_and_update_churn(altair_electra_rules rules, uint64_t state_slot,
                                                                    altair_exit_churn churn, uint64_t exit_balance,
                                                                    const uint64_t *registry, size_t registry_length);

altair_fault altair_why_electra_initiate_validator_exit(altair_electra_rules rules, uint64_t state_slot,
                                                        uint64_t index, altair_exit_churn churn, uint64_t *registry,
                                                        size_t registry_length);

#ifdef __cplusplus
}
#endif

#endif
