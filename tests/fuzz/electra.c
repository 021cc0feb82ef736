/* What holds between Electra's functions: the ten steps in their order are the close, refused closes too, and the twelve amounts are the delta
 * leaves', cut where the balance ends, and what slashings, deposits and consolidations did to the balances, so that they add up. */
#include "fuzz.h"

#include <string.h>

enum { MOST_DEPOSITS = 8, MOST = 400 + MOST_DEPOSITS, NUMBERS = 10 * MOST, AMOUNTS = ALTAIR_ELECTRA_AMOUNTS_LENGTH * MOST, SLASHINGS = 65537 };

/* What a close is lent beside the record, of numbers that pass the tests. */
typedef struct opening {
    const record *r;
    altair_electra_rules rules;
    altair_exit_churn churn;
    altair_deposit_numbers numbers;
    size_t deposits, consolidations; /* how many */
    uint64_t compounding[MOST], deposit[ALTAIR_DEPOSIT_LENGTH * MOST_DEPOSITS], consolidation[ALTAIR_CONSOLIDATION_LENGTH * MOST_DEPOSITS];
} opening;

/* What a close leaves. */
typedef struct closing {
    altair_electra_answer answer;
    uint64_t registry[NUMBERS], compounding[MOST], slashings[SLASHINGS], deposit[ALTAIR_DEPOSIT_LENGTH * MOST_DEPOSITS],
        consolidation[ALTAIR_CONSOLIDATION_LENGTH * MOST_DEPOSITS], amounts[AMOUNTS];
} closing;

static uint64_t random_balance(void) { return one_in(40) ? odd_number() : below(70) * 1000000000 + below(2); }

static void random_opening(const record *r, opening *o) {
    *o = (opening){.r = r, .rules = {r->s, ALTAIR_MAINNET_BELLATRIX, ALTAIR_MAINNET_ELECTRA}};
    altair_electra *e = &o->rules.electra;
    e->min_per_epoch_churn_limit_electra = r->s.effective_balance_increment;
    if (!one_in(4) && r->s.effective_balance_increment < (UINT64_C(1) << 40))
        e->min_per_epoch_churn_limit_electra *= 1 + below(128);
    if (one_in(3))
        e->max_pending_deposits_per_epoch = below(6);
    if (one_in(3))
        e->min_activation_balance = random_balance() % ALTAIR_NUMBER_LIMIT;
    o->churn = (altair_exit_churn){random_balance(), below(40)};
    o->numbers = (altair_deposit_numbers){random_balance(), below(3), below(3)};
    o->deposits = below(MOST_DEPOSITS + 1), o->consolidations = r->validators == 0 ? 0 : below(MOST_DEPOSITS + 1);
    for (size_t i = 0; i < r->validators; i++)
        o->compounding[i] = below(2);
    for (size_t i = 0; i < o->deposits; i++) { /* few keys, so that they come again */
        const uint64_t key = one_in(2) ? below(r->validators + o->deposits) : r->validators + below(o->deposits < 2 ? 1 : 2);
        const uint64_t deposit[] = {key, below(2), random_balance(), one_in(3) ? below(r->f.slot + 1) : 0, !one_in(4)};
        memcpy(o->deposit + ALTAIR_DEPOSIT_LENGTH * i, deposit, sizeof deposit);
    }
    for (size_t i = 0; i < 2 * o->consolidations; i++)
        o->consolidation[i] = below(r->validators);
}

/* The nine amounts that Altair's rules book, but for slashings, from the registry with the new scores. */
static void booked_by_rewards(const opening *o, uint64_t finalized, const uint64_t *scored, const uint64_t *after, uint64_t *amounts) {
    const record *r = o->r;
    const altair_rules rules = altair_under_bellatrix(r->s, o->rules.bellatrix);
    for (size_t i = 0; i < r->validators; i++) {
        uint64_t *booked = amounts + ALTAIR_ELECTRA_AMOUNTS_LENGTH * i, balance = scored[10 * i + ALTAIR_BALANCE];
        for (uint64_t k = 0; k < 4 && r->f.slot / r->s.slots_per_epoch > 0; k++) {
            const altair_deltas_answer d =
                k < 3 ? altair_get_flag_index_deltas(r->s, r->f.slot, finalized, k, i, scored, 10 * r->validators)
                      : altair_get_inactivity_penalty_deltas(rules, r->f.slot, scored + 10 * i, 10);
            MUST(d.refusal == 0);
            balance += booked[2 * k] = d.reward;
            balance -= booked[2 * k + 1] = d.penalty < balance ? d.penalty : balance;
        }
        MUST(balance == after[10 * i + ALTAIR_BALANCE]);
    }
}

/* What the consolidations that were worked off moved: from the registry as the step finds it, which is moved on here. */
static void booked_by_consolidations(const opening *o, size_t left, uint64_t *registry, uint64_t *amounts) {
    for (const uint64_t *pair = o->consolidation; pair < o->consolidation + 2 * (o->consolidations - left); pair += 2) {
        uint64_t *source = registry + 10 * pair[0], *target = registry + 10 * pair[1];
        if (source[ALTAIR_SLASHED] == 1)
            continue;
        const uint64_t held = source[ALTAIR_BALANCE], moved = held < source[ALTAIR_EFFECTIVE_BALANCE] ? held : source[ALTAIR_EFFECTIVE_BALANCE];
        source[ALTAIR_BALANCE] -= moved, target[ALTAIR_BALANCE] += moved;
        amounts[ALTAIR_ELECTRA_AMOUNTS_LENGTH * pair[0] + ALTAIR_CONSOLIDATED_OUT] += moved;
        amounts[ALTAIR_ELECTRA_AMOUNTS_LENGTH * pair[1] + ALTAIR_CONSOLIDATED_IN] += moved;
    }
}

/* The first refusal of the steps, each lent what the last one left; 0 and what all of them leave. */
static uint64_t steps(const opening *o, closing *c) {
    static uint64_t a[NUMBERS], b[NUMBERS], working[MOST_DEPOSITS];
    const record *r = o->r;
    const size_t n = 10 * r->validators, room = n + 10 * o->deposits;
    const uint64_t slot = r->f.slot;
    altair_electra_answer *said = &c->answer;
    uint64_t number;
    const altair_justification_answer j =
        altair_process_justification_and_finalization(r->s, r->roots, r->roots_length, r->f, r->registry, n);
    if (j.refusal != 0)
        return j.refusal;
    said->finality = j.finality, said->raised = j.raised, said->test = j.test;
    const uint64_t finalized = j.finality.finalized_checkpoint.epoch;
#define STEP(call)                                                                                                     \
    if ((number = (call)) != 0)                                                                                        \
    return number
    STEP(altair_process_inactivity_updates(r->s, slot, finalized, r->registry, n, a, n));
    STEP(altair_process_rewards_and_penalties(altair_under_bellatrix(r->s, o->rules.bellatrix), slot, finalized, a, n, b, n));
    booked_by_rewards(o, finalized, a, b, c->amounts);
    const altair_exit_churn_answer left = electra_process_registry_updates(o->rules, slot, finalized, o->churn, b, n, a, n);
    STEP(left.refusal);
    said->churn = left.churn;
    STEP(electra_process_slashings(o->rules, slot, r->slashings, r->slashings_length, a, n, b, n));
    for (size_t i = 0; i < r->validators; i++)
        c->amounts[ALTAIR_ELECTRA_AMOUNTS_LENGTH * i + ALTAIR_SLASHING_TAKEN] = a[10 * i + ALTAIR_BALANCE] - b[10 * i + ALTAIR_BALANCE];
    const altair_deposits_answer d = electra_process_pending_deposits(
        o->rules, slot, finalized, o->numbers, b, n, o->compounding, r->validators, o->deposit, 5 * o->deposits, a, room, c->compounding,
        r->validators + o->deposits, c->deposit, 5 * o->deposits, working, o->deposits);
    STEP(d.refusal);
    said->validators = d.validators, said->deposits = d.deposits, said->deposit_balance_to_consume = d.deposit_balance_to_consume;
    for (size_t i = 0; i < d.validators; i++)
        c->amounts[ALTAIR_ELECTRA_AMOUNTS_LENGTH * i + ALTAIR_DEPOSITED] =
            a[10 * i + ALTAIR_BALANCE] - (i < r->validators ? b[10 * i + ALTAIR_BALANCE] : 0);
    const size_t m = 10 * d.validators;
    const altair_consolidations_answer moved = electra_process_pending_consolidations(o->rules, slot, a, m, o->consolidation, 2 * o->consolidations, b,
                                                                                      m, c->consolidation, 2 * o->consolidations);
    STEP(moved.refusal);
    said->consolidations = moved.consolidations;
    booked_by_consolidations(o, moved.consolidations, a, c->amounts);
    MUST(m == 0 || memcmp(a, b, 8 * m) == 0);
    STEP(electra_process_effective_balance_updates(o->rules, c->compounding, d.validators, b, m, a, m));
    STEP(altair_process_slashings_reset(r->s, slot, r->slashings, r->slashings_length, c->slashings, r->slashings_length));
    STEP(altair_process_participation_flag_updates(a, m, c->registry, m));
    return 0;
}

/* what a refused close leaves: the opening, and zeros for the amounts */
static void put_back(const opening *o, closing *c) {
    const record *r = o->r;
    c->answer = (altair_electra_answer){.finality = r->f, .validators = r->validators, .deposits = o->deposits,
                                        .consolidations = o->consolidations, .churn = o->churn,
                                        .deposit_balance_to_consume = o->numbers.deposit_balance_to_consume};
    memcpy(c->registry, r->registry, 80 * r->validators);
    memcpy(c->compounding, o->compounding, 8 * r->validators);
    memcpy(c->slashings, r->slashings, 8 * r->slashings_length);
    memcpy(c->deposit, o->deposit, sizeof c->deposit);
    memcpy(c->consolidation, o->consolidation, sizeof c->consolidation);
    memset(c->amounts, 0, 8 * ALTAIR_ELECTRA_AMOUNTS_LENGTH * r->validators);
}

/* whether a buffer has these numbers at its front, and behind them the poison that stood there */
static bool holds(const uint64_t *buffer, size_t length, const uint64_t *front, size_t count, uint64_t poison) {
    for (size_t i = 0; i < length; i++)
        if (buffer[i] != (i < count ? front[i] : poison))
            return false;
    return count <= length;
}

static void adds_up(const opening *o, const closing *c) {
    for (size_t i = 0; i < c->answer.validators; i++) {
        const uint64_t *a = c->amounts + ALTAIR_ELECTRA_AMOUNTS_LENGTH * i;
        uint64_t balance = i < o->r->validators ? o->r->registry[10 * i + ALTAIR_BALANCE] : 0; /* modulo 2^64 */
        for (int k = 0; k < ALTAIR_SLASHING_TAKEN; k += 2)
            balance += a[k] - a[k + 1];
        balance += a[ALTAIR_DEPOSITED] + a[ALTAIR_CONSOLIDATED_IN] - a[ALTAIR_SLASHING_TAKEN] - a[ALTAIR_CONSOLIDATED_OUT];
        MUST(balance == c->registry[10 * i + ALTAIR_BALANCE]);
    }
}

void electra_holds(const record *r) {
    static opening o;
    static closing c, by_steps;
    static uint64_t places[MOST_DEPOSITS];
    random_opening(r, &o);
    const uint64_t poison = random_number() | 1;
    uint64_t *all = (uint64_t *)(void *)&c;
    for (size_t i = 0; i < sizeof c / 8; i++)
        all[i] = poison;
    const size_t n = r->validators, room = n + o.deposits;
    c.answer = electra_close(o.rules, r->f, o.churn, o.numbers, r->registry, 10 * n, o.compounding, n, r->slashings, r->slashings_length, r->roots,
                             r->roots_length, o.deposit, 5 * o.deposits, o.consolidation, 2 * o.consolidations, c.registry, 10 * room,
                             c.compounding, room, c.slashings, r->slashings_length, c.deposit, 5 * o.deposits, c.consolidation,
                             2 * o.consolidations, c.amounts, ALTAIR_ELECTRA_AMOUNTS_LENGTH * room, places, o.deposits);
    memset(&by_steps, 0, sizeof by_steps);
    const uint64_t refused = steps(&o, &by_steps);
    if (refused != 0)
        put_back(&o, &by_steps);
    by_steps.answer.refusal = refused;
    MUST(memcmp(&c.answer, &by_steps.answer, sizeof c.answer) == 0);
    const altair_electra_answer *said = &c.answer;
    MUST(holds(c.registry, 10 * room, by_steps.registry, 10 * said->validators, poison));
    MUST(holds(c.compounding, room, by_steps.compounding, said->validators, poison));
    MUST(holds(c.slashings, r->slashings_length, by_steps.slashings, r->slashings_length, poison));
    MUST(holds(c.deposit, 5 * o.deposits, by_steps.deposit, 5 * said->deposits, poison));
    MUST(holds(c.consolidation, 2 * o.consolidations, by_steps.consolidation, 2 * said->consolidations, poison));
    MUST(holds(c.amounts, ALTAIR_ELECTRA_AMOUNTS_LENGTH * room, by_steps.amounts, ALTAIR_ELECTRA_AMOUNTS_LENGTH * said->validators, poison));
    if (refused == 0)
        adds_up(&o, &c);
}
