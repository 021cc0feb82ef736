/* What altair.h says of the tests: the first that fails, in the order 15, 6, 1, 2, 12, 13, 14, 3, 8. */
#include "fuzz.h"

#include <string.h>

static bool is_vector(uint64_t n) { return 1 <= n && n <= ALTAIR_LONGEST_VECTOR; }
static bool is_small(uint64_t n) { return n < ALTAIR_NUMBER_LIMIT; }

static bool good_settings(const altair_settings *s) {
    uint64_t numbers[19];
    memcpy(numbers, s, sizeof numbers);
    for (int i = 0; i < 19; i++)
        if (!is_small(numbers[i]))
            return false;
    return s->slots_per_epoch != 0 && s->effective_balance_increment != 0 && s->hysteresis_quotient != 0 &&
           s->inactivity_score_bias != 0 && s->inactivity_penalty_quotient_altair != 0 && s->churn_limit_quotient != 0;
}

static bool good_finality(const altair_finality *f) {
    return is_small(f->slot) && f->justification_bits <= 15 && is_small(f->previous_justified_checkpoint.epoch) &&
           is_small(f->current_justified_checkpoint.epoch) && is_small(f->finalized_checkpoint.epoch);
}

/* the place of the first number of a validator that is out of range, or 10 */
static size_t bad_place(const uint64_t *v) {
    return v[ALTAIR_SLASHED] > 1                          ? ALTAIR_SLASHED
           : v[ALTAIR_PREVIOUS_EPOCH_PARTICIPATION] > 255 ? ALTAIR_PREVIOUS_EPOCH_PARTICIPATION
           : v[ALTAIR_CURRENT_EPOCH_PARTICIPATION] > 255  ? ALTAIR_CURRENT_EPOCH_PARTICIPATION
                                                          : ALTAIR_VALIDATOR_LENGTH;
}

/* the place of a registry's first number that is out of range, or its length */
static size_t first_bad(const uint64_t *registry, size_t validators) {
    for (size_t i = 0; i < validators; i++)
        if (bad_place(registry + 10 * i) != ALTAIR_VALIDATOR_LENGTH)
            return 10 * i + bad_place(registry + 10 * i);
    return 10 * validators;
}

static bool is_queue_of(altair_queue q, const uint64_t *registry, size_t validators) {
    const altair_queue right = count_queue(registry, validators);
    return q.last_epoch == right.last_epoch && q.number == right.number;
}

/* whether the numbers from a place on, one a row, are at most this */
static bool at_most(buffer list, size_t row, size_t place, uint64_t most) {
    for (size_t i = place; i < list.length; i += row)
        if (((const uint64_t *)list.at)[i] > most)
            return false;
    return true;
}

static bool good_pair(uint64_t fork, altair_bellatrix pair) {
    return fork != 1 || (pair.inactivity_penalty_quotient_bellatrix != 0 &&
                         is_small(pair.inactivity_penalty_quotient_bellatrix) &&
                         is_small(pair.proportional_slashing_multiplier_bellatrix));
}

/* Electra's five, beside settings that are good */
static bool good_electra(const altair_electra_rules *r) {
    const altair_electra e = r->electra;
    return is_small(e.min_activation_balance) && is_small(e.max_effective_balance_electra) && is_small(e.min_per_epoch_churn_limit_electra) &&
           is_small(e.max_per_epoch_activation_exit_churn_limit) && is_small(e.max_pending_deposits_per_epoch) &&
           e.min_per_epoch_churn_limit_electra >= r->settings.effective_balance_increment && e.max_per_epoch_activation_exit_churn_limit != 0;
}

/* -- A store */

static altair_settings settings_of(const uint64_t *entry) {
    altair_settings s;
    memcpy(&s, entry + ALTAIR_ENTRY_SETTINGS, sizeof s);
    return s;
}

/* the three settings that are the same in all entries */
static bool same_lengths(altair_settings a, altair_settings b) {
    return a.slots_per_epoch == b.slots_per_epoch && a.slots_per_historical_root == b.slots_per_historical_root &&
           a.epochs_per_slashings_vector == b.epochs_per_slashings_vector;
}

static bool shaped_rules(uint64_t fork, altair_settings s) {
    return fork <= 1 && is_vector(s.slots_per_historical_root) && is_vector(s.epochs_per_slashings_vector);
}

static bool shaped_store(buffer store, uint64_t count) {
    const uint64_t *e = store.at;
    if (store.length % ALTAIR_ENTRY_LENGTH != 0 || count > store.length / ALTAIR_ENTRY_LENGTH)
        return false;
    for (uint64_t i = 0; i < count; i++, e += ALTAIR_ENTRY_LENGTH)
        if (!shaped_rules(e[ALTAIR_ENTRY_FORK], settings_of(e)) ||
            (i > 0 && (e[-ALTAIR_ENTRY_LENGTH] >= e[0] ||
                       !same_lengths(settings_of(e - ALTAIR_ENTRY_LENGTH), settings_of(e)))))
            return false;
    return true;
}

static bool good_store(buffer store, uint64_t count) {
    const uint64_t *e = store.at;
    for (uint64_t i = 0; i < count; i++, e += ALTAIR_ENTRY_LENGTH) {
        const altair_settings s = settings_of(e);
        const altair_bellatrix pair = {e[ALTAIR_ENTRY_BELLATRIX], e[ALTAIR_ENTRY_BELLATRIX + 1]};
        if (!good_settings(&s) || !good_pair(e[ALTAIR_ENTRY_FORK], pair))
            return false;
    }
    return true;
}

/* whether an entry of a good store starts at the epoch or before it: the first does */
static bool has_entry(buffer store, uint64_t count, uint64_t epoch) {
    return count > 0 && ((const uint64_t *)store.at)[ALTAIR_ENTRY_START] <= epoch;
}

/* -- A file */

/* where the validators stand: behind the pair in version 2 */
static uint64_t first_at(const uint8_t *file) { return number_at(file) == 2 ? 384 : 368; }

static bool good_header(buffer file) {
    const uint8_t *b = file.at;
    if (file.length < 80)
        return false;
    const unsigned __int128 n = number_at(b + 16), s = number_at(b + 24), l = number_at(b + 32), first = first_at(b);
    const unsigned __int128 roots_at = first + 80 * n, slashings_at = roots_at + 32 * s, length = slashings_at + 8 * l;
    return (number_at(b) == 1 || number_at(b) == 2) && number_at(b + 8) == length && file.length == length &&
           number_at(b + 40) == 80 && number_at(b + 48) == 232 && number_at(b + 56) == first &&
           number_at(b + 64) == roots_at && number_at(b + 72) == slashings_at;
}

/* the tests of read_file, and the position at which reading stops */
static uint64_t file_tests(const lent *c, uint64_t *position) {
    const uint8_t *b = c->in[0].at;
    *position = c->in[0].length < 80 ? 0 : 80;
    if (!good_header(c->in[0]))
        return 6;
    const uint64_t n = number_at(b + 16), S = number_at(b + 24), L = number_at(b + 32);
    altair_settings s;
    memcpy(&s, b + 80, sizeof s);
    *position = 232;
    if (n > ALTAIR_MOST_VALIDATORS || !is_vector(S) || !is_vector(L) || S != s.slots_per_historical_root ||
        L != s.epochs_per_slashings_vector || c->out[0].length != 10 * n || c->out[1].length != L)
        return 1;
    if (!good_settings(&s))
        return 2;
    altair_finality f;
    memcpy(&f, b + 232, sizeof f);
    *position = 368;
    if (!good_finality(&f))
        return 3;
    static uint64_t registry[10 * 400];
    if (n > sizeof registry / 80)
        fail("a file of %zu validators", (size_t)n);
    memcpy(registry, b + first_at(b), 80 * n);
    *position = first_at(b) + 8 * first_bad(registry, n);
    if (first_bad(registry, n) != 10 * n)
        return 3;
    *position = 368;
    altair_queue stored;
    memcpy(&stored, b + 368, sizeof stored);
    if (number_at(b) == 2 && !is_queue_of(stored, registry, n))
        return 8;
    *position = c->in[0].length;
    return 0;
}

uint64_t expected_position(const lent *c) {
    uint64_t position;
    file_tests(c, &position);
    return position;
}

/* -- The other calls: the letters of calls.c */

static bool tests(const row *row, char letter) { return strchr(row->tests, letter) != NULL; }

/* what test 1 asks of a buffer besides the length that the table calls for */
static bool shaped(char letter, buffer b, const lent *c, size_t validators) {
    switch (letter) {
    case 'R':
    case 'r':
    case 'P':
        return b.length % 10 == 0 && b.length / 10 <= ALTAIR_MOST_VALIDATORS;
    case 'T':
    case 'u':
        return shaped_store(b, c->count);
    case 'O':
    case 'o':
        return b.length % 2 == 0 && c->running.orders <= b.length / 2;
    case 'D': /* a key is a validator's, or one of at most as many as there are deposits */
        return b.length % 5 == 0 && b.length / 5 <= ALTAIR_MOST_VALIDATORS &&
               (b.length == 0 || at_most(b, 5, ALTAIR_DEPOSIT_PUBKEY, validators + b.length / 5 - 1));
    case 'E': /* a source or target is a validator's */
        return b.length % 2 == 0 && b.length / 2 <= ALTAIR_MOST_VALIDATORS && (b.length == 0 || (validators > 0 && at_most(b, 1, 0, validators - 1)));
    default:
        return true;
    }
}

/* what test 3 asks of a buffer's numbers, the registry's own aside */
static bool recorded(char letter, buffer b) {
    switch (letter) {
    case 'M':
        return at_most(b, 1, 0, 3);
    case 'K':
        return at_most(b, 1, 0, 1);
    case 'D':
        return at_most(b, 5, ALTAIR_DEPOSIT_COMPOUNDING, 1) && at_most(b, 5, ALTAIR_DEPOSIT_SLOT, ALTAIR_NUMBER_LIMIT - 1) &&
               at_most(b, 5, ALTAIR_DEPOSIT_VALID, 1);
    default:
        return true;
    }
}

static bool participation_epoch(const lent *c) {
    if (c->s.slots_per_epoch == 0)
        return true; /* there is none, and test 2 refuses */
    const uint64_t current = c->slot / c->s.slots_per_epoch, previous = current == 0 ? 0 : current - 1;
    return c->epoch == current || c->epoch == previous;
}

/* a shelf as a whole: 1, or the call is answered, and each file by itself */
static uint64_t shelf_tests(const lent *c) {
    const uint64_t *lengths = c->in[1].at;
    unsigned __int128 sum = 0, longest = 0;
    for (size_t i = 0; i < c->in[1].length; i++) {
        sum += lengths[i];
        longest = longest < lengths[i] ? lengths[i] : longest;
    }
    return sum != c->in[0].length || c->out[0].length != c->in[0].length || bytes_of(c->out[1]) < longest ||
           bytes_of(c->out[2]) < longest || c->out[3].length != c->in[1].length;
}

uint64_t expected(const row *row, const lent *c) {
    uint64_t position;
    if (row->lends[0] == 'H')
        return shelf_tests(c);
    if (row->kind == RUNNING && c->running.done == 9)
        return 0; /* it has ended, and says so before any test */
    if ((tests(row, 'j') && (c->running.done > 8 || c->number != c->running.done + 1 || c->number > 8)) ||
        (tests(row, 'y') && c->running.done != 8) ||
        (tests(row, 'p') && (c->running.done < 1 || c->running.done > 8)))
        return 1;
    if (tests(row, 'p'))
        return !shaped('o', c->out[0], c, 0) ? 1 : c->running.orders == c->out[0].length / 2 ? 11 : 0;
    if (tests(row, 'c') && c->clock.seconds_per_slot == 0)
        return 15;
    if (row->lends[0] == 'F')
        return row->kind == READ ? file_tests(c, &position) : good_header(c->in[0]) ? 0 : 6;
    const char *read = row->lends, *written = written_letters(row);
    const size_t reads = strcspn(read, ">"), writes = strlen(written);
    /* what a close by steps finds: the opening at its first call, and then the record so far */
    const bool opening = tests(row, 'j') && c->running.done == 0, so_far = row->kind == RUNNING && !opening;
    const altair_finality f = so_far ? c->running.answer.finality : c->f;
    const altair_queue queue = so_far ? c->running.answer.queue : c->queue;
    buffer registry = {NULL, 0, 8}; /* the registry whose validators are counted, and tested */
    bool good = true, whole = true;
    for (size_t i = 0; i < reads; i++)
        if (strchr("RVP", read[i]) != NULL)
            registry = c->in[i], whole = whole && read[i] != 'P';
    if (writes > 0 && (written[0] == 'r' || written[0] == 'v') && !opening)
        registry = c->out[0];
    const size_t validators = registry.length / 10;
    if (writes > 0 && written[0] == 'u')
        whole = false;

    if (tests(row, 's'))
        good = is_vector(c->s.slots_per_historical_root) && is_vector(c->s.epochs_per_slashings_vector);
    called_for lengths[READS + WRITES];
    row->lengths(c, lengths);
    for (size_t i = 0; i < reads + writes; i++) {
        const buffer b = i < reads ? c->in[i] : c->out[i - reads];
        good = good && as_called_for(lengths[i], b) && shaped(i < reads ? read[i] : written[i - reads], b, c, validators);
    }
    if (!good || (tests(row, 'i') && c->index >= validators) || (tests(row, 'o') && c->index > validators) ||
        (tests(row, 'g') && c->flag_index > 2) || (tests(row, 'G') && c->flag_index > 7) ||
        (tests(row, 'd') && c->totals[0] == 0) || (tests(row, 'e') && !participation_epoch(c)) ||
        (tests(row, 'k') && c->rules.fork > 1))
        return 1;
    if (tests(row, 'n') && (c->count == c->out[0].length / ALTAIR_ENTRY_LENGTH ||
                            (c->count > 0 && !same_lengths(settings_of(c->out[0].at), c->s))))
        return 1;
    if (tests(row, 's') && !good_settings(&c->s))
        return 2;
    if (tests(row, 'k') && !good_pair(c->rules.fork, c->rules.bellatrix))
        return 2;
    if ((tests(row, 'B') && !good_pair(1, c->rules.bellatrix)) || (tests(row, 'm') && !is_small(c->activation_churn)))
        return 2;
    if (tests(row, 'b') && !(good_pair(1, c->electra.bellatrix) && good_electra(&c->electra)))
        return 2;
    if (tests(row, 'y') && !is_small(c->number))
        return 2;
    if (c->by_store && !good_store(read[0] == 'T' ? c->in[0] : c->out[0], c->count))
        return 2;
    if (tests(row, 'n') && c->count > 0 &&
        ((const uint64_t *)c->out[0].at)[ALTAIR_ENTRY_LENGTH * (c->count - 1)] >= c->epoch)
        return 12;
    if (read[0] == 'T' && !has_entry(c->in[0], c->count,
                                     tests(row, 'x') ? c->epoch
                                     : c->count == 0 ? 0
                                                     : f.slot / settings_of(c->in[0].at).slots_per_epoch))
        return 13;
    if (tests(row, 'c') && (c->clock.slots_per_epoch == 0 || !is_small(c->clock.slots_per_epoch)))
        return 2;
    if (tests(row, 'w') && c->number < c->clock.genesis_time)
        return 14;
    if ((tests(row, 't') && !is_small(c->slot)) || (tests(row, 'z') && !is_small(c->finalized)) ||
        (tests(row, 'f') && !good_finality(&f)) || (whole && first_bad(registry.at, validators) != 10 * validators))
        return 3;
    for (size_t i = 0; i < reads; i++)
        if (!recorded(read[i], c->in[i]) || (tests(row, 'l') && first_bad((const uint64_t *)c->in[i].at + 10 * c->index, 1) != 10))
            return 3;
    if (tests(row, 'h') && c->number > 1)
        return 3;
    return tests(row, 'q') && !is_queue_of(queue, registry.at, validators) ? 8 : 0;
}
