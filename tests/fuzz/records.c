/* Random records: small networks near their present epoch, mostly good, with numbers at the limits here and there. */
#include "fuzz.h"

#include <string.h>

enum { MOST = 400, SLASHINGS = 65537, ROOTS = 32 * 65537 };
static uint64_t registry[10 * MOST], slashings[SLASHINGS];
static uint8_t roots[ROOTS];

static uint64_t near(uint64_t n, uint64_t distance) {
    const uint64_t m = n + below(2 * distance + 1);
    return m < distance ? 0 : m - distance;
}

static altair_settings random_settings(void) {
    static const altair_settings presets[] = {ALTAIR_MAINNET, ALTAIR_MINIMAL};
    altair_settings s = presets[below(2)];
    s.slots_per_epoch = 1 + below(8);
    s.slots_per_historical_root = one_in(64) ? 65534 + below(4) : 1 + below(64);
    s.epochs_per_slashings_vector = one_in(64) ? 65534 + below(4) : 1 + below(8);
    s.min_per_epoch_churn_limit = one_in(16) ? below(200) : below(4);
    s.churn_limit_quotient = 1 + below(8);
    if (one_in(3))
        s.max_seed_lookahead = below(3), s.min_validator_withdrawability_delay = below(3);
    if (one_in(2)) { /* one of the nineteen, or two */
        uint64_t numbers[19];
        memcpy(numbers, &s, sizeof s);
        do {
            const size_t k = below(19);
            numbers[k] = one_in(3) ? odd_number() : near(numbers[k], 2);
        } while (one_in(2));
        memcpy(&s, numbers, sizeof s);
    }
    return s;
}

void random_validator(const altair_settings *s, uint64_t epoch, uint64_t *validator) {
    static const uint64_t far = ALTAIR_FAR_FUTURE_EPOCH;
    const uint64_t increment = s->effective_balance_increment;
    uint64_t v[10] = {
        near(32, 2) * increment, one_in(8), 0, 0, far, far, near(32, 20) * increment + below(5), below(8), below(8),
        below(3) * below(100)};
    if (one_in(3)) /* waits, or is about to */
        v[ALTAIR_ACTIVATION_EPOCH] = far, v[ALTAIR_ACTIVATION_ELIGIBILITY_EPOCH] = one_in(4) ? far : near(epoch, 4);
    if (one_in(4)) /* leaves */
        v[ALTAIR_EXIT_EPOCH] = near(epoch + 2, 6),
        v[ALTAIR_WITHDRAWABLE_EPOCH] = near(epoch + s->epochs_per_slashings_vector / 2, 1);
    if (one_in(6)) /* is ejected */
        v[ALTAIR_EFFECTIVE_BALANCE] = below(17) * increment;
    if (one_in(24))
        v[below(10)] = odd_number();
    if (one_in(64))
        v[ALTAIR_BALANCE] = UINT64_MAX - below(2);
    if (one_in(200)) /* the exit queue's end is the last epoch that there is */
        v[ALTAIR_EXIT_EPOCH] = far - 1 - below(2);
    memcpy(validator, v, sizeof v);
}

altair_queue count_queue(const uint64_t *registry, size_t validators) {
    altair_queue q = {0, 0};
    for (size_t i = 0; i < validators; i++) {
        const uint64_t epoch = registry[10 * i + ALTAIR_EXIT_EPOCH];
        if (epoch != ALTAIR_FAR_FUTURE_EPOCH && epoch > q.last_epoch)
            q = (altair_queue){epoch, 0};
        q.number += epoch == q.last_epoch;
    }
    return q;
}

record random_record(void) {
    record r = {.s = random_settings()};
    const uint64_t epoch = one_in(6) ? below(2) : below(30);
    r.f.slot =
        epoch * (r.s.slots_per_epoch % (UINT64_C(1) << 48)) + (one_in(3) ? 0 : below(r.s.slots_per_epoch % 64 + 1));
    r.f.justification_bits = below(16);
    altair_checkpoint *checkpoints[] = {&r.f.previous_justified_checkpoint, &r.f.current_justified_checkpoint,
                                        &r.f.finalized_checkpoint};
    for (int i = 0; i < 3; i++) {
        checkpoints[i]->epoch = one_in(8) ? below(4) : near(epoch > 2 ? epoch - 2 : 0, 2);
        for (int k = 0; k < 32; k++)
            checkpoints[i]->root[k] = (uint8_t)random_number();
    }
    if (one_in(24))
        *(one_in(2) ? &r.f.slot : &checkpoints[below(3)]->epoch) = odd_number();
    if (one_in(48))
        r.f.justification_bits = odd_number();

    r.validators = one_in(12) ? 0 : one_in(24) ? below(MOST) : 1 + below(8);
    r.registry = registry, r.slashings = slashings, r.roots = roots;
    for (size_t i = 0; i < r.validators; i++)
        random_validator(&r.s, epoch, registry + 10 * i);
    if (r.validators > 1 && one_in(32)) /* totals that leave 64 bits */
        for (int i = 0; i < 2; i++) {
            const uint64_t v[10] = {UINT64_C(1) << 63,       0,          0, 0, ALTAIR_FAR_FUTURE_EPOCH,
                                    ALTAIR_FAR_FUTURE_EPOCH, below(100), 7, 7, 0};
            memcpy(registry + 10 * i, v, sizeof v);
        }
    r.queue = count_queue(registry, r.validators);
    if (one_in(24)) {
        r.queue.last_epoch += one_in(2) ? 0 : below(3) - 1;
        r.queue.number = one_in(2) ? odd_number() : r.queue.number + below(3) - 1;
    }
    r.roots_length = 32 * (r.s.slots_per_historical_root < 65537 ? r.s.slots_per_historical_root : 65537);
    r.slashings_length = r.s.epochs_per_slashings_vector < SLASHINGS ? r.s.epochs_per_slashings_vector : SLASHINGS;
    for (size_t i = 0; i < r.roots_length; i += 8) {
        const uint64_t n = random_number();
        memcpy(roots + i, &n, 8);
    }
    for (size_t i = 0; i < r.slashings_length; i++)
        slashings[i] = one_in(8) ? below(100) * 1000000000 : 0;
    if (one_in(48) && r.slashings_length > 1)
        slashings[0] = slashings[1] = odd_number();
    return r;
}

/* -- The file, written here so that the library's reading has another writer */

static uint8_t *put(uint8_t *at, uint64_t n) {
    for (int i = 0; i < 8; i++, n >>= 8)
        *at++ = (uint8_t)n;
    return at;
}

static uint8_t *put_all(uint8_t *at, const uint64_t *numbers, size_t count) {
    while (count-- > 0)
        at = put(at, *numbers++);
    return at;
}

uint64_t number_at(const uint8_t *bytes) {
    uint64_t n = 0;
    for (int i = 7; i >= 0; i--)
        n = n << 8 | bytes[i];
    return n;
}

static uint64_t validators_at(uint64_t version) { return version == 2 ? 384 : 368; }

size_t file_length(const record *r, uint64_t version) {
    return validators_at(version) + 80 * r->validators + r->roots_length + 8 * r->slashings_length;
}

void write_bytes(const record *r, uint64_t version, uint8_t *file) {
    const uint64_t first = validators_at(version), roots_at = first + 80 * r->validators;
    const uint64_t header[] = {
        version, file_length(r, version), r->validators, r->roots_length / 32, r->slashings_length, 80, 232, first,
        roots_at, roots_at + r->roots_length};
    uint64_t settings[19];
    memcpy(settings, &r->s, sizeof settings);
    file = put_all(put_all(file, header, 10), settings, 19);
    file = put(put(file, r->f.slot), r->f.justification_bits);
    const altair_checkpoint checkpoints[] = {r->f.previous_justified_checkpoint, r->f.current_justified_checkpoint,
                                             r->f.finalized_checkpoint};
    for (int i = 0; i < 3; i++) {
        file = put(file, checkpoints[i].epoch);
        memcpy(file, checkpoints[i].root, 32);
        file += 32;
    }
    if (version == 2)
        file = put(put(file, r->queue.last_epoch), r->queue.number);
    file = put_all(file, r->registry, 10 * r->validators);
    memcpy(file, r->roots, r->roots_length);
    put_all(file + r->roots_length, r->slashings, r->slashings_length);
}
