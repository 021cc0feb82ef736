/* One function, called with random numbers in exactly sized buffers, and held to its line of the table and to altair.h:
 * what it answers by the tests, which refusals it may answer, what a refused call leaves, that a call writes nothing
 * else, and that what stood in a buffer or an answer before does not show. */
#include "fuzz.h"

#include <ctype.h>
#include <inttypes.h>
#include <string.h>

enum { LARGEST = 4 * 1024 * 1024, ANSWER = 512 };
static bool zeros(const uint8_t *bytes, size_t length);

/* -- What a call is lent: slots from 0 for what is read, from WRITTEN for what is written, BOTH for both side by side */
enum { WRITTEN = READS, BOTH = READS + WRITES };

static uint8_t saved[SLOTS][LARGEST]; /* what each buffer holds before the call */

static size_t odd_length(size_t length) {
    static const int changes[] = {-10, -1, 1, 10};
    if (!one_in(40))
        return length;
    const int change = changes[below(4)];
    return change < 0 && length < (size_t)-change ? length + 1 : length + change;
}

/* A length as called for, or else this one; where that would be too long to lend, as wrong settings may call for it, a short one. */
static size_t long_enough(called_for length, size_t otherwise) {
    const size_t wanted = length.kind == ANY_LENGTH ? otherwise : length.length + (length.kind == LEAST_LENGTH ? below(3) : 0);
    return wanted > (LARGEST - 4096) / length.size ? below(100) : wanted;
}

/* A buffer with these contents, of another length now and then. */
static buffer with(int slot, const void *contents, size_t length, size_t size) {
    const size_t lent = odd_length(length), held = lent < length ? lent : length;
    const buffer b = lend(slot, lent, size);
    for (size_t i = held * size; i < lent * size; i++)
        ((uint8_t *)b.at)[i] = (uint8_t)random_number();
    if (held > 0)
        memcpy(b.at, contents, held * size);
    return b;
}

static buffer random_file(const record *r, int slot) {
    static uint8_t file[LARGEST];
    const uint64_t version = 1 + below(2);
    size_t length = file_length(r, version);
    write_bytes(r, version, file);
    if (one_in(12))
        file[below(80)] ^= (uint8_t)(1 + below(255));
    if (one_in(12))
        file[below(length)] ^= (uint8_t)(1 + below(255));
    if (one_in(24))
        length = below(400);
    return with(slot, file, length, 1);
}

/* Up to three files one behind another, the record's own and damaged ones, and their lengths. */
static size_t shelf_lengths[3], shelf_count;

static buffer random_shelf(const record *r, int slot) {
    static uint8_t files[LARGEST];
    size_t held = 0;
    shelf_count = one_in(12) ? 0 : 1 + below(3);
    for (size_t i = 0; i < shelf_count; i++) {
        const uint64_t version = one_in(8) ? 1 : 2;
        const size_t length = file_length(r, version);
        shelf_lengths[i] = one_in(12) ? below(100) : length;
        if (held + length > LARGEST / 2)
            shelf_lengths[i] = below(100);
        else
            write_bytes(r, version, files + held);
        if (one_in(6) && shelf_lengths[i] > 0)
            files[held + below(one_in(2) && shelf_lengths[i] > 400 ? 400 : shelf_lengths[i])] ^= (uint8_t)(1 + below(255));
        held += shelf_lengths[i];
    }
    return with(slot, files, held, 1);
}

static buffer random_lengths(int slot) {
    uint64_t lengths[3];
    for (size_t i = 0; i < shelf_count; i++)
        lengths[i] = one_in(40) ? odd_number() : shelf_lengths[i];
    return with(slot, lengths, shelf_count, 8);
}

/* A close about as far as its step's number says, with the record's finality and pair or nearly so, and orders in a list. */
static void random_running(const record *r, lent *c) {
    memset(&c->running, 0, sizeof c->running);
    c->running.done = one_in(12) ? odd_number() : below(10);
    c->running.answer.finality = r->f;
    if (one_in(6)) /* another epoch, by which the store is read */
        c->running.answer.finality.slot += below(65) - 32;
    if (one_in(24))
        c->running.answer.finality.justification_bits = odd_number();
    c->running.answer.queue = r->queue;
    c->running.answer.raised.active = below(2);
    c->running.answer.test = below(5);
    c->running.orders = one_in(24) ? odd_number() : below(4);
}

/* Entries with starts about the record's epoch, of its settings or nearly so, and room behind them now and then. */
static buffer random_store(const record *r, lent *c, int slot) {
    static uint64_t store[8 * ALTAIR_ENTRY_LENGTH];
    const uint64_t epoch = r->s.slots_per_epoch == 0 ? 0 : r->f.slot / r->s.slots_per_epoch;
    const size_t entries = one_in(12) ? 0 : 1 + below(3), room = entries + (one_in(2) ? below(3) : 0);
    uint64_t start = one_in(8) ? odd_number() : epoch - below(epoch < 9 ? epoch + 1 : 9);
    for (size_t i = 0; i < room; i++, start += one_in(16) ? 0 : 1 + below(4)) {
        altair_rules rules = c->rules;
        rules.settings = r->s;
        if (!one_in(12) && rules.fork > 1)
            rules.fork = below(2);
        if (one_in(3)) /* a setting that may change, and now and then one that may not */
            rules.settings.min_epochs_to_inactivity_penalty ^= 1;
        if (one_in(40))
            rules.settings.slots_per_epoch ^= 1;
        if (one_in(40))
            rules.settings.hysteresis_quotient = odd_number();
        altair_put_entry(store + ALTAIR_ENTRY_LENGTH * i, i >= entries ? random_number() : start, rules);
    }
    c->count = one_in(40) ? odd_number() : entries;
    c->by_store = true;
    return with(slot, store, ALTAIR_ENTRY_LENGTH * room, 8);
}

static buffer random_orders(const record *r, int slot) {
    uint64_t orders[2 * 4];
    for (size_t i = 0; i < 4; i++)
        orders[2 * i] = below(r->validators + 2), orders[2 * i + 1] = one_in(3) ? odd_number() : below(9);
    return with(slot, orders, 2 * (2 + below(3)), 8);
}

/* The registry of a record so far: the record's own, now and then with another validator, and the pair counted again where it was right. */
static buffer registry_so_far(const record *r, lent *c, int slot) {
    static uint64_t registry[10 * 400];
    const altair_queue right = count_queue(r->registry, r->validators);
    memcpy(registry, r->registry, 80 * r->validators);
    if (r->validators > 0 && one_in(3))
        random_validator(&r->s, 3, registry + 10 * below(r->validators));
    if (memcmp(&r->queue, &right, sizeof right) == 0)
        c->running.answer.queue = count_queue(registry, r->validators);
    return with(slot, registry, 10 * r->validators, 8);
}

static buffer random_deposits(const record *r, const lent *c, int slot) {
    static uint64_t deposits[8 * ALTAIR_DEPOSIT_LENGTH];
    const size_t count = below(9);
    for (size_t i = 0; i < count; i++) {
        uint64_t *d = deposits + ALTAIR_DEPOSIT_LENGTH * i;
        d[ALTAIR_DEPOSIT_PUBKEY] = one_in(60) ? odd_number() : below(r->validators + count);
        d[ALTAIR_DEPOSIT_COMPOUNDING] = one_in(60) ? odd_number() : below(2);
        d[ALTAIR_DEPOSIT_AMOUNT] = one_in(20) ? odd_number() : below(70) * 1000000000 + below(2);
        d[ALTAIR_DEPOSIT_SLOT] = one_in(60) || c->slot + 1 == 0 ? odd_number() : one_in(2) ? 0 : below(c->slot + 1);
        d[ALTAIR_DEPOSIT_VALID] = one_in(60) ? odd_number() : below(2);
    }
    return with(slot, deposits, ALTAIR_DEPOSIT_LENGTH * count, 8);
}

/* the validator with the largest balance, which may not fit more */
static uint64_t richest(const record *r) {
    size_t most = 0;
    for (size_t i = 1; i < r->validators; i++)
        most = r->registry[10 * i + ALTAIR_BALANCE] > r->registry[10 * most + ALTAIR_BALANCE] ? i : most;
    return most;
}

/* any numbers or bytes, as many as the table calls for, or any number of them */
static buffer any_buffer(called_for length, int slot) {
    const buffer b = lend(slot, odd_length(long_enough(length, below(65))), length.size);
    for (size_t i = 0; i < bytes_of(b) / 8; i++)
        ((uint64_t *)b.at)[i] = one_in(2) ? odd_number() : below(100);
    for (size_t i = bytes_of(b) / 8 * 8; i < bytes_of(b); i++)
        ((uint8_t *)b.at)[i] = (uint8_t)random_number();
    return b;
}

static buffer read_buffer(char letter, const record *r, lent *c, int slot) {
    static uint64_t marks[LARGEST / 80], any[64];
    uint64_t validator[10];
    buffer like;
    switch (letter) {
    case 'T':
        return random_store(r, c, slot);
    case 'O':
        return random_orders(r, slot);
    case 'H':
        return random_shelf(r, slot);
    case 'L':
        return random_lengths(slot);
    case 'R':
    case 'P':
        return with(slot, r->registry, 10 * r->validators, 8);
    case 'V':
        random_validator(&r->s, r->f.slot / (r->s.slots_per_epoch | 1), validator);
        return with(slot, validator, 10, 8);
    case 'S':
        return with(slot, r->slashings, r->slashings_length, 8);
    case 'B':
        return with(slot, r->roots, r->roots_length, 1);
    case 'F':
        return random_file(r, slot);
    case 'M':
        for (size_t i = 0; i < r->validators; i++)
            marks[i] = one_in(40) ? odd_number() : below(4);
        return with(slot, marks, r->validators, 8);
    case 'K':
        for (size_t i = 0; i < r->validators; i++)
            marks[i] = one_in(60) ? odd_number() : below(2);
        return with(slot, marks, r->validators, 8);
    case 'D':
        return random_deposits(r, c, slot);
    case 'E':
        for (size_t i = 0; i < 16; i++)
            any[i] = one_in(60) || r->validators == 0 ? odd_number() : i % 2 == 1 && one_in(3) ? richest(r) : below(r->validators);
        return with(slot, any, 2 * below(9), 8);
    case 'Q':
        like = with(slot, c->in[0].at, c->in[0].length, 8);
        for (size_t i = ALTAIR_BALANCE; i < like.length; i += 10)
            if (one_in(4))
                ((uint64_t *)like.at)[i] = odd_number();
        return like;
    }
    fail("no buffer has the letter %c", letter);
}

/* Whether what stands in a written buffer is read: it is changed in place. The first call of a close by steps does not read the record so
 * far. Other buffers hold poison before. */
static bool in_place(const row *row, const lent *c, char letter) {
    const bool begins = strchr(row->tests, 'j') != NULL && c->running.done == 0;
    return strchr("rvusaomx", letter) != NULL && !begins;
}

/* numbers that are any, as those that stand where amounts or answers are about to be put */
static uint64_t *any_numbers(size_t count) {
    static uint64_t numbers[ALTAIR_AMOUNTS_LENGTH * 400];
    for (size_t i = 0; i < count; i++)
        numbers[i] = below(100);
    return numbers;
}

static buffer written_buffer(size_t k, const row *row, const record *r, lent *c, int slot) {
    const char letter = written_letters(row)[k];
    uint64_t validator[10];
    buffer so_far;
    called_for lengths[READS + WRITES];
    row->lengths(c, lengths);
    const called_for length = lengths[strcspn(row->lends, ">") + k];
    switch (letter) {
    case 'r':
        return row->kind == RUNNING ? registry_so_far(r, c, slot) : with(slot, r->registry, 10 * r->validators, 8);
    case 'v':
        random_validator(&r->s, 3, validator);
        return with(slot, validator, 10, 8);
    case 'u':
        return random_store(r, c, slot);
    case 'x':
        return any_buffer(length, slot);
    case 's':
        so_far = with(slot, r->slashings, r->slashings_length, 8);
        if (so_far.length > 0)
            ((uint64_t *)so_far.at)[below(so_far.length)] = below(100) * 1000000000;
        return so_far;
    case 'a':
        return with(slot, any_numbers(ALTAIR_AMOUNTS_LENGTH * r->validators), ALTAIR_AMOUNTS_LENGTH * r->validators, 8);
    case 'o':
        return random_orders(r, slot);
    case 'm':
        return with(slot, any_numbers(c->in[1].length / 2), c->in[1].length / 2, 8);
    }
    const size_t held = letter == 'R' ? 10 * r->validators : r->slashings_length; /* by a file */
    return lend(slot, odd_length(long_enough(length, held)), length.size);
}

static void random_numbers(const record *r, lent *c) {
    const uint64_t epoch = c->slot / (r->s.slots_per_epoch | (r->s.slots_per_epoch == 0));
    c->epoch = one_in(6) ? odd_number() : epoch - below(epoch > 0 ? 2 : 1);
    c->number = one_in(2) ? odd_number() : c->slot - below(c->slot > 70 ? 70 : c->slot + 1);
    c->flag_index = one_in(8) ? odd_number() : below(3);
    c->index = one_in(8) ? odd_number() : below(r->validators + 1);
    c->flags = (uint8_t)random_number();
    random_running(r, c);
    c->rules = altair_under_bellatrix(r->s, (altair_bellatrix)ALTAIR_MAINNET_BELLATRIX);
    c->rules.fork = one_in(12) ? odd_number() : below(2);
    if (one_in(3))
        c->rules.bellatrix.inactivity_penalty_quotient_bellatrix = one_in(2) ? odd_number() : below(100);
    if (one_in(3))
        c->rules.bellatrix.proportional_slashing_multiplier_bellatrix = one_in(2) ? odd_number() : below(100);
    c->electra = (altair_electra_rules){r->s, one_in(4) ? c->rules.bellatrix : (altair_bellatrix)ALTAIR_MAINNET_BELLATRIX, ALTAIR_MAINNET_ELECTRA};
    altair_electra *e = &c->electra.electra;
    if (one_in(4))
        e->max_pending_deposits_per_epoch = one_in(4) ? odd_number() : below(5);
    if (one_in(4)) /* also the increment, and one below it */
        e->min_per_epoch_churn_limit_electra = one_in(4)   ? odd_number()
                                               : one_in(2) ? r->s.effective_balance_increment - below(2)
                                                           : below(200) * 1000000000;
    if (one_in(8))
        e->max_per_epoch_activation_exit_churn_limit = one_in(4) ? odd_number() : below(200) * 1000000000;
    if (one_in(8))
        *(one_in(2) ? &e->max_effective_balance_electra : &e->min_activation_balance) = odd_number();
    c->clock = (altair_clock)ALTAIR_MAINNET_CLOCK;
    if (one_in(2))
        c->clock.genesis_time = one_in(2) ? 0 : odd_number();
    if (one_in(2))
        c->clock.seconds_per_slot = odd_number();
    if (one_in(2))
        c->clock.slots_per_epoch = odd_number();
    for (int i = 0; i < 64; i++)
        c->any[i] = one_in(4) ? odd_number() : below(100);
    c->activation_churn = one_in(4) ? odd_number() : below(10);
    c->churn = (altair_exit_churn){c->any[0] * (one_in(2) ? 1000000000 : 1), c->any[1]};
    c->deposits = (altair_deposit_numbers){c->any[2] * (one_in(2) ? 1000000000 : 1), c->any[3], c->any[one_in(2) ? 3 : 4]};
    for (int i = 0; i < 3; i++)
        c->totals[i] = one_in(8) ? odd_number() : below(100) * 1000000000;
}

/* -- One call, held to its line of the table */

static void one_run(const row *row, const lent *c, uint8_t *answer, uint8_t before) {
    const size_t reads = strcspn(row->lends, ">"), writes = strlen(written_letters(row));
    memset(answer, before, ANSWER);
    for (size_t i = 0; i < reads; i++)
        protect((int)i, false);
    row->call(c, answer);
    calls++;
    for (size_t i = 0; i < reads; i++)
        protect((int)i, true);
    for (size_t i = 0; i < reads; i++)
        MUST(bytes_of(c->in[i]) == 0 || memcmp(c->in[i].at, saved[i], bytes_of(c->in[i])) == 0);
    for (size_t i = 0; i < reads; i++)
        MUST(kept_within((int)i));
    for (size_t k = 0; k < writes; k++)
        MUST(kept_within(WRITTEN + (int)k));
    for (size_t i = row->size; i < ANSWER; i++)
        MUST(answer[i] == before);
}

static bool zeros(const uint8_t *bytes, size_t length) {
    while (length-- > 0)
        if (*bytes++ != 0)
            return false;
    return true;
}

/* A close by steps that is refused: at the first call, or with 4 or 5, it is ended as the whole close is refused; else it is as it was. */
static void refused_running(const row *row, const lent *c, const altair_running_answer *a) {
    MUST(a->ended == 0);
    const bool in_turn = strchr(row->tests, 'j') != NULL && c->running.done < 8 && c->number == c->running.done + 1;
    if (!in_turn || !(c->running.done == 0 || a->refusal == 4 || a->refusal == 5)) {
        MUST(memcmp(&a->running, &c->running, sizeof a->running) == 0);
        return;
    }
    altair_running ended = {.done = 9, .answer = {a->refusal, c->f, c->queue, {0, 0, 0}, 0}};
    ended.orders = c->running.done == 0 ? 0 : c->running.orders;
    MUST(memcmp(&a->running, &ended, sizeof ended) == 0);
}

/* an answer beside a refusal's number: zeros, but for what hands back what was lent */
static void refused_answer(const row *row, const lent *c, const uint8_t *answer) {
    _Alignas(16) uint8_t wanted[ANSWER] = {0};
    altair_read_answer read;
    switch (row->kind) {
    case ITSELF:
        fail("it refuses nothing");
    case NUMBER:
        return;
    case VALUES:
        row->beside(c, wanted);
        MUST(memcmp(answer + 8, wanted + 8, row->size - 8) == 0);
        return;
    case RUNNING:
        refused_running(row, c, (const altair_running_answer *)(const void *)answer);
        return;
    case READ:
        memcpy(&read, answer, sizeof read);
        MUST(read.position == expected_position(c) && zeros(answer + 16, row->size - 16));
    }
}

/* of a buffer with as many bytes for every validator and deposit, those of the opening's validators */
static size_t of_validators(const row *row, const lent *c, size_t bytes) {
    const size_t validators = c->in[strcspn(row->lends, "RP")].length / 10, deposits = c->in[strcspn(row->lends, "D")].length / 5;
    return bytes == 0 ? 0 : bytes / (validators + deposits) * validators;
}

/* what a written buffer holds after a refusal: what stood in it, or after 4 and 5 the opening's numbers, and of amounts zeros */
static void refused_buffers(const row *row, const lent *c, uint64_t number) {
    const char *written = written_letters(row);
    for (size_t k = 0; k < strlen(written); k++) {
        const char letter = (char)toupper(written[k]);
        if ((letter == 'A' || letter == 'W') && (number == 4 || number == 5)) { /* zeros, and where there is room behind them what was there */
            const size_t all = bytes_of(c->out[k]), front = letter == 'A' ? all : of_validators(row, c, all);
            MUST(zeros(c->out[k].at, front));
            MUST(front == all || memcmp((const uint8_t *)c->out[k].at + front, saved[WRITTEN + k] + front, all - front) == 0);
            continue;
        }
        const bool late = row->opening[k] >= 0 && (number == 4 || number == 5);
        if (letter == 'Z') /* a list to work in */
            continue;
        /* at the front the opening's, and behind it, where a buffer has room, what it held */
        const size_t all = bytes_of(c->out[k]), front = late ? bytes_of(c->in[row->opening[k]]) : 0;
        MUST(front <= all);
        MUST(front == 0 || memcmp(c->out[k].at, c->in[row->opening[k]].at, front) == 0);
        MUST(front == all || memcmp((const uint8_t *)c->out[k].at + front, (const uint8_t *)saved[WRITTEN + k] + front, all - front) == 0);
    }
}

/* Two runs' bytes are the same; where a buffer may have room behind what is written, but for those that still hold the second run's poison. */
static bool same_but_untouched(const uint8_t *second, const uint8_t *first, size_t bytes, bool room) {
    for (size_t i = 0; i < bytes; i++)
        if (second[i] != first[i] && !(room && second[i] == 0x5a))
            return false;
    return true;
}

static void save(int slot, buffer b) {
    if (bytes_of(b) > 0)
        memcpy(saved[slot], b.at, bytes_of(b));
}

/* -- A checked call, lent what it must refuse with 1 and write nothing, or what it must take */

static void refuses(const row *row, lent c, buffer written) {
    _Alignas(16) uint8_t answer[ANSWER];
    uint64_t number;
    for (size_t k = 0; k < strlen(written_letters(row)); k++)
        save(WRITTEN + (int)k, c.out[k]);
    const buffer whole = c.out[0];
    c.out[0] = written;
    one_run(row, &c, answer, 0x5a);
    memcpy(&number, answer, 8);
    if (row->kind == RUNNING && c.running.done == 9) { /* ended: it says so before it looks at a buffer */
        MUST(number == 0 && ((const altair_running_answer *)(const void *)answer)->ended == 1);
        return;
    }
    MUST(number == 1);
    if (row->kind == READ) /* before anything is read */
        MUST(zeros(answer + 8, row->size - 8));
    else if (row->kind == RUNNING) /* the close as it was, also at the first call */
        MUST(zeros(answer + 8, 8) && memcmp(answer + 16, &c.running, sizeof c.running) == 0);
    else
        refused_answer(row, &c, answer);
    c.out[0] = whole;
    refused_buffers(row, &c, 1);
}

static void try_checked(const row *row, const lent *c, const uint8_t *accepted) {
    const buffer whole = c->out[0], other = c->in[below(strcspn(row->lends, ">"))];
    const size_t bytes = bytes_of(whole), places = bytes_of(other) / 8;
    if (places > 0) /* it begins within one that is read */
        refuses(row, *c, (buffer){(uint8_t *)other.at + 8 * below(places), whole.length, whole.size});
    if (places > 0 && bytes >= 8) /* it ends there */
        refuses(row, *c,
                (buffer){(uint8_t *)other.at + 8 * (1 + below(places)) - bytes / 8 * 8, whole.length, whole.size});
    refuses(row, *c, (buffer){NULL, whole.length, whole.size});
    refuses(row, *c, (buffer){whole.at, SIZE_MAX / whole.size - below(2), whole.size});
    if (whole.size == 8)
        refuses(row, *c, (buffer){(uint8_t *)whole.at + 1 + below(7), whole.length, 8});
    _Alignas(16) uint8_t answer[ANSWER];
    for (size_t i = 0; i < strcspn(row->lends, ">"); i++)
        if (c->in[i].length == 0 && bytes > 8) { /* an empty one is apart from all, wherever it points */
            lent within = *c;
            within.in[i].at = (uint8_t *)whole.at + 8;
            row->call(&within, answer);
            MUST(memcmp(answer, accepted, row->size) == 0);
        }
    if (strcmp(row->lends, "R>R") == 0) { /* side by side they are apart */
        lent beside = *c;
        beside.in[0].at = lend(BOTH, c->in[0].length + whole.length, 8).at;
        beside.out[0].at = (uint8_t *)beside.in[0].at + bytes_of(c->in[0]);
        if (bytes_of(c->in[0]) > 0)
            memcpy(beside.in[0].at, saved[0], bytes_of(c->in[0]));
        row->call(&beside, answer);
        MUST(memcmp(answer, accepted, row->size) == 0);
    }
}

/* why it is refused with 1 is said where it is, and nowhere else: from the arguments as they were before the call */
static void told_why(const row *row, const lent *c, uint64_t number) {
    const altair_fault fault = row->call(c, NULL);
    if (fault.argument != NULL && number != 1)
        fail("%s is said to be at fault, %s, and it answers %" PRIu64, fault.argument, fault.wanted, number);
    if (fault.argument == NULL && number == 1)
        fail("it is refused with 1, and nothing is said to be at fault");
    MUST((fault.argument == NULL) == (fault.wanted == NULL));
}

void try_row(size_t place, const record *r) {
    const row *row = &rows[place];
    const char *written = written_letters(row);
    const size_t reads = strcspn(row->lends, ">"), writes = strlen(written);
    lent c = {.s = r->s, .f = r->f, .queue = r->queue, .slot = r->f.slot, .finalized = r->f.finalized_checkpoint.epoch};
    calling = row->name;
    random_numbers(r, &c);
    if (strchr(row->tests, 'j') != NULL) /* mostly the step whose turn it is */
        c.number = one_in(12) ? odd_number() : c.running.done + 1;
    if (strchr(row->tests, 'y') != NULL) {
        c.running.done = one_in(4) ? c.running.done : 8;
        c.number = one_in(6) ? odd_number() : below(300);
    }
    called_for lengths[READS + WRITES];
    for (size_t i = 0; i < 2 * reads; i++) /* those of any numbers last, since others may say how long they must be */
        if ((row->lends[i % reads] == 'X') == (i >= reads)) {
            row->lengths(&c, lengths);
            c.in[i % reads] = i < reads ? read_buffer(row->lends[i], r, &c, (int)i) : any_buffer(lengths[i - reads], (int)(i - reads));
            save((int)(i % reads), c.in[i % reads]);
        }
    for (size_t k = 0; k < writes; k++) {
        c.out[k] = written_buffer(k, row, r, &c, WRITTEN + (int)k);
        if (bytes_of(c.out[k]) > 0 && !in_place(row, &c, written[k]))
            memset(c.out[k].at, 0xa5, bytes_of(c.out[k]));
        save(WRITTEN + (int)k, c.out[k]);
    }

    const uint64_t wanted = strchr(row->tests, '?') == NULL ? expected(row, &c) : 0;
    _Alignas(16) uint8_t answer[ANSWER], again[ANSWER];
    one_run(row, &c, answer, 0xa5);
    uint64_t number = 0;
    if (row->kind != ITSELF)
        memcpy(&number, answer, 8);
    const bool modelled = strchr(row->tests, '?') == NULL, named = number == 0 || (number < 32 && (row->refuses >> number & 1));
    const bool late = number == 0 || number == 4 || number == 5 || number == 7; /* what may follow the tests */
    if (!named || (modelled && (wanted != 0 ? number != wanted : !late)))
        fail("it answers %" PRIu64 ", and the tests %" PRIu64, number, wanted);
    if (row->kind != ITSELF)
        told_why(row, &c, number);
    seen[place][number]++;
    MUST(altair_refusal_text(number) != NULL);
    if (number != 0) {
        refused_answer(row, &c, answer);
        refused_buffers(row, &c, number);
    } else if (row->kind == RUNNING && c.running.done == 9) { /* ended: it says so, and nothing has changed */
        const altair_running_answer *a = (const altair_running_answer *)(const void *)answer;
        MUST(a->ended == 1 && memcmp(&a->running, &c.running, sizeof c.running) == 0);
        refused_buffers(row, &c, 1);
    }

    /* again, with other poison and in another place: the same answer, and the same numbers where they were written */
    static uint8_t left[WRITES][LARGEST];
    for (size_t k = 0; k < writes; k++) {
        if (bytes_of(c.out[k]) > 0)
            memcpy(left[k], c.out[k].at, bytes_of(c.out[k]));
        c.out[k] = lend(WRITTEN + (int)k, c.out[k].length, c.out[k].size);
        if (bytes_of(c.out[k]) > 0 && in_place(row, &c, written[k]))
            memcpy(c.out[k].at, saved[WRITTEN + k], bytes_of(c.out[k]));
        else if (bytes_of(c.out[k]) > 0)
            memset(c.out[k].at, 0x5a, bytes_of(c.out[k]));
        save(WRITTEN + (int)k, c.out[k]);
    }
    one_run(row, &c, again, 0x5a);
    MUST(memcmp(answer, again, row->size) == 0);
    if (number != 0)
        refused_buffers(row, &c, number);
    else
        for (size_t k = 0; k < writes; k++) /* a working list holds anything, and a refused file's part what it held before */
            MUST(bytes_of(c.out[k]) == 0 || strchr("CZ", written[k]) != NULL ||
                 same_but_untouched(c.out[k].at, left[k], bytes_of(c.out[k]), strchr("YW", written[k]) != NULL));
    if (strncmp(row->name, "altair_checked_", 15) == 0 && writes > 0 && bytes_of(c.out[0]) > 0)
        try_checked(row, &c, answer);
}
